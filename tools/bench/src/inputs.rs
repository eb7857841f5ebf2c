//! The bundles that are measured.

use layout_oracle::bundle::*;
use layout_oracle::generate::pad;

pub const PLAIN: Attributes = Attributes {
    packed: false,
    aligned: 0,
};
pub const U8: Type = Type::Primitive(0x30);
pub const U16: Type = Type::Primitive(0x31);
pub const U64: Type = Type::Primitive(0x33);
const U32: Type = Type::Primitive(0x32);
const F32: Type = Type::Primitive(0x3A);
const CHAR: Type = Type::Primitive(0x38);
const ADD: u8 = 0x10;

pub fn literal(value: u64) -> Expr {
    Expr::Literal(4, value)
}

pub fn field_of(owner: Name, field: Name) -> Expr {
    Expr::FieldRef(vec![owner, field])
}

fn member(name: Name, member_type: Type) -> Member {
    Member {
        name,
        value: 0,
        member_type,
    }
}

pub fn structure(list: Vec<(Name, Type)>) -> Type {
    let members = list.into_iter().map(|(name, body)| member(name, body));
    Type::Struct(PLAIN, members.collect())
}

pub fn array(size: Expr, element: Type) -> Type {
    Type::Array(PLAIN, false, size, Box::new(element))
}

fn jagged(size: Expr, element: Type) -> Type {
    Type::Array(PLAIN, true, size, Box::new(element))
}

/// The example of the paper: a jagged array of three U8.
pub fn example() -> Bundle {
    Bundle {
        current: 0,
        definitions: vec![Definition {
            name: 1,
            body: jagged(literal(3), U8),
        }],
        edges: Vec::new(),
    }
}

/// Names of one device's definitions, and of the fields that all devices share.
struct Device {
    head: Name,
    record: Name,
    tension: Name,
    samples: Name,
    attachment: Name,
    attachments: Name,
    frame: Name,
}

const COUNT: Name = 1_001;
const KIND: Name = 1_002;
const NOTE: Name = 1_003;
const FIRST_FIELD: Name = 1_010;

const FRAMES: Name = 1_000;

const DEVICES: Name = 20;

fn device(number: Name) -> Device {
    let first = 7 * number + 1;
    Device {
        head: first,
        record: first + 1,
        tension: first + 2,
        samples: first + 3,
        attachment: first + 4,
        attachments: first + 5,
        frame: first + 6,
    }
}

/// 140 definitions and 600 edges: twenty winches of seven definitions. The first
/// `broken` of them have one violation each.
pub fn realistic(broken: Name) -> Bundle {
    winches(DEVICES, broken)
}

/// So many winches of seven definitions and thirty edges, eleven or more.
pub fn winches(devices: Name, broken: Name) -> Bundle {
    let mut bundle = Bundle {
        current: device(0).frame,
        ..Bundle::default()
    };
    for number in 0..devices {
        let own = device(number);
        let mut bodies = sound_bodies(&own);
        if number < broken {
            break_one(&own, number, &mut bodies);
        }
        for (name, body) in bodies {
            bundle.definitions.push(Definition { name, body });
        }
    }
    (0..devices).for_each(|number| add_edges(number, devices, &mut bundle.edges));
    bundle
}

/// The names of a winch that chains are asked for.
pub struct Searched {
    pub frame: Name,
    pub head: Name,
    pub tension: Name,
}

pub fn searched(number: Name) -> Searched {
    let own = device(number);
    Searched {
        frame: own.frame,
        head: own.head,
        tension: own.tension,
    }
}

fn sound_bodies(own: &Device) -> Vec<(Name, Type)> {
    let plain = |count: Name| (0..count).map(|at| (FIRST_FIELD + at, U32));
    let mut head: Vec<(Name, Type)> = plain(4).collect();
    head.push((COUNT, U16));
    let mut record: Vec<(Name, Type)> = plain(3).collect();
    record.push((KIND, U8));
    record.push((own.tension, Type::TypeRef(own.tension)));
    let note = array(field_of(own.attachment, COUNT), CHAR);
    let mut frame = vec![(COUNT, U16), (KIND, U8)];
    for part in [own.head, own.record, own.samples, own.attachments] {
        frame.push((part, Type::TypeRef(part)));
    }
    frame.extend(plain(2));
    let twice = Expr::Binary(
        0x12,
        Box::new(field_of(own.head, COUNT)),
        Box::new(literal(2)),
    );
    vec![
        (own.head, structure(head)),
        (own.record, structure(record)),
        (own.tension, tension(field_of(own.record, KIND))),
        (own.samples, array(twice, U16)),
        (own.attachment, structure(vec![(COUNT, U8), (NOTE, note)])),
        (
            own.attachments,
            jagged(field_of(own.head, COUNT), Type::TypeRef(own.attachment)),
        ),
        (own.frame, structure(frame)),
    ]
}

fn tension(tag: Expr) -> Type {
    let variant = |value: u64, member_type| Member {
        name: FIRST_FIELD + value as Name,
        value,
        member_type,
    };
    let variants = vec![
        variant(0, structure(Vec::new())),
        variant(1, U16),
        variant(2, F32),
    ];
    Type::Enum(PLAIN, tag, variants)
}

/// Puts one violation into a device, of another type for each of five numbers.
fn break_one(own: &Device, number: Name, bodies: &mut [(Name, Type)]) {
    let (place, body) = match number % 5 {
        0 => (3, array(field_of(own.frame, COUNT), U16)),
        1 => (5, jagged(field_of(own.head, COUNT), U8)),
        2 => (5, jagged(literal(4), Type::TypeRef(own.tension))),
        3 => (3, array(literal(8), Type::TypeRef(own.attachment))),
        _ => (2, tension(field_of(own.frame, KIND))),
    };
    // The tag of the last is no longer a field of the record that holds it.
    bodies[place].1 = body;
}

fn add_edges(number: Name, devices: Name, edges: &mut Vec<Edge>) {
    let own = device(number);
    let mut edge = |from, to, kind| edges.push(Edge { from, to, kind });
    edge(own.frame, own.head, 0);
    edge(own.frame, own.record, 0);
    edge(own.frame, own.samples, 0);
    edge(own.frame, own.attachments, 0);
    edge(own.record, own.tension, 0);
    edge(own.tension, own.record, 3);
    edge(own.samples, own.head, 2);
    edge(own.attachments, own.head, 2);
    edge(own.attachments, own.attachment, 0);
    edge(own.attachment, own.attachment, 1);
    for step in 0..10 {
        let other = device((number + step + 1) % devices);
        edge(own.frame, other.head, 1);
        edge(own.frame, other.attachment, 1);
    }
}

/// 81 definitions that never vary: twenty frames of one winch each, and a record of all
/// frames, which comes first.
pub fn fixed_frames(_: usize) -> Bundle {
    let plain = |count: Name| (0..count).map(|at| (FIRST_FIELD + at, U32));
    let mut bundle = Bundle::default();
    let to = |name| (name, Type::TypeRef(name));
    let frames = (0..DEVICES).map(|number| to(device(number).frame));
    let mut definitions = vec![(FRAMES, structure(frames.collect()))];
    for number in 0..DEVICES {
        let own = device(number);
        let mut head: Vec<(Name, Type)> = plain(4).collect();
        head.push((COUNT, U16));
        let mut record: Vec<(Name, Type)> = plain(3).collect();
        record.extend([(KIND, U8), (own.tension, F32)]);
        let mut frame = vec![(COUNT, U16), (KIND, U8)];
        frame.extend([to(own.head), to(own.record), to(own.samples)]);
        frame.extend([(NOTE, array(literal(24), CHAR))]);
        definitions.push((own.head, structure(head)));
        definitions.push((own.record, structure(record)));
        definitions.push((own.samples, array(literal(16), U16)));
        definitions.push((own.frame, structure(frame)));
    }
    for (name, body) in definitions {
        bundle.definitions.push(Definition { name, body });
    }
    bundle
}

/// A worst case of about this many bytes, exactly so for the largest.
pub type Worst = fn(usize) -> Bundle;

pub fn size(bundle: &Bundle) -> usize {
    encode(bundle).len()
}

/// Adds definitions as long as they fit and 256 are not reached.
fn fill(bundle: &mut Bundle, bytes: usize, next: &dyn Fn(Name) -> Definition) {
    // The last definition is one that fills the rest.
    let mut length = size(bundle) + 14;
    for number in 0.. {
        let definition = next(number);
        let one = Bundle {
            definitions: vec![definition.clone()],
            ..Bundle::default()
        };
        length += size(&one) - 7;
        if length > bytes || bundle.definitions.len() + 1 >= DEFINITION_LIMIT {
            break;
        }
        bundle.definitions.push(definition);
    }
    bundle.definitions.push(Definition {
        name: 60_000,
        body: U8,
    });
    pad(bundle, bytes);
}

/// Arrays in arrays, down to depth 24, none of a size that hangs on a field.
pub fn deep_nesting(bytes: usize) -> Bundle {
    let mut bundle = Bundle::default();
    fill(&mut bundle, bytes, &|number| Definition {
        name: number + 1,
        body: (0..23).fold(U8, |inner, _| array(literal(3), inner)),
    });
    bundle
}

/// Structs of which each holds the one before twice, under arrays of structs
/// with many TypeRefs to the last of them.
fn shared(bytes: usize, levels: Name) -> Bundle {
    let mut bundle = Bundle::default();
    for level in 0..levels {
        let body = match level {
            0 => U8,
            _ => structure(vec![(1, Type::TypeRef(level)), (2, Type::TypeRef(level))]),
        };
        let name = level + 1;
        bundle.definitions.push(Definition { name, body });
    }
    fill(&mut bundle, bytes, &|number| {
        let wide = (0..80).map(|field| (field + 1, Type::TypeRef(levels)));
        Definition {
            name: 1_000 + number,
            body: array(literal(3), structure(wide.collect())),
        }
    });
    bundle
}

/// As much sharing as the original can finish.
pub fn shared_some(bytes: usize) -> Bundle {
    shared(bytes, 12)
}

/// More sharing than the original could finish in a lifetime.
pub fn shared_much(bytes: usize) -> Bundle {
    shared(bytes, 150)
}

/// A line of edges in proportion to the bytes: 1,024 in the largest.
fn line(bytes: usize) -> Bundle {
    let count = (bytes * EDGE_LIMIT / BYTE_LIMIT) as Name;
    let edge = |from| Edge {
        from,
        to: from + 1,
        kind: 0,
    };
    Bundle {
        edges: (1..=count).map(edge).collect(),
        ..Bundle::default()
    }
}

/// A sum of references to fields; `start` gives the name that each leads to.
fn sum(count: usize, first: usize, start: &dyn Fn(usize) -> Name) -> Expr {
    if count == 1 {
        return field_of(start(first), COUNT);
    }
    let half = count / 2;
    let left = Box::new(sum(half, first, start));
    let right = Box::new(sum(count - half, first + half, start));
    Expr::Binary(ADD, left, right)
}

/// One of the first names of the line.
fn early(number: usize) -> Name {
    1 + (number % 16) as Name
}

/// Adds arrays of this name, with sums of references, up to so many bytes.
fn add_sums(bundle: &mut Bundle, bytes: usize, name: Name, start: &dyn Fn(usize) -> Name) {
    fill(bundle, bytes, &|_| Definition {
        name,
        body: array(sum(128, 0, start), U8),
    });
}

/// Arrays under the name at the end of the line: every search finds a chain of
/// nearly all names.
pub fn long_chains(bytes: usize) -> Bundle {
    let last = (bytes * EDGE_LIMIT / BYTE_LIMIT) as Name + 1;
    let mut bundle = line(bytes);
    add_sums(&mut bundle, bytes, last, &early);
    bundle
}

/// A name that has an edge, but that no edge leads to.
const UNREACHED: Name = 50_000;

fn add_unreached(bundle: &mut Bundle) {
    *bundle.edges.last_mut().expect("a line has edges") = Edge {
        from: UNREACHED,
        to: UNREACHED + 1,
        kind: 0,
    };
}

/// Arrays under a name that no edge leads to: every search would go through the
/// whole line and fail.
pub fn failing_searches(bytes: usize) -> Bundle {
    let mut bundle = line(bytes);
    add_unreached(&mut bundle);
    add_sums(&mut bundle, bytes, UNREACHED, &early);
    bundle
}

/// The same over two lines, from one and the other in turn: what one search has
/// gone through says nothing of the next, where searches go forwards.
pub fn failing_in_turn(bytes: usize) -> Bundle {
    const APART: Name = 20_000;
    let mut bundle = line(bytes);
    let half = bundle.edges.len() / 2;
    for edge in &mut bundle.edges[half..] {
        edge.from += APART;
        edge.to += APART;
    }
    add_unreached(&mut bundle);
    let second = APART + half as Name;
    let start = |number: usize| early(number / 2) + (number % 2) as Name * second;
    add_sums(&mut bundle, bytes, UNREACHED, &start);
    bundle
}
