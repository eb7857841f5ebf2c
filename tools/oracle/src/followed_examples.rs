//! Examples of request L3 with answers that were worked out by hand.

use crate::bundle::*;
use crate::followed::{answer_bytes, followed_answer, Followed};

pub struct Example {
    pub bytes: Vec<u8>,
    pub from: Name,
    pub to: Name,
    /// Places of the list that is lent.
    pub room: usize,
    pub answer: Result<Followed, Refusal>,
}

type List = Vec<Example>;
type Pair = (Name, Name);
/// Start, end, the names of the chain or none, and the count.
type Asked<'a> = (Name, Name, &'a [Name], usize);

/// Longer than every chain.
const ROOM: usize = 2_000;
/// A name that no edge has.
const ABSENT: Name = 40_000;

pub fn examples() -> List {
    let mut list = Vec::new();
    no_edges(&mut list);
    the_documents(&mut list);
    one_way(&mut list);
    edges_alike(&mut list);
    loops_and_circles(&mut list);
    order_of_names(&mut list);
    whole_lists_count(&mut list);
    three_levels(&mut list);
    other_parts(&mut list);
    ways_of_two_lengths(&mut list);
    kinds_and_definitions(&mut list);
    limits(&mut list);
    layers(&mut list);
    short_lists(&mut list);
    refused(&mut list);
    list
}

/// The first example that the second reading answers otherwise.
pub fn check() -> Result<usize, String> {
    let list = examples();
    for (place, example) in list.iter().enumerate() {
        let found = followed_answer(&example.bytes, example.from, example.to, example.room);
        if found != example.answer {
            let (found, due) = (answer_bytes(&found), answer_bytes(&example.answer));
            return Err(format!(
                "example {place}: {found:02X?} in place of {due:02X?}"
            ));
        }
    }
    Ok(list.len())
}

/// Edges in order of their numbers, of the four kinds in turn.
fn set(pairs: &[Pair]) -> Bundle {
    let edges = pairs.iter().zip((0..4).cycle());
    Bundle {
        edges: edges
            .map(|((from, to), kind)| Edge {
                from: *from,
                to: *to,
                kind,
            })
            .collect(),
        ..Bundle::default()
    }
}

fn asked_of(list: &mut List, bundle: &Bundle, asked: &[Asked]) {
    for (from, to, names, followed) in asked {
        list.push(Example {
            bytes: encode(bundle),
            from: *from,
            to: *to,
            room: ROOM,
            answer: Ok(Followed {
                names: names.to_vec(),
                followed: *followed,
            }),
        });
    }
}

fn asked(list: &mut List, pairs: &[Pair], asked: &[Asked]) {
    asked_of(list, &set(pairs), asked);
}

fn no_edges(list: &mut List) {
    let ends = [
        (5, 5, &[5][..], 0),
        (0, 0, &[0], 0),
        (65_535, 65_535, &[65_535], 0),
        (5, 6, &[], 1),
        (0, 65_535, &[], 1),
    ];
    asked(list, &[], &ends);
}

/// The marked examples of document 01.
fn the_documents(list: &mut List) {
    let first = [(1, 2), (1, 3), (3, 4), (2, 4)];
    let answers = [
        (1, 4, &[1, 2, 4][..], 2),
        (1, 2, &[1, 2], 1),
        (1, 3, &[1, 3], 1),
        (3, 4, &[3, 4], 1),
        (4, 1, &[], 1),
        (2, 3, &[], 2),
        (1, ABSENT, &[], 4),
        (ABSENT, 1, &[], 1),
        (4, 4, &[4], 0),
    ];
    asked(list, &first, &answers);
    let second = [(1, 3), (1, 2), (3, 4), (2, 4)];
    asked(list, &second, &[(1, 4, &[1, 3, 4], 2), (1, 2, &[1, 2], 1)]);
}

/// Lines of edges by rising and by falling numbers, and a star.
fn one_way(list: &mut List) {
    let rising = [(1, 2), (2, 3), (3, 4), (4, 5)];
    let falling = [(4, 5), (3, 4), (2, 3), (1, 2)];
    for pairs in [rising, falling] {
        let answers = [
            (1, 2, &[1, 2][..], 1),
            (1, 3, &[1, 2, 3], 2),
            (1, 5, &[1, 2, 3, 4, 5], 4),
            (3, 5, &[3, 4, 5], 2),
            (1, ABSENT, &[], 5),
            (3, 1, &[], 3),
            (5, 4, &[], 1),
        ];
        asked(list, &pairs, &answers);
    }
    let star = [(1, 2), (1, 3), (1, 4), (1, 5)];
    let answers = [
        (1, 2, &[1, 2][..], 1),
        (1, 5, &[1, 5], 1),
        (1, ABSENT, &[], 5),
        (2, 3, &[], 1),
        (2, 1, &[], 1),
    ];
    asked(list, &star, &answers);
}

/// Of two edges alike the first counts.
fn edges_alike(list: &mut List) {
    let doubled = [(1, 2), (1, 2), (2, 3), (2, 3)];
    let answers = [
        (1, 2, &[1, 2][..], 1),
        (1, 3, &[1, 2, 3], 2),
        (1, ABSENT, &[], 3),
    ];
    asked(list, &doubled, &answers);
    // 3 (by edge 0) before 2 (by edge 1), and again after it.
    let around = [(1, 3), (1, 2), (1, 3), (2, 4), (3, 5)];
    let answers = [
        (1, 4, &[1, 2, 4][..], 3),
        (1, 5, &[1, 3, 5], 2),
        (1, ABSENT, &[], 5),
    ];
    asked(list, &around, &answers);
}

fn loops_and_circles(list: &mut List) {
    asked(list, &[(1, 1)], &[(1, 1, &[1], 0), (1, 2, &[], 1)]);
    let looped = [(1, 1), (1, 2), (2, 2), (2, 3)];
    let answers = [
        (1, 1, &[1][..], 0),
        (1, 3, &[1, 2, 3], 2),
        (1, ABSENT, &[], 3),
        (3, 3, &[3], 0),
    ];
    asked(list, &looped, &answers);
    let circle = [(1, 2), (2, 3), (3, 1)];
    let answers = [
        (1, 1, &[1][..], 0),
        (1, 3, &[1, 2, 3], 2),
        (3, 2, &[3, 1, 2], 2),
        (2, ABSENT, &[], 3),
    ];
    asked(list, &circle, &answers);
}

/// From 1: 1, 4 (by edge 0), 2 (1), 3 (2), then 7 (0, 5), 6 (1, 4), 5 (2, 3). Names are
/// in the order of chains and not of their numbers.
fn order_of_names(list: &mut List) {
    let pairs = [(1, 4), (1, 2), (1, 3), (3, 5), (2, 6), (4, 7)];
    let answers = [
        (1, 4, &[1, 4][..], 1),
        (1, 3, &[1, 3], 1),
        (1, 7, &[1, 4, 7], 2),
        (1, 6, &[1, 2, 6], 3),
        (1, 5, &[1, 3, 5], 4),
        (1, ABSENT, &[], 7),
        (2, 6, &[2, 6], 1),
        (2, 5, &[], 2),
    ];
    asked(list, &pairs, &answers);
    // The same with other names, the ends of what there is among them.
    let map = |name: Name| [9, 0, 513, 256, 65_535, 7, 1, 2][name as usize];
    let renamed: Vec<Pair> = pairs.iter().map(|(f, t)| (map(*f), map(*t))).collect();
    for (from, to, names, followed) in answers.into_iter().filter(|asked| asked.1 != ABSENT) {
        let names: Vec<Name> = names.iter().map(|name| map(*name)).collect();
        asked(list, &renamed, &[(map(from), map(to), &names, followed)]);
    }
}

/// 4 has (2, 1) and 5 has (3, 0): the first edges decide, and not the last. 6 is led to by
/// 4 with edge 5 and by 5 with edge 4.
fn whole_lists_count(list: &mut List) {
    let pairs = [(3, 5), (2, 4), (1, 2), (1, 3), (5, 6), (4, 6), (5, 7)];
    let answers = [
        (1, 4, &[1, 2, 4][..], 2),
        (1, 5, &[1, 3, 5], 3),
        (1, 6, &[1, 2, 4, 6], 4),
        (1, 7, &[1, 3, 5, 7], 5),
        (3, 6, &[3, 5, 6], 2),
        (1, ABSENT, &[], 7),
    ];
    asked(list, &pairs, &answers);
}

/// From 1: 1; 2 (0), 3 (1), 4 (2); 7 (0, 5), 6 (1, 4), 5 (2, 3); 9 (0, 5, 7), 8 (2, 3, 6);
/// 10 (0, 5, 7, 9).
fn three_levels(list: &mut List) {
    let pairs = [
        (1, 2),
        (1, 3),
        (1, 4),
        (4, 5),
        (3, 6),
        (2, 7),
        (5, 8),
        (7, 9),
        (6, 9),
        (9, 10),
        (8, 10),
    ];
    let answers = [
        (1, 7, &[1, 2, 7][..], 2),
        (1, 6, &[1, 3, 6], 3),
        (1, 5, &[1, 4, 5], 4),
        (1, 9, &[1, 2, 7, 9], 5),
        (1, 8, &[1, 4, 5, 8], 7),
        (1, 10, &[1, 2, 7, 9, 10], 8),
        (1, ABSENT, &[], 10),
        (3, 10, &[3, 6, 9, 10], 3),
        (4, 9, &[], 4),
    ];
    asked(list, &pairs, &answers);
}

/// What leads to the start, and what stands apart, is not counted.
fn other_parts(list: &mut List) {
    let pairs = [(1, 2), (3, 4), (4, 1), (6, 7), (7, 6)];
    let answers = [
        (1, 4, &[][..], 2),
        (1, 6, &[], 2),
        (3, 2, &[3, 4, 1, 2], 3),
        (3, 7, &[], 4),
        (6, 7, &[6, 7], 1),
        (7, 1, &[], 2),
    ];
    asked(list, &pairs, &answers);
}

/// A shorter way by late edges comes before a longer one by early edges.
fn ways_of_two_lengths(list: &mut List) {
    let pairs = [(1, 2), (2, 3), (3, 4), (1, 5), (5, 4), (4, 6)];
    let answers = [
        (1, 4, &[1, 5, 4][..], 3),
        (1, 3, &[1, 2, 3], 2),
        // 3 (0, 1) before 4 (3, 4).
        (1, 6, &[1, 5, 4, 6], 5),
        (1, ABSENT, &[], 6),
    ];
    asked(list, &pairs, &answers);
}

/// Definitions and the current name are no edges.
fn kinds_and_definitions(list: &mut List) {
    let mut bundle = set(&[(1, 2), (2, 3)]);
    bundle.current = 3;
    for (name, body) in [(1, Type::TypeRef(4)), (4, Type::Primitive(0x30))] {
        bundle.definitions.push(Definition { name, body });
    }
    let answers = [
        (1, 3, &[1, 2, 3][..], 2),
        (1, 4, &[], 3),
        (4, 1, &[], 1),
        (3, 0, &[], 1),
    ];
    asked_of(list, &bundle, &answers);
}

fn limits(list: &mut List) {
    let last = EDGE_LIMIT as Name + 1;
    let line: Vec<Pair> = (1..last).map(|name| (name, name + 1)).collect();
    let turned: Vec<Pair> = line.iter().rev().copied().collect();
    let all: Vec<Name> = (1..=last).collect();
    for pairs in [line, turned] {
        let answers = [
            (1, 2, &all[..2], 1),
            (1, last, &all[..], 1_024),
            (1, last - 1, &all[..1_024], 1_023),
            (1, ABSENT, &[], 1_025),
            (last, 1, &[], 1),
        ];
        asked(list, &pairs, &answers);
    }
    let star: Vec<Pair> = (2..=last).map(|name| (1, name)).collect();
    let answers = [(1, last, &[1, last][..], 1), (1, ABSENT, &[], 1_025)];
    asked(list, &star, &answers);
    let alike = vec![(1, 2); EDGE_LIMIT];
    asked(list, &alike, &[(1, 2, &[1, 2], 1), (1, 3, &[], 2)]);
    let loops = vec![(1, 1); EDGE_LIMIT];
    asked(list, &loops, &[(1, 1, &[1], 0), (1, 2, &[], 1)]);
}

/// 1, then 31 names with an edge to each of 31 others, of which each has one to the last.
fn layers(list: &mut List) {
    let (first, second) = (2..33, 33..64);
    let mut pairs: Vec<Pair> = first.clone().map(|name| (1, name)).collect();
    for name in first {
        pairs.extend(second.clone().map(|next| (name, next)));
    }
    pairs.extend(second.map(|name| (name, 64)));
    let answers = [
        (1, 64, &[1, 2, 33, 64][..], 33),
        (1, 33, &[1, 2, 33], 2),
        (1, 63, &[1, 2, 63], 2),
        (1, 32, &[1, 32], 1),
        (32, 64, &[32, 33, 64], 2),
        (1, ABSENT, &[], 64),
    ];
    asked(list, &pairs, &answers);
}

/// Only a chain can be longer than the list.
fn short_lists(list: &mut List) {
    let bytes = encode(&set(&[(1, 2), (2, 3)]));
    let mut lent = |from, to, room, answer: Result<(&[Name], usize), Refusal>| {
        list.push(Example {
            bytes: bytes.clone(),
            from,
            to,
            room,
            answer: answer.map(|(names, followed)| Followed {
                names: names.to_vec(),
                followed,
            }),
        });
    };
    lent(1, 3, 3, Ok((&[1, 2, 3], 2)));
    lent(1, 3, 2, Err(9));
    lent(1, 3, 0, Err(9));
    lent(1, 2, 2, Ok((&[1, 2], 1)));
    lent(1, 2, 1, Err(9));
    lent(1, 1, 1, Ok((&[1], 0)));
    lent(1, 1, 0, Err(9));
    lent(9, 9, 0, Err(9));
    lent(1, 9, 0, Ok((&[], 3)));
    lent(3, 1, 0, Ok((&[], 1)));
}

/// Each refusal of the bundle comes before 9, and has no count.
fn refused(list: &mut List) {
    let sound = encode(&set(&[(1, 2), (2, 3)]));
    let with = |at: usize, byte: u8| {
        let mut bytes = sound.clone();
        bytes[at] = byte;
        bytes
    };
    let defined = |body: &[u8]| [&[0x60, 1, 0, 0, 0, 0, 0, 0x61, 1, 0], body].concat();
    let level = [0x44, 0, 0, 0, 0, 0, 0, 0, 0, 0, 0, 4, 1];
    let cases = [
        (vec![0x60; BYTE_LIMIT + 1], 1),
        (Vec::new(), 2),
        (sound[..sound.len() - 1].to_vec(), 2),
        (with(7, 0x61), 3),
        (with(12, 4), 4),
        (with(4, 8), 5),
        (defined(&[level.repeat(24), vec![0x30]].concat()), 6),
        ([&sound[..], &[0x62]].concat(), 7),
        (defined(&[0x40, 1, 0]), 8),
    ];
    for (bytes, refusal) in cases {
        for (to, room) in [(1, ROOM), (3, ROOM), (9, ROOM), (1, 0), (3, 0)] {
            list.push(Example {
                bytes: bytes.clone(),
                from: 1,
                to,
                room,
                answer: Err(refusal),
            });
        }
    }
}
