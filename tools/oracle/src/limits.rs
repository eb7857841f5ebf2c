//! Hand-made cases: limits, every refusal, faults in pairs, marked examples.

use crate::bundle::*;
use crate::cases::Case;
use crate::compare::expected;
use crate::generate::pad;

const PLAIN: Attributes = Attributes {
    packed: false,
    aligned: 0,
};
const BYTE: Type = Type::Primitive(0x30);

/// All cases in order, each with the answer due.
pub fn edge_cases() -> Vec<Case> {
    let mut list = Vec::new();
    depth_cases(&mut list);
    last_level_cases(&mut list);
    count_cases(&mut list);
    length_cases(&mut list);
    truncation_cases(&mut list);
    kind_cases(&mut list);
    range_cases(&mut list);
    cycle_cases(&mut list);
    order_cases(&mut list);
    size_test_cases(&mut list);
    chain_cases(&mut list);
    enum_cases(&mut list);
    struct_cases(&mut list);
    report_length_cases(&mut list);
    sharing_cases(&mut list);
    list.into_iter().map(case).collect()
}

fn case(bundle: Vec<u8>) -> Case {
    let answer = expected(&bundle).0;
    Case { bundle, answer }
}

fn literal() -> Expr {
    Expr::Literal(4, 3)
}

fn reference(path: &[Name]) -> Expr {
    Expr::FieldRef(path.to_vec())
}

fn member(name: Name, member_type: Type) -> Member {
    Member {
        name,
        value: 0,
        member_type,
    }
}

fn structure(list: Vec<Member>) -> Type {
    Type::Struct(PLAIN, list)
}

fn array(size: Expr, element: Type) -> Type {
    Type::Array(PLAIN, false, size, Box::new(element))
}

fn jagged(size: Expr, element: Type) -> Type {
    Type::Array(PLAIN, true, size, Box::new(element))
}

fn enumeration(tag: Expr, types: Vec<Type>) -> Type {
    let list = types.into_iter().map(|t| member(9, t)).collect();
    Type::Enum(PLAIN, tag, list)
}

fn tree(definitions: Vec<(Name, Type)>, edges: &[(Name, Name)]) -> Bundle {
    let list = definitions.into_iter();
    Bundle {
        current: 0,
        definitions: list.map(|(name, body)| Definition { name, body }).collect(),
        edges: edges
            .iter()
            .map(|(from, to)| Edge {
                from: *from,
                to: *to,
                kind: 0,
            })
            .collect(),
    }
}

fn bytes(definitions: Vec<(Name, Type)>) -> Vec<u8> {
    encode(&tree(definitions, &[]))
}

fn header(definitions: u16, edges: u16) -> Vec<u8> {
    let [a, b] = definitions.to_le_bytes();
    let [c, d] = edges.to_le_bytes();
    vec![0x60, a, b, c, d, 0, 0]
}

/// Wraps a type `times` times.
fn nested(times: usize, innermost: Type, wrap: &dyn Fn(Type) -> Type) -> Type {
    (0..times).fold(innermost, |inner, _| wrap(inner))
}

fn in_struct(inner: Type) -> Type {
    structure(vec![member(2, inner)])
}

/// Innermost nodes at depths 24 and 25, for each way to go deeper.
fn depth_cases(list: &mut Vec<Vec<u8>>) {
    let wraps: [&dyn Fn(Type) -> Type; 5] = [
        &in_struct,
        &|inner| Type::Union(PLAIN, vec![member(2, inner)]),
        &|inner| Type::SizeUnion(PLAIN, vec![member(2, inner)]),
        &|inner| enumeration(literal(), vec![inner]),
        &|inner| array(literal(), inner),
    ];
    for times in [23, 24] {
        for wrap in wraps {
            list.push(bytes(vec![(1, nested(times, BYTE, wrap))]));
        }
        let not = |inner| Expr::Unary(0x26, Box::new(inner));
        let size = (0..times - 1).fold(literal(), |inner, _| not(inner));
        list.push(bytes(vec![(1, array(size, BYTE))]));
        let left = |inner| Expr::Binary(0x10, Box::new(inner), Box::new(literal()));
        let size = (0..times - 1).fold(reference(&[2]), |inner, _| left(inner));
        list.push(bytes(vec![(1, array(size, BYTE))]));
        let right = |inner| Expr::Binary(0x23, Box::new(literal()), Box::new(inner));
        let tag = (0..times - 1).fold(reference(&[2]), |inner, _| right(inner));
        list.push(bytes(vec![(1, enumeration(tag, vec![BYTE]))]));
    }
}

/// What may stand at depth 24, and which fault counts there.
fn last_level_cases(list: &mut Vec<Vec<u8>>) {
    let at_last = |body: Type| bytes(vec![(1, nested(23, body, &in_struct))]);
    list.push(at_last(structure(Vec::new())));
    list.push(at_last(Type::Union(PLAIN, Vec::new())));
    list.push(at_last(Type::SizeUnion(PLAIN, Vec::new())));
    list.push(at_last(Type::TypeRef(7)));
    list.push(at_last(enumeration(literal(), Vec::new())));
    list.push(at_last(array(literal(), BYTE)));
    let full = at_last(in_struct(BYTE));
    let kind = full.len() - 4;
    // Member and type there, then the type missing, the name cut, the kind
    // missing, another kind, and a kind that no type has.
    for length in [full.len(), kind + 3, kind + 2, kind + 1, kind] {
        list.push(full[..length].to_vec());
    }
    list.push(changed(&full, kind, 0x51));
    list.push(changed(&full, kind + 3, 0xFF));
    let cut = at_last(enumeration(literal(), Vec::new()));
    list.push(cut[..cut.len() - 2].to_vec());
    list.push(changed(&cut, cut.len() - 13, 2));
}

fn changed(bytes: &[u8], at: usize, value: u8) -> Vec<u8> {
    let mut result = bytes.to_vec();
    result[at] = value;
    result
}

fn count_cases(list: &mut Vec<Vec<u8>>) {
    for count in [256, 257] {
        list.push(bytes((0..count).map(|name| (name, BYTE)).collect()));
        list.push(bytes(vec![(1, BYTE); count as usize]));
    }
    for count in [1_024, 1_025] {
        let path_edges: Vec<(Name, Name)> = (0..count).map(|name| (name, name + 1)).collect();
        list.push(encode(&tree(
            vec![(1_024, array(reference(&[0, 1]), BYTE))],
            &path_edges,
        )));
    }
    let edges = vec![(1, 2); 1_024];
    let both = tree((0..256).map(|name| (name, BYTE)).collect(), &edges);
    list.push(encode(&both));
    for (definitions, edges) in [(257, 0), (0, 1_025), (65_535, 65_535), (256, 1_024), (0, 0)] {
        list.push(header(definitions, edges));
    }
}

fn padded(target: usize) -> Vec<u8> {
    let jagged_array = (1, jagged(literal(), BYTE));
    let mut bundle = tree(vec![jagged_array, (2, BYTE)], &[(1, 2)]);
    pad(&mut bundle, target);
    encode(&bundle)
}

fn length_cases(list: &mut Vec<Vec<u8>>) {
    for target in [32_767, 32_768, 32_769, 32_770] {
        list.push(padded(target));
    }
    list.push(padded(32_769)[..32_768].to_vec());
    let mut longer = padded(32_767);
    longer.push(0);
    list.push(longer.clone());
    longer.push(0);
    list.push(longer);
    list.push(vec![0; 32_768]);
    list.push(vec![0; 32_769]);
    list.push(vec![0x60; 65_536]);
}

fn sample() -> Vec<u8> {
    let body = structure(vec![
        member(3, enumeration(reference(&[1, 3]), vec![BYTE])),
        member(4, array(literal(), Type::TypeRef(5))),
    ]);
    encode(&tree(vec![(1, body)], &[(1, 2)]))
}

/// Every truncation of one bundle, the empty one first.
fn truncation_cases(list: &mut Vec<Vec<u8>>) {
    let whole = sample();
    for length in 0..=whole.len() {
        list.push(whole[..length].to_vec());
    }
    let mut longer = whole;
    longer.push(0x62);
    list.push(longer.clone());
    longer.extend([0; 5]);
    list.push(longer);
}

/// Every kind byte as a header, a definition, a type, an expression, a member.
fn kind_cases(list: &mut Vec<Vec<u8>>) {
    let array_bytes = bytes(vec![(1, array(literal(), BYTE))]);
    let struct_bytes = bytes(vec![(1, in_struct(BYTE))]);
    let edge_bytes = encode(&tree(Vec::new(), &[(1, 2)]));
    for kind in 0..=255 {
        list.push(changed(&array_bytes, 21, kind));
        list.push(changed(&array_bytes, 10, kind));
        if kind == 0 || (0x4F..0x64).contains(&kind) || kind == 0x30 {
            list.push(changed(&array_bytes, 0, kind));
            list.push(changed(&array_bytes, 7, kind));
            list.push(changed(&struct_bytes, 22, kind));
            list.push(changed(&edge_bytes, 7, kind));
        }
    }
}

fn range_cases(list: &mut Vec<Vec<u8>>) {
    let groups = [
        structure(Vec::new()),
        Type::Union(PLAIN, Vec::new()),
        enumeration(literal(), Vec::new()),
        Type::SizeUnion(PLAIN, Vec::new()),
        array(literal(), BYTE),
    ];
    for group in groups {
        let whole = bytes(vec![(1, group)]);
        for value in [1, 2, 255] {
            list.push(changed(&whole, 11, value));
        }
    }
    let whole = bytes(vec![(1, array(literal(), BYTE))]);
    let edge = encode(&tree(Vec::new(), &[(1, 2)]));
    for value in [1, 2, 255] {
        list.push(changed(&whole, 20, value));
    }
    for value in [3, 4, 255] {
        list.push(changed(&edge, edge.len() - 1, value));
    }
}

fn cycle_cases(list: &mut Vec<Vec<u8>>) {
    let to = Type::TypeRef;
    list.push(bytes(vec![(1, to(1))]));
    list.push(bytes(vec![(0, to(0))]));
    list.push(bytes(vec![(1, to(2)), (2, to(1))]));
    list.push(bytes(vec![(1, to(2)), (2, to(3)), (3, to(2))]));
    list.push(bytes(vec![(1, in_struct(to(1)))]));
    list.push(bytes(vec![(
        1,
        Type::SizeUnion(PLAIN, vec![member(2, to(1))]),
    )]));
    list.push(bytes(vec![(1, Type::Union(PLAIN, vec![member(2, to(1))]))]));
    list.push(bytes(vec![(1, enumeration(literal(), vec![to(1)]))]));
    list.push(bytes(vec![(1, array(literal(), to(1)))]));
    // None of these is a cycle: later definitions are never led to, and
    // Sizeof, Alignof and FieldRef do not lead.
    list.push(bytes(vec![(1, BYTE), (1, to(1))]));
    list.push(bytes(vec![(1, to(2)), (2, BYTE), (2, to(1))]));
    list.push(bytes(vec![(1, array(Expr::Sizeof(1), BYTE))]));
    list.push(bytes(vec![(1, array(Expr::Alignof(1), BYTE))]));
    list.push(bytes(vec![(1, enumeration(reference(&[1]), vec![BYTE]))]));
    list.push(bytes(vec![(1, to(3)), (2, to(3))]));
    list.push(bytes(vec![(1, BYTE), (1, to(2)), (2, to(2))]));
}

/// Two faults at once, to show which one counts.
fn order_cases(list: &mut Vec<Vec<u8>>) {
    let cycle = bytes(vec![(1, Type::TypeRef(1))]);
    let mut trailing = cycle.clone();
    trailing.push(0);
    list.push(trailing);
    list.push(cycle[..cycle.len() - 1].to_vec());
    let edged = encode(&tree(vec![(1, Type::TypeRef(1))], &[(1, 2)]));
    list.push(changed(&edged, edged.len() - 1, 4));
    list.push(changed(&edged, edged.len() - 6, 0x61));
    let mut both = changed(&edged, edged.len() - 1, 4);
    both.push(0);
    list.push(both);
    // A count over its limit: before what follows, after a whole body.
    for tail in [&[][..], &[0xFF], &[0x61, 1, 0, 0x41, 2]] {
        let mut over_limit = header(257, 1_025);
        over_limit.extend(tail);
        list.push(over_limit);
    }
    list.push(header(257, 0)[..6].to_vec());
    list.push(changed(&header(257, 0), 0, 0x61));
    // A flag off its scale: after the whole body, before what follows.
    let group = changed(&bytes(vec![(1, in_struct(BYTE))]), 11, 2);
    for length in [12, 20, 21, 22, 23] {
        list.push(group[..length].to_vec());
    }
    list.push(changed(&group, 22, 0xFF));
    let flags = changed(&bytes(vec![(1, array(literal(), BYTE))]), 20, 2);
    for length in [20, 21] {
        list.push(flags[..length].to_vec());
    }
    list.push(changed(&flags, 21, 0xFF));
    // A stranger before a later flag off its scale, and the other way round.
    let two = bytes(vec![(1, in_struct(BYTE)), (2, in_struct(BYTE))]);
    list.push(changed(&changed(&two, 25, 0xFF), 30, 2));
    list.push(changed(&changed(&two, 11, 2), 26, 0xFF));
}

/// An array over a named type and over the same type inline.
fn size_test_cases(list: &mut Vec<Vec<u8>>) {
    let inner = array(reference(&[8, 9]), BYTE);
    let types = [
        enumeration(reference(&[8, 9]), Vec::new()),
        enumeration(literal(), Vec::new()),
        enumeration(reference(&[8, 9]), vec![BYTE, Type::Primitive(0x34)]),
        enumeration(reference(&[8, 9]), vec![BYTE]),
        enumeration(reference(&[8, 9]), vec![BYTE, Type::Primitive(0x31)]),
        enumeration(literal(), vec![inner.clone()]),
        array(literal(), inner.clone()),
        inner.clone(),
        in_struct(inner.clone()),
        Type::SizeUnion(PLAIN, Vec::new()),
        structure(Vec::new()),
        Type::TypeRef(3),
        in_struct(jagged(literal(), BYTE)),
        BYTE,
    ];
    for body in types {
        for outer in [array, jagged] {
            let named = outer(literal(), Type::TypeRef(1));
            let extra = (3, inner.clone());
            list.push(bytes(vec![(1, body.clone()), (2, named), extra.clone()]));
            list.push(bytes(vec![(2, outer(literal(), body.clone())), extra]));
        }
    }
    list.push(bytes(vec![(1, jagged(literal(), BYTE))]));
    list.push(bytes(vec![(1, jagged(literal(), Type::TypeRef(2)))]));
}

fn chain_cases(list: &mut Vec<Vec<u8>>) {
    let sized = |path: &[Name]| array(reference(path), BYTE);
    let first = [(1, 2), (1, 3), (3, 4), (2, 4)];
    let second = [(1, 3), (1, 2), (3, 4), (2, 4)];
    list.push(bytes(vec![(5, sized(&[5, 1]))]));
    list.push(encode(&tree(vec![(4, sized(&[1, 9]))], &first)));
    list.push(encode(&tree(vec![(4, sized(&[1, 9]))], &second)));
    list.push(encode(&tree(vec![(1, sized(&[4, 9]))], &first)));
    list.push(encode(&tree(vec![(4, sized(&[1, 9, 8, 7]))], &first)));
    // A longer path with lower edge numbers loses to a shorter one.
    let longer = [(1, 2), (2, 3), (3, 4), (1, 5), (5, 4)];
    list.push(encode(&tree(vec![(4, sized(&[1, 9]))], &longer)));
    // One name: the bundle's own name, here unset and set.
    let mut bundle = tree(vec![(4, sized(&[1]))], &[(0, 4), (1, 4)]);
    list.push(encode(&bundle));
    bundle.current = 1;
    list.push(encode(&bundle));
    bundle.current = 4;
    list.push(encode(&bundle));
    let rings = [(1, 1), (1, 2), (2, 1), (2, 2), (2, 4), (4, 1)];
    list.push(encode(&tree(vec![(4, sized(&[1, 9]))], &rings)));
}

fn enum_cases(list: &mut Vec<Vec<u8>>) {
    let tagged = |types: Vec<Type>| (1, enumeration(reference(&[2, 9]), types));
    let mixed = || vec![BYTE, Type::Primitive(0x31)];
    let even = || vec![BYTE, Type::Primitive(0x34)];
    let holds = |name: Name| member(name, Type::TypeRef(1));
    let plain = |name: Name| member(name, BYTE);
    let edge = [(2, 1)];
    let orders = [
        vec![holds(8), plain(9)],
        vec![plain(9), holds(8)],
        // The last field of each kind decides.
        vec![holds(8), plain(9), holds(7)],
        vec![plain(9), holds(8), plain(9)],
        vec![holds(9)],
        vec![holds(8), plain(7)],
    ];
    for fields in orders {
        for types in [mixed(), even(), vec![BYTE], Vec::new()] {
            let set = vec![tagged(types), (2, structure(fields.clone()))];
            list.push(encode(&tree(set, &edge)));
        }
    }
    // A later struct of that name ends the check; the first is no struct.
    let later = (2, structure(vec![holds(8), plain(9)]));
    list.push(encode(&tree(
        vec![tagged(mixed()), (2, BYTE), later],
        &edge,
    )));
    // The first definition of the enum's name is something else.
    list.push(encode(&tree(vec![(1, BYTE), tagged(mixed())], &edge)));
    let variable = (1, Type::SizeUnion(PLAIN, Vec::new()));
    list.push(encode(&tree(vec![variable, tagged(even())], &edge)));
    let forward = (2, structure(vec![holds(8), plain(9)]));
    list.push(encode(&tree(
        vec![(1, BYTE), tagged(even()), forward],
        &edge,
    )));
}

fn struct_cases(list: &mut Vec<Vec<u8>>) {
    let sized = |path: &[Name]| (1, array(reference(path), BYTE));
    let holds = member(8, Type::TypeRef(1));
    let orders = [
        vec![holds.clone(), member(9, BYTE)],
        vec![member(9, BYTE), holds.clone()],
        // The first field of that name decides.
        vec![member(9, BYTE), holds.clone(), member(9, BYTE)],
        vec![holds.clone(), holds.clone(), member(9, BYTE)],
    ];
    for fields in orders {
        for path in [&[2, 9][..], &[9], &[2, 9, 9], &[3, 9]] {
            let mut bundle = tree(vec![sized(path), (2, structure(fields.clone()))], &[]);
            bundle.current = 2;
            list.push(encode(&bundle));
        }
    }
    // Places in the checked struct against those in the first of its name.
    let short = structure(vec![member(9, BYTE)]);
    let long = structure(vec![member(7, BYTE), holds.clone(), member(9, BYTE)]);
    list.push(bytes(vec![
        sized(&[2, 9]),
        (2, short.clone()),
        (2, long.clone()),
    ]));
    list.push(bytes(vec![
        sized(&[2, 9]),
        (2, long),
        (2, structure(vec![holds])),
    ]));
}

/// One array whose report has exactly this many bytes: `count` references to
/// names on a row of edges, so that the chains add up.
fn report_of(length: usize, count: usize) -> Bundle {
    let names = (length - 3 - 16 * count) / 3;
    let (short, longer) = (names / count, names % count);
    let last = short as Name + 1;
    let path = |place: usize| {
        let start = if place < longer { 1 } else { 2 };
        reference(&[start, 9])
    };
    let mut row: Vec<Expr> = (0..count).map(path).collect();
    while row.len() > 1 {
        let mut pairs = row.into_iter();
        let mut next = Vec::new();
        while let Some(left) = pairs.next() {
            next.push(match pairs.next() {
                Some(right) => Expr::Binary(0x10, Box::new(left), Box::new(right)),
                None => left,
            });
        }
        row = next;
    }
    let path_edges: Vec<(Name, Name)> = (1..last).map(|name| (name, name + 1)).collect();
    tree(vec![(last, array(row.remove(0), BYTE))], &path_edges)
}

fn report_length_cases(list: &mut Vec<Vec<u8>>) {
    let lengths = [
        (65_535, 999),
        (65_536, 1_000),
        (65_537, 1_001),
        (110_000, 5_000),
    ];
    for (length, count) in lengths {
        list.push(encode(&report_of(length, count)));
    }
    let mut cycle = report_of(65_537, 1_001);
    cycle.definitions.push(Definition {
        name: 500,
        body: Type::TypeRef(500),
    });
    list.push(encode(&cycle));
}

/// Sets that the original would walk for hours: pairs of fields that share a
/// definition, forty levels high, under each of the two walks.
fn sharing_cases(list: &mut Vec<Vec<u8>>) {
    let mut set = vec![(1, BYTE)];
    for name in 2..=41 {
        let below = Type::TypeRef(name - 1);
        set.push((
            name,
            structure(vec![member(1, below.clone()), member(2, below)]),
        ));
    }
    set.push((50, array(literal(), Type::TypeRef(41))));
    set.push((51, jagged(literal(), Type::TypeRef(41))));
    list.push(bytes(set.clone()));
    set[0].1 = jagged(reference(&[51, 1]), BYTE);
    list.push(bytes(set));
}
