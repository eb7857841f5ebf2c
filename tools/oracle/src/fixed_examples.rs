//! Examples of request L1, with the counts of request L2, and answers that were worked
//! out by hand.

use crate::bundle::*;
use crate::fixed::{answer_bytes, fixed_size, Fixed};

pub struct Example {
    pub bundle: Bundle,
    pub definition: usize,
    pub answer: Result<Fixed, Refusal>,
}

const PLAIN: Attributes = Attributes {
    packed: false,
    aligned: 0,
};
const PACKED: Attributes = Attributes {
    packed: true,
    aligned: 0,
};
const U8: Type = Type::Primitive(0x30);
const U16: Type = Type::Primitive(0x31);
const U32: Type = Type::Primitive(0x32);
const U64: Type = Type::Primitive(0x33);
const MOST: u64 = 4_294_967_295;
/// A name that no definition has.
const NOBODY: Name = 900;

type List = Vec<Example>;

pub fn examples() -> List {
    let mut list = Vec::new();
    primitives(&mut list);
    structs(&mut list);
    attributes(&mut list);
    unions(&mut list);
    arrays(&mut list);
    counts_by_sums(&mut list);
    references(&mut list);
    wide_alignments(&mut list);
    sizes_at_the_limit(&mut list);
    parts_at_the_limit(&mut list);
    misaligned(&mut list);
    varying(&mut list);
    counts_that_vary(&mut list);
    orders(&mut list);
    unreached(&mut list);
    worst(&mut list);
    list
}

/// The first example that the second reading answers otherwise.
pub fn check() -> Result<usize, String> {
    let list = examples();
    for (place, example) in list.iter().enumerate() {
        let found = fixed_size(&example.bundle, example.definition);
        if found != example.answer {
            let (found, due) = (answer_bytes(&found), answer_bytes(&example.answer));
            return Err(format!(
                "example {place}: {found:02X?} in place of {due:02X?}"
            ));
        }
    }
    Ok(list.len())
}

fn fixed(size: u64, alignment: u64, offsets: &[u32]) -> Result<Fixed, Refusal> {
    Ok(Fixed {
        size,
        alignment,
        offsets: offsets.to_vec(),
    })
}

/// Definitions named 1, 2, 3 in order, of which one is asked about.
fn set(bodies: Vec<Type>) -> Bundle {
    let named = bodies.into_iter().zip(1..);
    Bundle {
        definitions: named
            .map(|(body, name)| Definition { name, body })
            .collect(),
        ..Bundle::default()
    }
}

fn first_of(list: &mut List, bodies: Vec<Type>, answer: Result<Fixed, Refusal>) {
    list.push(Example {
        bundle: set(bodies),
        definition: 0,
        answer,
    });
}

fn alone(list: &mut List, body: Type, answer: Result<Fixed, Refusal>) {
    first_of(list, vec![body], answer);
}

fn members(types: Vec<Type>) -> Vec<Member> {
    let named = types.into_iter().zip(1..);
    let member = |(member_type, name)| Member {
        name,
        value: 0,
        member_type,
    };
    named.map(member).collect()
}

fn aligned(aligned: u64) -> Attributes {
    Attributes { aligned, ..PLAIN }
}

fn packed_aligned(aligned: u64) -> Attributes {
    Attributes { aligned, ..PACKED }
}

fn structure(own: Attributes, types: Vec<Type>) -> Type {
    Type::Struct(own, members(types))
}

fn union(own: Attributes, types: Vec<Type>) -> Type {
    Type::Union(own, members(types))
}

fn array(count: u64, element: Type) -> Type {
    sized(Expr::Literal(1, count), element)
}

fn sized(size: Expr, element: Type) -> Type {
    Type::Array(PLAIN, false, size, Box::new(element))
}

fn jagged(own: Attributes, element: Type) -> Type {
    Type::Array(own, true, Expr::Literal(4, 3), Box::new(element))
}

fn enumeration(own: Attributes, types: Vec<Type>) -> Type {
    Type::Enum(own, Expr::Literal(4, 1), members(types))
}

fn size_union(own: Attributes, types: Vec<Type>) -> Type {
    Type::SizeUnion(own, members(types))
}

fn empty(own: Attributes) -> Type {
    Type::Struct(own, Vec::new())
}

fn primitives(list: &mut List) {
    let sizes = [1, 2, 4, 8, 1, 2, 4, 8, 1, 2, 4, 8];
    for (kind, size) in (0x30..=0x3B).zip(sizes) {
        alone(list, Type::Primitive(kind), fixed(size, size, &[]));
    }
}

fn structs(list: &mut List) {
    alone(list, empty(PLAIN), fixed(0, 1, &[]));
    let two = || vec![U8, U32];
    alone(list, structure(PLAIN, two()), fixed(8, 4, &[0, 4]));
    let turned = vec![U32, U8];
    alone(list, structure(PLAIN, turned), fixed(8, 4, &[0, 4]));
    alone(list, structure(PACKED, two()), fixed(5, 1, &[0, 1]));
    let four = vec![U8, array(3, U16), U8, U64];
    let offsets = [0, 2, 8, 16];
    alone(list, structure(PLAIN, four), fixed(24, 8, &offsets));
    let inside = structure(PACKED, vec![U8, structure(PLAIN, two())]);
    alone(list, inside, fixed(9, 1, &[0, 1]));
    let outside = structure(PLAIN, vec![U8, structure(PACKED, two()), U16]);
    alone(list, outside, fixed(8, 2, &[0, 1, 6]));
    let around_empty = vec![U8, empty(aligned(8)), U8];
    alone(
        list,
        structure(PLAIN, around_empty),
        fixed(16, 8, &[0, 8, 8]),
    );
}

fn attributes(list: &mut List) {
    let two = || vec![U8, U32];
    // Below the members' alignment, equal to it, above it.
    alone(list, structure(aligned(1), two()), fixed(8, 4, &[0, 4]));
    alone(list, structure(aligned(2), two()), fixed(8, 4, &[0, 4]));
    alone(list, structure(aligned(4), two()), fixed(8, 4, &[0, 4]));
    alone(list, structure(aligned(16), two()), fixed(16, 16, &[0, 4]));
    alone(
        list,
        structure(packed_aligned(1), two()),
        fixed(5, 1, &[0, 1]),
    );
    alone(
        list,
        structure(packed_aligned(2), two()),
        fixed(6, 2, &[0, 1]),
    );
    alone(
        list,
        structure(packed_aligned(4), two()),
        fixed(8, 4, &[0, 1]),
    );
    alone(list, empty(aligned(8)), fixed(0, 8, &[]));
    alone(list, empty(packed_aligned(8)), fixed(0, 8, &[]));
    let inner = structure(aligned(16), vec![U8]);
    alone(
        list,
        structure(PLAIN, vec![U8, inner]),
        fixed(32, 16, &[0, 16]),
    );
}

fn unions(list: &mut List) {
    let odd = || vec![array(5, U8), U32];
    alone(list, union(PLAIN, vec![]), fixed(0, 1, &[]));
    alone(list, union(PLAIN, vec![U8, U32, U16]), fixed(4, 4, &[]));
    alone(list, union(PLAIN, odd()), fixed(8, 4, &[]));
    alone(list, union(PACKED, odd()), fixed(5, 1, &[]));
    alone(list, union(packed_aligned(2), odd()), fixed(6, 2, &[]));
    alone(list, union(aligned(2), odd()), fixed(8, 4, &[]));
    alone(list, union(aligned(16), odd()), fixed(16, 16, &[]));
    alone(list, union(aligned(16), vec![]), fixed(0, 16, &[]));
    let held = structure(PLAIN, vec![U8, union(PLAIN, odd())]);
    alone(list, held, fixed(12, 4, &[0, 4]));
}

fn arrays(list: &mut List) {
    let element = structure(PLAIN, vec![U32, U8]);
    alone(list, array(3, element), fixed(24, 4, &[]));
    alone(list, array(0, U64), fixed(0, 8, &[]));
    alone(list, array(3, array(5, U16)), fixed(30, 2, &[]));
    let size = || Expr::Literal(4, 2);
    for ignored in [aligned(3), packed_aligned(64)] {
        let body = Type::Array(ignored, false, size(), Box::new(U32));
        alone(list, body, fixed(8, 4, &[]));
    }
    for kind in 1..=8 {
        alone(list, sized(Expr::Literal(kind, 3), U16), fixed(6, 2, &[]));
    }
    alone(list, sized(Expr::Literal(8, 0x7F), U8), fixed(127, 1, &[]));
    alone(list, sized(Expr::Literal(4, 0xFF), U8), fixed(255, 1, &[]));
    alone(list, sized(Expr::Literal(5, 0), U8), fixed(0, 1, &[]));
    let most = (1 << 63) - 1;
    alone(list, array(most, empty(PLAIN)), fixed(0, 1, &[]));
    alone(list, array(most, array(0, U64)), fixed(0, 8, &[]));
    alone(list, array(most, U8), Err(12));
    let signed = Expr::Literal(5, (1 << 63) - 1);
    alone(list, sized(signed, empty(aligned(4))), fixed(0, 4, &[]));
}

/// Sums as counts, each with its value.
fn counts_by_sums(list: &mut List) {
    let byte = |bits| Box::new(Expr::Literal(4, bits));
    let signed = |bits| Box::new(Expr::Literal(8, bits));
    let binary = Expr::Binary;
    let sums = [
        (binary(0x12, byte(4), byte(3)), 12),
        (binary(0x10, byte(255), byte(1)), 256),
        (binary(0x11, byte(7), byte(7)), 0),
        (binary(0x13, byte(7), byte(2)), 3),
        (binary(0x13, signed(0xF9), signed(0xFE)), 3),
        (binary(0x14, byte(7), byte(4)), 3),
        (binary(0x1D, byte(1), byte(2)), 1),
        (binary(0x1D, byte(2), byte(1)), 0),
        (binary(0x12, signed(0xFF), signed(0xFE)), 2),
    ];
    for (sum, count) in sums {
        alone(list, sized(sum.clone(), U16), fixed(2 * count, 2, &[]));
        let offsets = [0, count as u32];
        let body = structure(PACKED, vec![sized(sum, U8), U32]);
        alone(list, body, fixed(count + 4, 1, &offsets));
    }
    let most = || Box::new(Expr::Literal(2, MOST));
    let exact = binary(0x12, most(), byte(1));
    alone(list, sized(exact, U8), fixed(MOST, 1, &[]));
    alone(list, sized(binary(0x10, most(), byte(1)), U8), Err(12));
    let half = || Box::new(Expr::Literal(1, 1 << 62));
    let over = || binary(0x10, half(), half());
    alone(list, sized(over(), empty(PLAIN)), Err(11));
    let back = binary(0x11, Box::new(over()), byte(1));
    alone(list, sized(back, empty(PLAIN)), Err(11));
    let within = binary(0x11, half(), byte(1));
    let within = binary(0x10, half(), Box::new(within));
    alone(list, sized(within, empty(aligned(4))), fixed(0, 4, &[]));
}

fn references(list: &mut List) {
    let pair = || structure(PLAIN, vec![U16, U64]);
    let to = Type::TypeRef;
    first_of(list, vec![to(2), pair()], fixed(16, 8, &[0, 8]));
    first_of(list, vec![to(3), pair(), to(2)], fixed(16, 8, &[0, 8]));
    first_of(list, vec![to(2), array(2, pair())], fixed(32, 8, &[]));
    first_of(list, vec![array(2, to(2)), pair()], fixed(32, 8, &[]));
    first_of(
        list,
        vec![union(PLAIN, vec![to(2)]), pair()],
        fixed(16, 8, &[]),
    );
    let outer = structure(PLAIN, vec![U8, to(2)]);
    first_of(list, vec![outer, pair()], fixed(24, 8, &[0, 8]));
    let outer = structure(PACKED, vec![U8, to(2), to(2)]);
    first_of(list, vec![outer, pair()], fixed(33, 1, &[0, 1, 17]));
    // Two definitions of a name: a TypeRef leads to the first.
    let mut bundle = set(vec![pair(), structure(PLAIN, vec![to(1), U8]), to(1)]);
    bundle.definitions[1].name = 1;
    let answers = [
        fixed(16, 8, &[0, 8]),
        fixed(24, 8, &[0, 16]),
        fixed(16, 8, &[0, 8]),
    ];
    for (definition, answer) in answers.into_iter().enumerate() {
        list.push(Example {
            bundle: bundle.clone(),
            definition,
            answer,
        });
    }
}

fn wide_alignments(list: &mut List) {
    const TOP: u64 = 1 << 63;
    let wide = || empty(aligned(TOP));
    alone(list, wide(), fixed(0, TOP, &[]));
    alone(list, union(aligned(TOP), vec![]), fixed(0, TOP, &[]));
    alone(list, structure(PLAIN, vec![wide()]), fixed(0, TOP, &[0]));
    alone(list, array(7, wide()), fixed(0, TOP, &[]));
    alone(
        list,
        structure(PACKED, vec![U8, wide()]),
        fixed(1, 1, &[0, 1]),
    );
    alone(list, structure(PLAIN, vec![U8, wide()]), Err(12));
    alone(list, structure(PLAIN, vec![wide(), U8]), Err(12));
    alone(list, structure(aligned(TOP), vec![U8]), Err(12));
    let half = 1 << 31;
    let body = structure(aligned(half), vec![U8]);
    alone(list, body, fixed(half, half, &[0]));
    alone(list, structure(aligned(1 << 32), vec![U8]), Err(12));
}

fn sizes_at_the_limit(list: &mut List) {
    let most = || array(MOST, U8);
    let over = || array(MOST + 1, U8);
    alone(list, most(), fixed(MOST, 1, &[]));
    alone(list, over(), Err(12));
    alone(list, array(65_537, array(65_535, U8)), fixed(MOST, 1, &[]));
    alone(list, array(65_536, array(65_536, U8)), Err(12));
    alone(list, array(1 << 30, U32), Err(12));
    alone(list, array((1 << 30) - 1, U32), fixed(MOST - 3, 4, &[]));
    // As the whole's size by rounding up.
    let rounded = |own| structure(own, vec![array(MOST - 1, U8), U8]);
    alone(list, rounded(PLAIN), fixed(MOST, 1, &[0, MOST as u32 - 1]));
    alone(list, rounded(aligned(2)), Err(12));
    alone(list, union(PLAIN, vec![most(), U8]), fixed(MOST, 1, &[]));
    alone(list, union(PLAIN, vec![most(), U16]), Err(12));
    alone(list, union(PACKED, vec![most(), U16]), fixed(MOST, 1, &[]));
    alone(list, structure(PACKED, vec![most(), U8]), Err(12));
}

fn parts_at_the_limit(list: &mut List) {
    let most = || array(MOST, U8);
    let over = || array(MOST + 1, U8);
    // A field, its offset, an element, a union's member, a first definition.
    alone(list, structure(PLAIN, vec![most()]), fixed(MOST, 1, &[0]));
    alone(list, structure(PLAIN, vec![over()]), Err(12));
    let behind = |last| structure(PLAIN, vec![most(), last]);
    let offsets = [0, MOST as u32];
    alone(list, behind(empty(PLAIN)), fixed(MOST, 1, &offsets));
    alone(list, behind(empty(aligned(2))), Err(12));
    alone(list, array(1, most()), fixed(MOST, 1, &[]));
    alone(list, array(0, most()), fixed(0, 1, &[]));
    alone(list, array(0, over()), Err(12));
    alone(list, array(2, most()), Err(12));
    alone(list, union(PLAIN, vec![U8, most()]), fixed(MOST, 1, &[]));
    alone(list, union(PLAIN, vec![U8, over()]), Err(12));
    let to = || Type::TypeRef(2);
    first_of(list, vec![to(), most()], fixed(MOST, 1, &[]));
    first_of(list, vec![to(), over()], Err(12));
    first_of(list, vec![array(0, to()), over()], Err(12));
    first_of(list, vec![array(0, to()), behind(U8)], Err(12));
    let nothing = array(0, array(0, array(0, over())));
    alone(list, structure(PLAIN, vec![nothing, U8]), Err(12));
}

fn misaligned(list: &mut List) {
    for wrong in [3, 6, (1 << 63) + 1, u64::MAX] {
        alone(list, structure(aligned(wrong), vec![U8]), Err(10));
        alone(list, union(packed_aligned(wrong), vec![]), Err(10));
    }
    let wrong = || empty(aligned(12));
    alone(list, structure(PACKED, vec![U8, wrong()]), Err(10));
    alone(list, array(0, wrong()), Err(10));
    alone(list, enumeration(aligned(5), vec![]), Err(10));
    alone(list, size_union(aligned(7), vec![U8]), Err(10));
    alone(list, enumeration(PLAIN, vec![U8, wrong()]), Err(10));
    alone(list, size_union(PLAIN, vec![wrong()]), Err(10));
    alone(list, jagged(PLAIN, wrong()), Err(10));
    let computed = Expr::FieldRef(vec![1]);
    alone(list, sized(computed, wrong()), Err(10));
    alone(list, sized(Expr::Literal(8, 0xFF), wrong()), Err(10));
    let inside = enumeration(PLAIN, vec![Type::TypeRef(2)]);
    first_of(list, vec![inside, array(3, wrong())], Err(10));
}

fn varying(list: &mut List) {
    let parts = [
        enumeration(PLAIN, vec![]),
        enumeration(aligned(8), vec![U8, U8]),
        size_union(PLAIN, vec![]),
        size_union(PACKED, vec![U8]),
        jagged(PLAIN, U8),
        jagged(aligned(3), structure(PLAIN, vec![U8])),
        Type::TypeRef(NOBODY),
    ];
    for part in parts {
        alone(list, structure(PLAIN, vec![U8, part.clone()]), Err(11));
        alone(list, array(0, part.clone()), Err(11));
        alone(list, union(PLAIN, vec![part.clone()]), Err(11));
        first_of(
            list,
            vec![array(2, Type::TypeRef(2)), part.clone()],
            Err(11),
        );
        alone(list, part, Err(11));
    }
}

fn counts_that_vary(list: &mut List) {
    let three = || Box::new(Expr::Literal(4, 3));
    let sizes = [
        Expr::FieldRef(vec![1]),
        Expr::FieldRef(vec![1, 2, 3, 4]),
        Expr::Sizeof(1),
        Expr::Alignof(NOBODY),
        Expr::Unary(0x25, three()),
        Expr::Unary(0x27, three()),
        Expr::Binary(0x15, three(), three()),
        Expr::Binary(0x13, three(), Box::new(Expr::Literal(4, 0))),
        Expr::Binary(0x11, three(), Box::new(Expr::Literal(4, 4))),
        Expr::Binary(0x12, three(), Box::new(Expr::Literal(1, (1 << 63) - 1))),
        Expr::Literal(1, 1 << 63),
        Expr::Literal(1, u64::MAX),
        Expr::Literal(5, u64::MAX),
        Expr::Literal(5, 1 << 63),
        Expr::Literal(6, 0xFFFF_FFFF),
        Expr::Literal(6, 0x8000_0000),
        Expr::Literal(7, 0xFFFF),
        Expr::Literal(7, 0x8000),
        Expr::Literal(8, 0xFF),
        Expr::Literal(8, 0x80),
    ];
    for size in sizes {
        let inside = sized(size.clone(), empty(PLAIN));
        alone(list, array(0, inside), Err(11));
        alone(list, sized(size, U8), Err(11));
    }
}

fn orders(list: &mut List) {
    let over = || array(MOST + 1, U8);
    let varies = || jagged(PLAIN, U8);
    let wrong = || empty(aligned(3));
    alone(list, structure(PLAIN, vec![over(), varies()]), Err(11));
    alone(list, structure(PLAIN, vec![varies(), over()]), Err(11));
    alone(list, structure(PLAIN, vec![over(), wrong()]), Err(10));
    alone(list, structure(PLAIN, vec![wrong(), over()]), Err(10));
    alone(list, structure(PLAIN, vec![varies(), wrong()]), Err(10));
    let all = vec![over(), varies(), wrong()];
    alone(list, structure(PLAIN, all), Err(10));
    // An enum's own member is over: its 11 comes first.
    alone(list, enumeration(PLAIN, vec![over()]), Err(11));
    let last = structure(PLAIN, vec![Type::TypeRef(2), Type::TypeRef(3)]);
    first_of(
        list,
        vec![last, over(), union(PLAIN, vec![wrong()])],
        Err(10),
    );
}

/// What stands in the bundle and is not led to does not count.
fn unreached(list: &mut List) {
    let others = || {
        vec![
            U32,
            empty(aligned(3)),
            jagged(PLAIN, U8),
            array(MOST + 1, U8),
        ]
    };
    first_of(list, others(), fixed(4, 4, &[]));
    for (definition, refusal) in [(1, 10), (2, 11), (3, 12), (4, 11), (5, 11), (65_536, 11)] {
        list.push(Example {
            bundle: set(others()),
            definition,
            answer: Err(refusal),
        });
    }
    for definition in [0, 1, usize::MAX] {
        list.push(Example {
            bundle: Bundle::default(),
            definition,
            answer: Err(11),
        });
    }
    // The name in a tag or a size is no part.
    let named = enumeration(PLAIN, vec![U8]);
    first_of(list, vec![sized(Expr::Sizeof(2), U8), named], Err(11));
    let mut bundle = set(vec![U8, empty(aligned(3))]);
    bundle.definitions[1].name = 1;
    bundle.definitions.push(Definition {
        name: 2,
        body: Type::TypeRef(1),
    });
    list.push(Example {
        bundle,
        definition: 2,
        answer: fixed(1, 1, &[]),
    });
}

/// 256 definitions of which each holds the next twice, over a U8, over nothing, and
/// 256 of which each is a TypeRef to the next.
fn worst(list: &mut List) {
    let next = |number: Name| Type::TypeRef(number + 1);
    let held_twice = |last: Type| {
        let mut bodies: Vec<Type> = (1..256)
            .map(|number| structure(PLAIN, vec![next(number), next(number)]))
            .collect();
        bodies.push(last);
        bodies
    };
    first_of(list, held_twice(U8), Err(12));
    first_of(list, held_twice(empty(PLAIN)), fixed(0, 1, &[0, 0]));
    for (definition, answer) in [
        (223, Err(12)),
        (224, fixed(1 << 31, 1, &[0, 1 << 30])),
        (255, fixed(1, 1, &[])),
    ] {
        list.push(Example {
            bundle: set(held_twice(U8)),
            definition,
            answer,
        });
    }
    let mut line: Vec<Type> = (1..256).map(next).collect();
    line.push(structure(PLAIN, vec![U8, U16]));
    first_of(list, line, fixed(4, 2, &[0, 2]));
    let deep = (0..23).fold(U8, |inner, _| structure(PLAIN, vec![inner]));
    alone(list, deep, fixed(1, 1, &[0]));
}
