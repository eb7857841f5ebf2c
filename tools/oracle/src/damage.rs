//! Bundles with faults, made from sound ones.

use crate::bundle::*;
use crate::generate;
use crate::random::Random;

const KINDS: [u8; 22] = [
    0x00, 0x01, 0x04, 0x08, 0x09, 0x0C, 0x0D, 0x0F, 0x10, 0x23, 0x27, 0x28, 0x2F, 0x30, 0x3B, 0x3C,
    0x40, 0x41, 0x44, 0x45, 0x46, 0x53,
];

/// Bytes that are mostly refused, often with more than one fault.
pub fn damaged(random: &mut Random) -> Vec<u8> {
    let bundle = if random.chance(70) {
        generate::small(random)
    } else {
        generate::any(random)
    };
    damaged_from(random, &bundle)
}

/// The same from a given bundle.
pub fn damaged_from(random: &mut Random, bundle: &Bundle) -> Vec<u8> {
    let mut bytes = match random.below(12) {
        0 => encode(&with_cycle(random, bundle)),
        1 => encode(&too_deep(random, bundle)),
        _ => with_faults(random, bundle),
    };
    match random.below(30) {
        0..=3 => bytes.truncate(random.below(bytes.len() + 1)),
        4..=6 => (0..random.between(1, 4)).for_each(|_| bytes.push(random.bits() as u8)),
        7 => bytes.resize(BYTE_LIMIT + random.between(0, 3), random.bits() as u8),
        _ => {}
    }
    bytes
}

fn with_faults(random: &mut Random, bundle: &Bundle) -> Vec<u8> {
    let mut encoder = Encoder::default();
    encoder.bundle(bundle);
    let mut bytes = encoder.bytes;
    for _ in 0..random.pick(&[1, 1, 1, 2]) {
        match random.below(8) {
            0..=1 => at_mark(random, &encoder.marks, Mark::Kind, &mut bytes),
            2 => at_mark(random, &encoder.marks, Mark::Flag, &mut bytes),
            3 => at_mark(random, &encoder.marks, Mark::EdgeKind, &mut bytes),
            4 => at_mark(random, &encoder.marks, Mark::MemberCount, &mut bytes),
            5 => header_count(random, &mut bytes),
            6 => bytes.truncate(random.below(bytes.len() + 1)),
            _ if bytes.is_empty() => {}
            _ => {
                let at = random.below(bytes.len());
                bytes[at] ^= 1 << random.below(8);
            }
        }
    }
    bytes
}

fn at_mark(random: &mut Random, marks: &[(usize, Mark)], wanted: Mark, bytes: &mut [u8]) {
    let fits = |mark: &&(usize, Mark)| mark.1 == wanted && mark.0 < bytes.len();
    let places: Vec<usize> = marks.iter().filter(fits).map(|mark| mark.0).collect();
    if places.is_empty() {
        return;
    }
    let wide = random.bits() as u8;
    let at = random.pick(&places);
    bytes[at] = match wanted {
        Mark::Kind => random.pick(&[random_kind(wide), random_kind(wide), wide]),
        Mark::Flag => random.pick(&[2, 3, 255, wide, 1]),
        Mark::EdgeKind => random.pick(&[4, 5, 255, wide, 3]),
        Mark::MemberCount => bytes[at].wrapping_add(random.pick(&[1, 255, 2])),
    };
}

fn random_kind(wide: u8) -> u8 {
    KINDS[wide as usize % KINDS.len()]
}

fn header_count(random: &mut Random, bytes: &mut [u8]) {
    if bytes.len() < 5 {
        return;
    }
    let at = random.pick(&[1, 3]);
    let old = u16::from_le_bytes([bytes[at], bytes[at + 1]]);
    let limit = if at == 1 { 257 } else { 1_025 };
    let new = random.pick(&[
        old.wrapping_add(1),
        old.wrapping_sub(1),
        limit,
        limit - 1,
        random_count(old),
    ]);
    bytes[at..at + 2].copy_from_slice(&new.to_le_bytes());
}

fn random_count(old: u16) -> u16 {
    old.wrapping_mul(257).wrapping_add(0x4000)
}

/// Makes definitions lead to one another in a ring, mostly from within types.
fn with_cycle(random: &mut Random, bundle: &Bundle) -> Bundle {
    let mut result = bundle.clone();
    let count = random.between(1, result.definitions.len().clamp(1, 4));
    let names: Vec<Name> = result.definitions.iter().map(|d| d.name).collect();
    let mut places: Vec<usize> = (0..result.definitions.len()).collect();
    random.shuffle(&mut places);
    places.truncate(count);
    for (step, place) in places.iter().enumerate() {
        let next = names[places[(step + 1) % places.len()]];
        let inner = Type::TypeRef(next);
        let own = Attributes::default();
        let member = |member_type| Member {
            name: next,
            value: 0,
            member_type,
        };
        result.definitions[*place].body = match random.below(6) {
            0 => Type::Struct(own, vec![member(inner)]),
            1 => Type::Union(own, vec![member(inner)]),
            2 => Type::SizeUnion(own, vec![member(inner)]),
            3 => Type::Enum(own, Expr::Sizeof(next), vec![member(inner)]),
            4 => Type::Array(own, false, Expr::Literal(4, 1), Box::new(inner)),
            _ => inner,
        };
    }
    result
}

/// A definition that reaches depth 25 or a little more.
fn too_deep(random: &mut Random, bundle: &Bundle) -> Bundle {
    let mut result = bundle.clone();
    let Some(place) = (0..result.definitions.len()).next_back() else {
        return result;
    };
    let own = Attributes::default();
    let mut body = result.definitions[place].body.clone();
    let target = random.between(24, 26);
    while generate::type_depth(&body) < target {
        let list = vec![Member {
            name: random.below(5) as Name,
            value: 0,
            member_type: body,
        }];
        body = match random.below(4) {
            0 => Type::Struct(own, list),
            1 => Type::Union(own, list),
            2 => Type::Enum(own, Expr::FieldRef(vec![1]), list),
            _ => Type::SizeUnion(own, list),
        };
    }
    result.definitions[place].body = body;
    result
}
