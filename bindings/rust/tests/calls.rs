//! Each call on bundles of a few bytes: answers, refusals, buffers kept.

use layout::{
    accept, chain, chain_followed, chain_followed_vec, chain_vec, fixed_size, fixed_size_vec,
    renumber, renumber_vec, report, report_vec, size_value, FixedLayout, FixedSize, FollowedChain,
    Refusal, Search, BYTE_LIMIT, CHAIN_LIMIT, FIELD_LIMIT, FOLLOWED_LIMIT, STACK_BYTES,
};

/// A jagged array of three U8 and its report.
const JAGGED: [u8; 24] = [
    0x60, 1, 0, 0, 0, 0, 0, 0x61, 1, 0, 0x44, 0, 0, 0, 0, 0, 0, 0, 0, 0, 1, 4, 3, 0x30,
];
const JAGGED_REPORT: [u8; 21] = [
    0x70, 1, 0, 0x77, 0, 0, 1, 0, 0, 0, 0, 0, 0, 0, 0, 0, 0, 1, 0, 0x7F, 1,
];

fn jagged_report() -> Vec<u8> {
    [&JAGGED_REPORT[..], &[0]].concat()
}

/// No definitions, and edges in the order given.
fn edges(list: &[(u8, u8)]) -> Vec<u8> {
    let mut bytes = vec![0x60, 0, 0, list.len() as u8, 0, 0, 0];
    for (from, to) in list {
        bytes.extend([0x62, *from, 0, *to, 0, 0]);
    }
    bytes
}

/// The line of edges 1 to 2, 2 to 3 and so on.
fn line(count: u16) -> Vec<u8> {
    let mut bytes = vec![0x60, 0, 0];
    bytes.extend(count.to_le_bytes());
    bytes.extend([0, 0]);
    for from in 1..=count {
        bytes.push(0x62);
        bytes.extend(from.to_le_bytes());
        bytes.extend((from + 1).to_le_bytes());
        bytes.push(0);
    }
    bytes
}

#[test]
fn accept_takes_sound_bundles() {
    assert_eq!(accept(&JAGGED), Ok(()));
    assert_eq!(accept(&edges(&[])), Ok(()));
}

#[test]
fn each_refusal_has_its_number() {
    let definition = |body: &[u8]| [&[0x60, 1, 0, 0, 0, 0, 0, 0x61, 1, 0], body].concat();
    let mut off_scale = JAGGED;
    off_scale[20] = 2;
    let deep: Vec<u8> = (0..24)
        .flat_map(|_| [0x44, 0, 0, 0, 0, 0, 0, 0, 0, 0, 0, 4, 1])
        .chain([0x30])
        .collect();
    let cases: [(Vec<u8>, Refusal); 8] = [
        (vec![0x60; 32_769], Refusal::Overlong),
        (Vec::new(), Refusal::Short),
        (definition(&[0x46]), Refusal::Stranger),
        (off_scale.to_vec(), Refusal::OffScale),
        (vec![0x60, 1, 1, 0, 0, 0, 0], Refusal::Crowded),
        (definition(&deep), Refusal::Buried),
        ([&JAGGED[..], &[0]].concat(), Refusal::Trailing),
        (definition(&[0x40, 1, 0]), Refusal::Circle),
    ];
    for (bytes, refusal) in cases {
        assert_eq!(accept(&bytes), Err(refusal));
        assert_eq!(report(&bytes, &mut [0; 64]), Err(refusal));
        assert_eq!(renumber(&bytes, &mut [0; 64]), Err(refusal));
        assert_eq!(chain(&bytes, 1, 1, &mut [0; 64]), Err(refusal));
        for (to, room) in [(1, 64), (2, 64), (1, 0), (2, 0)] {
            let mut list = vec![77; room];
            let found = chain_followed(&bytes, 1, to, &mut list);
            assert_eq!(found, Err(refusal));
            assert!(list.iter().all(|name| *name == 77));
        }
        assert_eq!(chain_followed_vec(&bytes, 1, 1), Err(refusal));
        assert_eq!(fixed_size(&bytes, 0, &mut [0; 64]), Err(refusal));
        assert_eq!(fixed_size(&bytes, usize::MAX, &mut []), Err(refusal));
        assert_eq!(size_value(&bytes, 0), Err(refusal));
        assert_eq!(size_value(&bytes, usize::MAX), Err(refusal));
    }
}

#[test]
fn report_fills_its_length_and_keeps_the_rest() {
    let expected = jagged_report();
    let mut out = [0xAA; 40];
    assert_eq!(report(&JAGGED, &mut out), Ok(expected.len()));
    assert_eq!(out[..expected.len()], expected);
    assert!(out[expected.len()..].iter().all(|byte| *byte == 0xAA));
    assert_eq!(report_vec(&JAGGED), Ok(expected));
}

#[test]
fn a_short_buffer_is_kept() {
    let mut out = [0xAA; 21];
    assert_eq!(report(&JAGGED, &mut out), Err(Refusal::Narrow));
    assert_eq!(out, [0xAA; 21]);
    assert_eq!(report(&JAGGED, &mut [0; 22]), Ok(22));
    let mut out = [0xAA; 23];
    assert_eq!(renumber(&JAGGED, &mut out), Err(Refusal::Narrow));
    assert_eq!(out, [0xAA; 23]);
    assert_eq!(report(&JAGGED, &mut []), Err(Refusal::Narrow));
}

#[test]
fn a_long_report_grows_the_buffer() {
    // An array whose size adds four references to the start of a long line of
    // edges: four chains of 1,001 names.
    let mut bytes = line(1_000);
    bytes[1] = 1;
    let reference = [0x0A, 1, 0, 9, 0];
    let mut definition = vec![0x61];
    definition.extend(1_001_u16.to_le_bytes());
    definition.extend([0x44, 0, 0, 0, 0, 0, 0, 0, 0, 0, 0, 0x10, 0x10, 0x10]);
    (0..4).for_each(|_| definition.extend(reference));
    definition.push(0x30);
    bytes.splice(7..7, definition);
    let found = report_vec(&bytes).unwrap();
    assert_eq!(found.len(), 3 + 4 * (16 + 3 * 1_001));
    assert_eq!(found[..4], [0x70, 4, 0, 0x73]);
}

#[test]
fn renumber_counts_by_first_appearance() {
    let bytes = edges(&[(9, 0), (9, 7)]);
    assert_eq!(renumber_vec(&bytes), Ok(edges(&[(1, 0), (1, 2)])));
}

#[test]
fn chain_takes_the_first_of_the_shortest() {
    let bytes = edges(&[(1, 2), (1, 3), (3, 4), (2, 4)]);
    assert_eq!(chain_vec(&bytes, 1, 4), Ok(vec![1, 2, 4]));
    let bytes = edges(&[(1, 3), (1, 2), (3, 4), (2, 4)]);
    assert_eq!(chain_vec(&bytes, 1, 4), Ok(vec![1, 3, 4]));
    assert_eq!(chain_vec(&bytes, 4, 1), Ok(Vec::new()));
    assert_eq!(chain_vec(&edges(&[]), 5, 5), Ok(vec![5]));
    let long = chain_vec(&line(1_024), 1, 1_025).unwrap();
    assert!(long.iter().copied().eq(1..=1_025));
}

#[test]
fn chain_is_narrow_only_where_there_is_one() {
    let bytes = edges(&[(1, 2), (2, 3)]);
    let mut list = [77; 2];
    assert_eq!(chain(&bytes, 1, 3, &mut list), Err(Refusal::Narrow));
    assert_eq!(chain(&bytes, 3, 1, &mut list), Ok(0));
    assert_eq!(chain(&bytes, 3, 1, &mut []), Ok(0));
    assert_eq!(list, [77; 2]);
    let mut list = [77; 4];
    assert_eq!(chain(&bytes, 1, 3, &mut list), Ok(3));
    assert_eq!(list, [1, 2, 3, 77]);
}

/// Several names at the same distance, two edges alike, a loop, a circle, and a part of its own. From 1 the order is 1,
/// 2 (by edge 0), 3 (1), 4 (0, 5), 5 (0, 6), 6 (0, 5, 8).
fn graph() -> Vec<u8> {
    edges(&[
        (1, 2),
        (1, 3),
        (1, 3),
        (1, 1),
        (3, 5),
        (2, 4),
        (2, 5),
        (5, 1),
        (4, 6),
        (8, 9),
    ])
}

#[test]
fn a_chain_comes_with_the_count_of_names_followed() {
    let cases: [(u16, u16, &[u16], usize); 13] = [
        (1, 1, &[1], 0),
        (7, 7, &[7], 0),
        (1, 2, &[1, 2], 1),
        (1, 3, &[1, 3], 1),
        (1, 4, &[1, 2, 4], 2),
        (1, 5, &[1, 2, 5], 2),
        (1, 6, &[1, 2, 4, 6], 4),
        (3, 2, &[3, 5, 1, 2], 3),
        (8, 9, &[8, 9], 1),
        (1, 8, &[], 6),
        (1, 7, &[], 6),
        (6, 1, &[], 1),
        (7, 1, &[], 1),
    ];
    for (from, to, names, followed) in cases {
        let due = FollowedChain {
            names: names.to_vec(),
            followed,
        };
        assert_eq!(chain_followed_vec(&graph(), from, to), Ok(due));
        assert_eq!(chain_vec(&graph(), from, to), Ok(names.to_vec()));
    }
}

#[test]
fn a_followed_chain_fills_its_length_and_keeps_the_rest() {
    let due = |written, followed| Ok(Search { written, followed });
    let mut list = [77; 6];
    assert_eq!(chain_followed(&graph(), 1, 6, &mut list), due(4, 4));
    assert_eq!(list, [1, 2, 4, 6, 77, 77]);
    let mut list = [77; 4];
    assert_eq!(chain_followed(&graph(), 1, 6, &mut list), due(4, 4));
    assert_eq!(list, [1, 2, 4, 6]);
    let mut list = [77; 3];
    let narrow = Err(Refusal::Narrow);
    assert_eq!(chain_followed(&graph(), 1, 6, &mut list), narrow);
    assert_eq!(chain_followed(&graph(), 1, 7, &mut list), due(0, 6));
    assert_eq!(list, [77; 3]);
    assert_eq!(chain_followed(&graph(), 1, 6, &mut []), narrow);
    assert_eq!(chain_followed(&graph(), 1, 1, &mut []), narrow);
    assert_eq!(chain_followed(&graph(), 1, 7, &mut []), due(0, 6));
}

#[test]
fn the_longest_chain_and_the_highest_count() {
    let bytes = line(1_024);
    let found = chain_followed_vec(&bytes, 1, 1_025).unwrap();
    assert_eq!(found.names, (1..=1_025).collect::<Vec<u16>>());
    assert_eq!((found.names.len(), found.followed), (CHAIN_LIMIT, 1_024));
    let none = chain_followed_vec(&bytes, 1, 2_000).unwrap();
    assert_eq!((none.names.len(), none.followed), (0, FOLLOWED_LIMIT));
    let near = chain_followed_vec(&bytes, 1, 2).unwrap();
    assert_eq!((near.names, near.followed), (vec![1, 2], 1));
}

/// A type that starts with its kind, packed and aligned, and goes on with `rest`.
fn attributed(kind: u8, packed: u8, aligned: u64, rest: &[u8]) -> Vec<u8> {
    [&[kind, packed], &aligned.to_le_bytes()[..], rest].concat()
}

/// A struct (41) or union (42) with members of these types.
fn group(kind: u8, packed: u8, aligned: u64, members: &[&[u8]]) -> Vec<u8> {
    let mut rest = (members.len() as u16).to_le_bytes().to_vec();
    for member in members {
        rest.extend([kind + 0x0F, 9, 0]);
        rest.extend(*member);
    }
    attributed(kind, packed, aligned, &rest)
}

/// An array of `count` elements, its size a literal U64.
fn array(count: u64, element: &[u8]) -> Vec<u8> {
    let rest = [&[0, 1], &count.to_le_bytes()[..], element].concat();
    attributed(0x44, 0, 0, &rest)
}

/// Definitions of the names 1, 2 and so on, and no edges.
fn defined(types: &[&[u8]]) -> Vec<u8> {
    let mut bytes = vec![0x60, types.len() as u8, 0, 0, 0, 0, 0];
    for (place, body) in types.iter().enumerate() {
        bytes.extend([0x61, place as u8 + 1, 0]);
        bytes.extend(*body);
    }
    bytes
}

const U8: &[u8] = &[0x30];
const U32: &[u8] = &[0x32];
const F64: &[u8] = &[0x3B];

/// U8, U32, U8 as a struct; a TypeRef to it; a union; an array of the struct; a packed struct.
fn fixed() -> Vec<u8> {
    defined(&[
        &group(0x41, 0, 0, &[U8, U32, U8]),
        &[0x40, 1, 0],
        &group(0x42, 0, 16, &[U32, &array(3, &[0x40, 2, 0])]),
        &array(5, &[0x40, 1, 0]),
        &group(0x41, 1, 8, &[U8, U32, F64]),
    ])
}

fn found(size: u64, alignment: u64, offsets: &[u32]) -> Result<FixedLayout, Refusal> {
    Ok(FixedLayout {
        size,
        alignment,
        offsets: offsets.to_vec(),
    })
}

#[test]
fn fixed_sizes_with_their_offsets() {
    let bytes = fixed();
    assert_eq!(fixed_size_vec(&bytes, 0), found(12, 4, &[0, 4, 8]));
    assert_eq!(fixed_size_vec(&bytes, 1), found(12, 4, &[0, 4, 8]));
    assert_eq!(fixed_size_vec(&bytes, 2), found(48, 16, &[]));
    assert_eq!(fixed_size_vec(&bytes, 3), found(60, 4, &[]));
    assert_eq!(fixed_size_vec(&bytes, 4), found(16, 8, &[0, 1, 5]));
    let empty = defined(&[&group(0x41, 0, 1 << 63, &[])]);
    assert_eq!(fixed_size_vec(&empty, 0), found(0, 1 << 63, &[]));
    let largest = defined(&[&array(u64::from(u32::MAX), U8)]);
    assert_eq!(fixed_size_vec(&largest, 0), found(4_294_967_295, 1, &[]));
}

#[test]
fn offsets_fill_their_length_and_keep_the_rest() {
    let bytes = fixed();
    let due = Ok(FixedSize {
        size: 12,
        alignment: 4,
        written: 3,
    });
    let mut offsets = [77; 5];
    assert_eq!(fixed_size(&bytes, 0, &mut offsets), due);
    assert_eq!(offsets, [0, 4, 8, 77, 77]);
    let mut offsets = [77; 3];
    assert_eq!(fixed_size(&bytes, 1, &mut offsets), due);
    assert_eq!(offsets, [0, 4, 8]);
    let mut offsets = [77; 2];
    assert_eq!(fixed_size(&bytes, 0, &mut offsets), Err(Refusal::Narrow));
    assert_eq!(offsets, [77; 2]);
    assert_eq!(fixed_size(&bytes, 1, &mut []), Err(Refusal::Narrow));
    assert_eq!(
        fixed_size(&bytes, 3, &mut []).map(|found| found.size),
        Ok(60)
    );
}

#[test]
fn no_struct_has_more_fields_than_the_limit() {
    let most = defined(&[&group(0x41, 0, 0, &vec![U8; FIELD_LIMIT])]);
    let length = most.len();
    assert!(
        length <= BYTE_LIMIT && length + 4 > BYTE_LIMIT,
        "{length} bytes"
    );
    let offsets: Vec<u32> = (0..FIELD_LIMIT as u32).collect();
    assert_eq!(
        fixed_size_vec(&most, 0),
        found(FIELD_LIMIT as u64, 1, &offsets)
    );
    let more = defined(&[&group(0x41, 0, 0, &vec![U8; FIELD_LIMIT + 1])]);
    assert_eq!(fixed_size_vec(&more, 0), Err(Refusal::Overlong));
}

#[test]
fn each_refusal_of_a_fixed_size() {
    let misaligned = group(0x41, 0, 3, &[]);
    let size_union = attributed(0x45, 0, 0, &[0, 0]);
    let oversized = array(1 << 32, U8);
    let refused = |types: &[&[u8]]| fixed_size(&defined(types), 0, &mut [0; 1]).unwrap_err();
    assert_eq!(refused(&[&misaligned]), Refusal::Misaligned);
    assert_eq!(refused(&[&size_union]), Refusal::Varying);
    assert_eq!(refused(&[&[0x40, 7, 0]]), Refusal::Varying);
    assert_eq!(refused(&[&oversized]), Refusal::Oversized);
    // A size of -1 and one that is a field.
    let negative = attributed(0x44, 0, 0, &[0, 8, 0xFF, 0x30]);
    assert_eq!(refused(&[&negative]), Refusal::Varying);
    let by_field = attributed(0x44, 0, 0, &[0, 9, 1, 0, 0x30]);
    assert_eq!(refused(&[&by_field]), Refusal::Varying);
    // An offset, and a size only when it is rounded up.
    let far = group(0x41, 0, 0, &[&array(u64::from(u32::MAX), U8), U8, U8]);
    assert_eq!(refused(&[&far]), Refusal::Oversized);
    let rounded = group(0x42, 0, 2, &[&array(u64::from(u32::MAX), U8)]);
    assert_eq!(refused(&[&rounded]), Refusal::Oversized);
    // An array's own aligned does not count, and its element does, even of no elements.
    let rest = [&[0, 4, 0][..], U8].concat();
    let plain = defined(&[&attributed(0x44, 1, 3, &rest)]);
    assert_eq!(fixed_size_vec(&plain, 0), found(0, 1, &[]));
    assert_eq!(refused(&[&array(0, &misaligned)]), Refusal::Misaligned);
    assert_eq!(refused(&[&array(0, &size_union)]), Refusal::Varying);
    assert_eq!(refused(&[&array(0, &oversized)]), Refusal::Oversized);
}

#[test]
fn refusals_of_a_fixed_size_come_in_order() {
    let misaligned = group(0x41, 0, 3, &[]);
    let size_union = attributed(0x45, 0, 0, &[0, 0]);
    let oversized = array(1 << 32, U8);
    let refused = |members: &[&[u8]], more: &[u8]| {
        let bytes = defined(&[&group(0x41, 0, 0, members), more]);
        fixed_size(&bytes, 0, &mut [77; 1]).unwrap_err()
    };
    let all: [&[u8]; 3] = [&oversized, &size_union, &misaligned];
    let circle = [0x40, 2, 0];
    assert_eq!(refused(&all, &circle), Refusal::Circle);
    assert_eq!(refused(&all, U8), Refusal::Misaligned);
    assert_eq!(refused(&all[..2], U8), Refusal::Varying);
    assert_eq!(refused(&[&oversized, U8], U8), Refusal::Oversized);
    assert_eq!(refused(&[U8, U8], U8), Refusal::Narrow);
    // Inside what varies, and its own aligned.
    let deep = attributed(
        0x45,
        0,
        0,
        &[&[1, 0, 0x53][..], &[0; 10], &misaligned].concat(),
    );
    assert_eq!(refused(&[&deep], U8), Refusal::Misaligned);
    let own = attributed(0x45, 0, 6, &[0, 0]);
    assert_eq!(refused(&[&own], U8), Refusal::Misaligned);
}

#[test]
fn a_number_without_a_definition_varies() {
    let misaligned = defined(&[&group(0x41, 0, 3, &[])]);
    for definition in [1, 2, 1 << 16, 1 << 32, usize::MAX] {
        let refused = fixed_size_vec(&misaligned, definition);
        assert_eq!(refused, Err(Refusal::Varying));
    }
    assert_eq!(fixed_size_vec(&edges(&[]), 0), Err(Refusal::Varying));
}

const ADD: u8 = 0x10;
const SUB: u8 = 0x11;
const MUL: u8 = 0x12;
const DIV: u8 = 0x13;
const MOD: u8 = 0x14;
const POW: u8 = 0x15;
/// Eq, Ne, Lt, Gt, Le and Ge.
const COMPARISONS: std::ops::RangeInclusive<u8> = 0x1B..=0x20;

/// A literal I64, or the U64 of the same bits.
fn long(kind: u8, value: i64) -> Vec<u8> {
    [&[kind], &value.to_le_bytes()[..]].concat()
}

fn int(value: i64) -> Vec<u8> {
    long(5, value)
}

fn binary(kind: u8, left: &[u8], right: &[u8]) -> Vec<u8> {
    [&[kind], left, right].concat()
}

/// An array of U8 with this size.
fn sized(jagged: u8, size: &[u8]) -> Vec<u8> {
    attributed(0x44, 0, 0, &[&[jagged], size, U8].concat())
}

/// The value of a size in an array, which is the same in a jagged one.
fn value(size: &[u8]) -> Result<i64, Refusal> {
    let found = size_value(&defined(&[&sized(0, size)]), 0);
    assert_eq!(size_value(&defined(&[&sized(1, size)]), 0), found);
    found
}

#[test]
fn literals_have_their_number() {
    assert_eq!(value(&[4, 0xFF]), Ok(255));
    assert_eq!(value(&[3, 0xFF, 0xFF]), Ok(65_535));
    assert_eq!(value(&[2, 0xFF, 0xFF, 0xFF, 0xFF]), Ok(4_294_967_295));
    assert_eq!(value(&[8, 0xFF]), Ok(-1));
    assert_eq!(value(&[7, 0, 0x80]), Ok(-32_768));
    assert_eq!(value(&[6, 0xFE, 0xFF, 0xFF, 0xFF]), Ok(-2));
    for number in [0, 1, -1, i64::MAX, i64::MIN] {
        assert_eq!(value(&int(number)), Ok(number));
        let unsigned = value(&long(1, number));
        assert_eq!(unsigned.is_ok(), number >= 0, "{number}");
        assert_eq!(unsigned.unwrap_or(number), number);
    }
    assert_eq!(value(&long(1, i64::MIN)), Err(Refusal::OutOfRange));
}

/// What an operator gives for two numbers.
fn operator(kind: u8, left: i64, right: i64) -> Option<i64> {
    match kind {
        ADD => left.checked_add(right),
        SUB => left.checked_sub(right),
        MUL => left.checked_mul(right),
        DIV => left.checked_div(right),
        _ => Some(left.checked_rem(right).unwrap_or(0)),
    }
}

#[test]
fn operators_are_exact() {
    let root = 3_037_000_500; // Its square is just over 2^63.
    let numbers = [0, 1, -1, 2, -2, 3, 7, -7, root, -root, i64::MAX, i64::MIN];
    for (left, right) in numbers.iter().flat_map(|l| numbers.map(|r| (*l, r))) {
        for kind in [ADD, SUB, MUL, DIV, MOD] {
            let due = match (kind, right) {
                (DIV | MOD, 0) => Err(Refusal::ZeroDivisor),
                _ => operator(kind, left, right).ok_or(Refusal::OutOfRange),
            };
            let found = value(&binary(kind, &int(left), &int(right)));
            assert_eq!(found, due, "{kind:02X} of {left} and {right}");
        }
        let holds = [
            left == right,
            left != right,
            left < right,
            left > right,
            left <= right,
            left >= right,
        ];
        for (kind, holds) in COMPARISONS.zip(holds) {
            let found = value(&binary(kind, &int(left), &int(right)));
            assert_eq!(found, Ok(i64::from(holds)), "{kind:02X}, {left}, {right}");
        }
    }
}

#[test]
fn the_first_refusal_that_is_met_counts() {
    let zero = binary(DIV, &[4, 1], &[4, 0]);
    let over = long(1, i64::MIN);
    let field = [9, 1, 0];
    let (thirteen, fourteen, fifteen) = (
        Err(Refusal::ZeroDivisor),
        Err(Refusal::OutOfRange),
        Err(Refusal::Uncovered),
    );
    for kind in (ADD..=MOD).chain(COMPARISONS) {
        assert_eq!(value(&binary(kind, &zero, &over)), thirteen);
        assert_eq!(value(&binary(kind, &over, &field)), fourteen);
        assert_eq!(value(&binary(kind, &field, &zero)), fifteen);
        assert_eq!(value(&binary(kind, &[4, 0], &field)), fifteen);
    }
    // A kind without a value is refused before its operands are looked at.
    for kind in (POW..=0x1A).chain(0x21..=0x23) {
        assert_eq!(value(&binary(kind, &zero, &over)), fifteen);
    }
    for kind in 0x24..=0x27 {
        assert_eq!(value(&[&[kind], &over[..]].concat()), fifteen);
    }
    for name in [&[0x0D, 1, 0], &[0x0E, 1, 0], &field] {
        assert_eq!(value(name), fifteen);
    }
    assert_eq!(value(&[0x0C, 1, 0, 1, 0, 1, 0, 1, 0]), fifteen);
    // A divisor of 0 is found before the range.
    assert_eq!(value(&binary(MOD, &int(i64::MIN), &[4, 0])), thirteen);
}

#[test]
fn only_arrays_have_a_value() {
    let sum = binary(MUL, &[4, 4], &[4, 3]);
    let array = sized(0, &sum);
    let bytes = defined(&[
        &array,
        &[0x40, 1, 0],
        U8,
        &group(0x41, 0, 3, &[&array]),
        &sized(1, &sum),
    ]);
    let found: Vec<_> = (0..6).map(|place| size_value(&bytes, place)).collect();
    let none = Err(Refusal::Varying);
    assert_eq!(found, [Ok(12), none, none, none, Ok(12), none]);
    for definition in [1 << 16, 1 << 32, usize::MAX] {
        assert_eq!(size_value(&bytes, definition), none);
    }
    assert_eq!(size_value(&edges(&[]), 0), none);
}

#[test]
fn fixed_sizes_take_values_that_are_not_negative() {
    let size = |size: &[u8]| fixed_size_vec(&defined(&[&sized(0, size)]), 0);
    assert_eq!(size(&binary(MUL, &[4, 4], &[4, 3])), found(12, 1, &[]));
    assert_eq!(size(&binary(SUB, &[4, 3], &[4, 3])), found(0, 1, &[]));
    let varying = Err(Refusal::Varying);
    assert_eq!(size(&binary(SUB, &[4, 3], &[4, 4])), varying);
    assert_eq!(size(&binary(DIV, &[4, 3], &[4, 0])), varying);
    assert_eq!(size(&binary(POW, &[4, 3], &[4, 0])), varying);
    assert_eq!(size(&long(1, i64::MIN)), varying);
    assert_eq!(size(&long(1, i64::MAX)), Err(Refusal::Oversized));
}

#[test]
fn refusals_have_numbers_words_and_meanings() {
    for (place, refusal) in Refusal::ALL.into_iter().enumerate() {
        assert_eq!(usize::from(refusal.number()), place + 1);
        assert_eq!(Refusal::from_number(refusal.number()), Some(refusal));
        assert!(!refusal.meaning().is_empty());
    }
    assert_eq!(Refusal::from_number(0), None);
    assert_eq!(Refusal::from_number(16), None);
    assert_eq!(Refusal::OffScale.word(), "off scale");
    assert_eq!(Refusal::ZeroDivisor.number(), 13);
    assert_eq!(
        Refusal::OutOfRange.to_string(),
        "out of range (14): a value below -2^63 or over 2^63 - 1 is met"
    );
    assert_eq!(
        Refusal::Uncovered.to_string(),
        "uncovered (15): an expression of a kind without a value is met"
    );
    assert_eq!(
        Refusal::Circle.to_string(),
        "circle (8): a definition leads, by its TypeRefs, back to itself"
    );
}

/// 256 definitions, each but the last a struct whose one field leads to the next.
fn levels() -> Vec<u8> {
    let mut bytes = vec![0x60, 0, 1, 0, 0, 0, 0];
    for name in 1..=256u16 {
        bytes.push(0x61);
        bytes.extend(name.to_le_bytes());
        if name == 256 {
            bytes.push(0x30);
        } else {
            bytes.extend([0x41, 0, 0, 0, 0, 0, 0, 0, 0, 0, 1, 0, 0x50, 1, 0, 0x40]);
            bytes.extend((name + 1).to_le_bytes());
        }
    }
    bytes
}

#[test]
fn a_thread_with_the_stated_stack_is_enough() {
    // The thread's own start and this closure take a little; include/stack_test.c leaves a call exactly the stated stack.
    let thread = std::thread::Builder::new().stack_size(STACK_BYTES + 65_536);
    let calls = || {
        let bundle = levels();
        assert_eq!(accept(&bundle), Ok(()));
        assert_eq!(report_vec(&bundle), Ok(vec![0x70, 0, 0]));
        assert_eq!(
            renumber_vec(&bundle).map(|bytes| bytes.len()),
            Ok(bundle.len())
        );
        assert_eq!(chain_vec(&bundle, 1, 2), Ok(vec![]));
        let followed = chain_followed_vec(&bundle, 1, 2).map(|found| found.followed);
        assert_eq!(followed, Ok(1));
        assert_eq!(fixed_size_vec(&bundle, 0), found(1, 1, &[0]));
        assert_eq!(size_value(&bundle, 0), Err(Refusal::Varying));
    };
    thread.spawn(calls).unwrap().join().unwrap();
}
