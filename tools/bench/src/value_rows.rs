//! Times of values. The first definition is the one that is asked for. The bundles with
//! sums for fixed sizes are here too; `fixed_rows.rs` has them in its tables.

use crate::inputs::{self, array, literal, structure, Worst, U16, U8};
use crate::measure::{seconds, shown};
use crate::shapes::{bundle, define, fields, largest};
use crate::{ratio, row, NAME_WIDTH};
use layout_oracle::bundle::*;
use layout_oracle::value::size_value;
use layout_oracle::value_generate::LEVELS;

const OWNER: Name = 1;
const ADD: u8 = 0x10;
const MUL: u8 = 0x12;
const DIV: u8 = 0x13;
const MOD: u8 = 0x14;
const EQ: u8 = 0x1B;

const PLAUSIBLE: [(&str, Worst); 2] = [
    ("4 times 3 and nothing else", alone),
    ("an array of the 140 definitions, sums", plausible),
];

const WORST: [(&str, Worst); 10] = [
    ("a sum of two in a large bundle", small_sum),
    ("a sum down to depth 24 on the left", left_sum),
    ("a sum down to depth 24 on the right", right_sum),
    ("the same with Mul", products),
    ("the same with Div", quotients),
    ("the same with Eq", equations),
    ("a sum of remainders", remainders),
    ("a sum of U64 literals", wide_literals),
    ("a sum with a FieldRef as its last", last_uncovered),
    ("254 arrays, sums down to depth 24", many_sums),
];

pub fn cases() -> Vec<(&'static str, Bundle)> {
    let all = PLAUSIBLE.into_iter().chain(WORST);
    all.map(|(name, worst)| (name, worst(BYTE_LIMIT))).collect()
}

/// Prints both tables; false where an answer is not the second reading's.
pub fn print() -> bool {
    let same = print_times();
    print_growth();
    same
}

fn print_times() -> bool {
    println!("Values of sizes, in processor time of one call. `accept` is the time of reading");
    println!("alone, which each call has in it.");
    println!();
    let heads = ["bytes", "answer", "accept", "size_value", "ratio"];
    println!("{:<NAME_WIDTH$}{}", "case", row(&heads.map(str::to_string)));
    let mut all_same = true;
    for (name, bundle) in cases() {
        let (cells, same) = cells(&bundle);
        println!("{name:<NAME_WIDTH$}{}", row(&cells));
        all_same &= same;
    }
    println!();
    all_same
}

fn call_time(bytes: &[u8]) -> f64 {
    seconds(|| layout::size_value(bytes, 0))
}

fn cells(bundle: &Bundle) -> (Vec<String>, bool) {
    let bytes = encode(bundle);
    let found = layout::size_value(&bytes, 0).map_err(|refusal| refusal.number());
    let same = found == size_value(bundle, 0);
    let answer = match found {
        _ if !same => "DIFFERS".to_string(),
        Ok(value) => value.to_string(),
        Err(number) => format!("refusal {number}"),
    };
    let reading = seconds(|| layout::accept(&bytes));
    let whole = call_time(&bytes);
    let mut list = vec![bytes.len().to_string(), answer];
    list.extend([shown(reading), shown(whole), ratio(whole, reading)]);
    (list, same)
}

fn print_growth() {
    println!("Growth of the same from an eighth of a worst case to the whole. Time in step with");
    println!("the bytes gives 8 in the column `time`.");
    println!();
    let parts = [8, 4, 2, 1];
    let mut heads: Vec<String> = parts
        .iter()
        .map(|part| format!("{} bytes", BYTE_LIMIT / part))
        .collect();
    heads.push("time".to_string());
    println!("{:<NAME_WIDTH$}{}", "case", row(&heads));
    for (name, worst) in WORST {
        let times = parts.map(|part| call_time(&encode(&worst(BYTE_LIMIT / part))));
        let mut cells: Vec<String> = times.iter().map(|time| shown(*time)).collect();
        cells.push(ratio(times[3], times[0]));
        println!("{name:<NAME_WIDTH$}{}", row(&cells));
    }
    println!();
}

fn binary(kind: u8, left: Expr, right: Expr) -> Expr {
    Expr::Binary(kind, Box::new(left), Box::new(right))
}

/// 4 times 3.
fn twelve() -> Expr {
    binary(MUL, literal(4), literal(3))
}

/// Operations on so many equal leaves, down to the last level where there are leaves
/// enough, and as wide below as it takes. Each has one operand that is as large as the
/// levels allow.
fn tree(kind: u8, leaves: usize, levels: usize, leaf: &Expr, on_left: bool) -> Expr {
    if leaves == 1 {
        return leaf.clone();
    }
    let most = (leaves - 1).min(1 << (levels - 2));
    let large = tree(kind, most, levels - 1, leaf, on_left);
    let rest = tree(kind, leaves - most, levels - 1, leaf, on_left);
    match on_left {
        true => binary(kind, large, rest),
        false => binary(kind, rest, large),
    }
}

fn sum(leaves: usize, levels: usize) -> Expr {
    tree(ADD, leaves, levels, &literal(1), true)
}

fn one(size: Expr) -> Bundle {
    bundle(vec![define(OWNER, array(size, U8))])
}

/// One array with as many leaves in its size as there is room for.
fn widest(bytes: usize, kind: u8, leaf: Expr, levels: usize, on_left: bool) -> Bundle {
    largest(bytes, &|count| {
        one(tree(kind, count, levels, &leaf, on_left))
    })
}

fn alone(_: usize) -> Bundle {
    one(twelve())
}

/// The set of the reports with a sum of two or three literals as the size of each array.
fn plausible(_: usize) -> Bundle {
    let mut bundle = inputs::realistic(0);
    let mut sizes = 0;
    for definition in &mut bundle.definitions {
        put_sums(&mut definition.body, &mut sizes);
    }
    bundle.definitions.swap(0, 3);
    bundle
}

/// The size of each array becomes one of three sums in turn.
fn put_sums(part: &mut Type, sizes: &mut usize) {
    match part {
        Type::Primitive(_) | Type::TypeRef(_) => {}
        Type::Array(_, _, size, element) => {
            *size = match *sizes % 3 {
                0 => twelve(),
                1 => binary(ADD, binary(MUL, literal(8), literal(2)), literal(1)),
                _ => binary(ADD, literal(20), literal(4)),
            };
            *sizes += 1;
            put_sums(element, sizes);
        }
        Type::Struct(_, list)
        | Type::Union(_, list)
        | Type::Enum(_, _, list)
        | Type::SizeUnion(_, list) => list
            .iter_mut()
            .for_each(|member| put_sums(&mut member.member_type, sizes)),
    }
}

fn small_sum(bytes: usize) -> Bundle {
    let filler = |count| define(OWNER + 1, structure(fields(count, U8)));
    largest(bytes, &|count| {
        bundle(vec![define(OWNER, array(twelve(), U8)), filler(count)])
    })
}

fn left_sum(bytes: usize) -> Bundle {
    widest(bytes, ADD, literal(1), LEVELS, true)
}

fn right_sum(bytes: usize) -> Bundle {
    widest(bytes, ADD, literal(1), LEVELS, false)
}

fn products(bytes: usize) -> Bundle {
    widest(bytes, MUL, literal(1), LEVELS, true)
}

fn quotients(bytes: usize) -> Bundle {
    widest(bytes, DIV, literal(1), LEVELS, true)
}

fn equations(bytes: usize) -> Bundle {
    widest(bytes, EQ, literal(1), LEVELS, true)
}

/// The remainders have a level of their own below the sum.
fn remainders(bytes: usize) -> Bundle {
    let remainder = binary(MOD, literal(100), literal(7));
    widest(bytes, ADD, remainder, LEVELS - 1, true)
}

fn wide_literals(bytes: usize) -> Bundle {
    widest(bytes, ADD, Expr::Literal(1, 1_000_000), LEVELS, true)
}

fn last_uncovered(bytes: usize) -> Bundle {
    largest(bytes, &|count| {
        let all = sum(count, LEVELS - 1);
        one(binary(ADD, all, Expr::FieldRef(vec![OWNER])))
    })
}

fn many_sums(bytes: usize) -> Bundle {
    let count = (bytes * 254 / BYTE_LIMIT) as Name;
    largest(bytes, &|leaves| {
        let body = array(sum(leaves, LEVELS), U8);
        let one = |name| define(name, body.clone());
        bundle((OWNER..OWNER + count).map(one).collect())
    })
}

/// The record of twenty frames with a sum as the size of each array.
pub fn frames_with_sums(bytes: usize) -> Bundle {
    let mut bundle = inputs::fixed_frames(bytes);
    let mut sizes = 0;
    for definition in &mut bundle.definitions {
        put_sums(&mut definition.body, &mut sizes);
    }
    bundle
}

/// A struct of as many arrays as there is room for.
pub fn fields_with_sums(bytes: usize) -> Bundle {
    largest(bytes, &|count| {
        let list = fields(count, array(twelve(), U16));
        bundle(vec![define(OWNER, structure(list))])
    })
}

/// The same with a size that goes from depth 3 down to depth 24.
pub fn fields_with_deep_sums(bytes: usize) -> Bundle {
    let levels = LEVELS - 1;
    largest(bytes, &|count| {
        let list = fields(count, array(sum(levels, levels), U16));
        bundle(vec![define(OWNER, structure(list))])
    })
}

/// A struct of one array with the widest size.
pub fn field_with_wide_sum(bytes: usize) -> Bundle {
    largest(bytes, &|count| {
        let list = fields(1, array(sum(count, LEVELS - 1), U8));
        bundle(vec![define(OWNER, structure(list))])
    })
}

/// Twelve arrays in arrays, each with a wide product of ones as its size.
pub fn wide_products_in_arrays(bytes: usize) -> Bundle {
    const ARRAYS: usize = 12;
    largest(bytes, &|count| {
        let wrapped = |inner, _| {
            let size = tree(MUL, count, LEVELS - ARRAYS, &literal(1), true);
            array(size, inner)
        };
        let list = fields(1, (0..ARRAYS).fold(U8, wrapped));
        bundle(vec![define(OWNER, structure(list))])
    })
}

/// Structs of which each holds an array of the next twice, down to a U8. The arrays are
/// of no elements.
pub fn levels_by_sums(bytes: usize) -> Bundle {
    let count = (bytes * 254 / BYTE_LIMIT) as Name;
    largest(bytes, &|leaves| {
        let level = |name: Name| {
            let nothing = binary(MUL, literal(0), sum(leaves, LEVELS - 2));
            let next = array(nothing, Type::TypeRef(name + 1));
            define(name, structure(vec![(1, next.clone()), (2, next)]))
        };
        let mut definitions: Vec<Definition> = (OWNER..count).map(level).collect();
        definitions.push(define(count, U8));
        bundle(definitions)
    })
}
