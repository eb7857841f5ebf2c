//! Times of fixed sizes. The first definition is the one that is asked for.

use crate::inputs::{self, array, literal, structure, Worst, U16, U64, U8};
use crate::measure::{seconds, shown};
use crate::shapes::{bundle, define, fields, largest};
use crate::{ratio, row, value_rows, NAME_WIDTH};
use layout_oracle::bundle::*;
use layout_oracle::fixed::fixed_size;
use layout_oracle::generate::pad;

const OWNER: Name = 1;
const TARGET: Name = 2;
const FILLER: Name = 60_000;
/// Definitions that stand beside the first one, with one more that fills the rest.
const MANY: Name = 254;
/// A name that no definition has, equal modulo 256 to those that `alike` gives.
const NOBODY: Name = 256 * MANY + 7;

const PLAUSIBLE: [(&str, Worst); 4] = [
    ("a head of the 140 definitions", realistic_head),
    ("a frame of the 140 definitions", realistic_frame),
    ("a record of twenty fixed frames", inputs::fixed_frames),
    ("the same with sums", value_rows::frames_with_sums),
];

const WORST: [(&str, Worst); 23] = [
    ("a small struct in a large bundle", small_one),
    ("a struct of U8 fields", many_bytes),
    ("a struct of U8 and U64 in turn", many_gaps),
    ("a union of as many members", many_members),
    ("fields that lead to the next definition", to_the_next),
    ("fields that lead to the last definition", to_the_last),
    ("fields that lead to 254 definitions", to_all),
    ("the same with names of few low bytes", to_names_alike),
    ("names of few low bytes, to the next", to_next_alike),
    ("names of few low bytes, to the last", to_last_alike),
    ("names of few low bytes, to nobody", to_nobody),
    ("254 levels, each held twice, of nothing", twice_nothing),
    ("254 levels, each held twice, of U8", twice_bytes),
    ("254 levels the other way round", twice_turned),
    ("structs that hold all later ones", all_later),
    ("a line of 254 TypeRefs", line),
    ("a line of 254 TypeRefs, turned", line_turned),
    ("arrays in arrays down to depth 24", deep),
    ("a struct of arrays with sums", value_rows::fields_with_sums),
    (
        "the same with sums down to depth 24",
        value_rows::fields_with_deep_sums,
    ),
    (
        "a struct of one array, the widest sum",
        value_rows::field_with_wide_sum,
    ),
    (
        "twelve arrays in arrays, wide products",
        value_rows::wide_products_in_arrays,
    ),
    (
        "254 levels, each twice in arrays by sums",
        value_rows::levels_by_sums,
    ),
];

pub fn cases() -> Vec<(&'static str, Bundle)> {
    let all = PLAUSIBLE.into_iter().chain(WORST);
    all.map(|(name, worst)| (name, worst(BYTE_LIMIT))).collect()
}

/// Prints both tables; false where an answer is not the second reading's.
pub fn print() -> bool {
    let same = print_times();
    print_growth();
    same
}

fn print_times() -> bool {
    println!("Fixed sizes, in processor time of one call with a list of as many places as a");
    println!("struct can have fields; the original has nothing like it. `accept` is the time of");
    println!("reading alone, which each call has in it.");
    println!();
    let heads = [
        "bytes",
        "answer",
        "offsets",
        "accept",
        "fixed_size",
        "ratio",
    ];
    println!("{:<NAME_WIDTH$}{}", "case", row(&heads.map(str::to_string)));
    let mut all_same = true;
    for (name, bundle) in cases() {
        let (cells, same) = cells(&bundle);
        println!("{name:<NAME_WIDTH$}{}", row(&cells));
        all_same &= same;
    }
    println!();
    all_same
}

fn call_time(bytes: &[u8]) -> f64 {
    let mut offsets = vec![0; layout::FIELD_LIMIT];
    seconds(|| layout::fixed_size(bytes, 0, &mut offsets))
}

fn cells(bundle: &Bundle) -> (Vec<String>, bool) {
    let bytes = encode(bundle);
    let found = layout::fixed_size_vec(&bytes, 0);
    let due = fixed_size(bundle, 0);
    let (answer, offsets, same) = match (&found, &due) {
        (Ok(found), Ok(due)) => {
            let same = found.size == due.size
                && found.alignment == due.alignment
                && found.offsets == due.offsets;
            (format!("{} bytes", found.size), found.offsets.len(), same)
        }
        (Err(refusal), _) => {
            let number = refusal.number();
            (format!("refusal {number}"), 0, due == Err(number))
        }
        (Ok(found), Err(_)) => (format!("{} bytes", found.size), 0, false),
    };
    let reading = seconds(|| layout::accept(&bytes));
    let whole = call_time(&bytes);
    let answer = if same { answer } else { "DIFFERS".to_string() };
    let mut list = vec![bytes.len().to_string(), answer, offsets.to_string()];
    list.extend([shown(reading), shown(whole), ratio(whole, reading)]);
    (list, same)
}

fn print_growth() {
    println!("Growth of the same from an eighth of a worst case to the whole. Time in step with");
    println!("the bytes gives 8 in the column `time`. Cases with definitions and TypeRefs have");
    println!("more of both at once: looking at each definition for each TypeRef gives some 66.");
    println!();
    let parts = [8, 4, 2, 1];
    let mut heads: Vec<String> = parts
        .iter()
        .map(|part| format!("{} bytes", BYTE_LIMIT / part))
        .collect();
    heads.push("time".to_string());
    println!("{:<NAME_WIDTH$}{}", "case", row(&heads));
    for (name, worst) in WORST {
        let times = parts.map(|part| call_time(&encode(&worst(BYTE_LIMIT / part))));
        let mut cells: Vec<String> = times.iter().map(|time| shown(*time)).collect();
        cells.push(ratio(times[3], times[0]));
        println!("{name:<NAME_WIDTH$}{}", row(&cells));
    }
    println!();
}

/// The first definition of the realistic set is a device's head.
fn realistic_head(_: usize) -> Bundle {
    inputs::realistic(0)
}

/// Its largest struct, which varies, put first.
fn realistic_frame(_: usize) -> Bundle {
    let mut bundle = inputs::realistic(0);
    bundle.definitions.swap(0, 6);
    bundle
}

/// A last definition that brings the bundle to so many bytes.
fn filled(mut bundle: Bundle, bytes: usize) -> Bundle {
    bundle.definitions.push(define(FILLER, U8));
    pad(&mut bundle, bytes);
    bundle
}

/// So many definitions in the largest bundle, and fewer in a smaller one.
fn in_proportion(bytes: usize) -> Name {
    (bytes * MANY as usize / BYTE_LIMIT) as Name
}

fn small_one(bytes: usize) -> Bundle {
    let body = structure(vec![(1, U8), (2, U64)]);
    filled(bundle(vec![define(OWNER, body)]), bytes)
}

fn many_bytes(bytes: usize) -> Bundle {
    largest(bytes, &|count| {
        bundle(vec![define(OWNER, structure(fields(count, U8)))])
    })
}

fn many_gaps(bytes: usize) -> Bundle {
    largest(bytes, &|count| {
        let mut list = fields(count, U8);
        list.iter_mut()
            .skip(1)
            .step_by(2)
            .for_each(|field| field.1 = U64);
        bundle(vec![define(OWNER, structure(list))])
    })
}

fn many_members(bytes: usize) -> Bundle {
    let mut bundle = many_gaps(bytes);
    if let Type::Struct(own, list) = bundle.definitions[0].body.clone() {
        bundle.definitions[0].body = Type::Union(own, list);
    }
    bundle
}

/// A struct of as many fields as there is room for beside so many U8 definitions; the
/// number of a field says where it leads.
fn leading(
    bytes: usize,
    others: Name,
    name: &dyn Fn(Name) -> Name,
    to: &dyn Fn(Name) -> Name,
) -> Bundle {
    largest(bytes, &|count| {
        let mut list = fields(count, U8);
        let numbered = list.iter_mut().zip(0..);
        numbered.for_each(|(field, number)| field.1 = Type::TypeRef(to(number)));
        let mut definitions = vec![define(OWNER, structure(list))];
        definitions.extend((0..others).map(|number| define(name(number), U8)));
        bundle(definitions)
    })
}

fn in_order(number: Name) -> Name {
    TARGET + number
}

fn to_the_next(bytes: usize) -> Bundle {
    leading(bytes, in_proportion(bytes), &in_order, &|_| TARGET)
}

fn to_the_last(bytes: usize) -> Bundle {
    let others = in_proportion(bytes);
    leading(bytes, others, &in_order, &|_| in_order(others - 1))
}

fn to_all(bytes: usize) -> Bundle {
    let others = in_proportion(bytes);
    leading(bytes, others, &in_order, &|number| {
        in_order(number % others)
    })
}

/// All names are equal modulo 256.
fn alike(number: Name) -> Name {
    256 * number + 7
}

fn to_names_alike(bytes: usize) -> Bundle {
    let others = in_proportion(bytes);
    leading(bytes, others, &alike, &|number| alike(number % others))
}

fn to_next_alike(bytes: usize) -> Bundle {
    leading(bytes, in_proportion(bytes), &alike, &|_| alike(0))
}

fn to_last_alike(bytes: usize) -> Bundle {
    let others = in_proportion(bytes);
    leading(bytes, others, &alike, &|_| alike(others - 1))
}

fn to_nobody(bytes: usize) -> Bundle {
    let others = in_proportion(bytes);
    leading(bytes, others, &alike, &|_| NOBODY)
}

fn levels(bytes: usize, last: Type) -> Vec<Definition> {
    let count = in_proportion(bytes);
    let level = |name: Name| {
        let next = Type::TypeRef(name + 1);
        define(name, structure(vec![(1, next.clone()), (2, next)]))
    };
    let mut definitions: Vec<Definition> = (OWNER..count).map(level).collect();
    definitions.push(define(count, last));
    definitions
}

fn twice_nothing(bytes: usize) -> Bundle {
    filled(bundle(levels(bytes, structure(Vec::new()))), bytes)
}

fn twice_bytes(bytes: usize) -> Bundle {
    filled(bundle(levels(bytes, U8)), bytes)
}

/// Each level stands before the one that holds it; the first definition leads to the
/// outermost.
fn twice_turned(bytes: usize) -> Bundle {
    let mut definitions = levels(bytes, structure(Vec::new()));
    definitions.push(define(FILLER - 1, Type::TypeRef(OWNER)));
    definitions.reverse();
    filled(bundle(definitions), bytes)
}

/// Each definition has as many fields as there is room for, which lead to later ones.
fn all_later(bytes: usize) -> Bundle {
    let levels = in_proportion(bytes);
    largest(bytes, &|count| {
        let level = |name: Name| {
            let to = |number: usize| name + 1 + (number as Name * 7) % (levels - name);
            let field = |number| (number as Name, Type::TypeRef(to(number)));
            define(name, structure((0..count).map(field).collect()))
        };
        let mut definitions: Vec<Definition> = (OWNER..levels).map(level).collect();
        definitions.push(define(levels, structure(Vec::new())));
        bundle(definitions)
    })
}

fn line(bytes: usize) -> Bundle {
    let length = in_proportion(bytes);
    let link = |name| define(name, Type::TypeRef(name + 1));
    let mut definitions: Vec<Definition> = (OWNER..=length).map(link).collect();
    let last = structure(vec![(1, U8), (2, U16)]);
    definitions.push(define(length + 1, last));
    filled(bundle(definitions), bytes)
}

fn line_turned(bytes: usize) -> Bundle {
    let mut bundle = line(bytes);
    let last = bundle.definitions.len() - 1;
    bundle.definitions[1..last].reverse();
    bundle
}

/// A struct of arrays in arrays, of which the innermost elements have depth 24.
fn deep(bytes: usize) -> Bundle {
    largest(bytes, &|count| {
        let inner = (0..22).fold(U8, |inner, _| array(literal(1), inner));
        bundle(vec![define(OWNER, structure(fields(count, inner)))])
    })
}
