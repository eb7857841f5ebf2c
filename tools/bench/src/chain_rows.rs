//! Times of chains: near and far names of one set, and listings of many chains. All rows
//! have the time of `chain`, so that a library without the count can be measured too.

use crate::inputs::{self, U8};
use crate::measure::{seconds, shown};
use crate::shapes::{bundle, define};
use crate::{ratio, row, NAME_WIDTH};
use layout_oracle::bundle::*;
use layout_oracle::followed::{Chains, Followed};
use layout_oracle::generate::pad;

/// The start of every set that is made here, and a name of an edge that is not reached.
const START: Name = 1;
const UNREACHED: Name = 65_535;

/// Edges of about this number, exactly so for the largest.
type Family = fn(usize) -> Bundle;

const FAMILIES: [(&str, Family); 12] = [
    ("a star", star),
    ("a star, each ray goes on", two_steps),
    ("a line", line),
    ("a line, last edge first", turned_line),
    ("a grid", grid),
    ("a tree of two branches", binary_tree),
    ("complete layers", layers),
    ("all edges between 32 names", complete),
    ("edges alike", alike),
    ("a line of names in few buckets", bucket_line),
    ("a star of names in few buckets", bucket_star),
    ("a line in 32,768 bytes", full_line),
];

/// The largest set of winches that the limits allow.
const MOST_WINCHES: Name = 34;

/// The bundles that no other table has.
pub fn cases() -> Vec<(&'static str, Bundle)> {
    let mut list = large();
    list.push(("34 winches", inputs::winches(MOST_WINCHES, 0)));
    list
}

fn large() -> Vec<(&'static str, Bundle)> {
    let families = FAMILIES.map(|(name, family)| (name, family(EDGE_LIMIT)));
    families.into_iter().collect()
}

/// Prints the tables; false where an answer is not the second reading's.
pub fn print() -> bool {
    let realistic = print_realistic();
    let listings = print_listings();
    let large = print_large();
    print_growth();
    realistic && listings && large
}

fn print_head(first: &str) {
    let mut heads = vec!["edges", "names", "count", "accept", "chain", "ratio"];
    if COUNTED {
        heads.extend(["with count", "ratio"]);
    }
    let heads: Vec<String> = heads.into_iter().map(str::to_string).collect();
    println!("{first:<NAME_WIDTH$}{}", row(&heads));
}

fn print_realistic() -> bool {
    println!("Chains in the twenty winches, in processor time of one call. `names` is the length");
    println!("of the chain and `count` the number of names whose edges are followed. `accept` is");
    println!("the time of reading alone, which each call has in it.");
    println!();
    print_head("case");
    let bundle = inputs::realistic(0);
    let own = inputs::searched(0);
    let other = inputs::searched(1);
    let asked = [
        ("a frame to its head", own.frame, own.head),
        ("a frame to its tension", own.frame, own.tension),
        ("a frame to another head", own.frame, other.head),
        ("a frame to another frame: none", own.frame, other.frame),
        ("a head to its frame: none", own.head, own.frame),
    ];
    let mut same = true;
    for (name, from, to) in asked {
        same &= print_search(name, &bundle, from, to);
    }
    println!();
    same
}

/// The row of one search; whether the answers are the second reading's.
fn print_search(name: &str, bundle: &Bundle, from: Name, to: Name) -> bool {
    let bytes = encode(bundle);
    let due = Chains::new(bundle, from).to(to);
    let same = is_due(&bytes, from, to, &due);
    let mut list = [0; layout::CHAIN_LIMIT];
    let reading = seconds(|| layout::accept(&bytes));
    let chain = seconds(|| layout::chain(&bytes, from, to, &mut list));
    let mut cells = [bundle.edges.len(), due.names.len(), due.followed]
        .map(|number| number.to_string())
        .to_vec();
    cells.extend([shown(reading), shown(chain), ratio(chain, reading)]);
    if let Some(counted) = counted_time(&bytes, from, to) {
        cells.extend([shown(counted), ratio(counted, reading)]);
    }
    if !same {
        cells.push("DIFFERS".to_string());
    }
    println!("{name:<NAME_WIDTH$}{}", row(&cells));
    same
}

#[cfg(not(without_count))]
const COUNTED: bool = true;
#[cfg(without_count)]
const COUNTED: bool = false;

#[cfg(not(without_count))]
fn counted_time(bytes: &[u8], from: Name, to: Name) -> Option<f64> {
    let mut list = [0; layout::CHAIN_LIMIT];
    let call = || layout::chain_followed(bytes, from, to, &mut list);
    Some(seconds(call))
}

#[cfg(without_count)]
fn counted_time(_: &[u8], _: Name, _: Name) -> Option<f64> {
    None
}

#[cfg(not(without_count))]
fn is_due(bytes: &[u8], from: Name, to: Name, due: &Followed) -> bool {
    let found = layout::chain_followed_vec(bytes, from, to);
    let same = found.is_ok_and(|found| found.names == due.names && found.followed == due.followed);
    same && layout::chain_vec(bytes, from, to) == Ok(due.names.clone())
}

#[cfg(without_count)]
fn is_due(bytes: &[u8], from: Name, to: Name, due: &Followed) -> bool {
    layout::chain_vec(bytes, from, to) == Ok(due.names.clone())
}

/// Each listing is one call of `chain` for each pair of names.
fn print_listings() -> bool {
    println!("Listings of chains: `chain` called for each pair, in processor time of all calls.");
    println!();
    let heads = ["edges", "calls", "chains", "names", "all", "one call"];
    println!("{:<NAME_WIDTH$}{}", "case", row(&heads.map(str::to_string)));
    let realistic = inputs::realistic(0);
    let largest = inputs::winches(MOST_WINCHES, 0);
    let line = line(EDGE_LIMIT);
    let tree = binary_tree(EDGE_LIMIT);
    let listings = [
        ("twenty winches, frames to all", &realistic, frames(20)),
        (
            "twenty winches, all to all",
            &realistic,
            defined(&realistic),
        ),
        ("34 winches, frames to all", &largest, frames(MOST_WINCHES)),
        ("34 winches, all to all", &largest, defined(&largest)),
        ("a line, its start to all", &line, vec![START]),
        ("a tree, its start to all", &tree, vec![START]),
    ];
    let mut same = true;
    for (name, bundle, starts) in listings {
        same &= print_listing(name, bundle, &starts);
    }
    println!();
    same
}

fn frames(count: Name) -> Vec<Name> {
    let frame = |number| inputs::searched(number).frame;
    (0..count).map(frame).collect()
}

fn defined(bundle: &Bundle) -> Vec<Name> {
    let names = bundle.definitions.iter().map(|found| found.name);
    names.collect()
}

/// From each start to each definition, or to each end of an edge where there are none.
fn print_listing(name: &str, bundle: &Bundle, starts: &[Name]) -> bool {
    let bytes = encode(bundle);
    let ends = match bundle.definitions.is_empty() {
        true => bundle.edges.iter().map(|edge| edge.to).collect(),
        false => defined(bundle),
    };
    let mut list = [0; layout::CHAIN_LIMIT];
    let mut listing = || {
        let (mut chains, mut names) = (0, 0);
        for (from, to) in starts.iter().flat_map(|f| ends.iter().map(move |t| (f, t))) {
            let length = layout::chain(&bytes, *from, *to, &mut list).unwrap_or(0);
            chains += usize::from(length > 0);
            names += length;
        }
        (chains, names)
    };
    let found = listing();
    let time = seconds(listing);
    let due = due_listing(bundle, starts, &ends);
    let calls = starts.len() * ends.len();
    let numbers = [bundle.edges.len(), calls, found.0, found.1];
    let mut cells = numbers.map(|number| number.to_string()).to_vec();
    cells.extend([shown(time), shown(time / calls as f64)]);
    if found != due {
        cells.push("DIFFERS".to_string());
    }
    println!("{name:<NAME_WIDTH$}{}", row(&cells));
    found == due
}

/// How many chains there are in a listing, and how many names they have together.
fn due_listing(bundle: &Bundle, starts: &[Name], ends: &[Name]) -> (usize, usize) {
    let (mut chains, mut names) = (0, 0);
    for from in starts {
        let from = Chains::new(bundle, *from);
        for length in ends.iter().map(|to| from.to(*to).names.len()) {
            chains += usize::from(length > 0);
            names += length;
        }
    }
    (chains, names)
}

/// The names of a set that are asked for: the first and the last by their chains, and one
/// that is not reached.
fn print_large() -> bool {
    println!(
        "Chains in sets of 1,024 edges: to the nearest name, to the farthest, and to one that"
    );
    println!("is not reached, which has an edge in the place of one to the farthest. The columns");
    println!("are as above.");
    println!();
    print_head("case");
    let mut same = true;
    for (name, bundle) in large() {
        let (near, far) = near_and_far(&bundle);
        same &= print_search(&format!("{name}: near"), &bundle, START, near);
        same &= print_search(&format!("{name}: far"), &bundle, START, far);
        let apart = with_unreached(bundle, far);
        same &= print_search(&format!("{name}: none"), &apart, START, UNREACHED);
    }
    println!();
    same
}

/// An edge to the farthest name becomes one between two names that nothing leads to.
fn with_unreached(mut bundle: Bundle, far: Name) -> Bundle {
    let last = bundle.edges.iter_mut().find(|edge| edge.to == far);
    *last.expect("an edge leads to it") = Edge {
        from: UNREACHED - 1,
        to: UNREACHED,
        kind: 0,
    };
    bundle
}

fn near_and_far(bundle: &Bundle) -> (Name, Name) {
    let chains = Chains::new(bundle, START);
    let order = chains.order();
    (order[1], order[order.len() - 1])
}

fn print_growth() {
    println!(
        "Growth of `chain` to the farthest name from an eighth of these edges to all. Time in"
    );
    println!("step with the edges gives 8 in the column `time`.");
    println!();
    let parts = [8, 4, 2, 1];
    let mut heads: Vec<String> = parts
        .iter()
        .map(|part| format!("{} edges", EDGE_LIMIT / part))
        .collect();
    heads.push("time".to_string());
    println!("{:<NAME_WIDTH$}{}", "case", row(&heads));
    let mut list = [0; layout::CHAIN_LIMIT];
    for (name, family) in FAMILIES {
        let times = parts.map(|part| {
            let bundle = family(EDGE_LIMIT / part);
            let (bytes, (_, far)) = (encode(&bundle), near_and_far(&bundle));
            seconds(|| layout::chain(&bytes, START, far, &mut list))
        });
        let mut cells: Vec<String> = times.iter().map(|time| shown(*time)).collect();
        cells.push(ratio(times[3], times[0]));
        println!("{name:<NAME_WIDTH$}{}", row(&cells));
    }
    println!();
}

fn edges(pairs: impl Iterator<Item = (usize, usize)>) -> Bundle {
    let edge = |(from, to): (usize, usize)| Edge {
        from: from as Name,
        to: to as Name,
        kind: 0,
    };
    Bundle {
        edges: pairs.map(edge).collect(),
        ..Bundle::default()
    }
}

fn star(count: usize) -> Bundle {
    edges((0..count).map(|at| (1, 2 + at)))
}

/// Half of the edges go out, and half from there to as many names.
fn two_steps(count: usize) -> Bundle {
    let rays = count / 2;
    let out = (0..rays).map(|at| (1, 2 + at));
    edges(out.chain((0..rays).map(|at| (2 + at, 2 + rays + at))))
}

fn line(count: usize) -> Bundle {
    edges((0..count).map(|at| (1 + at, 2 + at)))
}

fn turned_line(count: usize) -> Bundle {
    edges((0..count).rev().map(|at| (1 + at, 2 + at)))
}

/// Half as many places as edges, in rows, with an edge to the right and one down.
fn grid(count: usize) -> Bundle {
    const WIDTH: usize = 16;
    let place = |row: usize, column: usize| 1 + row * (WIDTH + 1) + column;
    let places = (0..count / 2).map(|at| (at / WIDTH, at % WIDTH));
    edges(places.flat_map(|(row, column)| {
        let own = place(row, column);
        [(own, place(row, column + 1)), (own, place(row + 1, column))]
    }))
}

fn binary_tree(count: usize) -> Bundle {
    edges((0..count).map(|at| (1 + at / 2, 2 + at)))
}

/// Layers of eight names, each with an edge to each name of the next.
fn layers(count: usize) -> Bundle {
    const WIDTH: usize = 8;
    let first = (0..WIDTH).map(|at| (1, 2 + at));
    let others = (0..count - WIDTH).map(|at| {
        let layer = 2 + at / (WIDTH * WIDTH) * WIDTH;
        (layer + at / WIDTH % WIDTH, layer + WIDTH + at % WIDTH)
    });
    edges(first.chain(others))
}

/// From each of so many names to each, loops included.
fn complete(count: usize) -> Bundle {
    let names = count.isqrt();
    edges((0..names * names).map(|at| (1 + at / names, 1 + at % names)))
}

/// A line in which each step has 64 edges, half of them behind all others.
fn alike(count: usize) -> Bundle {
    let half = count / 2;
    let doubled = (0..half).map(|at| (1 + at / 32, 2 + at / 32));
    edges(doubled.clone().chain(doubled))
}

/// The name of a number: those of 256 numbers in turn are equal modulo 256.
fn bucketed(bundle: Bundle) -> Bundle {
    let name = |name: Name| match name {
        START => START,
        _ => name % 256 << 8 | (2 + name / 256),
    };
    let edge = |edge: &Edge| Edge {
        from: name(edge.from),
        to: name(edge.to),
        kind: edge.kind,
    };
    Bundle {
        edges: bundle.edges.iter().map(edge).collect(),
        ..bundle
    }
}

fn bucket_line(count: usize) -> Bundle {
    bucketed(line(count))
}

fn bucket_star(count: usize) -> Bundle {
    bucketed(star(count))
}

/// The line behind a definition that fills the bundle.
fn full_line(count: usize) -> Bundle {
    let mut full = bundle(vec![define(60_000, U8)]);
    full.edges = line(count).edges;
    pad(&mut full, BYTE_LIMIT / EDGE_LIMIT * count);
    full
}
