//! Random bundles whose edges are made for searches: several ways of one length, edges
//! alike, loops, circles and parts that nothing leads to, up to 1,024 edges.

use crate::bundle::*;
use crate::generate;
use crate::random::Random;
use std::collections::HashSet;

type Pair = (usize, usize);

/// A sound bundle of up to 1,024 edges, with definitions now and then.
pub fn searched(random: &mut Random) -> Bundle {
    let most = match random.below(100) {
        0..=69 => random.between(1, 30),
        70..=94 => random.between(20, 120),
        _ => random.pick(&[300, 700, 1_000, EDGE_LIMIT, EDGE_LIMIT, EDGE_LIMIT]),
    };
    let mut bundle = match random.chance(15) {
        true => generate::valid(random),
        false => Bundle::default(),
    };
    bundle.edges = edges(random, most);
    if encode(&bundle).len() > BYTE_LIMIT {
        bundle.definitions.clear();
    }
    bundle
}

/// A bundle of a few edges and no definitions.
pub fn small_searched(random: &mut Random) -> Bundle {
    let most = random.between(1, 14);
    Bundle {
        edges: edges(random, most),
        ..Bundle::default()
    }
}

fn edges(random: &mut Random, most: usize) -> Vec<Edge> {
    let mut pairs = shape(random, most);
    add_others(random, &mut pairs, most);
    match random.below(6) {
        0 => {}
        1 => pairs.reverse(),
        2 => pairs.sort_by_key(|(from, to)| (*to, *from)),
        _ => random.shuffle(&mut pairs),
    }
    pairs.truncate(most);
    let last = pairs.iter().map(|(from, to)| *from.max(to)).max();
    let names = names(random, last.unwrap_or(0) + 1);
    let edge = |(from, to): &Pair| Edge {
        from: names[*from],
        to: names[*to],
        kind: 0,
    };
    let mut edges: Vec<Edge> = pairs.iter().map(edge).collect();
    for edge in &mut edges {
        edge.kind = random.below(4) as u8;
    }
    edges
}

/// Edges of one form, about as many as there may be; the start is place 0.
fn shape(random: &mut Random, most: usize) -> Vec<Pair> {
    match random.below(10) {
        0 | 1 => among(random, most),
        2 | 3 => layered(random, most),
        4 => diamonds(random, most),
        5 => grid(random, most),
        6 => tree(random, most),
        7 => line(most),
        8 => circle(random, most),
        _ => star(random, most),
    }
}

/// Between any two of some names, few or as many as there are edges.
fn among(random: &mut Random, most: usize) -> Vec<Pair> {
    let few = 2 + most.isqrt();
    let names = random.pick(&[few, few, 2 * few, most + 1]);
    let pair = |_| (random.below(names), random.below(names));
    (0..most).map(pair).collect()
}

/// Layers of one width behind the start, with all or some edges from each to the next.
fn layered(random: &mut Random, most: usize) -> Vec<Pair> {
    let width = random.pick(&[2, 2, 3, 4, 8, 31]).min(1 + most / 2);
    let share = random.pick(&[100, 100, 70, 40]);
    let mut pairs: Vec<Pair> = (0..width).map(|at| (0, 1 + at)).collect();
    let mut first = 1;
    // Edges that are left out make no layer wider, and there is an end to layers.
    while pairs.len() < most && first < 4 * most {
        for (from, to) in (0..width).flat_map(|f| (0..width).map(move |t| (f, t))) {
            if random.chance(share) {
                pairs.push((first + from, first + width + to));
            }
        }
        first += width;
    }
    pairs
}

/// A line in which each step has two or three ways of the same length.
fn diamonds(random: &mut Random, most: usize) -> Vec<Pair> {
    let ways = random.between(2, 3);
    let mut pairs = Vec::new();
    let mut at = 0;
    while pairs.len() + 2 * ways <= most.max(2 * ways) {
        let end = at + ways + 1;
        (at + 1..end).for_each(|middle| pairs.extend([(at, middle), (middle, end)]));
        at = end;
    }
    pairs
}

fn grid(random: &mut Random, most: usize) -> Vec<Pair> {
    let side = (most / 2).isqrt().max(1);
    let width = random.pick(&[side, side, 2, 3]).max(1);
    let height = (most / (2 * width)).max(1);
    let place = |row: usize, column: usize| row * (width + 1) + column;
    let mut pairs = Vec::new();
    for (row, column) in (0..height).flat_map(|r| (0..width).map(move |c| (r, c))) {
        pairs.push((place(row, column), place(row, column + 1)));
        pairs.push((place(row, column), place(row + 1, column)));
    }
    pairs
}

/// Each name has an edge from one before it, with so many from each or from any.
fn tree(random: &mut Random, most: usize) -> Vec<Pair> {
    let branches = random.pick(&[0, 1, 2, 3, 10]);
    let before = |random: &mut Random, name: usize| match branches {
        0 => random.below(name),
        _ => (name - 1) / branches,
    };
    (1..=most)
        .map(|name| (before(random, name), name))
        .collect()
}

fn line(most: usize) -> Vec<Pair> {
    (0..most).map(|at| (at, at + 1)).collect()
}

/// A circle with some edges across it.
fn circle(random: &mut Random, most: usize) -> Vec<Pair> {
    let across = random.below(1 + most / 3);
    let names = (most - across).max(1);
    let mut pairs: Vec<Pair> = (0..names).map(|at| (at, (at + 1) % names)).collect();
    (0..across).for_each(|_| pairs.push((random.below(names), random.below(names))));
    pairs
}

/// From the start to all, and from some of them to one name more or to a few.
fn star(random: &mut Random, most: usize) -> Vec<Pair> {
    let rays = (1 + most).div_ceil(2);
    let ends = random.pick(&[1, 1, 2, 5]);
    let mut pairs: Vec<Pair> = (1..=rays).map(|name| (0, name)).collect();
    let inward = (0..most - rays.min(most)).map(|at| (1 + at, rays + 1 + at % ends));
    pairs.extend(inward);
    pairs
}

/// Loops, edges alike, edges back, and a part of its own, in the place of others.
fn add_others(random: &mut Random, pairs: &mut Vec<Pair>, most: usize) {
    if pairs.is_empty() || random.chance(30) {
        return;
    }
    let last = pairs.iter().map(|(from, to)| *from.max(to)).max();
    let apart = last.unwrap_or(0) + 1;
    let others = random.between(1, 2 + most / 8);
    for _ in 0..others {
        let (from, to) = random.pick(pairs);
        let one = match random.below(5) {
            0 => (from, from),
            1 | 2 => (from, to),
            3 => (to, from),
            _ => (apart + random.below(3), apart + random.below(3)),
        };
        let at = random.below(pairs.len() + 1);
        pairs.insert(at, one);
    }
    while pairs.len() > most {
        pairs.swap_remove(random.below(pairs.len()));
    }
}

/// So many different names: small ones, such as are equal modulo 256, or any; mixed.
fn names(random: &mut Random, count: usize) -> Vec<Name> {
    let mut names: Vec<Name> = match random.below(10) {
        0..=4 => (0..count + 3).map(|name| name as Name).collect(),
        5 | 6 => {
            let low = random.below(200);
            let all = 256 * count.div_ceil(256);
            let alike = |at: usize| (at % 256) << 8 | (low + at / 256);
            (0..all).map(|at| alike(at) as Name).collect()
        }
        _ => {
            let mut seen = HashSet::from([0, 65_535]);
            while seen.len() < count {
                seen.insert(random.bits() as Name);
            }
            seen.into_iter().collect()
        }
    };
    // The order of a set is not the same in every run.
    names.sort_unstable();
    random.shuffle(&mut names);
    names
}
