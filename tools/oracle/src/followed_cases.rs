//! Cases of counts to store, and the bundles and names that counts are compared on.

use crate::bundle::*;
use crate::followed::{answer_bytes, followed_answer, Chains};
use crate::followed_examples::examples;
use crate::followed_generate::{searched, small_searched};
use crate::random::Random;
use crate::{damage, generate};
use std::collections::HashSet;

/// How many cases must show a refusal, and an answer of each sort.
const EACH_REFUSAL: usize = 2;
const EACH_ANSWER: usize = 25;
const USUAL_LENGTH: usize = 400;

#[derive(Clone, PartialEq, Eq, Hash)]
pub struct FollowedCase {
    pub from: Name,
    pub to: Name,
    pub bundle: Vec<u8>,
    pub answer: Vec<u8>,
}

fn case(from: Name, to: Name, bundle: Vec<u8>) -> FollowedCase {
    let answer = answer_bytes(&followed_answer(&bundle, from, to, usize::MAX));
    FollowedCase {
        from,
        to,
        bundle,
        answer,
    }
}

/// At least `count` cases; more only where fewer could not show everything. The examples
/// come first, with the answers that were worked out by hand, but for those with a list
/// that is too short.
pub fn followed_cases(seed: u64, count: usize) -> Vec<FollowedCase> {
    let mut random = Random::new(seed);
    let mut list = List::default();
    let wide = |room: usize| room > EDGE_LIMIT;
    for example in examples().into_iter().filter(|found| wide(found.room)) {
        list.add(FollowedCase {
            from: example.from,
            to: example.to,
            bundle: example.bytes,
            answer: answer_bytes(&example.answer),
        });
    }
    // The examples show no share of what is random.
    list.answers = [0; ANSWERS];
    while list.missing() {
        let found = candidate(&mut random);
        if list.wants(sort_of(&found)) {
            list.add(found);
        }
    }
    while list.cases.len() < count {
        list.add(candidate(&mut random));
    }
    list.cases
}

fn candidate(random: &mut Random) -> FollowedCase {
    loop {
        let bytes = match random.below(8) {
            0 => followed_bytes(random),
            1 => {
                let bundle = small_searched(random);
                damage::damaged_from(random, &bundle)
            }
            2..=4 => encode(&searched(random)),
            _ => encode(&small_searched(random)),
        };
        if bytes.len() < USUAL_LENGTH {
            let bundle = crate::reader::read(&bytes).unwrap_or_default();
            let from = some_start(random, &bundle);
            let to = some_end(random, &bundle, &Chains::new(&bundle, from));
            return case(from, to, bytes);
        }
    }
}

/// Bytes for a comparison: mostly a bundle made for searches, now and then one made for
/// the checks, and damaged ones.
pub fn followed_bytes(random: &mut Random) -> Vec<u8> {
    match random.below(20) {
        0..=15 => encode(&searched(random)),
        16 => encode(&generate::any(random)),
        17 => damage::damaged(random),
        _ => {
            let bundle = match random.chance(70) {
                true => small_searched(random),
                false => searched(random),
            };
            damage::damaged_from(random, &bundle)
        }
    }
}

/// Mostly a name from which an edge leads, and often one to which none leads; else one of
/// a definition, or any.
pub fn some_start(random: &mut Random, bundle: &Bundle) -> Name {
    let mut names = [0, 1, 65_535, random.bits() as Name].to_vec();
    names.extend(bundle.definitions.iter().map(|found| found.name));
    let other = random.pick(&names);
    if bundle.edges.is_empty() {
        return other;
    }
    let edge = bundle.edges[random.below(bundle.edges.len())];
    match random.below(20) {
        0..=9 => edge.from,
        10..=15 => a_first(bundle).unwrap_or(edge.from),
        16..=18 => edge.to,
        _ => other,
    }
}

/// A name from which an edge leads and to which none does.
fn a_first(bundle: &Bundle) -> Option<Name> {
    let ends: HashSet<Name> = bundle.edges.iter().map(|edge| edge.to).collect();
    let mut starts = bundle.edges.iter().map(|edge| edge.from);
    starts.find(|name| !ends.contains(name))
}

/// Mostly a name that is reached, near or far; else the start, one of an edge, or any.
pub fn some_end(random: &mut Random, bundle: &Bundle, chains: &Chains) -> Name {
    let reached = chains.order();
    let last = reached.len() - 1;
    match random.below(20) {
        0..=8 if last > 0 => reached[random.between(1, last)],
        9..=11 if last > 0 => reached[last],
        12 if last > 0 => reached[1],
        13 => reached[0],
        0..=17 if !bundle.edges.is_empty() => {
            let edge = bundle.edges[random.below(bundle.edges.len())];
            random.pick(&[edge.from, edge.to])
        }
        18 => random.pick(&[0, 1, 65_535]),
        _ => random.bits() as Name,
    }
}

/// The refusals by their numbers up to 8; then none from a start alone, none from more
/// names, a name to itself, one edge, several edges with each name of the chain but the
/// last followed, and several with more.
const NONE_FROM_ONE: usize = 9;
const NONE: usize = 10;
const ITSELF: usize = 11;
const ONE_EDGE: usize = 12;
const CHAIN_ALONE: usize = 13;
const MORE_THAN_CHAIN: usize = 14;
const ANSWERS: usize = 15;

#[derive(Default)]
struct List {
    cases: Vec<FollowedCase>,
    seen: HashSet<FollowedCase>,
    answers: [usize; ANSWERS],
}

impl List {
    fn missing(&self) -> bool {
        (1..ANSWERS).any(|answer| self.wants(answer))
    }

    fn wants(&self, answer: usize) -> bool {
        let due = match answer as Refusal {
            // It has to be long, and the examples have some.
            0 | TOO_LONG => 0,
            TOO_SHORT..=REFERENCE_CYCLE => EACH_REFUSAL,
            _ => EACH_ANSWER,
        };
        self.answers[answer] < due
    }

    fn add(&mut self, case: FollowedCase) {
        if self.seen.insert(case.clone()) {
            self.answers[sort_of(&case)] += 1;
            self.cases.push(case);
        }
    }
}

fn sort_of(case: &FollowedCase) -> usize {
    if let [0x7E, refusal] = case.answer[..] {
        return refusal.into();
    }
    let count = usize::from(case.answer[0]) + 256 * usize::from(case.answer[1]);
    match (case.answer.len() - 8) / 2 {
        0 if count == 1 => NONE_FROM_ONE,
        0 => NONE,
        1 => ITSELF,
        2 => ONE_EDGE,
        names if count + 1 == names => CHAIN_ALONE,
        _ => MORE_THAN_CHAIN,
    }
}
