//! A list of cases to store: short bundles with the answers due.

use crate::bundle::*;
use crate::compare::expected;
use crate::random::Random;
use crate::{damage, generate, reader, reference, work};
use std::collections::HashSet;

/// How many bundles must show a violation type, and how many a refusal.
const EACH_VIOLATION: usize = 10;
const EACH_REFUSAL: usize = 2;

pub struct Case {
    pub bundle: Vec<u8>,
    pub answer: Vec<u8>,
}

/// At least `count` cases; more only where fewer could not show everything.
pub fn cases(seed: u64, count: usize) -> Vec<Case> {
    let mut random = Random::new(seed);
    let mut list = List {
        violations_missing: [EACH_VIOLATION; 9],
        refusals_missing: [EACH_REFUSAL; 9],
        ..List::default()
    };
    list.violations_missing[0] = 0;
    list.refusals_missing[0] = 0;
    for extra in 1..=EACH_REFUSAL {
        let mut bytes = encode(&generate::small(&mut random));
        bytes.resize(BYTE_LIMIT + extra, 0x30);
        list.add(bytes);
    }
    while list.missing() {
        let bytes = candidate(&mut random, 600);
        if list.helps(&bytes) {
            list.add(bytes);
        }
    }
    while list.cases.len() < count {
        let longest = random.pick(&[80, 120, 120, 200, 1_500]);
        let bytes = candidate(&mut random, longest);
        list.add(bytes);
    }
    list.cases
}

/// Bytes no longer than `longest` that the original can answer in time.
fn candidate(random: &mut Random, longest: usize) -> Vec<u8> {
    loop {
        let bytes = match random.below(4) {
            0 => damage::damaged(random),
            _ if longest > 200 => encode(&generate::valid(random)),
            _ => encode(&generate::small(random)),
        };
        let in_time = |bytes: &[u8]| reader::read(bytes).map_or(true, |b| work::within_limit(&b));
        if bytes.len() <= longest && in_time(&bytes) {
            return bytes;
        }
    }
}

#[derive(Default)]
struct List {
    cases: Vec<Case>,
    seen: HashSet<Vec<u8>>,
    violations_missing: [usize; 9],
    refusals_missing: [usize; 9],
}

impl List {
    fn missing(&self) -> bool {
        let all = self.violations_missing.iter().chain(&self.refusals_missing);
        all.sum::<usize>() > 0
    }

    fn helps(&self, bytes: &[u8]) -> bool {
        match shown(bytes) {
            Ok(kinds) => kinds.iter().any(|kind| self.violations_missing[*kind] > 0),
            Err(refusal) => self.refusals_missing[refusal as usize] > 0,
        }
    }

    fn add(&mut self, bundle: Vec<u8>) {
        if !self.seen.insert(bundle.clone()) {
            return;
        }
        match shown(&bundle) {
            Ok(kinds) => kinds.iter().for_each(|kind| {
                let missing = &mut self.violations_missing[*kind];
                *missing = missing.saturating_sub(1);
            }),
            Err(refusal) => {
                let missing = &mut self.refusals_missing[refusal as usize];
                *missing = missing.saturating_sub(1);
            }
        }
        let answer = expected(&bundle).0;
        self.cases.push(Case { bundle, answer });
    }
}

/// The violation types that a bundle shows, or its refusal.
fn shown(bytes: &[u8]) -> Result<HashSet<usize>, Refusal> {
    let bundle = reader::read(bytes)?;
    let found = reference::violations(&bundle);
    Ok(found.iter().map(|v| v.kind as usize).collect())
}
