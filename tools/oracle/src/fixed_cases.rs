//! Cases of fixed sizes to store, and the bundles that such sizes are compared on.

use crate::bundle::*;
use crate::fixed::{answer_bytes, fixed_answer};
use crate::fixed_examples::examples;
use crate::fixed_generate::{fixed, small_fixed};
use crate::random::Random;
use crate::value_generate::values;
use crate::{damage, generate};
use std::collections::HashSet;

/// How many cases must show a refusal of the bundle, and one of the call alone.
const EACH_BUNDLE_REFUSAL: usize = 2;
const EACH_OWN_REFUSAL: usize = 15;
const USUAL_LENGTH: usize = 400;

#[derive(Clone, PartialEq, Eq, Hash)]
pub struct FixedCase {
    pub definition: usize,
    pub bundle: Vec<u8>,
    pub answer: Vec<u8>,
}

fn case(definition: usize, bundle: Vec<u8>) -> FixedCase {
    let answer = answer_bytes(&fixed_answer(&bundle, definition, usize::MAX));
    FixedCase {
        definition,
        bundle,
        answer,
    }
}

/// At least `count` cases; more only where fewer could not show everything. The
/// examples come first, with the answers that were worked out by hand.
pub fn fixed_cases(seed: u64, count: usize) -> Vec<FixedCase> {
    let mut random = Random::new(seed);
    let mut list = List::default();
    for example in examples() {
        list.add(FixedCase {
            definition: example.definition,
            bundle: encode(&example.bundle),
            answer: answer_bytes(&example.answer),
        });
    }
    let mut overlong = encode(&small_fixed(&mut random));
    overlong.resize(BYTE_LIMIT + 1, 0x30);
    list.add(case(0, overlong));
    while list.missing() {
        let found = candidate(&mut random);
        if list.helps(&found) {
            list.add(found);
        }
    }
    while list.cases.len() < count {
        list.add(candidate(&mut random));
    }
    list.cases
}

fn candidate(random: &mut Random) -> FixedCase {
    loop {
        let bytes = match random.below(5) {
            0 => fixed_bytes(random),
            1 => {
                let bundle = small_fixed(random);
                damage::damaged_from(random, &bundle)
            }
            _ => encode(&small_fixed(random)),
        };
        if bytes.len() < USUAL_LENGTH {
            let definition = some_definition(random, &bytes);
            return case(definition, bytes);
        }
    }
}

/// Bytes for a comparison: mostly a bundle made for fixed sizes, now and then one
/// made for values or for the checks, and damaged ones.
pub fn fixed_bytes(random: &mut Random) -> Vec<u8> {
    match random.below(20) {
        0..=13 => encode(&fixed(random)),
        14 => encode(&values(random)),
        15 => encode(&generate::any(random)),
        16 => damage::damaged(random),
        _ => {
            let bundle = match random.chance(70) {
                true => small_fixed(random),
                false => fixed(random),
            };
            damage::damaged_from(random, &bundle)
        }
    }
}

/// Mostly a definition that there is, by the header's count.
pub fn some_definition(random: &mut Random, bytes: &[u8]) -> usize {
    let count = match bytes {
        [_, low, high, ..] => usize::from(u16::from_le_bytes([*low, *high])),
        _ => 0,
    };
    let wide = random.bits() as usize;
    match random.below(24) {
        0 => random.pick(&[count, count + 1, 256, 65_536, 1 << 32, usize::MAX, wide]),
        1..=6 => count.saturating_sub(1),
        _ => random.below(count.max(1)),
    }
}

#[derive(Default)]
struct List {
    cases: Vec<FixedCase>,
    seen: HashSet<FixedCase>,
    refusals: [usize; WORDS.len()],
}

impl List {
    fn missing(&self) -> bool {
        let refusals = (TOO_SHORT..=OVERSIZED).filter(|number| *number != OUTPUT_TOO_SMALL);
        refusals.into_iter().any(|number| self.wants(number))
    }

    fn wants(&self, refusal: Refusal) -> bool {
        let due = match refusal >= MISALIGNED {
            true => EACH_OWN_REFUSAL,
            false => EACH_BUNDLE_REFUSAL,
        };
        self.refusals[refusal as usize] < due
    }

    fn helps(&self, case: &FixedCase) -> bool {
        refused(case).is_some_and(|refusal| self.wants(refusal))
    }

    fn add(&mut self, case: FixedCase) {
        if self.seen.insert(case.clone()) {
            if let Some(refusal) = refused(&case) {
                self.refusals[refusal as usize] += 1;
            }
            self.cases.push(case);
        }
    }
}

fn refused(case: &FixedCase) -> Option<Refusal> {
    match case.answer[..] {
        [0x7E, refusal] => Some(refusal),
        _ => None,
    }
}
