//! Cases of values to store, and the bundles that values are compared on.

use crate::bundle::*;
use crate::fixed_cases::some_definition;
use crate::fixed_generate::small_fixed;
use crate::random::Random;
use crate::value::{answer_bytes, value_answer};
use crate::value_examples::examples;
use crate::value_generate::{small_values, values};
use crate::{damage, generate};
use std::collections::HashSet;

/// How many cases must show a refusal of the bundle, one of the call alone, a value
/// that is not negative, and a negative one.
const EACH_BUNDLE_REFUSAL: usize = 2;
const EACH_OWN_ANSWER: usize = 25;
const USUAL_LENGTH: usize = 400;

#[derive(Clone, PartialEq, Eq, Hash)]
pub struct ValueCase {
    pub definition: usize,
    pub bundle: Vec<u8>,
    pub answer: Vec<u8>,
}

fn case(definition: usize, bundle: Vec<u8>) -> ValueCase {
    let answer = answer_bytes(&value_answer(&bundle, definition));
    ValueCase {
        definition,
        bundle,
        answer,
    }
}

/// At least `count` cases; more only where fewer could not show everything. The
/// examples come first, with the answers that were worked out by hand.
pub fn value_cases(seed: u64, count: usize) -> Vec<ValueCase> {
    let mut random = Random::new(seed);
    let mut list = List::default();
    for example in examples() {
        list.add(ValueCase {
            definition: example.definition,
            bundle: encode(&example.bundle),
            answer: answer_bytes(&example.answer),
        });
    }
    let mut overlong = encode(&small_values(&mut random));
    overlong.resize(BYTE_LIMIT + 1, 0x30);
    list.add(case(0, overlong));
    // The examples show no share of what is random.
    list.answers = [0; ANSWERS];
    while list.missing() {
        let found = candidate(&mut random);
        if list.wants(answer_of(&found)) {
            list.add(found);
        }
    }
    while list.cases.len() < count {
        list.add(candidate(&mut random));
    }
    list.cases
}

fn candidate(random: &mut Random) -> ValueCase {
    loop {
        let bytes = match random.below(8) {
            0 => value_bytes(random),
            1 => {
                let bundle = small_values(random);
                damage::damaged_from(random, &bundle)
            }
            2..=4 => encode(&values(random)),
            _ => encode(&small_values(random)),
        };
        if bytes.len() < USUAL_LENGTH {
            let definition = some_definition(random, &bytes);
            return case(definition, bytes);
        }
    }
}

/// Bytes for a comparison: mostly a bundle made for values, now and then one made for
/// fixed sizes or for the checks, and damaged ones.
pub fn value_bytes(random: &mut Random) -> Vec<u8> {
    match random.below(20) {
        0..=15 => encode(&values(random)),
        16 => encode(&small_fixed(random)),
        17 => encode(&generate::any(random)),
        _ => {
            let bundle = match random.chance(70) {
                true => small_values(random),
                false => values(random),
            };
            damage::damaged_from(random, &bundle)
        }
    }
}

/// The refusals by their numbers; 0 is a value that is not negative, and one more a
/// negative value.
const ANSWERS: usize = WORDS.len() + 1;
const NEGATIVE: usize = WORDS.len();

#[derive(Default)]
struct List {
    cases: Vec<ValueCase>,
    seen: HashSet<ValueCase>,
    answers: [usize; ANSWERS],
}

impl List {
    fn missing(&self) -> bool {
        (0..ANSWERS).any(|answer| self.wants(answer))
    }

    fn wants(&self, answer: usize) -> bool {
        let due = match answer as Refusal {
            TOO_LONG | OUTPUT_TOO_SMALL | MISALIGNED | OVERSIZED => 0,
            TOO_SHORT..=REFERENCE_CYCLE => EACH_BUNDLE_REFUSAL,
            _ => EACH_OWN_ANSWER,
        };
        self.answers[answer] < due
    }

    fn add(&mut self, case: ValueCase) {
        if self.seen.insert(case.clone()) {
            self.answers[answer_of(&case)] += 1;
            self.cases.push(case);
        }
    }
}

fn answer_of(case: &ValueCase) -> usize {
    match case.answer[..] {
        [0x7E, refusal] => refusal.into(),
        [.., high] if high >= 0x80 => NEGATIVE,
        _ => 0,
    }
}
