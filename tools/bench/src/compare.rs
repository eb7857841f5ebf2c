//! The library's answers against the oracle's, on limit cases and random bundles.

use crate::exchange::exchanged;
#[cfg(not(without_count))]
use crate::followed;
use crate::{fixed, value};
use layout::Refusal;
use layout_oracle::bundle::{encode, Name};
use layout_oracle::compare::{compare_answers, hex};
use layout_oracle::limits::edge_cases;
use layout_oracle::random::Random;
use layout_oracle::report::{program_bytes, OUTPUT_LIMIT};
use layout_oracle::{damage, generate, reader, reference, scan};

const FILLER: u8 = 0xAA;

/// Prints what was met, or the first bundle with another answer.
pub fn compare(seed: u64, count: usize) -> bool {
    for case in edge_cases() {
        let found = report_answer(&case.bundle);
        if found != case.answer {
            println!("limit case {}", hex(&case.bundle));
            println!("expected {}\nfound    {}", hex(&case.answer), hex(&found));
            return false;
        }
    }
    match compare_answers(seed, count, &report_answer) {
        Ok(tally) => println!("{tally}"),
        Err(difference) => {
            println!("{difference}");
            return false;
        }
    }
    let mut random = Random::new(seed);
    for _ in 0..count {
        let bytes = match random.below(3) {
            0 => damage::damaged(&mut random),
            _ => encode(&generate::any(&mut random)),
        };
        let answers = other_calls(&bytes, &mut random).and_then(|_| exchanged(&bytes, &mut random));
        if let Err(call) = answers {
            println!("{call} differs on {}", hex(&bytes));
            return false;
        }
    }
    if !fixed::compare(seed, count) || !value::compare(seed, count) {
        return false;
    }
    if !counts(seed, count) {
        return false;
    }
    println!("no difference in report, accept, renumber, chain, fixed_size and size_value, with");
    println!("exchanged names too");
    true
}

#[cfg(not(without_count))]
fn counts(seed: u64, count: usize) -> bool {
    let same = followed::compare(seed, count);
    if same {
        println!("no difference in chain_followed");
    }
    same
}

#[cfg(without_count)]
fn counts(_: u64, _: usize) -> bool {
    println!("the library has no chain_followed");
    true
}

/// What the program would write. Places of the buffer that a call may not touch
/// are looked at too.
fn report_answer(bytes: &[u8]) -> Vec<u8> {
    let mut out = vec![FILLER; OUTPUT_LIMIT];
    let result = layout::report(bytes, &mut out);
    let written = result.unwrap_or(0);
    assert!(out[written..].iter().all(|byte| *byte == FILLER), "rest");
    program_bytes(
        result
            .map(|_| out[..written].to_vec())
            .map_err(Refusal::number),
    )
}

fn other_calls(bytes: &[u8], random: &mut Random) -> Result<(), &'static str> {
    let sound = reader::read(bytes);
    let expected = sound.as_ref().map(|_| ()).map_err(|number| *number);
    same("accept", layout::accept(bytes), expected)?;
    same(
        "renumber",
        layout::renumber_vec(bytes),
        scan::renumber_bytes(bytes),
    )?;
    let from = random.below(12) as Name;
    let to = random.below(12) as Name;
    let room = random.pick(&[0, 1, 2, 3, 5, layout::CHAIN_LIMIT]);
    let mut list = vec![Name::MAX; room];
    let found = layout::chain(bytes, from, to, &mut list);
    let names = found.map(|length| list[..length].to_vec());
    let expected = sound.and_then(|tree| {
        let chain = reference::chain(&tree, from, to).unwrap_or_default();
        match chain.len() > room {
            true => Err(Refusal::Narrow.number()),
            false => Ok(chain),
        }
    });
    same("chain", names, expected)?;
    let kept = list[found.unwrap_or(0)..]
        .iter()
        .all(|name| *name == Name::MAX);
    match kept {
        true => Ok(()),
        false => Err("the rest of the chain's list"),
    }
}

fn same<T: PartialEq>(
    call: &'static str,
    found: Result<T, Refusal>,
    expected: Result<T, u8>,
) -> Result<(), &'static str> {
    match found.map_err(Refusal::number) == expected {
        true => Ok(()),
        false => Err(call),
    }
}
