//! Comparisons: the original with the second reading, and either with a
//! program or a library.

use crate::bundle::*;
use crate::followed::Chains;
use crate::random::Random;
use crate::report::{program_bytes, report_bytes, Violation};
use crate::{
    damage, followed_cases, followed_generate, generate, limits, original, reader, reference, scan,
    work,
};
use std::collections::BTreeMap;
use std::fmt;

/// Two answers that should have been equal.
pub struct Difference {
    pub what: &'static str,
    pub bundle: Vec<u8>,
    pub expected: Vec<u8>,
    pub found: Vec<u8>,
}

impl fmt::Display for Difference {
    fn fmt(&self, out: &mut fmt::Formatter) -> fmt::Result {
        writeln!(out, "difference: {}", self.what)?;
        writeln!(out, "bundle   {}", hex(&self.bundle))?;
        writeln!(out, "expected {}", hex(&self.expected))?;
        write!(out, "found    {}", hex(&self.found))
    }
}

pub fn hex(bytes: &[u8]) -> String {
    bytes.iter().map(|byte| format!("{byte:02X}")).collect()
}

/// What a run came across.
#[derive(Default)]
pub struct Tally {
    pub accepted: usize,
    pub by_original: usize,
    pub refusals: [usize; 10],
    pub violations: [usize; 9],
    pub bundles_with: [usize; 9],
    pub chain_lengths: BTreeMap<usize, usize>,
    pub longest_bundle: usize,
    pub longest_report: usize,
    /// Accepted bundles that the original was not asked about.
    pub left_out: usize,
    pub features: [usize; FEATURES.len()],
}

/// Ranges by which chain lengths are printed.
const LENGTHS: [(usize, usize); 8] = [
    (1, 1),
    (2, 2),
    (3, 3),
    (4, 4),
    (5, 8),
    (9, 16),
    (17, 64),
    (65, 1_025),
];

/// Features that accepted bundles are counted by.
const FEATURES: [&str; 8] = [
    "a name defined twice",
    "name 0 as definition or member",
    "current name set",
    "a group without members",
    "depth 24",
    "256 definitions",
    "1,024 edges",
    "32,768 bytes",
];

fn features(bundle: &Bundle, length: usize) -> [bool; FEATURES.len()] {
    let list = &bundle.definitions;
    let mut named_zero = list.iter().any(|d| d.name == 0);
    let mut empty_group = false;
    list.iter().for_each(|d| {
        visit_groups(&d.body, &mut |members| {
            empty_group |= members.is_empty();
            named_zero |= members.iter().any(|m| m.name == 0);
        })
    });
    [
        reader::first_places(bundle).len() < list.len(),
        named_zero,
        bundle.current != 0,
        empty_group,
        list.iter()
            .any(|d| generate::type_depth(&d.body) == DEPTH_LIMIT),
        list.len() == DEFINITION_LIMIT,
        bundle.edges.len() == EDGE_LIMIT,
        length == BYTE_LIMIT,
    ]
}

fn visit_groups(node: &Type, seen: &mut dyn FnMut(&[Member])) {
    match node {
        Type::Primitive(_) | Type::TypeRef(_) => {}
        Type::Array(_, _, _, element) => visit_groups(element, seen),
        Type::Struct(_, list)
        | Type::Union(_, list)
        | Type::Enum(_, _, list)
        | Type::SizeUnion(_, list) => {
            seen(list);
            list.iter().for_each(|m| visit_groups(&m.member_type, seen));
        }
    }
}

impl Tally {
    fn add_report(&mut self, violations: &[Violation]) {
        let mut seen = [false; 9];
        for violation in violations {
            self.violations[violation.kind as usize] += 1;
            seen[violation.kind as usize] = true;
            *self.chain_lengths.entry(violation.chain.len()).or_default() += 1;
        }
        (1..9).for_each(|kind| self.bundles_with[kind] += usize::from(seen[kind]));
    }

    fn add_bundle(&mut self, bundle: &Bundle, length: usize, report: &[u8]) {
        self.accepted += 1;
        self.longest_bundle = self.longest_bundle.max(length);
        self.longest_report = self.longest_report.max(report.len());
        let found = features(bundle, length);
        (0..found.len()).for_each(|place| self.features[place] += usize::from(found[place]));
    }
}

impl fmt::Display for Tally {
    fn fmt(&self, out: &mut fmt::Formatter) -> fmt::Result {
        writeln!(out, "accepted bundles         {}", self.accepted)?;
        writeln!(out, "answered by the original {}", self.by_original)?;
        writeln!(
            out,
            "longest bundle           {} bytes",
            self.longest_bundle
        )?;
        writeln!(
            out,
            "longest report           {} bytes",
            self.longest_report
        )?;
        writeln!(out, "too long for it          {}", self.left_out)?;
        for (feature, count) in FEATURES.iter().zip(self.features) {
            writeln!(out, "{feature:<30} {count}")?;
        }
        for kind in 1..9 {
            let (all, bundles) = (self.violations[kind], self.bundles_with[kind]);
            writeln!(
                out,
                "violation type {kind}         {all} in {bundles} bundles"
            )?;
        }
        for (number, count) in self.refusals.iter().enumerate().skip(1) {
            writeln!(out, "refusal {number} {:<14} {count}", WORDS[number])?;
        }
        write!(out, "chain lengths           ")?;
        for (low, high) in LENGTHS {
            let count: usize = self.chain_lengths.range(low..=high).map(|(_, n)| n).sum();
            write!(out, " {low} to {high}: {count};")?;
        }
        let longest = self.chain_lengths.keys().next_back();
        write!(out, " longest {}", longest.unwrap_or(&0))
    }
}

fn equal(
    what: &'static str,
    bundle: &[u8],
    expected: Vec<u8>,
    found: Vec<u8>,
) -> Result<(), Difference> {
    if expected == found {
        return Ok(());
    }
    Err(Difference {
        what,
        bundle: bundle.to_vec(),
        expected,
        found,
    })
}

/// Compares the original with the second reading on the limit cases and on
/// `count` accepted bundles that the original can answer in time, and the two
/// readers on a damaged bundle after each of them.
pub fn compare_readings(seed: u64, count: usize) -> Result<Tally, Difference> {
    compare_limits(&mut Random::new(seed))?;
    let mut random = Random::new(seed);
    let mut tally = Tally::default();
    while tally.accepted < count {
        let bundle = generate::valid(&mut random);
        if work::within_limit(&bundle) {
            compare_one(&mut random, &bundle, &mut tally)?;
        } else {
            tally.left_out += 1;
        }
        let bytes = damage::damaged(&mut random);
        compare_refusals(&bytes, &mut tally)?;
        if bundle.definitions.len() < 3 && random.chance(1) {
            let bytes = encode(&bundle);
            for length in 0..bytes.len() {
                compare_refusals(&bytes[..length], &mut tally)?;
            }
        }
    }
    Ok(tally)
}

/// The hand-made cases, which are not counted.
fn compare_limits(random: &mut Random) -> Result<(), Difference> {
    let mut uncounted = Tally::default();
    for case in limits::edge_cases() {
        compare_refusals(&case.bundle, &mut uncounted)?;
        if let Ok(bundle) = reader::read(&case.bundle) {
            if work::within_limit(&bundle) {
                compare_one(random, &bundle, &mut uncounted)?;
            }
        }
    }
    Ok(())
}

fn compare_one(random: &mut Random, bundle: &Bundle, tally: &mut Tally) -> Result<(), Difference> {
    let bytes = encode(bundle);
    let read = reader::read(&bytes).map(|again| encode(&again));
    equal(
        "bytes read back",
        &bytes,
        bytes.clone(),
        program_bytes(read),
    )?;
    let found = original::violations(bundle);
    let report = report_bytes(&found);
    let second = report_bytes(&reference::violations(bundle));
    equal("report", &bytes, report.clone(), second)?;
    tally.add_bundle(bundle, bytes.len(), &report);
    tally.by_original += 1;
    tally.add_report(&found);
    compare_chain(random, bundle, &bytes)?;
    compare_renumbering(bundle, &bytes, &found)
}

/// One search between names that often have edges.
fn compare_chain(random: &mut Random, bundle: &Bundle, bytes: &[u8]) -> Result<(), Difference> {
    let Some(last) = bundle.edges.len().checked_sub(1) else {
        return Ok(());
    };
    let from = bundle.edges[random.below(last + 1)].from;
    let to = bundle.edges[random.below(last + 1)].to;
    compare_search(bundle, bytes, from, to)
}

/// The original's chain, that of the second reading, and the one that names are counted by.
fn compare_search(bundle: &Bundle, bytes: &[u8], from: Name, to: Name) -> Result<(), Difference> {
    let list = |chain: Option<Vec<Name>>| -> Vec<u8> {
        let names = chain.unwrap_or_default();
        names.iter().flat_map(|name| name.to_le_bytes()).collect()
    };
    let expected = list(original::chain(bundle, from, to));
    let found = list(reference::chain(bundle, from, to));
    let by_lists = Chains::new(bundle, from).to(to).names;
    equal("chain", bytes, expected.clone(), found)?;
    let found = list(Some(by_lists));
    equal("chain of a count", bytes, expected, found)
}

/// The same on bundles made for searches, between names that are chosen for them. How many
/// had a chain.
pub fn compare_searches(seed: u64, count: usize) -> Result<usize, Difference> {
    let mut random = Random::new(seed);
    let mut found = 0;
    for _ in 0..count {
        let bundle = followed_generate::searched(&mut random);
        let from = followed_cases::some_start(&mut random, &bundle);
        let chains = Chains::new(&bundle, from);
        let to = followed_cases::some_end(&mut random, &bundle, &chains);
        compare_search(&bundle, &encode(&bundle), from, to)?;
        found += usize::from(!chains.to(to).names.is_empty());
    }
    Ok(found)
}

/// The tree's renumbering against that of the bytes, and the original's report
/// of the renumbered bundle against its first report with names put through.
fn compare_renumbering(
    bundle: &Bundle,
    bytes: &[u8],
    found: &[Violation],
) -> Result<(), Difference> {
    let renumbered = reference::renumber(bundle);
    let flat = program_bytes(scan::renumber_bytes(bytes));
    equal("renumbering", bytes, encode(&renumbered), flat)?;
    let numbers = reference::numbering(bundle);
    let renamed: Vec<Violation> = found
        .iter()
        .map(|violation| reference::rename_violation(violation, &numbers))
        .collect();
    let again = report_bytes(&original::violations(&renumbered));
    equal("renumbered report", bytes, report_bytes(&renamed), again)
}

fn compare_refusals(bytes: &[u8], tally: &mut Tally) -> Result<(), Difference> {
    let refusal = |outcome: Result<(), Refusal>| vec![outcome.err().unwrap_or(0)];
    let first = refusal(reader::read(bytes).map(|_| ()));
    let second = refusal(scan::scan(bytes).map(|_| ()));
    tally.refusals[first[0] as usize] += usize::from(first[0] != 0);
    equal("refusal", bytes, first, second)
}

/// What the program must write, and whether the original gave it.
pub fn expected(bytes: &[u8]) -> (Vec<u8>, bool) {
    let bundle = match reader::read(bytes) {
        Ok(bundle) => bundle,
        Err(refusal) => return (program_bytes(Err(refusal)), false),
    };
    if work::within_limit(&bundle) {
        let report = report_bytes(&original::violations(&bundle));
        return (program_bytes(Ok(report)), true);
    }
    let report = report_bytes(&reference::violations(&bundle));
    (program_bytes(Ok(report)), false)
}

/// Compares an answer, from a program or a library, on `count` bundles of
/// which about half are damaged.
pub fn compare_answers(
    seed: u64,
    count: usize,
    answer: &dyn Fn(&[u8]) -> Vec<u8>,
) -> Result<Tally, Difference> {
    let mut random = Random::new(seed);
    let mut tally = Tally::default();
    let mut done = 0;
    while done < count {
        let bytes = match random.below(2) {
            0 => encode(&generate::any(&mut random)),
            _ => damage::damaged(&mut random),
        };
        compare_answer(&bytes, answer, &mut tally)?;
        done += 1;
        if bytes.len() < 200 && random.chance(1) {
            for length in 0..bytes.len().min(count - done) {
                compare_answer(&bytes[..length], answer, &mut tally)?;
                done += 1;
            }
        }
    }
    Ok(tally)
}

fn compare_answer(
    bytes: &[u8],
    answer: &dyn Fn(&[u8]) -> Vec<u8>,
    tally: &mut Tally,
) -> Result<(), Difference> {
    let (wanted, by_original) = expected(bytes);
    equal("answer", bytes, wanted.clone(), answer(bytes))?;
    if wanted[0] == 0x7E {
        tally.refusals[wanted[1] as usize] += 1;
        return Ok(());
    }
    tally.by_original += usize::from(by_original);
    tally.left_out += usize::from(!by_original);
    if let Ok(bundle) = reader::read(bytes) {
        tally.add_bundle(&bundle, bytes.len(), &wanted);
        tally.add_report(&reference::violations(&bundle));
    }
    Ok(())
}
