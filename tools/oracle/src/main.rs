//! Commands over the original validators; README.md lists them.

use layout_oracle::cases::{cases, Case};
use layout_oracle::compare::{
    compare_answers, compare_readings, compare_searches, hex, Difference, Tally,
};
use layout_oracle::fixed::fixed_answer;
use layout_oracle::fixed_cases::{fixed_cases, FixedCase};
use layout_oracle::followed::followed_answer;
use layout_oracle::followed_cases::{followed_cases, FollowedCase};
use layout_oracle::limits::edge_cases;
use layout_oracle::reader;
use layout_oracle::report::{program_bytes, report_bytes};
use layout_oracle::value::value_answer;
use layout_oracle::value_cases::{value_cases, ValueCase};
use layout_oracle::{
    bundle, fixed_examples, followed_examples, original, reference, repr_c, value_examples, work,
};
use std::io::{self, Read, Write};
use std::process::{Command, ExitCode, Stdio};
use std::time::Instant;

const USAGE: &str = "usage:
  oracle report < bundle > report
  oracle renumber < bundle > bundle
  oracle chain FROM TO < bundle
  oracle followed FROM TO < bundle
  oracle fixed DEFINITION < bundle
  oracle value DEFINITION < bundle
  oracle self SEED COUNT
  oracle program PATH SEED COUNT
  oracle cases SEED COUNT
  oracle edgecases
  oracle fixedcases SEED COUNT
  oracle valuecases SEED COUNT
  oracle followedcases SEED COUNT
  oracle reprc-source SEED COUNT > program.rs
  oracle reprc SEED COUNT < output of the program";

fn main() -> ExitCode {
    let arguments: Vec<String> = std::env::args().skip(1).collect();
    let words: Vec<&str> = arguments.iter().map(String::as_str).collect();
    let done = match words.as_slice() {
        ["report"] => Some(report()),
        ["renumber"] => Some(renumber()),
        ["chain", from, to] => number(from).zip(number(to)).map(|(f, t)| chain(f, t)),
        ["followed", from, to] => name(from).zip(name(to)).map(|(f, t)| followed(f, t)),
        ["fixed", definition] => number(definition).map(fixed),
        ["value", definition] => number(definition).map(value),
        ["self", seed, count] => seeded(seed, count, |s, c| finish(|| compare_self(s, c))),
        ["program", path, seed, count] => {
            seeded(seed, count, |s, c| finish(|| program(path, s, c)))
        }
        ["cases", seed, count] => seeded(seed, count, |s, c| print_cases(&cases(s, c))),
        ["fixedcases", seed, count] => {
            seeded(seed, count, |s, c| print_fixed_cases(&fixed_cases(s, c)))
        }
        ["valuecases", seed, count] => {
            seeded(seed, count, |s, c| print_value_cases(&value_cases(s, c)))
        }
        ["followedcases", seed, count] => seeded(seed, count, |s, c| {
            print_followed_cases(&followed_cases(s, c))
        }),
        ["reprc-source", seed, count] => {
            seeded(seed, count, |s, c| output(repr_c::source(s, c).as_bytes()))
        }
        ["reprc", seed, count] => seeded(seed, count, compare_repr_c),
        ["edgecases"] => Some(print_cases(&edge_cases())),
        _ => None,
    };
    done.unwrap_or_else(|| {
        eprintln!("{USAGE}");
        ExitCode::from(2)
    })
}

/// Runs a command with its two numbers, if they are numbers.
fn seeded(seed: &str, count: &str, run: impl FnOnce(u64, usize) -> ExitCode) -> Option<ExitCode> {
    let numbers = number(seed).zip(number(count));
    numbers.map(|(seed, count)| run(seed, count as usize))
}

fn number(text: &str) -> Option<u64> {
    text.parse().ok()
}

fn name(text: &str) -> Option<bundle::Name> {
    text.parse().ok()
}

fn input() -> Vec<u8> {
    let mut bytes = Vec::new();
    io::stdin().read_to_end(&mut bytes).expect("standard input");
    bytes
}

fn output(bytes: &[u8]) -> ExitCode {
    io::stdout().write_all(bytes).expect("standard output");
    ExitCode::SUCCESS
}

fn report() -> ExitCode {
    let outcome = reader::read(&input()).map(|bundle| {
        if !work::within_limit(&bundle) {
            eprintln!("the original may take very long for this bundle");
        }
        report_bytes(&original::violations(&bundle))
    });
    output(&program_bytes(outcome))
}

fn renumber() -> ExitCode {
    let outcome = reader::read(&input());
    let renumbered = outcome.map(|bundle| bundle::encode(&reference::renumber(&bundle)));
    output(&program_bytes(renumbered))
}

fn chain(from: u64, to: u64) -> ExitCode {
    match reader::read(&input()) {
        Err(refusal) => println!("refused {refusal}"),
        Ok(bundle) => match original::chain(&bundle, from as u16, to as u16) {
            None => println!("none"),
            Some(names) => println!("{names:?}"),
        },
    }
    ExitCode::SUCCESS
}

fn followed(from: bundle::Name, to: bundle::Name) -> ExitCode {
    match followed_answer(&input(), from, to, usize::MAX) {
        Err(refusal) => println!("refused {refusal}"),
        Ok(found) => println!("{} {:?}", found.followed, found.names),
    }
    ExitCode::SUCCESS
}

fn fixed(definition: u64) -> ExitCode {
    let definition = usize::try_from(definition).unwrap_or(usize::MAX);
    match fixed_answer(&input(), definition, usize::MAX) {
        Err(refusal) => println!("refused {refusal}"),
        Ok(found) => {
            println!("size {}, alignment {}", found.size, found.alignment);
            println!("offsets {:?}", found.offsets);
        }
    }
    ExitCode::SUCCESS
}

fn value(definition: u64) -> ExitCode {
    let definition = usize::try_from(definition).unwrap_or(usize::MAX);
    match value_answer(&input(), definition) {
        Err(refusal) => println!("refused {refusal}"),
        Ok(found) => println!("{found}"),
    }
    ExitCode::SUCCESS
}

fn compare_repr_c(seed: u64, count: usize) -> ExitCode {
    let lines = String::from_utf8(input()).expect("text");
    let answer = |bytes: &[u8], definition| fixed_answer(bytes, definition, usize::MAX);
    match repr_c::compare(seed, count, &lines, &answer) {
        Ok(tally) => {
            println!("as in rustc, by the second reading: {tally}");
            ExitCode::SUCCESS
        }
        Err(text) => {
            println!("unlike rustc, by the second reading: {text}");
            ExitCode::FAILURE
        }
    }
}

fn finish(run: impl FnOnce() -> Result<Tally, Difference>) -> ExitCode {
    let start = Instant::now();
    match run() {
        Ok(tally) => {
            println!("{tally}");
            println!("no difference, {:.1} s", start.elapsed().as_secs_f64());
            ExitCode::SUCCESS
        }
        Err(difference) => {
            println!("{difference}");
            ExitCode::FAILURE
        }
    }
}

fn compare_self(seed: u64, count: usize) -> Result<Tally, Difference> {
    let checked = fixed_examples::check().unwrap_or_else(|text| panic!("{text}"));
    println!("examples of fixed sizes  {checked}");
    let checked = value_examples::check().unwrap_or_else(|text| panic!("{text}"));
    println!("examples of values       {checked}");
    let checked = followed_examples::check().unwrap_or_else(|text| panic!("{text}"));
    println!("examples of counts       {checked}");
    let found = compare_searches(seed, count)?;
    println!("searches, with a chain   {count}, {found}");
    compare_readings(seed, count)
}

fn program(path: &str, seed: u64, count: usize) -> Result<Tally, Difference> {
    for case in edge_cases() {
        let found = run_program(path, &case.bundle);
        if found != case.answer {
            return Err(Difference {
                what: "limit case",
                bundle: case.bundle,
                expected: case.answer,
                found,
            });
        }
    }
    compare_answers(seed, count, &|bytes| run_program(path, bytes))
}

/// Runs the program once. It may answer before it has read everything, so a
/// closed pipe while writing is no failure.
fn run_program(path: &str, bytes: &[u8]) -> Vec<u8> {
    let mut child = Command::new(path)
        .stdin(Stdio::piped())
        .stdout(Stdio::piped())
        .spawn()
        .unwrap_or_else(|error| panic!("cannot run {path}: {error}"));
    let mut pipe = child.stdin.take().expect("a pipe");
    let written = pipe.write_all(bytes);
    drop(pipe);
    let result = child.wait_with_output().expect("the program's output");
    if let Err(error) = written {
        assert_eq!(error.kind(), io::ErrorKind::BrokenPipe, "{error}");
    }
    result.stdout
}

/// An empty bundle is written as `-`.
fn bundle_text(bytes: &[u8]) -> String {
    match bytes.is_empty() {
        true => "-".to_string(),
        false => hex(bytes),
    }
}

/// One case a line.
fn print_cases(list: &[Case]) -> ExitCode {
    let mut out = io::BufWriter::new(io::stdout().lock());
    for case in list {
        let bundle = bundle_text(&case.bundle);
        let answer = hex(&case.answer);
        writeln!(out, "{bundle} {answer}").expect("standard output");
    }
    ExitCode::SUCCESS
}

fn print_fixed_cases(list: &[FixedCase]) -> ExitCode {
    let numbered = list.iter().map(|c| (c.definition, &c.bundle, &c.answer));
    print_numbered(numbered)
}

fn print_value_cases(list: &[ValueCase]) -> ExitCode {
    let numbered = list.iter().map(|c| (c.definition, &c.bundle, &c.answer));
    print_numbered(numbered)
}

/// One case a line, with the two names first.
fn print_followed_cases(list: &[FollowedCase]) -> ExitCode {
    let mut out = io::BufWriter::new(io::stdout().lock());
    for case in list {
        let (from, to) = (case.from, case.to);
        let bundle = bundle_text(&case.bundle);
        let answer = hex(&case.answer);
        writeln!(out, "{from} {to} {bundle} {answer}").expect("standard output");
    }
    ExitCode::SUCCESS
}

/// One case a line, with the number of the definition first.
fn print_numbered<'a>(list: impl Iterator<Item = (usize, &'a Vec<u8>, &'a Vec<u8>)>) -> ExitCode {
    let mut out = io::BufWriter::new(io::stdout().lock());
    for (definition, bundle, answer) in list {
        let bundle = bundle_text(bundle);
        let answer = hex(answer);
        writeln!(out, "{definition} {bundle} {answer}").expect("standard output");
    }
    ExitCode::SUCCESS
}
