//! Runs the library and the original on the same bundles and prints the ratios of
//! their times. README.md says what is measured.

mod chain_rows;
mod compare;
mod exchange;
mod fixed;
mod fixed_rows;
#[cfg(not(without_count))]
mod followed;
mod inputs;
mod measure;
mod shapes;
mod value;
mod value_rows;

use inputs::Worst;
use layout_oracle::bundle::{encode, Bundle, BYTE_LIMIT};
use layout_oracle::report::report_bytes;
use layout_oracle::{original, reader, reference, work};
use measure::{seconds, shown};
use std::io::Write;
use std::process::{Command, ExitCode};

/// What the program lends for a report.
const USUAL_BUFFER: usize = 65_536;
/// Up to this bound the original takes some seconds at most. Above it, it runs in a
/// process of its own, which is ended after so many seconds of processor time; with
/// `--quick` not at all.
const STEP_LIMIT: u64 = 4_000_000_000;
const PATIENCE: u64 = 60;

/// Worst cases, by their names.
type Row = (&'static str, Worst);

const WORST: [Row; 6] = [
    ("deep nesting", inputs::deep_nesting),
    ("shared definitions, 12 levels", inputs::shared_some),
    ("shared definitions, 150 levels", inputs::shared_much),
    ("references with long chains", inputs::long_chains),
    ("searches that fail", inputs::failing_searches),
    ("searches that fail, in turn", inputs::failing_in_turn),
];

/// Bundles in which a check could multiply one count by another.
const SHAPES: [Row; 28] = [
    ("a plausible record, 1,200 fields", shapes::plausible),
    ("800 fields x a missing field", shapes::some_missing),
    ("fields x a missing field", shapes::missing_field),
    ("fields x the last field", shapes::last_field),
    ("fields x references in elements", shapes::in_elements),
    ("fields x many variants", shapes::many_variants),
    ("fields x deep arrays", shapes::deep_and_wide),
    ("one tag into one struct", shapes::tag_into_struct),
    ("one tag into two structs", shapes::two_structs_in_turn),
    ("one tag, no container", shapes::no_container),
    ("many enums into one struct", shapes::many_enums),
    ("many structs to one array", shapes::many_structs),
    ("structs of one name to one array", shapes::one_name),
    (
        "structs of one name, many fields",
        shapes::one_name_many_fields,
    ),
    ("250 levels, each held twice", shapes::levels_held_twice),
    ("wide searches from two names", shapes::wide_searches),
    ("a search for each of 250 arrays", shapes::many_searches),
    (
        "250 arrays at the end of a line",
        shapes::searches_over_a_line,
    ),
    ("names of few low bytes", shapes::names_alike),
    ("fields of few low bytes", shapes::fields_alike),
    ("13,000 names of few low bytes", shapes::all_names_alike),
    (
        "structs of one name x one bucket",
        shapes::one_name_one_bucket,
    ),
    ("many structs to one long size", shapes::one_long_size),
    ("enums of one name, one long tag", shapes::one_long_tag),
    ("one tag x one bucket", shapes::one_tag_one_bucket),
    ("one long tag asked 250 times", shapes::one_tag_asked_often),
    ("one tag x full buckets", shapes::one_tag_full_buckets),
    ("one tag x a field 16 deep", shapes::one_tag_deep_field),
];

/// The bundles that a request named, each with the bytes that it gave.
const REQUEST: [(&str, fn() -> Bundle, usize); 5] = [
    (
        "request 1: 2,700 fields x 2,700 references",
        shapes::request_missing,
        32_436,
    ),
    (
        "request 2: the same with an enum",
        shapes::request_enum,
        32_460,
    ),
    (
        "request 3: 600 fields x 600 references",
        shapes::request_some_missing,
        7_236,
    ),
    (
        "request 4: 3,000 references x 3,500 fields",
        shapes::request_tag,
        32_062,
    ),
    (
        "request 5: 1,200 fields to one record",
        shapes::request_plausible,
        6_437,
    ),
];

/// The width of the first column: the longest name of a case and some room.
const NAME_WIDTH: usize = 44;

const USAGE: &str = "usage:
  bench [--quick]            times of the library and the original
  bench chains               the times of chains and listings alone
  bench fixed                the times of fixed sizes alone
  bench values               the times of values of sizes alone
  bench compare SEED COUNT   the library's answers against the oracle's
  bench reprc SEED COUNT     the library's fixed sizes against those of rustc, which
                             tools/oracle/repr-c.sh gives on standard input
  bench rows FOLDER          the bundle of each case as a file, for the programs in c/
  bench original NUMBER      the original's time and report for one case";

fn main() -> ExitCode {
    let words: Vec<String> = std::env::args().skip(1).collect();
    let words: Vec<&str> = words.iter().map(String::as_str).collect();
    let done = match words[..] {
        [] => Some(times(false)),
        ["--quick"] => Some(times(true)),
        ["chains"] => Some(chain_rows::print()),
        ["fixed"] => Some(fixed_rows::print()),
        ["values"] => Some(value_rows::print()),
        ["compare", seed, count] => {
            let numbers = seed.parse().ok().zip(count.parse().ok());
            numbers.map(|(seed, count)| compare::compare(seed, count))
        }
        ["reprc", seed, count] => {
            let numbers = seed.parse().ok().zip(count.parse().ok());
            numbers.map(|(seed, count)| fixed::compare_repr_c(seed, count))
        }
        ["rows", folder] => Some(write_rows(folder)),
        ["original", number] => number.parse().ok().map(original_alone),
        _ => None,
    };
    match done {
        Some(true) => ExitCode::SUCCESS,
        Some(false) => ExitCode::FAILURE,
        None => {
            eprintln!("{USAGE}");
            ExitCode::from(2)
        }
    }
}

/// Prints all tables; false where the answers differ.
fn times(quick: bool) -> bool {
    print_buffers();
    let same = print_reports(quick);
    print_growth();
    print_other_calls();
    println!();
    let chains = chain_rows::print();
    let fixed = fixed_rows::print();
    value_rows::print() && fixed && chains && same
}

fn cases() -> Vec<(&'static str, Bundle)> {
    let ten = inputs::realistic(10);
    assert_eq!(reference::violations(&inputs::realistic(0)).len(), 0);
    assert_eq!(reference::violations(&ten).len(), 10);
    let mut list = vec![
        ("the paper's example", inputs::example()),
        ("140 definitions, 600 edges, passes", inputs::realistic(0)),
        ("the same with ten violations", ten),
    ];
    for (name, worst) in WORST.into_iter().chain(SHAPES) {
        list.push((name, worst(BYTE_LIMIT)));
    }
    for (name, requested, bytes) in REQUEST {
        let bundle = requested();
        assert_eq!(inputs::size(&bundle), bytes, "{name}");
        list.push((name, bundle));
    }
    list
}

/// Writes each case's bundle as FOLDER/NUMBER CASE; false where a file could not be written.
fn write_rows(folder: &str) -> bool {
    let write = |(number, (name, bundle)): (usize, (&str, Bundle))| {
        let path = format!("{folder}/{number:02} {}", name.replace('/', " "));
        std::fs::write(&path, encode(&bundle)).map_err(|error| eprintln!("{path}: {error}"))
    };
    cases()
        .into_iter()
        .chain(fixed_rows::cases())
        .chain(value_rows::cases())
        .chain(chain_rows::cases())
        .enumerate()
        .map(write)
        .all(|written| written.is_ok())
}

/// A buffer long enough for the bundle's report.
fn buffer_for(bytes: &[u8]) -> Vec<u8> {
    let needed = layout::report_vec(bytes).map_or(0, |report| report.len());
    vec![0xAA; needed.max(USUAL_BUFFER)]
}

fn print_buffers() {
    let mut buffer = vec![0xAA; USUAL_BUFFER];
    let clearing = seconds(|| std::hint::black_box(&mut buffer).fill(0));
    println!("Buffers: each case lends one output buffer of 65,536 bytes, or of the report's");
    println!("length where that is more. It is filled once before the first call and is not");
    println!(
        "cleared between calls; clearing 65,536 bytes would add {} to each.",
        shown(clearing)
    );
    println!();
}

fn library_time(bytes: &[u8]) -> f64 {
    let mut buffer = buffer_for(bytes);
    seconds(|| layout::report(bytes, &mut buffer))
}

/// The original's report and its time, or why there are none.
type Original = Result<(Vec<u8>, f64), &'static str>;

fn original_time(number: usize, bundle: &Bundle, quick: bool) -> Original {
    if work::steps(bundle) <= STEP_LIMIT {
        return Ok(original_run(bundle));
    }
    match quick {
        true => Err("left out"),
        false => original_apart(number).ok_or("over 60 s"),
    }
}

fn original_run(bundle: &Bundle) -> (Vec<u8>, f64) {
    let mut found = Vec::new();
    let time = seconds(|| found = original::violations(bundle));
    (report_bytes(&found), time)
}

/// The original in a process of its own; none if it does not finish in time.
fn original_apart(number: usize) -> Option<(Vec<u8>, f64)> {
    let program = std::env::current_exe().expect("the program's path");
    let found = Command::new(program)
        .args(["original", &number.to_string()])
        .output()
        .expect("a process");
    let (time, report) = found.stdout.split_first_chunk()?;
    Some((report.to_vec(), f64::from_le_bytes(*time)))
}

/// Writes the original's time for a case, eight bytes, and its report.
fn original_alone(number: usize) -> bool {
    let Some((_, bundle)) = cases().into_iter().nth(number) else {
        return false;
    };
    measure::limit_to(PATIENCE);
    let (report, time) = original_run(&bundle);
    let mut out = std::io::stdout();
    let written = out.write_all(&time.to_le_bytes());
    written.and_then(|_| out.write_all(&report)).is_ok()
}

fn print_reports(quick: bool) -> bool {
    println!("Report, in processor time of one call. `original` starts from the bundle's tree and");
    println!("ends with the violations; `with bytes` adds reading the bytes and copying the");
    println!("report, which the library's time has in it. A ratio over 1 is in favour of the");
    println!("library.");
    println!();
    let heads = [
        "bytes",
        "report",
        "answers",
        "library",
        "original",
        "ratio",
        "with bytes",
        "ratio",
    ];
    println!("{:<NAME_WIDTH$}{}", "case", row(&heads.map(str::to_string)));
    let mut all_same = true;
    for (number, (name, bundle)) in cases().into_iter().enumerate() {
        let (cells, same) = report_cells(number, &bundle, quick);
        println!("{name:<NAME_WIDTH$}{}", row(&cells));
        all_same &= same;
    }
    println!();
    all_same
}

fn row(cells: &[String]) -> String {
    cells.iter().map(|cell| format!("{cell:>13}")).collect()
}

fn ratio(theirs: f64, own: f64) -> String {
    format!("{:.1}", theirs / own)
}

/// The cells of one case, and whether the two reports are the same.
fn report_cells(number: usize, bundle: &Bundle, quick: bool) -> (Vec<String>, bool) {
    let bytes = encode(bundle);
    let report = layout::report_vec(&bytes).expect("a sound bundle");
    let own = library_time(&bytes);
    let mut cells = vec![bytes.len().to_string(), report.len().to_string()];
    let (expected, time) = match original_time(number, bundle, quick) {
        Ok(found) => found,
        Err(reason) => {
            cells.extend(["-".to_string(), shown(own), reason.to_string()]);
            return (cells, true);
        }
    };
    let around = seconds(|| reader::read(&bytes)) + seconds(|| expected.to_vec());
    let same = report == expected;
    cells.push(if same { "same" } else { "DIFFER" }.to_string());
    cells.extend([shown(own), shown(time), ratio(time, own)]);
    cells.extend([shown(time + around), ratio(time + around, own)]);
    (cells, same)
}

fn print_growth() {
    println!("Growth of the library's report from an eighth of a worst case to the whole. Time in");
    println!("step with the bytes gives 8 in the column `time`. Cases with searches have more");
    println!("references and more edges at once: searches that go over all edges one by one give");
    println!("64, and so does the report of the long chains, whose growth is the last column.");
    println!();
    let parts = [8, 4, 2, 1];
    let mut heads: Vec<String> = parts
        .iter()
        .map(|part| format!("{} bytes", BYTE_LIMIT / part))
        .collect();
    heads.extend(["time".to_string(), "report".to_string()]);
    println!("{:<NAME_WIDTH$}{}", "case", row(&heads));
    for (name, worst) in WORST.into_iter().chain(SHAPES) {
        let bundles = parts.map(|part| encode(&worst(BYTE_LIMIT / part)));
        let times = bundles.each_ref().map(|bytes| library_time(bytes));
        let length = |bytes: &[u8]| layout::report_vec(bytes).map_or(0, |found| found.len()) as f64;
        let mut cells: Vec<String> = times.iter().map(|time| shown(*time)).collect();
        cells.push(ratio(times[3], times[0]));
        cells.push(ratio(length(&bundles[3]), length(&bundles[0])));
        println!("{name:<NAME_WIDTH$}{}", row(&cells));
    }
    println!();
}

fn print_other_calls() {
    println!("The other calls. The chain goes from the first edge's start to the last edge's end;");
    println!("the original's has no reading of bytes in it, and `with bytes` adds that.");
    println!();
    let heads = [
        "accept",
        "renumber",
        "chain",
        "original",
        "ratio",
        "with bytes",
        "ratio",
    ];
    println!("{:<NAME_WIDTH$}{}", "case", row(&heads.map(str::to_string)));
    for (name, bundle) in cases() {
        println!("{name:<NAME_WIDTH$}{}", row(&other_cells(&bundle)));
    }
}

fn other_cells(bundle: &Bundle) -> Vec<String> {
    let bytes = encode(bundle);
    let mut out = vec![0xAA; bytes.len()];
    let mut list = [0; layout::CHAIN_LIMIT];
    let from = bundle.edges.first().map_or(1, |edge| edge.from);
    let to = bundle.edges.last().map_or(1, |edge| edge.to);
    let accept = seconds(|| layout::accept(&bytes));
    let renumber = seconds(|| layout::renumber(&bytes, &mut out));
    let chain = seconds(|| layout::chain(&bytes, from, to, &mut list));
    let theirs = seconds(|| original::chain(bundle, from, to));
    let reading = seconds(|| reader::read(&bytes));
    let mut cells = [accept, renumber, chain, theirs].map(shown).to_vec();
    cells.push(ratio(theirs, chain));
    cells.push(shown(theirs + reading));
    cells.push(ratio(theirs + reading, chain));
    cells
}
