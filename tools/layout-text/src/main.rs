//! Bundles as text: `assemble`, `show`, `explain`, `sizes` and `chain`. README.md describes them.

mod files;

use files::{FileError, Input};
use layout::Refusal;
use layout_text::chain::Search;
use layout_text::circle::circle;
use layout_text::encode::encode;
use layout_text::explain::{explain, Parts, Source};
use layout_text::names::Names;
use layout_text::parse::{parse, Text};
use layout_text::read::read;
use layout_text::recognise::{is_bundle, is_text};
use layout_text::report::{self, Report};
use layout_text::show::show;
use layout_text::sizes::Sizes;
use layout_text::tree::{Bundle, Name, BYTE_LIMIT};
use layout_text::words::{cut, one_line};
use std::borrow::Cow;
use std::io::{self, Write};
use std::os::unix::fs::MetadataExt;
use std::process::ExitCode;

const USAGE: &str = "usage:
  layout-text assemble [TEXT] [-o BYTES]
  layout-text show     [BYTES] [--names TEXT] [-o TEXT]
  layout-text explain  [FILE] [--text | --bytes] [--names TEXT] [--hex]
                       [--report REPORT [--as-given]]
  layout-text sizes    [FILE [NAME]] [--text | --bytes] [--names TEXT]
                       [--svg [-o PICTURE]]
  layout-text chain    FILE FROM TO [--text | --bytes] [--names TEXT]
  layout-text help

An option may be given once, and --text and --bytes exclude each other.
A file that is left out, or `-`, is standard input or output. explain, sizes and chain
take FILE as text if its name ends in .layout, or if it does not start with hex 60 and
is UTF-8 without control characters; --text and --bytes say otherwise. REPORT is a report's
bytes or its hexadecimal digits; one that is not FILE's is refused. With --as-given it
is not compared. sizes prints the size, the alignment and the fields of every definition
that has a fixed size, and says why the others have none; of an array whose size is
written as a sum the value too, or which part of the sum has none. With NAME, a word or
a number as #17, it is that definition alone. --svg draws that one. chain prints the
names on the shortest path of edges from FROM to TO, each a word or a number as #17, of
how many names the edges were followed for it, and to how many edges lead from FROM,
directly or through others. --names gives the words for names, in place of FILE's own.
A text may have 4,194,304 bytes.
Exit codes: 0 done, and for explain no violation; 1 violations; 2 a bundle that is
refused, or a NAME without a fixed size; 3 a damaged text, a report that is not the
bundle's, a NAME without a definition, a FROM or TO that is no name, a file that cannot
be read or written, a library whose answers are not those that the program works out or
do not agree, or a wrong command.
";

/// The end of each message about a wrong command.
const MORE: &str = "`layout-text help` says what can be given";

const VIOLATIONS: u8 = 1;
const REFUSED: u8 = 2;
const FAILED: u8 = 3;

const TEXT_LIMIT: usize = 4 << 20;
/// Enough for every report, and for the digits of all but the longest.
const REPORT_LIMIT: usize = 64 << 20;
/// A bundle and one byte more: enough to know that it is too long.
const BUNDLE_BYTES: usize = BYTE_LIMIT + 1;
/// What the program `layout` lends to its report.
const PROGRAM_OUTPUT: usize = 65_536;

/// The bytes of a report on a line of `--hex`.
const HEX_LINE: usize = 16;

/// A message and the exit code that goes with it; no message where nobody reads.
type Failure = (String, u8);

#[derive(Default)]
struct Arguments {
    file: Option<String>,
    /// The second word that is no option: a definition's name, or the start of a chain.
    name: Option<String>,
    /// The third one: the end of a chain.
    to: Option<String>,
    out: Option<String>,
    names: Option<String>,
    report: Option<String>,
    text: Option<bool>,
    as_given: bool,
    hex: bool,
    svg: bool,
    help: bool,
}

/// Puts a value where there is none yet.
fn once<T>(place: &mut Option<T>, value: T, word: &str) -> Result<(), String> {
    match place.replace(value) {
        None => Ok(()),
        Some(_) => Err(format!("`{word}` is given twice")),
    }
}

fn main() -> ExitCode {
    // A name that is no UTF-8 names no file here, and the message shows it.
    let words = std::env::args_os().skip(1);
    let mut words = words.map(|word| word.to_string_lossy().into_owned());
    let Some(verb) = words.next() else {
        note(USAGE);
        return ExitCode::from(FAILED);
    };
    let (run, allowed): (fn(&Arguments) -> Result<u8, Failure>, &[&str]) = match verb.as_str() {
        "assemble" => (run_assemble, &["-o"]),
        "show" => (run_show, &["-o", "--names"]),
        "explain" => (run_explain, &EXPLAIN_OPTIONS),
        "sizes" => (run_sizes, &SIZES_OPTIONS),
        "chain" => (run_chain, &CHAIN_OPTIONS),
        "help" | "-h" | "--help" => (run_help, &["help"]),
        _ => {
            note(&format!("`{}` is no verb; {MORE}", cut(&verb)));
            return ExitCode::from(FAILED);
        }
    };
    let done = arguments(words, allowed).and_then(|found| match found.help {
        true => run_help(&found),
        false => one_standard_input(&found)
            .and_then(|()| output_apart(&found))
            .and_then(|()| run(&found)),
    });
    match done {
        Ok(code) => ExitCode::from(code),
        Err((message, code)) => {
            note(&message);
            ExitCode::from(code)
        }
    }
}

const EXPLAIN_OPTIONS: [&str; 6] = [
    "--names",
    "--report",
    "--as-given",
    "--text",
    "--bytes",
    "--hex",
];

/// `NAME` allows a second word that is no option.
const SIZES_OPTIONS: [&str; 6] = ["--names", "--text", "--bytes", "--svg", "-o", "NAME"];

/// `TO` allows a third one; both must be there.
const CHAIN_OPTIONS: [&str; 5] = ["--names", "--text", "--bytes", "NAME", "TO"];

/// A line on standard error. If even that cannot be written, the exit code tells.
fn note(message: &str) {
    if !message.is_empty() {
        let _ = writeln!(io::stderr(), "{}", message.trim_end());
    }
}

fn arguments(words: impl Iterator<Item = String>, allowed: &[&str]) -> Result<Arguments, Failure> {
    let found = options(words, allowed).and_then(|found| {
        let picture = allowed.contains(&"--svg");
        if allowed.contains(&"TO") && found.to.is_none() && !found.help {
            return Err("`chain` needs FILE, FROM and TO".to_string());
        }
        let missing = match &found {
            _ if found.help => None,
            _ if found.as_given && found.report.is_none() => Some(("--as-given", "--report")),
            _ if found.svg && found.name.is_none() => Some(("--svg", "NAME")),
            _ if picture && found.out.is_some() && !found.svg => Some(("-o", "--svg")),
            _ => None,
        };
        match missing {
            Some((word, other)) => Err(format!("`{word}` is given without `{other}`")),
            None => Ok(found),
        }
    });
    found.map_err(|fault| (format!("{fault}; {MORE}"), FAILED))
}

fn options(mut words: impl Iterator<Item = String>, allowed: &[&str]) -> Result<Arguments, String> {
    let mut found = Arguments::default();
    let (mut hex, mut as_given, mut svg) = (None, None, None);
    while let Some(word) = words.next() {
        let word = word.as_str();
        let help = ["-h", "--help"].contains(&word);
        let option = word.starts_with('-') && word != "-";
        if option && !help && !allowed.contains(&word) {
            return Err(format!("wrong argument `{}`", cut(word)));
        }
        let mut value = || words.next().ok_or(format!("`{word}` needs a file"));
        match word {
            "-o" => once(&mut found.out, value()?, word)?,
            "--names" => once(&mut found.names, value()?, word)?,
            "--report" => once(&mut found.report, value()?, word)?,
            "--as-given" => once(&mut as_given, (), word)?,
            "--hex" => once(&mut hex, (), word)?,
            "--svg" => once(&mut svg, (), word)?,
            "--text" | "--bytes" => text_or_bytes(&mut found.text, word)?,
            _ if help => found.help = true,
            _ if found.file.is_none() && !allowed.contains(&"help") => {
                found.file = Some(word.to_string());
            }
            _ if found.name.is_none() && allowed.contains(&"NAME") => {
                found.name = Some(word.to_string());
            }
            _ if found.to.is_none() && allowed.contains(&"TO") => {
                found.to = Some(word.to_string());
            }
            _ => return Err(format!("`{}` is one argument too many", cut(word))),
        }
    }
    found.hex = hex.is_some();
    found.svg = svg.is_some();
    found.as_given = as_given.is_some();
    Ok(found)
}

fn text_or_bytes(text: &mut Option<bool>, word: &str) -> Result<(), String> {
    let given = word == "--text";
    match text.replace(given) {
        None => Ok(()),
        Some(before) if before == given => Err(format!("`{word}` is given twice")),
        Some(_) => Err("`--text` and `--bytes` are both given".to_string()),
    }
}

/// Standard input can be read once only.
fn one_standard_input(arguments: &Arguments) -> Result<(), Failure> {
    let Arguments {
        file,
        names,
        report,
        ..
    } = arguments;
    let own = [
        Some(file.as_deref().unwrap_or("-")),
        names.as_deref(),
        report.as_deref(),
    ];
    match own.iter().filter(|path| **path == Some("-")).count() > 1 {
        true => Err(("standard input is asked for twice".to_string(), FAILED)),
        false => Ok(()),
    }
}

/// A file that is read is not written over.
fn output_apart(arguments: &Arguments) -> Result<(), Failure> {
    let Some(out) = arguments.out.as_deref() else {
        return Ok(());
    };
    let read = [&arguments.file, &arguments.names, &arguments.report];
    match read.iter().any(|path| same_file(path.as_deref(), out)) {
        true => Err((
            format!("{}: this file is read; write to another", cut(out)),
            FAILED,
        )),
        false => Ok(()),
    }
}

fn same_file(path: Option<&str>, other: &str) -> bool {
    let place = |path: &str| std::fs::metadata(path).map(|found| (found.dev(), found.ino()));
    match (path.map(place), place(other)) {
        (Some(Ok(one)), Ok(another)) => one == another,
        _ => false,
    }
}

fn label(path: Option<&str>) -> Cow<'_, str> {
    match path {
        None | Some("-") => Cow::Borrowed("standard input"),
        Some(path) => one_line(path),
    }
}

fn unread(path: Option<&str>) -> impl Fn(FileError) -> Failure + '_ {
    move |error| match error {
        FileError::Gone => (format!("{}: cannot be read", label(path)), FAILED),
        FileError::Failed(why) => (format!("{}: cannot be read: {why}", label(path)), FAILED),
    }
}

/// All of a file, of at most so many bytes.
fn whole(path: Option<&str>, most: usize, what: &str) -> Result<Vec<u8>, Failure> {
    let mut bytes = Vec::new();
    let mut input = Input::open(path).map_err(unread(path))?;
    input.read_on(&mut bytes, most + 1).map_err(unread(path))?;
    match bytes.len() > most {
        true => Err(too_long(path, most, what)),
        false => Ok(bytes),
    }
}

fn too_long(path: Option<&str>, most: usize, what: &str) -> Failure {
    let place = label(path);
    (
        format!("{place}: more than {most} bytes, too many for {what}"),
        FAILED,
    )
}

/// The bytes of a bundle, or one more than a bundle may have.
fn bundle_bytes(path: Option<&str>) -> Result<Vec<u8>, Failure> {
    let mut bytes = Vec::new();
    let mut input = Input::open(path).map_err(unread(path))?;
    input
        .read_on(&mut bytes, BUNDLE_BYTES)
        .map_err(unread(path))?;
    Ok(bytes)
}

fn output(path: Option<&str>, bytes: &[u8]) -> Result<(), Failure> {
    let place = match path {
        None | Some("-") => Cow::Borrowed("standard output"),
        Some(path) => one_line(path),
    };
    files::write(path, bytes).map_err(|error| match error {
        FileError::Gone => (String::new(), FAILED),
        FileError::Failed(why) => (format!("{place}: cannot be written: {why}"), FAILED),
    })
}

fn text_from(path: Option<&str>) -> Result<Text, Failure> {
    parse_file(path, whole(path, TEXT_LIMIT, "a text")?)
}

fn parse_file(path: Option<&str>, bytes: Vec<u8>) -> Result<Text, Failure> {
    let hint = match is_bundle(&bytes) {
        true => "; the file looks like a bundle, and a text is due",
        false => "",
    };
    let failure = |message: String| (format!("{}: {message}{hint}", label(path)), FAILED);
    let text = String::from_utf8(bytes).map_err(|error| {
        let position = error.utf8_error().valid_up_to();
        failure(format!(
            "no text: byte {position} starts no letter of UTF-8"
        ))
    })?;
    parse(&text).map_err(|error| failure(error.to_string()))
}

fn encoded(path: Option<&str>, text: &Text) -> Result<Vec<u8>, Failure> {
    let failure = |message| (format!("{}: {message}", label(path)), FAILED);
    encode(&text.bundle).map_err(failure)
}

/// The words for names: from the text named, if there is one.
fn names_from(path: Option<&str>) -> Result<Names, Failure> {
    match path {
        None => Ok(Names::default()),
        Some(_) => Ok(text_from(path)?.names),
    }
}

fn source_of(text: Text) -> Source {
    Source {
        names: text.names,
        lines: text.lines,
    }
}

/// Names from a text, and its lines if it is the text of these bytes.
fn source_from(path: Option<&str>, bytes: &[u8]) -> Result<Source, Failure> {
    let text = text_from(path)?;
    let same = encode(&text.bundle).is_ok_and(|own| own == bytes);
    let mut source = source_of(text);
    if !same {
        source.lines.clear();
    }
    Ok(source)
}

fn run_help(_: &Arguments) -> Result<u8, Failure> {
    output(None, USAGE.as_bytes())?;
    Ok(0)
}

fn run_assemble(arguments: &Arguments) -> Result<u8, Failure> {
    let path = arguments.file.as_deref();
    let text = text_from(path)?;
    let bytes = encoded(path, &text)?;
    output(arguments.out.as_deref(), &bytes)?;
    if let Err(refusal) = layout::accept(&bytes) {
        let place = label(path);
        note(&format!(
            "{place}: assembled, but the checks will refuse it: {refusal}"
        ));
    }
    Ok(0)
}

fn run_show(arguments: &Arguments) -> Result<u8, Failure> {
    let path = arguments.file.as_deref();
    let bytes = bundle_bytes(path)?;
    let names = names_from(arguments.names.as_deref())?;
    let bundle = read(&bytes).map_err(|fault| {
        let hint = match is_text(&bytes) {
            true => "; the file looks like text, which `assemble` takes",
            false => "",
        };
        (format!("{}: {fault}{hint}", label(path)), REFUSED)
    })?;
    output(arguments.out.as_deref(), show(&bundle, &names).as_bytes())?;
    Ok(0)
}

fn run_explain(arguments: &Arguments) -> Result<u8, Failure> {
    let (bytes, source) = set_and_source(arguments)?;
    let answer = match arguments.report.as_deref() {
        None => answer_of(&bytes),
        given => stored_answer(given, &bytes, arguments.as_given)?,
    };
    let failure = |message| (format!("the report: {message}"), FAILED);
    let report = report::read(&answer).map_err(failure)?;
    let words = explain(&bytes, &report, &source).map_err(failure);
    let digits = || -> Parts { Box::new(answer.chunks(1_024 * HEX_LINE).map(hex)) };
    let parts = match arguments.hex {
        // What the library itself answered is shown whatever it is.
        true if arguments.report.is_none() => digits(),
        true => words.map(|_| digits())?,
        false => words?,
    };
    for part in parts {
        output(None, part.as_bytes())?;
    }
    if arguments.as_given {
        let place = label(arguments.report.as_deref());
        note(&format!(
            "{place}: taken as given, not compared with the library's report"
        ));
    }
    Ok(match &report {
        Report::Refused(_) => REFUSED,
        Report::Violations(list) if list.is_empty() => 0,
        Report::Violations(_) => VIOLATIONS,
    })
}

/// Says why the library refuses a bundle, in the words of `explain`.
fn tell_refusal(
    arguments: &Arguments,
    bytes: &[u8],
    source: &Source,
    refusal: Refusal,
) -> Result<u8, Failure> {
    let report = Report::Refused(refusal.number());
    let parts = explain(bytes, &report, source).map_err(|message| (message, FAILED))?;
    // Words are no picture, so they go to standard error then.
    if arguments.svg {
        return Err((parts.collect(), REFUSED));
    }
    for part in parts {
        output(None, part.as_bytes())?;
    }
    Ok(REFUSED)
}

fn run_chain(arguments: &Arguments) -> Result<u8, Failure> {
    let (bytes, source) = set_and_source(arguments)?;
    let failure = |message: String| (message, FAILED);
    if let Err(refusal) = layout::accept(&bytes) {
        return tell_refusal(arguments, &bytes, &source, refusal);
    }
    let bundle = accepted(&bytes).map_err(failure)?;
    let end = |word: &Option<String>| name_of(arguments, word.as_deref(), &source);
    let (from, to) = (end(&arguments.name)?, end(&arguments.to)?);
    let search = Search::new(&bundle, &bytes, from, to).map_err(failure)?;
    output(None, search.words(&source.names).as_bytes())?;
    Ok(0)
}

/// The number of a name that is asked about; it need not be in the set.
fn name_of(arguments: &Arguments, word: Option<&str>, source: &Source) -> Result<Name, Failure> {
    let word = word.unwrap_or_default();
    source.names.find(word).ok_or_else(|| {
        let hint = match word.starts_with('#') {
            true => "; a number from 0 to 65535 is due behind the #".to_string(),
            false => unnamed_hint(arguments, word, source),
        };
        let (place, word) = (label(arguments.file.as_deref()), cut(word));
        (format!("{place}: `{word}` is no name{hint}"), FAILED)
    })
}

/// Where a word is no name, and what can be given in its place.
fn unnamed_hint(arguments: &Arguments, word: &str, source: &Source) -> String {
    let hint = unknown_hint(arguments, word, source);
    match &arguments.names {
        None if hint.is_empty() => {
            " in this set; give a name of the set, or # and a number".to_string()
        }
        None => format!(" in this set{hint}"),
        Some(_) if source.names.is_empty() || is_number(word) => hint,
        Some(_) => format!("{hint}: give one of them, or # and a number"),
    }
}

fn run_sizes(arguments: &Arguments) -> Result<u8, Failure> {
    let (bytes, source) = set_and_source(arguments)?;
    let failure = |message: String| (message, FAILED);
    if let Err(refusal) = layout::accept(&bytes) {
        return tell_refusal(arguments, &bytes, &source, refusal);
    }
    let bundle = accepted(&bytes).map_err(failure)?;
    let mut sizes = Sizes::new(&bundle, &bytes, &source);
    match &arguments.name {
        Some(name) => {
            let place = sizes.find(name);
            let place = place.ok_or_else(|| undefined(arguments, name, &source))?;
            run_one_size(arguments, &mut sizes, place)
        }
        None => {
            for part in sizes.all() {
                output(None, part.map_err(failure)?.as_bytes())?;
            }
            Ok(0)
        }
    }
}

/// The tree of a bundle that the library accepts, if this program finds no fault in it either.
fn accepted(bytes: &[u8]) -> Result<Bundle, String> {
    let bundle = read(bytes)
        .map_err(|fault| format!("the library accepts the bundle, but the fault is at {fault}"))?;
    match circle(&bundle) {
        Some(_) => Err("the library accepts the bundle, but it circles".to_string()),
        None => Ok(bundle),
    }
}

/// Whether a word is a number without its sign.
fn is_number(word: &str) -> bool {
    !word.is_empty() && word.bytes().all(|byte| byte.is_ascii_digit())
}

/// How a name can be given that is not known, and where the words for names are from if that is not the set.
fn unknown_hint(arguments: &Arguments, name: &str, source: &Source) -> String {
    let number = "write #17 for name 17";
    let none = source.names.is_empty();
    match arguments.names.as_deref() {
        // A number is the same with all words.
        _ if name.starts_with('#') => String::new(),
        _ if is_number(name) && !none => format!("; {number}"),
        None if none => format!("; no words are known for its names: {number}, or give --names"),
        None => String::new(),
        given => {
            let end = match none {
                true => format!(", which has none: {number}"),
                false => String::new(),
            };
            format!("; the names are those of {} (--names){end}", label(given))
        }
    }
}

fn undefined(arguments: &Arguments, name: &str, source: &Source) -> Failure {
    let hint = unknown_hint(arguments, name, source);
    let (place, name) = (label(arguments.file.as_deref()), cut(name));
    (format!("{place}: `{name}` has no definition{hint}"), FAILED)
}

/// What is said about one definition, or its picture.
fn run_one_size(arguments: &Arguments, sizes: &mut Sizes, place: usize) -> Result<u8, Failure> {
    let failure = |message: String| (message, FAILED);
    if !arguments.svg {
        let answer = sizes.answer(place).map_err(failure)?;
        output(None, answer.text.as_bytes())?;
        return Ok(if answer.fixed { 0 } else { REFUSED });
    }
    match sizes.picture(place).map_err(failure)? {
        Ok(drawn) => output(arguments.out.as_deref(), drawn.as_bytes()).map(|()| 0),
        // Words are no picture, so they go to standard error.
        Err(answer) => Err((answer.text, REFUSED)),
    }
}

/// The set that is asked about, with the names that are given for it.
fn set_and_source(arguments: &Arguments) -> Result<(Vec<u8>, Source), Failure> {
    let (bytes, own) = set_from(arguments)?;
    let source = match arguments.names.as_deref() {
        None => own,
        given => source_from(given, &bytes)?,
    };
    Ok((bytes, source))
}

/// The bytes of the set that is asked about, and what its text says besides.
fn set_from(arguments: &Arguments) -> Result<(Vec<u8>, Source), Failure> {
    let path = arguments.file.as_deref();
    let mut given = Vec::new();
    let mut input = Input::open(path).map_err(unread(path))?;
    input
        .read_on(&mut given, BUNDLE_BYTES)
        .map_err(unread(path))?;
    let by_ending = path.is_some_and(|path| path.ends_with(".layout"));
    let by_itself = by_ending || is_text(&given);
    if !arguments.text.unwrap_or(by_itself) {
        return Ok((given, Source::default()));
    }
    input
        .read_on(&mut given, TEXT_LIMIT + 1)
        .map_err(unread(path))?;
    if given.len() > TEXT_LIMIT {
        return Err(too_long(path, TEXT_LIMIT, "a text"));
    }
    let text = parse_file(path, given)?;
    Ok((encoded(path, &text)?, source_of(text)))
}

/// A report that was stored; the library is not asked where it is taken as given. Otherwise it must be this bundle's:
/// the one that the library gives, or the refusal that the program gives where the library's is too long.
fn stored_answer(path: Option<&str>, bytes: &[u8], as_given: bool) -> Result<Vec<u8>, Failure> {
    let failure = |message: String| (format!("{}: {message}", label(path)), FAILED);
    let file = whole(path, REPORT_LIMIT, "a report")?;
    let given = report::from_file(file).map_err(failure)?;
    report::read(&given).map_err(failure)?;
    if as_given {
        return Ok(given);
    }
    let own = answer_of(bytes);
    let narrow = own.len() > PROGRAM_OUTPUT && given == [0x7E, Refusal::Narrow.number()];
    match report::difference(&given, &own) {
        Some(difference) if !narrow => Err(failure(format!(
            "not this bundle's report: {difference} (--as-given does not compare)"
        ))),
        _ => Ok(given),
    }
}

/// What the library answers, as the program would write it, but without a limit
/// on the report's length.
fn answer_of(bytes: &[u8]) -> Vec<u8> {
    layout::report_vec(bytes).unwrap_or_else(|refusal: Refusal| vec![0x7E, refusal.number()])
}

fn hex(bytes: &[u8]) -> String {
    let pairs: Vec<String> = bytes.iter().map(|byte| format!("{byte:02X}")).collect();
    let lines: Vec<String> = pairs.chunks(HEX_LINE).map(|line| line.join(" ")).collect();
    lines.join("\n") + "\n"
}
