//! The notation on small texts: bytes, numbers of names, faults with their place;
//! what is taken as text; stored reports; the words for findings.

use layout_text::encode::encode;
use layout_text::explain::{explain, Source};
use layout_text::parse::parse;
use layout_text::read::read;
use layout_text::recognise::is_text;
use layout_text::report::{self, Report, Violation};
use layout_text::show::show;
use layout_text::tree::{Expr, Type};

fn bytes(text: &str) -> Vec<u8> {
    let text = parse(text).unwrap_or_else(|error| panic!("{error}"));
    encode(&text.bundle).expect("few enough of everything")
}

/// Line, column and message of a text's fault.
fn fault(text: &str) -> (usize, usize, String) {
    match parse(text) {
        Ok(_) => panic!("no fault in {text}"),
        Err(error) => (error.place.line, error.place.column, error.message),
    }
}

/// The size of `define a array [...] u8`.
fn size(expression: &str) -> Expr {
    let text = format!("define a array [{expression}] u8");
    let parsed = parse(&text).unwrap_or_else(|error| panic!("{expression}: {error}"));
    match &parsed.bundle.definitions[0].body {
        Type::Array(array) => array.size.clone(),
        other => panic!("{other:?}"),
    }
}

#[test]
fn the_paper_s_example() {
    let expected = [
        0x60, 1, 0, 0, 0, 0, 0, 0x61, 1, 0, 0x44, 0, 0, 0, 0, 0, 0, 0, 0, 0, 1, 4, 3, 0x30,
    ];
    assert_eq!(bytes("define trace jagged array [3u8] u8"), expected);
}

#[test]
fn an_empty_text_is_an_empty_bundle() {
    assert_eq!(bytes(""), [0x60, 0, 0, 0, 0, 0, 0]);
    assert_eq!(bytes("  // nothing\n"), [0x60, 0, 0, 0, 0, 0, 0]);
}

#[test]
fn names_are_numbered_by_first_use() {
    let list = bytes("edge i -> #0 type edge i -> g tag");
    assert_eq!(list[7..], [0x62, 1, 0, 0, 0, 0, 0x62, 1, 0, 2, 0, 3]);
    // 2 is asked for by `b`, 1 by `#1`.
    let list = bytes("name b = 2 edge a -> b field edge c -> #1 size");
    assert_eq!(list[7..], [0x62, 3, 0, 2, 0, 1, 0x62, 4, 0, 1, 0, 2]);
}

#[test]
fn words_of_the_notation_may_be_names() {
    let text = "current current define struct struct { packed: u8, size: ref edge, sizeof: i8 }
        define define array [sizeof.name + sizeof(sizeof)] u8
        edge edge -> define type";
    assert_eq!(parse(text).unwrap().bundle.definitions.len(), 2);
}

#[test]
fn every_type_has_its_bytes() {
    let text = "define a size-union packed aligned 256 { b = 3: f16 }";
    let expected = [
        0x45, 1, 0, 1, 0, 0, 0, 0, 0, 0, 1, 0, 0x53, 2, 0, 3, 0, 0, 0, 0, 0, 0, 0, 0x39,
    ];
    assert_eq!(bytes(text)[10..], expected);
    let text = "define a enum (b) { c = 1: char d = 0xFFFFFFFFFFFFFFFF: ref a }";
    let list = bytes(text);
    assert_eq!(list[10], 0x43);
    assert_eq!(list[22..25], [0x09, 2, 0]);
    assert_eq!(list[25..37], [0x52, 3, 0, 1, 0, 0, 0, 0, 0, 0, 0, 0x38]);
    assert_eq!(list[37..40], [0x52, 4, 0]);
    assert_eq!(list[48..], [0x40, 1, 0]);
    assert_eq!(bytes("define a union { b: f64 }")[22..], [0x51, 2, 0, 0x3B]);
}

#[test]
fn literals_keep_their_kind_and_sign() {
    assert_eq!(size("3"), Expr::Literal(1, 3));
    assert_eq!(size("0x1Fu32"), Expr::Literal(2, 31));
    assert_eq!(size("65_535u16"), Expr::Literal(3, 65_535));
    assert_eq!(size("-1i64"), Expr::Literal(5, u64::MAX));
    assert_eq!(size("-128i8"), Expr::Literal(8, 128));
    assert_eq!(size("127i8"), Expr::Literal(8, 127));
    let negated = Expr::Unary(0x25, Box::new(Expr::Literal(8, 5)));
    assert_eq!(size("- 5i8"), negated);
    assert_eq!(size("-(5i8)"), negated);
}

#[test]
fn rows_group_from_the_left() {
    assert_eq!(size("a - b - c"), size("(a - b) - c"));
    assert_ne!(size("a - b - c"), size("a - (b - c)"));
    assert_eq!(size("a -1i8"), size("a - 1i8"));
    assert_eq!(size("popcount(a ^^ !b)"), size("popcount((a) ^^ (!(b)))"));
    let Expr::FieldRef(path) = size("a.b.c.#7") else {
        panic!("no path");
    };
    assert_eq!(path.names(), [1, 2, 3, 7]);
}

#[test]
fn faults_have_line_and_column() {
    let (line, column, message) = fault("define a struct {\n    x: cell\n}");
    assert_eq!((line, column), (2, 8));
    assert!(message.contains("`ref`"), "{message}");
    let (line, column, message) = fault("define a array [a + b * c] u8");
    assert_eq!((line, column), (1, 23));
    assert!(message.contains("parentheses"), "{message}");
    let (line, column, message) = fault("define a array [-4 * 3] u8");
    assert_eq!((line, column), (1, 18));
    assert!(message.contains("`-4i64`"), "{message}");
    assert_eq!(fault("define a struct {\n").0, 2);
    assert_eq!(fault("define a array [300u8] u8").1, 17);
    assert_eq!(fault("define a array [-1u8] u8").1, 18);
    assert_eq!(fault("define a array [a.b.c.d.e] u8").1, 24);
    assert_eq!(fault("edge a -> b link").1, 13);
    assert_eq!(fault("edge a -> b tag define c u8").1, 17);
    assert_eq!(fault("name a = 1\nname b = 1").0, 2);
    assert_eq!(fault("name a = 70000").1, 10);
    assert_eq!(fault("edge #65536 -> b tag").1, 6);
    assert_eq!(fault("define a u8 ; ").1, 13);
    assert_eq!(fault("// é\ndefine é $").1, 10);
    assert_eq!(fault("define a enum { b = 1: u8 }").1, 15);
    assert_eq!(fault("define a struct { b = 1: u8 }").1, 21);
}

#[test]
fn a_carriage_return_ends_a_line() {
    let lines = [
        "// a comment",
        "define a u8 // one",
        "",
        "define b u16",
        "edge a -> b tag",
    ];
    let text = lines.join("\n");
    for end in ["\r", "\r\n"] {
        let other = lines.join(end);
        assert_eq!(bytes(&other), bytes(&text));
        assert_eq!(parse(&other).unwrap().lines, [2, 4]);
        let (line, column, _) = fault(&lines.join(end).replace("u16", "u9"));
        assert_eq!((line, column), (4, 10));
    }
    assert_eq!(fault("\n\r\n\r\r\n\n  $").0, 6);
    assert_eq!(fault("//\r\n$").0, 2);
    assert_eq!(fault("//\n\r$").0, 3);
}

#[test]
fn messages_repeat_the_start_of_a_long_word() {
    let digits = "7".repeat(100_000);
    let letters = "é".repeat(100_000);
    let number = "7".repeat(40) + "…";
    let word = "é".repeat(40) + "…";
    let cases = [
        (format!("define a array [{digits}] u8"), &number),
        (format!("define a array [{digits}u9] u8"), &number),
        (
            format!("define a array [7_{letters}] u8"),
            &"7_".to_string(),
        ),
        (format!("define a {letters}"), &word),
        (format!("define a u8 {letters}"), &word),
        (format!("edge a -> b {letters}"), &word),
        (format!("edge a {letters}"), &word),
        (format!("name {letters} = 1 name b = 1"), &word),
        (format!("name {letters} = 1 name {letters} = 2"), &word),
    ];
    for (text, start) in cases {
        let message = fault(&text).2;
        assert!(message.contains(start.as_str()), "{}", message.len());
        assert!(message.chars().count() < 200, "{}", message.len());
    }
    let whole = "define a ".to_string() + &"x".repeat(40);
    assert!(!fault(&whole).2.contains('…'));
    let message = report::from_file(digits[1..].as_bytes().to_vec()).unwrap_err();
    assert!(message.contains(&number) && message.len() < 200);
}

#[test]
fn deep_texts_are_stopped() {
    let parens = format!("define a array [{}a", "(".repeat(100_000));
    assert!(fault(&parens).2.contains("deep"));
    let row = format!("define a array [a{}] u8", " + a".repeat(100_000));
    assert!(fault(&row).2.contains("deep"));
    let types = format!("define a {}", "array [1] ".repeat(100_000));
    assert!(fault(&types).2.contains("deep"));
}

#[test]
fn show_leaves_out_a_table_that_is_not_needed() {
    let text = "current a\n\ndefine a struct {\n    b: ref c\n}\n\nedge a -> c type\n";
    let parsed = parse(text).unwrap();
    assert_eq!(show(&parsed.bundle, &parsed.names), text);
    let text = "name c = 4\nname a = 9\n\ncurrent a\n\nedge a -> c type\n";
    let parsed = parse(text).unwrap();
    assert_eq!(show(&parsed.bundle, &parsed.names), text);
}

#[test]
fn reading_stops_at_the_fault() {
    let sound = bytes("define a struct { b: array [c + 1u8] u16 } edge a -> b tag");
    let position = |list: &[u8]| {
        let fault = read(list).expect_err("a fault");
        (fault.refusal.number(), fault.position)
    };
    let changed = |at: usize, value: u8| {
        let mut list = sound.clone();
        list[at] = value;
        position(&list)
    };
    assert_eq!(position(&[]), (2, 0));
    assert_eq!(position(&sound[..sound.len() - 1]), (2, sound.len() - 1));
    assert_eq!(changed(0, 0x61), (3, 0));
    assert_eq!(changed(2, 2), (5, 1));
    assert_eq!(changed(4, 9), (5, 3));
    assert_eq!(changed(10, 0x46), (3, 10));
    assert_eq!(changed(11, 2), (4, 11));
    assert_eq!(changed(35, 2), (4, 35));
    assert_eq!(changed(sound.len() - 1, 4), (4, sound.len() - 1));
    let longer = [&sound[..], &[0, 0]].concat();
    assert_eq!(position(&longer), (7, sound.len()));
    assert_eq!(position(&[0x60; 40_000]), (1, 32_768));
}

#[test]
fn a_byte_order_mark_is_passed_over() {
    let text = "define trace jagged array [3u8] u8";
    assert_eq!(bytes(&format!("\u{FEFF}{text}")), bytes(text));
    assert_eq!(fault("\u{FEFF}define a u9").1, 10);
    // Anywhere else it is a letter without meaning.
    assert_eq!(fault("define\u{FEFF} a u8").1, 7);
}

#[test]
fn text_is_told_from_bytes() {
    assert!(is_text(b"define a u8"));
    assert!(is_text(b"\r\n\t// nothing\n"));
    assert!(is_text("\u{FEFF}define ö u8".as_bytes()));
    // Cut off within a letter, as at the end of what was read first.
    assert!(is_text(&"define ö".as_bytes()[..8]));
    assert!(!is_text(b""));
    assert!(!is_text(b"`"));
    assert!(!is_text(b"a\x01\x00"));
    assert!(!is_text(b"define \xFF"));
    assert!(!is_text(&bytes("define a u8")));
    assert!(!is_text(&bytes("")[1..]));
}

#[test]
fn stored_reports_are_bytes_or_digits() {
    let own = vec![0x70, 1, 0x77, 0x0A];
    assert_eq!(report::from_file(own.clone()), Ok(own.clone()));
    assert_eq!(report::from_file(b"70 01\n770a\n".to_vec()), Ok(own));
    assert_eq!(report::from_file(b"\n7e 02".to_vec()), Ok(vec![0x7E, 2]));
    assert_eq!(report::from_file(Vec::new()), Ok(Vec::new()));
    assert!(report::from_file(b"70 1".to_vec()).is_err());
    assert!(report::from_file(b"70 0g".to_vec()).is_err());
    // No digit at the start: bytes, which are no report.
    let other = report::from_file(b"~\x02".to_vec()).unwrap();
    assert_eq!(report::read(&other), Ok(Report::Refused(2)));
}

#[test]
fn differences_of_reports_have_a_place() {
    let told = |given: &[u8]| report::difference(given, &[0x70, 1, 0]);
    assert_eq!(told(&[0x70, 1, 0]), None);
    assert!(told(&[0x70, 2, 0]).unwrap().contains("byte 1 is 02"));
    assert!(told(&[0x70, 1]).unwrap().contains("byte 2 is the end"));
    let longer = told(&[0x70, 1, 0, 0]).unwrap();
    assert!(longer.contains("byte 3 is 00") && longer.contains("the end"));
}

/// The words for one violation of a text's definition, with this path and chain.
fn words(text: &str, kind: u8, definition: usize, path: &[u16], chain: &[u16]) -> String {
    let parsed = parse(text).unwrap_or_else(|error| panic!("{error}"));
    let violation = Violation {
        kind,
        definition,
        name: parsed.bundle.definitions[definition].name,
        path: path.to_vec(),
        chain: chain.to_vec(),
    };
    let report = Report::Violations(vec![violation]);
    let source = Source {
        names: parsed.names,
        lines: parsed.lines,
    };
    let found = explain(&encode(&parsed.bundle).unwrap(), &report, &source);
    found.map_or_else(|message| format!("refused: {message}"), Iterator::collect)
}

#[test]
fn findings_claim_what_was_looked_at() {
    let array = "define s struct { n: u8 a: ref a } define a array [s.n] u8";
    let found = words(array, 3, 1, &[1, 2], &[1, 3]);
    assert!(found.contains("edges lead from `s` to `a`"), "{found}");
    assert!(found.contains("does not ask whether"), "{found}");
    let found = words(array, 5, 1, &[], &[3]);
    assert!(found.contains("does not ask whether"), "{found}");
    let second = "define s struct { x: u8 n: u8 } define s struct { a: ref a n: u8 }";
    let found = words(second, 4, 1, &[1, 3], &[1, 4, 3]);
    assert!(
        found.contains("later in definition 0, the first"),
        "{found}"
    );
    let own = "define e enum (e.k) { a = 1: u8 b = 2: u16 }";
    let found = words(own, 2, 0, &[1, 2], &[1]);
    assert!(found.contains("the enum's own name"), "{found}");
}

#[test]
fn a_pass_is_no_more_than_the_absence_of_findings() {
    let report = Report::Violations(Vec::new());
    let source = Source::default();
    let found = explain(&bytes("define a u8"), &report, &source).unwrap();
    let found: String = found.collect();
    assert!(found.contains("none of the eight findings"), "{found}");
    assert!(found.contains("docs/PASS.md"), "{found}");
}

#[test]
fn violations_must_fit_their_definition() {
    let sets = [
        ("define e enum (s.k) { a = 1: u8 }", vec![1, 2]),
        ("define a array [s.n] u8", vec![3, 5]),
        ("define j jagged array [s.n] u8", vec![3, 6, 7, 8]),
        ("define s struct { a: u8 }", vec![4]),
        ("define u union { a: u8 }", vec![]),
        ("define z size-union { a = 1: u8 }", vec![]),
        ("define p u8", vec![]),
    ];
    for (text, kinds) in sets {
        for kind in 1..=8 {
            let path: &[u16] = if kind < 5 { &[1, 2] } else { &[] };
            let found = words(text, kind, 0, path, &[1, 2, 3][..CHAINS[kind as usize - 1]]);
            assert_eq!(
                !found.starts_with("refused"),
                kinds.contains(&kind),
                "{found}"
            );
        }
    }
}

/// A chain's length for each type; types 2 and 3 may have any but 0.
const CHAINS: [usize; 8] = [3, 3, 3, 3, 1, 2, 1, 1];

#[test]
fn paths_and_chains_are_those_of_the_format() {
    let sets = [
        ("define e enum (s.k) { a = 1: u8 }", 1, 2..=2),
        ("define e enum (s.k) { a = 1: u8 }", 2, 1..=4),
        ("define a array [s.n] u8", 3, 1..=4),
        ("define s struct { a: u8 }", 4, 1..=4),
        ("define a array [s.n] u8", 5, 0..=0),
        ("define j jagged array [s.n] u8", 6, 0..=0),
        ("define j jagged array [s.n] u8", 7, 0..=0),
        ("define j jagged array [s.n] u8", 8, 0..=0),
    ];
    for (text, kind, paths) in sets {
        let due = CHAINS[usize::from(kind) - 1];
        for path in 0..=4 {
            for chain in 0..=4 {
                let found = words(text, kind, 0, &[1, 2, 3, 4][..path], &[1, 2, 3, 4][..chain]);
                let chain_fits = chain == due || ([2, 3].contains(&kind) && chain > 0);
                let fits = paths.contains(&path) && chain_fits;
                assert_eq!(
                    !found.starts_with("refused"),
                    fits,
                    "{kind} {path} {chain}: {found}"
                );
            }
        }
    }
}

#[test]
fn places_that_a_path_does_not_use_are_0() {
    let report = |count: u8, second: u8| {
        let body = [0x73, 0, 0, 1, 0, count, 2, 0, second, 0, 0, 0, 0, 0, 1, 0];
        report::read(&[&[0x70, 1, 0], &body[..], &[0x7F, 1, 0]].concat())
    };
    assert!(report(1, 0)
        .is_ok_and(|found| matches!(found, Report::Violations(list) if list[0].path == [2])));
    assert!(report(2, 3).is_ok());
    assert!(report(1, 3).unwrap_err().contains("byte 9"));
}
