//! Chains in words, on small texts and at the limits.

use layout_text::chain::Search;
use layout_text::encode::encode;
use layout_text::parse::parse;
use layout_text::words::{cut, one_line};

/// What is said about the chain from one name of a text to another.
fn said(text: &str, from: &str, to: &str) -> String {
    let text = parse(text).unwrap_or_else(|error| panic!("{error}"));
    let bytes = encode(&text.bundle).expect("few enough of everything");
    assert_eq!(layout::accept(&bytes), Ok(()));
    let number = |word: &str| text.names.find(word).expect("a name");
    let search = Search::new(&text.bundle, &bytes, number(from), number(to));
    search.unwrap().words(&text.names)
}

/// The chain, the sentence about the search, and the one about the names that edges lead to.
fn lines(text: &str, from: &str, to: &str) -> [String; 3] {
    let words = said(text, from, to);
    let lines: Vec<String> = words.lines().map(str::to_string).collect();
    lines.try_into().expect("three lines")
}

/// Two ways of one length to d, of which the one by b comes first; then on to e and back.
const WAYS: &str = "edge a -> b type edge a -> c type edge c -> d size edge b -> d tag edge d -> e type edge e -> a type \
    edge x -> y type";

#[test]
fn a_chain_with_its_count() {
    let due = "a -> b -> d\nThe search followed the edges of 2 names.\nEdges lead from `a`, directly or through others, to 4 other names.\n";
    assert_eq!(said(WAYS, "a", "d"), due);
    let [chain, search, _] = lines(WAYS, "a", "c");
    assert_eq!(chain, "a -> c");
    assert_eq!(search, "The search followed the edges of 1 name.");
    let [chain, search, _] = lines(WAYS, "c", "b");
    assert_eq!(chain, "c -> d -> e -> a -> b");
    assert_eq!(search, "The search followed the edges of 4 names.");
    let [_, _, all] = lines(WAYS, "x", "y");
    assert_eq!(
        all,
        "Edges lead from `x`, directly or through others, to 1 other name."
    );
}

#[test]
fn no_chain() {
    let due = "No chain leads from `a` to `x`.\nThe search followed the edges of 5 names.\n\
        Edges lead from `a`, directly or through others, to 4 other names.\n";
    assert_eq!(said(WAYS, "a", "x"), due);
    let due = "No chain leads from `y` to `a`.\nThe search followed the edges of 1 name.\n\
        No edge leads from `y` to another name.\n";
    assert_eq!(said(WAYS, "y", "a"), due);
    let [chain, _, all] = lines("edge a -> a type", "a", "#7");
    assert_eq!(chain, "No chain leads from `a` to `#7`.");
    assert_eq!(all, "No edge leads from `a` to another name.");
}

#[test]
fn a_name_to_itself() {
    let due = "a\nThe search followed no edges.\nEdges lead from `a`, directly or through others, to 4 other names.\n";
    assert_eq!(said(WAYS, "a", "a"), due);
    let due = "#9\nThe search followed no edges.\nNo edge leads from `#9` to another name.\n";
    assert_eq!(said("", "#9", "#9"), due);
}

/// Name 0 has edges, and so has every name up to 1,024: the one that is asked for besides must be another.
#[test]
fn the_longest_chain() {
    let edges: Vec<String> = (0..1_024)
        .map(|name| format!("edge #{name} -> #{} type", name + 1))
        .collect();
    let text = edges.join("\n");
    let [chain, search, all] = lines(&text, "#0", "#1024");
    assert_eq!(chain.split(" -> ").count(), 1_025);
    assert!(chain.starts_with("#0 -> #1 -> ") && chain.ends_with(" -> #1024"));
    assert_eq!(search, "The search followed the edges of 1024 names.");
    assert_eq!(
        all,
        "Edges lead from `#0`, directly or through others, to 1024 other names."
    );
    let [_, search, _] = lines(&text, "#0", "#65535");
    assert_eq!(search, "The search followed the edges of 1025 names.");
    let [chain, search, _] = lines(&text, "#0", "#1");
    assert_eq!(
        (&chain[..], &search[..]),
        ("#0 -> #1", "The search followed the edges of 1 name.")
    );
}

/// Two names with the same 3,000 letters at the start are told whole, in the chain and in the sentences.
#[test]
fn long_names() {
    let long = "n".repeat(3_000);
    let (one, other) = (format!("{long}1"), format!("{long}2"));
    let text = format!("edge {one} -> {other} type");
    let [chain, _, all] = lines(&text, &one, &other);
    assert_eq!(chain, format!("{one} -> {other}"));
    let due = format!("Edges lead from `{one}`, directly or through others, to 1 other name.");
    assert_eq!(all, due);
    let [none, _, all] = lines(&text, &other, &one);
    assert_eq!(none, format!("No chain leads from `{other}` to `{one}`."));
    assert_eq!(
        all,
        format!("No edge leads from `{other}` to another name.")
    );
}

#[test]
fn words_on_one_line() {
    for plain in [
        "",
        "winch_frame",
        "seil_länge",
        "a `b` 'c' \"d\"",
        "e\u{301}",
    ] {
        assert_eq!(one_line(plain), plain);
    }
    assert_eq!(one_line("a\nb\r\tc\0"), r"a\nb\r\tc\0");
    assert_eq!(one_line("\u{1b}[2J\u{7f}\u{85}"), r"\u{1b}[2J\u{7f}\u{85}");
    assert_eq!(
        one_line("\u{2028}\u{2029}\u{202e}\u{2066}"),
        r"\u{2028}\u{2029}\u{202e}\u{2066}"
    );
    assert_eq!(one_line(r"a\n"), r"a\\n");
    // Letters are counted before they are escaped.
    assert_eq!(cut(&"\n".repeat(40)), r"\n".repeat(40));
    assert_eq!(cut(&"\n".repeat(41)), r"\n".repeat(40) + "…");
}
