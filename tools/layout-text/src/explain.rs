//! Reports and refusals in words.

use crate::circle::circle;
use crate::names::Names;
use crate::read::{read, Fault};
use crate::report::{Report, Violation};
use crate::tree::*;
use crate::words::{self, counted};
use layout::Refusal;

/// Title of each violation type, from 1 on.
const TITLES: [&str; 8] = [
    "enum forward",
    "enum cycle",
    "array cycle",
    "field forward",
    "variable element",
    "jagged reference to a non-struct",
    "jagged inline non-struct",
    "nested jagged",
];

/// What a pass leaves open.
const PASS: &str = "That does not prove that every place is known in time: \
    docs/PASS.md says what a pass means and what it does not.";

/// What is known about a bundle besides its bytes.
#[derive(Default)]
pub struct Source {
    pub names: Names,
    /// The line of each definition in the bundle's text; empty without a text.
    pub lines: Vec<usize>,
}

impl Source {
    pub fn definition(&self, place: usize) -> String {
        match self.lines.get(place) {
            Some(line) => format!("definition {place} (line {line})"),
            None => format!("definition {place}"),
        }
    }

    /// The same where parentheses stand around it.
    pub fn definition_and_line(&self, place: usize) -> String {
        match self.lines.get(place) {
            Some(line) => format!("definition {place}, line {line}"),
            None => format!("definition {place}"),
        }
    }
}

/// The words of an answer, part by part: all of them may be many times as long as the text.
pub type Parts<'a> = Box<dyn Iterator<Item = String> + 'a>;

/// Words for the answer that a library or a program gave about these bytes.
pub fn explain<'a>(
    bytes: &[u8],
    answer: &'a Report,
    source: &'a Source,
) -> Result<Parts<'a>, String> {
    match answer {
        Report::Refused(number) => {
            let words = explain_refusal(bytes, *number, source)?;
            Ok(Box::new(std::iter::once(words)))
        }
        Report::Violations(list) => {
            let bundle = read(bytes).map_err(|fault| {
                format!("there is a report, but the bytes cannot be read: {fault}")
            })?;
            explain_violations(bundle, list, source)
        }
    }
}

fn explain_refusal(bytes: &[u8], number: u8, source: &Source) -> Result<String, String> {
    let refusal = Refusal::from_number(number)
        .ok_or_else(|| format!("{number} is the number of no refusal"))?;
    let (word, meaning) = (refusal.word(), refusal.meaning());
    let head = format!("Refused: {word} ({number}), {meaning}.\n");
    let end = format!("Reading went to the end, byte {}.\n", bytes.len());
    let body = match (read(bytes), refusal) {
        (Err(fault), _) if fault.refusal == refusal => fault_text(&fault, source),
        (Err(fault), _) => {
            return Err(format!(
                "it says {word} ({number}), but the fault is at {fault}"
            ));
        }
        (Ok(bundle), Refusal::Circle) => {
            let found = circle(&bundle).ok_or("it says circle (8), but there is none")?;
            let path = source.names.join(&found, " -> ");
            format!("{end}The circle: {path}\n")
        }
        (Ok(_), Refusal::Narrow) => end,
        (Ok(_), _) => {
            return Err(format!(
                "it says {word} ({number}), but reading went to the end"
            ));
        }
    };
    Ok(head + &body)
}

fn fault_text(fault: &Fault, source: &Source) -> String {
    let Fault {
        position, detail, ..
    } = fault;
    let place = match fault.definition {
        None => String::new(),
        Some((place, name)) => {
            let definition = source.definition(place);
            format!(" in {definition}, `{}`", source.names.word(name))
        }
    };
    format!("Reading stopped at byte {position} (hexadecimal {position:X}){place}: {detail}.\n")
}

fn explain_violations<'a>(
    bundle: Bundle,
    list: &'a [Violation],
    source: &'a Source,
) -> Result<Parts<'a>, String> {
    if !list.iter().all(|violation| fits(&bundle, violation)) {
        return Err(
            "it is about another bundle: no definition there fits one of its violations"
                .to_string(),
        );
    }
    let definitions = counted(bundle.definitions.len(), "definition");
    let edges = counted(bundle.edges.len(), "edge");
    if list.is_empty() {
        let words = format!(
            "The set passes: {definitions}, {edges}, none of the eight findings.\n{PASS}\n"
        );
        return Ok(Box::new(std::iter::once(words)));
    }
    let found = counted(list.len(), "violation");
    let head = format!("{found} in {definitions} and {edges}.\n");
    let each = list.iter().enumerate().map(move |(place, violation)| {
        let words = violation_text(&bundle, violation, source);
        format!("\n{}. {words}", place + 1)
    });
    Ok(Box::new(std::iter::once(head).chain(each)))
}

/// Whether the definition with the violation's number can have it.
fn fits(bundle: &Bundle, violation: &Violation) -> bool {
    let definition = bundle.definitions.get(violation.definition);
    definition.is_some_and(|definition| {
        definition.name == violation.name && may_have(&definition.body, violation)
    })
}

/// The words for a violation that fits its definition.
fn violation_text(bundle: &Bundle, violation: &Violation, source: &Source) -> String {
    let names = &source.names;
    let place = violation.definition;
    let word = words::type_word(&bundle.definitions[place].body);
    let name = names.word(violation.name);
    let kind = violation.kind;
    let title = TITLES[usize::from(kind) - 1];
    let definition = source.definition(place).replacen('d', "D", 1);
    let mut out = format!("{definition}, {word} `{name}`: {title} (type {kind})\n");
    out.push_str(&format!("   {}\n", reason(bundle, violation, names)));
    if !violation.path.is_empty() {
        let path = names.join(&violation.path, ".");
        out.push_str(&format!("   path:  {path}\n"));
    }
    let chain = names.join(&violation.chain, " -> ");
    out.push_str(&format!("   chain: {chain}\n"));
    out
}

/// The path as written; one name alone is a field of the current name.
fn path_text(bundle: &Bundle, path: &[Name], names: &Names) -> String {
    let written = names.join(path, ".");
    let current = names.word(bundle.current);
    match (path.len(), bundle.current) {
        (1, 0) => format!("`{written}` (a field of `{current}`, since no current name is set)"),
        (1, _) => format!("`{written}` (a field of the current name, `{current}`)"),
        _ => format!("`{written}`"),
    }
}

/// Whether a definition of this type can have a violation of that type, with so many names in its path and its
/// chain. This is the table of docs/FORMAT.md; the reader of reports sees to it that no path has more than four.
fn may_have(body: &Type, violation: &Violation) -> bool {
    let found_in = match (violation.kind, body) {
        (1 | 2, Type::Group(group)) => group.kind == GroupKind::Enum,
        (3, Type::Array(_)) => true,
        (4, Type::Group(group)) => group.kind == GroupKind::Struct,
        (5, Type::Array(array)) => !array.jagged,
        (6..=8, Type::Array(array)) => array.jagged,
        _ => false,
    };
    let (path, chain) = (violation.path.len(), violation.chain.len());
    found_in
        && match violation.kind {
            1 => path == 2 && chain == 3,
            2 | 3 => path >= 1 && chain >= 1,
            4 => path >= 1 && chain == 3,
            6 => path == 0 && chain == 2,
            _ => path == 0 && chain == 1,
        }
}

/// What was found, in a sentence, and no more than the check looked at.
fn reason(bundle: &Bundle, violation: &Violation, names: &Names) -> String {
    let path = path_text(bundle, &violation.path, names);
    let on_chain = |place: usize| names.word(violation.chain[place]);
    let name = names.word(violation.name);
    let first = on_chain(0);
    let itself = violation.chain.len() == 1;
    match violation.kind {
        1 => format!(
            "The tag reads {path}, and the last field of that name in `{first}` stands after \
             the last field of type `{name}`."
        ),
        2 if itself => format!(
            "The tag reads {path}, a field of the enum's own name, and the enum counts as one of \
             varying size."
        ),
        2 => format!(
            "The tag reads {path}, edges lead from `{first}` to `{name}`, and `{name}` counts as \
             one of varying size.\n   \
             The check does not ask whether the field stands before the enum."
        ),
        3 if itself => format!("The size reads {path}, a field of the array's own name."),
        3 => format!(
            "The size reads {path}, and edges lead from `{first}` to `{name}`.\n   \
             The check does not ask whether the field stands before the array."
        ),
        4 => format!(
            "The type of field `{}` reads {path}, a field that comes later{}.",
            on_chain(1),
            elsewhere(bundle, violation, &name)
        ),
        _ => element_reason(violation, names),
    }
}

/// The same for what is found in the element of an array.
fn element_reason(violation: &Violation, names: &Names) -> String {
    match violation.kind {
        5 => "The element counts as one of varying size: a size or tag in it reads a field, or a \
              size-union is in it.\n   \
              The check does not ask whether the elements differ in fact."
            .to_string(),
        6 => format!(
            "The element of a jagged array must be a struct, and `{}`, by its own \
             definition, is none.",
            names.word(violation.chain[1])
        ),
        7 => "The element of a jagged array must be a struct or a ref, and this one, written \
              inline, is neither."
            .to_string(),
        _ => "The element of a jagged array has a jagged array inside.".to_string(),
    }
}

/// A second definition is held against the fields of the first one of its name.
fn elsewhere(bundle: &Bundle, violation: &Violation, name: &str) -> String {
    let same = |definition: &Definition| definition.name == violation.name;
    match bundle.definitions.iter().position(same) {
        Some(first) if first != violation.definition => {
            format!(" in definition {first}, the first of the name `{name}`")
        }
        _ => String::new(),
    }
}
