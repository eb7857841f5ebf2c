//! Words for what keeps a definition from having a fixed size.

use crate::explain::Source;
use crate::fixed::{Fault, Obstacle, Step};
use crate::names::Names;
use crate::show::expression;
use crate::tree::*;
use crate::value::{value, Lack, Valueless};
use crate::words::{self, counted, group_word};

/// Of a path with more steps the first and the last half of so many are shown.
const SHOWN_STEPS: usize = 16;

/// The sentence that says which reached part of a definition is in the way, and why. `first` gives the first
/// definition of a name.
pub fn sentence(
    root: Name,
    obstacle: &Obstacle,
    source: &Source,
    first: impl Fn(Name) -> Option<usize>,
) -> String {
    let names = &source.names;
    let (way, types) = split(obstacle);
    let subject = match path(way, names) {
        path if path.is_empty() => "It".to_string(),
        path => format!("`{}{path}`", names.short(root)),
    };
    let what = fault_text(&obstacle.fault, names);
    let at = |name: Name| first(name).map(|place| source.definition_and_line(place));
    match types.split_first() {
        None => {
            let holder = obstacle.steps.iter().rev().find_map(definition_name);
            let holder = holder.and_then(|name| Some((names.short(name), at(name)?)));
            let holder = holder.map(|(name, at)| format!("; it stands in `{name}` ({at})"));
            format!("{subject} is {what}{}.", holder.unwrap_or_default())
        }
        Some((name, more)) => {
            let more: String = more.iter().map(|name| which_is(*name, names)).collect();
            let last = at(*types.last().unwrap_or(name));
            let last = last.map(|at| format!(" ({at})")).unwrap_or_default();
            let name = names.short(*name);
            format!("{subject} is of type `{name}`{more}{last}, {what}.")
        }
    }
}

/// The steps to the last member or element, and the names that lead on from there.
fn split<'o>(obstacle: &'o Obstacle) -> (&'o [Step], Vec<Name>) {
    let leads = |step: &&Step| matches!(step, Step::Definition(_));
    let references = obstacle.steps.iter().rev().take_while(leads).count();
    let (way, last) = obstacle.steps.split_at(obstacle.steps.len() - references);
    let mut types: Vec<Name> = last.iter().filter_map(definition_name).collect();
    if let Fault::Varying(Type::TypeRef(name)) = obstacle.fault {
        types.push(*name);
    }
    (way, types)
}

fn definition_name(step: &Step) -> Option<Name> {
    match step {
        Step::Definition(name) => Some(*name),
        _ => None,
    }
}

fn which_is(name: Name, names: &Names) -> String {
    format!(", which is `{}`", names.short(name))
}

/// Members with a point before each, and `[]` for elements. Where a TypeRef leads goes without saying.
fn path(steps: &[Step], names: &Names) -> String {
    let parts = steps.iter().filter_map(|step| match step {
        Step::Member(name) => Some(format!(".{}", names.short(*name))),
        Step::Element => Some("[]".to_string()),
        Step::Definition(_) => None,
    });
    let mut parts: Vec<String> = parts.collect();
    if parts.len() > SHOWN_STEPS {
        let half = SHOWN_STEPS / 2;
        let left = parts.len() - SHOWN_STEPS;
        let between = format!(" … {} … ", counted(left, "step"));
        parts.splice(half..half + left, [between]);
    }
    parts.concat()
}

/// The part at fault, as what a thing is.
fn fault_text(fault: &Fault, names: &Names) -> String {
    let over = "over 4,294,967,295";
    match fault {
        Fault::Misaligned(group) => {
            let (word, aligned) = (a_group(group.kind), group.attributes.aligned);
            format!("{word} with aligned {aligned}, which is neither 0 nor a power of two")
        }
        Fault::Varying(node) => varying_text(node, names),
        Fault::Elements(count, size) => {
            let elements = counted(count, "element");
            let (each, all) = (counted(size, "byte"), count * size);
            format!("an array of {elements} of {each} each, {all} in all, {over}")
        }
        Fault::Offset(name, offset) => {
            let name = names.short(*name);
            format!("a struct whose field `{name}` would start at byte {offset}, {over}")
        }
        Fault::Size(group, size) => {
            let word = a_group(group.kind);
            format!("{word} that would have {size} bytes, {over}")
        }
    }
}

fn a_group(kind: GroupKind) -> String {
    let article = if kind == GroupKind::Enum { "an" } else { "a" };
    format!("{article} {}", group_word(kind))
}

fn varying_text(node: &Type, names: &Names) -> String {
    match node {
        Type::TypeRef(_) => "which has no definition".to_string(),
        Type::Group(group) => a_group(group.kind),
        Type::Array(array) if array.jagged => "a jagged array".to_string(),
        Type::Array(array) => format!("an array whose size {}", no_count(&array.size, names)),
        Type::Primitive(_) => words::type_word(node).to_string(),
    }
}

/// Why a size gives an array no count.
fn no_count(size: &Expr, names: &Names) -> String {
    match (value(size), size) {
        (Err(found), _) => no_value(size, &found, names),
        (Ok(_), Expr::Literal(..)) => format!("is negative, `{}`", expression(size, names)),
        (Ok(value), _) => format!("is negative, `{}` = {value}", expression(size, names)),
    }
}

/// That a size has no value, and why. It is shown as a whole where the part is not all of it.
pub fn no_value(size: &Expr, found: &Valueless, names: &Names) -> String {
    let whole = match std::ptr::eq(size, found.part) {
        true => String::new(),
        false => format!("`{}` ", expression(size, names)),
    };
    let (refusal, why) = (found.refusal(), lack_text(found, names));
    let (word, number) = (refusal.word(), refusal.number());
    format!("{whole}has no value, {word} ({number}): {why}")
}

/// Why a part has no value.
fn lack_text(found: &Valueless, names: &Names) -> String {
    let part = expression(found.part, names);
    match (found.lack, found.part) {
        (Lack::ZeroDivisor, Expr::Binary(_, _, divisor)) => {
            let divisor = expression(divisor, names);
            format!("the divisor `{divisor}` of `{part}` is 0")
        }
        (Lack::ZeroDivisor, _) => format!("`{part}` divides by 0"),
        (Lack::OutOfRange(exact), node) => {
            let beyond = match exact < 0 {
                true => "below -9,223,372,036,854,775,808",
                false => "over 9,223,372,036,854,775,807",
            };
            match node {
                Expr::Literal(..) => format!("the literal `{part}` is {beyond}"),
                _ => format!("`{part}` is {exact}, {beyond}"),
            }
        }
        (Lack::Uncovered, Expr::FieldRef(_)) => format!("it reads the field `{part}`"),
        (Lack::Uncovered, node) => {
            let kind = words::expression_kind(node);
            format!("`{part}` is of kind {kind}, which has none")
        }
    }
}
