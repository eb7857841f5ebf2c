//! A tree as text.

use crate::encode::encode;
use crate::names::Names;
use crate::parse::parse;
use crate::tree::*;
use crate::words;
use std::collections::BTreeSet;
use std::fmt::Write;

/// The text that assembles to the bundle's bytes. Names without a word are
/// written by number. The `name` lines are left out where the words get their
/// numbers without them.
pub fn show(bundle: &Bundle, names: &Names) -> String {
    let mut writer = Writer::new(names, Names::word);
    writer.bundle(bundle);
    let body = writer.out.trim_start_matches('\n').to_string();
    let same = parse(&body).is_ok_and(|text| encode(&text.bundle) == encode(bundle));
    if same {
        return body;
    }
    let mut table = String::new();
    for name in writer.used.iter().filter(|name| names.has(**name)) {
        push_line(&mut table, format!("name {} = {name}", names.word(*name)));
    }
    table + "\n" + &body
}

/// The most letters that are shown of an expression in a message or a table.
const SHOWN_LETTERS: usize = 80;

/// An expression as text for a message or a table: of a long one the start.
pub fn expression(node: &Expr, names: &Names) -> String {
    let text = Writer::new(names, Names::short).expr(node);
    words::cut_to(&text, SHOWN_LETTERS).into_owned()
}

fn push_line(out: &mut String, line: String) {
    out.push_str(&line);
    out.push('\n');
}

struct Writer<'a> {
    names: &'a Names,
    /// How a name is written.
    word: fn(&Names, Name) -> String,
    used: BTreeSet<Name>,
    out: String,
}

impl<'a> Writer<'a> {
    fn new(names: &'a Names, word: fn(&Names, Name) -> String) -> Writer<'a> {
        Writer {
            names,
            word,
            used: BTreeSet::new(),
            out: String::new(),
        }
    }

    fn name(&mut self, name: Name) -> String {
        self.used.insert(name);
        (self.word)(self.names, name)
    }

    fn bundle(&mut self, bundle: &Bundle) {
        if bundle.current != 0 {
            let current = self.name(bundle.current);
            push_line(&mut self.out, format!("current {current}"));
        }
        for definition in &bundle.definitions {
            let name = self.name(definition.name);
            write!(self.out, "\ndefine {name} ").expect("a string takes all");
            self.type_node(&definition.body, 0);
            self.out.push('\n');
        }
        if !bundle.edges.is_empty() {
            self.out.push('\n');
        }
        for edge in &bundle.edges {
            let from = self.name(edge.from);
            let to = self.name(edge.to);
            let kind = words::word_of(&words::EDGE_KINDS, 0, edge.kind);
            push_line(&mut self.out, format!("edge {from} -> {to} {kind}"));
        }
    }

    fn type_node(&mut self, node: &Type, indent: usize) {
        match node {
            Type::Primitive(_) => self.out.push_str(words::type_word(node)),
            Type::TypeRef(target) => {
                let target = self.name(*target);
                self.out.push_str("ref ");
                self.out.push_str(&target);
            }
            Type::Group(group) => self.group(group, indent),
            Type::Array(array) => {
                let size = self.expr(&array.size);
                self.out.push_str(words::type_word(node));
                self.attributes(&array.attributes);
                write!(self.out, " [{size}] ").expect("a string takes all");
                self.type_node(&array.element, indent);
            }
        }
    }

    fn attributes(&mut self, attributes: &Attributes) {
        if attributes.packed {
            self.out.push_str(" packed");
        }
        if attributes.aligned != 0 {
            write!(self.out, " aligned {}", attributes.aligned).expect("a string takes all");
        }
    }

    fn group(&mut self, group: &Group, indent: usize) {
        self.out.push_str(words::group_word(group.kind));
        self.attributes(&group.attributes);
        if let Some(tag) = &group.tag {
            let tag = self.expr(tag);
            write!(self.out, " ({tag})").expect("a string takes all");
        }
        if group.members.is_empty() {
            self.out.push_str(" {}");
            return;
        }
        self.out.push_str(" {\n");
        for member in &group.members {
            let name = self.name(member.name);
            let value = match group.kind.has_values() {
                true => format!(" = {}", member.value),
                false => String::new(),
            };
            let margin = "    ".repeat(indent + 1);
            write!(self.out, "{margin}{name}{value}: ").expect("a string takes all");
            self.type_node(&member.member_type, indent + 1);
            self.out.push('\n');
        }
        self.out.push_str(&"    ".repeat(indent));
        self.out.push('}');
    }

    fn expr(&mut self, node: &Expr) -> String {
        match node {
            Expr::Literal(kind, bits) => literal(*kind, *bits),
            Expr::FieldRef(path) => {
                let parts: Vec<String> = path.names().iter().map(|part| self.name(*part)).collect();
                parts.join(".")
            }
            Expr::Sizeof(target) => format!("sizeof({})", self.name(*target)),
            Expr::Alignof(target) => format!("alignof({})", self.name(*target)),
            Expr::Binary(kind, left, right) => {
                let row = matches!(&**left, Expr::Binary(other, ..) if other == kind);
                let left = match row {
                    true => self.expr(left),
                    false => self.operand(left),
                };
                let sign = words::word_of(&words::BINARY, words::FIRST_BINARY, *kind);
                format!("{left} {sign} {}", self.operand(right))
            }
            Expr::Unary(words::POPCOUNT, operand) => format!("popcount({})", self.expr(operand)),
            Expr::Unary(words::NEG, operand) if matches!(**operand, Expr::Literal(..)) => {
                format!("-({})", self.expr(operand))
            }
            Expr::Unary(kind, operand) => {
                let sign = words::word_of(&words::UNARY, words::FIRST_UNARY, *kind);
                format!("{sign}{}", self.operand(operand))
            }
        }
    }

    /// An expression that stands beside an operator.
    fn operand(&mut self, node: &Expr) -> String {
        let text = self.expr(node);
        match node {
            Expr::Binary(..) => format!("({text})"),
            _ => text,
        }
    }
}

fn literal(kind: u8, bits: u64) -> String {
    let ending = words::word_of(&words::LITERALS, words::FIRST_LITERAL, kind);
    let value = words::literal_value(kind, bits);
    format!("{value}{ending}")
}
