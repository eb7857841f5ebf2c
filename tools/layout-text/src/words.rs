//! The words and signs of the notation, in the order of their kind bytes.

use crate::tree::{literal_width, Expr, GroupKind, Type};
use std::borrow::Cow;
use std::fmt;

/// From kind byte 30 on.
pub const PRIMITIVES: [&str; 12] = [
    "u8", "u16", "u32", "u64", "i8", "i16", "i32", "i64", "char", "f16", "f32", "f64",
];
pub const FIRST_PRIMITIVE: u8 = 0x30;

/// Endings of literals, from kind byte 01 on.
pub const LITERALS: [&str; 8] = ["u64", "u32", "u16", "u8", "i64", "i32", "i16", "i8"];
pub const FIRST_LITERAL: u8 = 0x01;
/// From this kind byte on literals are signed.
pub const FIRST_SIGNED_LITERAL: u8 = 0x05;

/// From kind byte 10 on.
pub const BINARY: [&str; 20] = [
    "+", "-", "*", "/", "%", "**", "&", "|", "^", "<<", ">>", "==", "!=", "<", ">", "<=", ">=",
    "&&", "||", "^^",
];
pub const FIRST_BINARY: u8 = 0x10;

/// Their names.
const BINARY_KINDS: [&str; 20] = [
    "Add",
    "Sub",
    "Mul",
    "Div",
    "Mod",
    "Pow",
    "BitAnd",
    "BitOr",
    "BitXor",
    "LeftShift",
    "RightShift",
    "Eq",
    "Ne",
    "Lt",
    "Gt",
    "Le",
    "Ge",
    "And",
    "Or",
    "Xor",
];

/// From kind byte 24 on. The last one is written like a call.
pub const UNARY: [&str; 4] = ["~", "-", "!", "popcount"];
/// Their names.
const UNARY_KINDS: [&str; 4] = ["BitNot", "Neg", "Not", "Popcount"];
pub const FIRST_UNARY: u8 = 0x24;
pub const NEG: u8 = 0x25;
pub const POPCOUNT: u8 = 0x27;

/// Edge kinds 0 to 3.
pub const EDGE_KINDS: [&str; 4] = ["type", "field", "size", "tag"];

pub const GROUPS: [(&str, GroupKind); 4] = [
    ("struct", GroupKind::Struct),
    ("union", GroupKind::Union),
    ("enum", GroupKind::Enum),
    ("size-union", GroupKind::SizeUnion),
];

/// The most letters that a message repeats of a word from the input.
const QUOTED: usize = 40;

/// A word from the input for a message: the whole word, or its start and an ellipsis, on one line.
pub fn cut(word: &str) -> Cow<'_, str> {
    match cut_to(word, QUOTED) {
        Cow::Borrowed(word) => one_line(word),
        Cow::Owned(start) => Cow::Owned(one_line(&start).into_owned()),
    }
}

/// The whole word, or so many letters of it and an ellipsis, as they are.
pub fn cut_to(word: &str, most: usize) -> Cow<'_, str> {
    match word.char_indices().nth(most) {
        None => Cow::Borrowed(word),
        Some((end, _)) => Cow::Owned(format!("{}…", &word[..end])),
    }
}

/// A word with its control characters, and what else ends or turns a line, as `\n` or `\u{1b}`. A backslash is `\\`,
/// so that no other word looks so.
pub fn one_line(word: &str) -> Cow<'_, str> {
    let turns = |letter| matches!(letter, '\u{2028}'..='\u{202e}' | '\u{2066}'..='\u{2069}');
    let escaped = |letter: char| letter == '\\' || letter.is_control() || turns(letter);
    if !word.contains(escaped) {
        return Cow::Borrowed(word);
    }
    let mut line = String::new();
    for letter in word.chars() {
        match escaped(letter) {
            true => line.extend(letter.escape_debug()),
            false => line.push(letter),
        }
    }
    Cow::Owned(line)
}

/// A number of things: `1 edge`, `2 edges`.
pub fn counted(count: impl fmt::Display, what: &str) -> String {
    let number = count.to_string();
    let ending = if number == "1" { "" } else { "s" };
    format!("{number} {what}{ending}")
}

/// The kind byte that a word or sign of a list stands for.
pub fn kind_of(list: &[&str], first: u8, word: &str) -> Option<u8> {
    let place = list.iter().position(|other| *other == word)?;
    Some(first + place as u8)
}

/// The word or sign of a kind byte.
pub fn word_of(list: &[&'static str], first: u8, kind: u8) -> &'static str {
    list[usize::from(kind - first)]
}

pub fn group_word(kind: GroupKind) -> &'static str {
    match kind {
        GroupKind::Struct => "struct",
        GroupKind::Union => "union",
        GroupKind::Enum => "enum",
        GroupKind::SizeUnion => "size-union",
    }
}

/// The number that a literal of this kind and these bits stands for.
pub fn literal_value(kind: u8, bits: u64) -> i128 {
    if kind < FIRST_SIGNED_LITERAL {
        return i128::from(bits);
    }
    let unused = 64 - 8 * literal_width(kind) as u32;
    i128::from(((bits << unused) as i64) >> unused)
}

/// The name of an expression's kind.
pub fn expression_kind(node: &Expr) -> &'static str {
    match node {
        Expr::Literal(kind, _) => word_of(&LITERALS, FIRST_LITERAL, *kind),
        Expr::FieldRef(_) => "FieldRef",
        Expr::Sizeof(_) => "Sizeof",
        Expr::Alignof(_) => "Alignof",
        Expr::Binary(kind, ..) => word_of(&BINARY_KINDS, FIRST_BINARY, *kind),
        Expr::Unary(kind, _) => word_of(&UNARY_KINDS, FIRST_UNARY, *kind),
    }
}

/// What a type is, in one or two words.
pub fn type_word(node: &Type) -> &'static str {
    match node {
        Type::Primitive(kind) => word_of(&PRIMITIVES, FIRST_PRIMITIVE, *kind),
        Type::TypeRef(_) => "ref",
        Type::Group(group) => group_word(group.kind),
        Type::Array(array) if array.jagged => "jagged array",
        Type::Array(_) => "array",
    }
}
