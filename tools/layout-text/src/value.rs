//! The value of an expression, or the part that keeps it from having one. The library gives the numbers; this
//! evaluation finds the part that they are about, and works the value out a second time to compare it.

use crate::tree::*;
use crate::words;
use layout::Refusal;

/// Why a part has no value.
#[derive(Clone, Copy, Debug, PartialEq, Eq)]
pub enum Lack {
    /// Its right side is 0, and it is a Div or Mod.
    ZeroDivisor,
    /// It would be this number.
    OutOfRange(i128),
    /// Its kind has none.
    Uncovered,
}

/// The first part of an expression that has no value.
#[derive(Clone, Copy, Debug, PartialEq, Eq)]
pub struct Valueless<'a> {
    pub part: &'a Expr,
    pub lack: Lack,
}

impl Valueless<'_> {
    pub fn refusal(&self) -> Refusal {
        match self.lack {
            Lack::ZeroDivisor => Refusal::ZeroDivisor,
            Lack::OutOfRange(_) => Refusal::OutOfRange,
            Lack::Uncovered => Refusal::Uncovered,
        }
    }
}

/// A value, or why there is none.
pub type Value<'a> = Result<i64, Valueless<'a>>;

/// What an operator gives for two numbers; nothing where it would divide by 0.
type Operation = fn(i128, i128) -> Option<i128>;

/// The operation of a binary kind; none where the kind has no value. On numbers of 64 bits each one is exact in 128.
fn operation(kind: u8) -> Option<Operation> {
    let found: Operation = match words::word_of(&words::BINARY, words::FIRST_BINARY, kind) {
        "+" => |left, right| Some(left + right),
        "-" => |left, right| Some(left - right),
        "*" => |left, right| Some(left * right),
        // Cut toward zero, and with the sign of the dividend, as Rust has them.
        "/" => i128::checked_div,
        "%" => i128::checked_rem,
        "==" => |left, right| Some(i128::from(left == right)),
        "!=" => |left, right| Some(i128::from(left != right)),
        "<" => |left, right| Some(i128::from(left < right)),
        ">" => |left, right| Some(i128::from(left > right)),
        "<=" => |left, right| Some(i128::from(left <= right)),
        ">=" => |left, right| Some(i128::from(left >= right)),
        _ => return None,
    };
    Some(found)
}

pub fn value(node: &Expr) -> Value<'_> {
    let exact = match node {
        Expr::Literal(kind, bits) => Ok(words::literal_value(*kind, *bits)),
        Expr::Binary(kind, left, right) => match operation(*kind) {
            Some(operation) => {
                let (left, right) = (value(left)?, value(right)?);
                operation(left.into(), right.into()).ok_or(Lack::ZeroDivisor)
            }
            None => Err(Lack::Uncovered),
        },
        Expr::FieldRef(_) | Expr::Sizeof(_) | Expr::Alignof(_) | Expr::Unary(..) => {
            Err(Lack::Uncovered)
        }
    };
    let found = exact.and_then(|exact| i64::try_from(exact).map_err(|_| Lack::OutOfRange(exact)));
    found.map_err(|lack| Valueless { part: node, lack })
}

/// The count of an array with this size, if it has one: a value that is not negative.
pub fn count(size: &Expr) -> Option<u128> {
    u128::try_from(value(size).ok()?).ok()
}
