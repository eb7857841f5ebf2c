//! The value of an expression: a second reading of request L2. Each step is made in
//! 128 bits, in which one operation on two values of 64 bits is exact, and its result
//! is then held against the range.

use crate::bundle::*;

/// A value, or the first fault met: 13, 14 or 15.
pub fn value(node: &Expr) -> Result<i64, Refusal> {
    match node {
        Expr::Literal(kind, bits) => in_range(literal(*kind, *bits)),
        Expr::Binary(kind, left, right) => {
            let apply = operation(*kind).ok_or(UNCOVERED)?;
            let left = i128::from(value(left)?);
            let right = i128::from(value(right)?);
            in_range(apply(left, right)?)
        }
        Expr::FieldRef(_) | Expr::Sizeof(_) | Expr::Alignof(_) | Expr::Unary(..) => Err(UNCOVERED),
    }
}

fn in_range(exact: i128) -> Result<i64, Refusal> {
    i64::try_from(exact).map_err(|_| OUT_OF_RANGE)
}

/// The kinds 05 to 08 are signed: their highest bit stands for a negative number.
fn literal(kind: u8, bits: u64) -> i128 {
    let width = 8 * literal_width(kind);
    let unsigned = i128::from(bits);
    match kind >= 5 && bits >> (width - 1) == 1 {
        true => unsigned - (1 << width),
        false => unsigned,
    }
}

type Operation = fn(i128, i128) -> Result<i128, Refusal>;

fn operation(kind: u8) -> Option<Operation> {
    let found: Operation = match kind {
        0x10 => |a, b| Ok(a + b),
        0x11 => |a, b| Ok(a - b),
        0x12 => |a, b| Ok(a * b),
        0x13 => quotient,
        0x14 => |a, b| Ok(a - quotient(a, b)? * b),
        0x1B => |a, b| truth(a == b),
        0x1C => |a, b| truth(a != b),
        0x1D => |a, b| truth(a < b),
        0x1E => |a, b| truth(a > b),
        0x1F => |a, b| truth(a <= b),
        0x20 => |a, b| truth(a >= b),
        _ => return None,
    };
    Some(found)
}

fn truth(holds: bool) -> Result<i128, Refusal> {
    Ok(i128::from(holds))
}

/// Cut toward zero: worked out without signs, and negative where the signs differ.
fn quotient(a: i128, b: i128) -> Result<i128, Refusal> {
    if b == 0 {
        return Err(ZERO_DIVISOR);
    }
    let whole = (a.unsigned_abs() / b.unsigned_abs()) as i128;
    match (a < 0) == (b < 0) {
        true => Ok(whole),
        false => Ok(-whole),
    }
}

/// The value of the size of a definition that is an array, jagged or not.
pub fn size_value(bundle: &Bundle, definition: usize) -> Result<i64, Refusal> {
    match bundle.definitions.get(definition).map(|found| &found.body) {
        Some(Type::Array(_, _, size, _)) => value(size),
        _ => Err(VARYING),
    }
}

/// The call's answer for bytes.
pub fn value_answer(bytes: &[u8], definition: usize) -> Result<i64, Refusal> {
    size_value(&crate::reader::read(bytes)?, definition)
}

/// The value in 8 bytes; or 7E and the refusal.
pub fn answer_bytes(outcome: &Result<i64, Refusal>) -> Vec<u8> {
    match outcome {
        Err(refusal) => vec![0x7E, *refusal],
        Ok(found) => found.to_le_bytes().to_vec(),
    }
}
