//! Size, alignment and field offsets of definitions that never vary: a second
//! reading of request L1, with the counts of request L2. All reached parts are listed
//! first; each refusal then looks through the whole list, and sizes are worked out at
//! the end.

use crate::bundle::*;
use crate::reader::{first_places, leads};
use crate::value::value;
use std::collections::HashMap;

pub const SIZE_LIMIT: u128 = 4_294_967_295;

#[derive(Clone, Debug, PartialEq, Eq)]
pub struct Fixed {
    pub size: u64,
    pub alignment: u64,
    /// Of the fields of a struct, also by TypeRefs; others have none.
    pub offsets: Vec<u32>,
}

pub fn fixed_size(bundle: &Bundle, definition: usize) -> Result<Fixed, Refusal> {
    if definition >= bundle.definitions.len() {
        return Err(VARYING);
    }
    let places = first_places(bundle);
    let order = reached(bundle, definition);
    let mut parts = Vec::new();
    for place in &order {
        list_parts(&bundle.definitions[*place].body, &mut parts);
    }
    if parts.iter().any(|part| misaligned(part)) {
        return Err(MISALIGNED);
    }
    if parts.iter().any(|part| varies(part, &places)) {
        return Err(VARYING);
    }
    let mut known: HashMap<Name, Fixed> = HashMap::new();
    // The definition itself comes last. It may be a later one of its name, which
    // no TypeRef leads to, so it stands under its name only when nothing asks.
    for place in order {
        let Definition { name, body } = &bundle.definitions[place];
        let found = measured(body, &known)?;
        known.insert(*name, found);
    }
    Ok(known
        .remove(&bundle.definitions[definition].name)
        .expect("the last"))
}

/// The answer for bytes and a lent list of so many places.
pub fn fixed_answer(bytes: &[u8], definition: usize, room: usize) -> Result<Fixed, Refusal> {
    let bundle = crate::reader::read(bytes)?;
    let found = fixed_size(&bundle, definition)?;
    match found.offsets.len() > room {
        true => Err(OUTPUT_TOO_SMALL),
        false => Ok(found),
    }
}

/// The definitions that the given one leads to, each after those that it leads to
/// itself; the given one is the last.
fn reached(bundle: &Bundle, definition: usize) -> Vec<usize> {
    let leads = leads(bundle);
    let mut seen = vec![false; leads.len()];
    let mut order = Vec::new();
    visit(definition, &leads, &mut seen, &mut order);
    order
}

fn visit(at: usize, leads: &[Vec<usize>], seen: &mut [bool], order: &mut Vec<usize>) {
    if std::mem::replace(&mut seen[at], true) {
        return;
    }
    leads[at]
        .iter()
        .for_each(|next| visit(*next, leads, seen, order));
    order.push(at);
}

/// A type and all types that stand inside it.
fn list_parts<'a>(node: &'a Type, parts: &mut Vec<&'a Type>) {
    parts.push(node);
    match node {
        Type::Primitive(_) | Type::TypeRef(_) => {}
        Type::Array(_, _, _, element) => list_parts(element, parts),
        Type::Struct(_, list)
        | Type::Union(_, list)
        | Type::Enum(_, _, list)
        | Type::SizeUnion(_, list) => list
            .iter()
            .for_each(|member| list_parts(&member.member_type, parts)),
    }
}

fn misaligned(part: &Type) -> bool {
    match part {
        Type::Primitive(_) | Type::TypeRef(_) | Type::Array(..) => false,
        Type::Struct(own, _)
        | Type::Union(own, _)
        | Type::Enum(own, _, _)
        | Type::SizeUnion(own, _) => own.aligned != 0 && !own.aligned.is_power_of_two(),
    }
}

fn varies(part: &Type, places: &HashMap<Name, usize>) -> bool {
    match part {
        Type::Primitive(_) | Type::Struct(..) | Type::Union(..) => false,
        Type::Enum(..) | Type::SizeUnion(..) => true,
        Type::TypeRef(name) => !places.contains_key(name),
        Type::Array(_, jagged, size, _) => *jagged || count(size).is_none(),
    }
}

/// The value of the size where there is one that is not negative.
fn count(size: &Expr) -> Option<u64> {
    u64::try_from(value(size).ok()?).ok()
}

fn plain(size: u64, alignment: u64) -> Fixed {
    Fixed {
        size,
        alignment,
        offsets: Vec::new(),
    }
}

/// What a part takes, once those that it leads to are known; every part inside it
/// is within the limit, or the whole is refused.
fn measured(part: &Type, known: &HashMap<Name, Fixed>) -> Result<Fixed, Refusal> {
    match part {
        Type::Primitive(kind) => {
            let size = primitive_size(*kind);
            Ok(plain(size, size))
        }
        Type::TypeRef(name) => Ok(known[name].clone()),
        Type::Array(_, _, size, element) => {
            let one = measured(element, known)?;
            let total = u128::from(count(size).expect("a count")) * u128::from(one.size);
            Ok(plain(within(total)?, one.alignment))
        }
        Type::Struct(own, list) => in_a_row(own, &all(list, known)?),
        Type::Union(own, list) => {
            let list = all(list, known)?;
            let alignment = alignment_of(own, &list);
            let largest = list.iter().map(|member| member.size).max().unwrap_or(0);
            let size = within(rounded_up(u128::from(largest), alignment))?;
            Ok(plain(size, alignment))
        }
        Type::Enum(..) | Type::SizeUnion(..) => unreachable!("refused before"),
    }
}

/// What the members take, without the offsets inside them.
fn all(list: &[Member], known: &HashMap<Name, Fixed>) -> Result<Vec<Fixed>, Refusal> {
    let one = |member: &Member| {
        let found = measured(&member.member_type, known)?;
        Ok(plain(found.size, found.alignment))
    };
    list.iter().map(one).collect()
}

fn in_a_row(own: &Attributes, fields: &[Fixed]) -> Result<Fixed, Refusal> {
    let alignment = alignment_of(own, fields);
    let mut end = 0;
    let mut offsets = Vec::new();
    for field in fields {
        let step = if own.packed { 1 } else { field.alignment };
        let offset = rounded_up(end, step);
        offsets.push(within(offset)? as u32);
        end = offset + u128::from(field.size);
    }
    let size = within(rounded_up(end, alignment))?;
    Ok(Fixed {
        size,
        alignment,
        offsets,
    })
}

fn alignment_of(own: &Attributes, members: &[Fixed]) -> u64 {
    let natural = match own.packed {
        true => 1,
        false => members.iter().map(|m| m.alignment).max().unwrap_or(1),
    };
    natural.max(own.aligned)
}

fn rounded_up(value: u128, alignment: u64) -> u128 {
    value.next_multiple_of(u128::from(alignment))
}

fn within(value: u128) -> Result<u64, Refusal> {
    match value > SIZE_LIMIT {
        true => Err(OVERSIZED),
        false => Ok(value as u64),
    }
}

/// U8, U16, U32, U64, I8, I16, I32, I64, Char, F16, F32, F64.
fn primitive_size(kind: u8) -> u64 {
    [1, 2, 4, 8, 1, 2, 4, 8, 1, 2, 4, 8][usize::from(kind - 0x30)]
}

/// Size and alignment, 8 bytes each, and the offsets, 4 bytes each; or 7E and the
/// refusal.
pub fn answer_bytes(outcome: &Result<Fixed, Refusal>) -> Vec<u8> {
    match outcome {
        Err(refusal) => vec![0x7E, *refusal],
        Ok(found) => {
            let mut bytes = found.size.to_le_bytes().to_vec();
            bytes.extend(found.alignment.to_le_bytes());
            found
                .offsets
                .iter()
                .for_each(|offset| bytes.extend(offset.to_le_bytes()));
            bytes
        }
    }
}
