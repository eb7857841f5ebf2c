//! A second reading of the bytes that builds no tree: a stack of what is due.
//! It gives the refusals 1 to 8 and the places of all names, so that reader and
//! renumbering have something to be compared with.

use crate::bundle::*;

pub struct Scan {
    /// Where names stand, front to back.
    pub names: Vec<usize>,
    /// Name of each definition and the names of its TypeRefs.
    definitions: Vec<(Name, Vec<Name>)>,
}

#[derive(Clone, Copy)]
enum Due {
    Header,
    Definition,
    Edge,
    Member(u8, usize),
    Type(usize),
    Expr(usize),
}

pub fn scan(bytes: &[u8]) -> Result<Scan, Refusal> {
    if bytes.len() > BYTE_LIMIT {
        return Err(TOO_LONG);
    }
    let mut scan = Scan {
        names: Vec::new(),
        definitions: Vec::new(),
    };
    let mut due = vec![Due::Header];
    let mut at = 0;
    while let Some(next) = due.pop() {
        at = record(bytes, at, next, &mut due, &mut scan)?;
    }
    if at != bytes.len() {
        return Err(BYTES_LEFT);
    }
    if !without_cycle(&scan.definitions) {
        return Err(REFERENCE_CYCLE);
    }
    Ok(scan)
}

/// Checks one record, pushes what follows it and gives the place after it.
fn record(
    bytes: &[u8],
    at: usize,
    due: Due,
    stack: &mut Vec<Due>,
    scan: &mut Scan,
) -> Result<usize, Refusal> {
    if matches!(due, Due::Type(depth) | Due::Expr(depth) if depth > DEPTH_LIMIT) {
        return Err(TOO_DEEP);
    }
    let kind = *bytes.get(at).ok_or(TOO_SHORT)?;
    if !fits(due, kind) {
        return Err(UNEXPECTED_KIND);
    }
    let end = at + 1 + body_length(kind);
    if end > bytes.len() {
        return Err(TOO_SHORT);
    }
    let body = &bytes[at + 1..end];
    check_values(kind, body)?;
    for offset in name_offsets(kind) {
        scan.names.push(at + 1 + offset);
    }
    match kind {
        0x61 => scan.definitions.push((word(body, 0), Vec::new())),
        0x40 => {
            if let Some((_, leads)) = scan.definitions.last_mut() {
                leads.push(word(body, 0));
            }
        }
        _ => {}
    }
    push_following(kind, body, due, stack);
    Ok(end)
}

fn word(body: &[u8], at: usize) -> u16 {
    u16::from_le_bytes([body[at], body[at + 1]])
}

fn fits(due: Due, kind: u8) -> bool {
    match due {
        Due::Header => kind == 0x60,
        Due::Definition => kind == 0x61,
        Due::Edge => kind == 0x62,
        Due::Member(member, _) => kind == member,
        Due::Type(_) => (0x30..=0x3B).contains(&kind) || (0x40..=0x45).contains(&kind),
        Due::Expr(_) => matches!(kind, 0x01..=0x0E | 0x10..=0x27),
    }
}

fn body_length(kind: u8) -> usize {
    match kind {
        0x01 | 0x05 => 8,
        0x02 | 0x06 => 4,
        0x03 | 0x07 => 2,
        0x04 | 0x08 => 1,
        0x09..=0x0C => (kind as usize - 8) * 2,
        0x0D | 0x0E | 0x40 | 0x50 | 0x51 | 0x61 => 2,
        0x41..=0x43 | 0x45 => 11,
        0x44 | 0x52 | 0x53 => 10,
        0x60 => 6,
        0x62 => 5,
        _ => 0,
    }
}

fn name_offsets(kind: u8) -> &'static [usize] {
    match kind {
        0x09..=0x0C => &[0, 2, 4, 6][..kind as usize - 8],
        0x0D | 0x0E | 0x40 | 0x50..=0x53 | 0x61 => &[0],
        0x60 => &[4],
        0x62 => &[0, 2],
        _ => &[],
    }
}

fn check_values(kind: u8, body: &[u8]) -> Result<(), Refusal> {
    let out_of_range = match kind {
        0x41..=0x43 | 0x45 => body[0] > 1,
        0x44 => body[0] > 1 || body[9] > 1,
        0x62 => body[4] > 3,
        _ => false,
    };
    let over_limit = kind == 0x60
        && (word(body, 0) as usize > DEFINITION_LIMIT || word(body, 2) as usize > EDGE_LIMIT);
    if out_of_range {
        Err(VALUE_OUT_OF_RANGE)
    } else if over_limit {
        Err(COUNT_OVER_LIMIT)
    } else {
        Ok(())
    }
}

/// The stack gives back the last item first, so later items are pushed first.
fn push_following(kind: u8, body: &[u8], due: Due, stack: &mut Vec<Due>) {
    let depth = match due {
        Due::Type(depth) | Due::Expr(depth) | Due::Member(_, depth) => depth,
        _ => 0,
    };
    match kind {
        0x60 => {
            stack.extend(vec![Due::Edge; word(body, 2) as usize]);
            stack.extend(vec![Due::Definition; word(body, 0) as usize]);
        }
        0x61 => stack.push(Due::Type(1)),
        0x50..=0x53 => stack.push(Due::Type(depth + 1)),
        0x41 => stack.extend(vec![Due::Member(0x50, depth); word(body, 9) as usize]),
        0x42 => stack.extend(vec![Due::Member(0x51, depth); word(body, 9) as usize]),
        0x45 => stack.extend(vec![Due::Member(0x53, depth); word(body, 9) as usize]),
        0x43 => {
            stack.extend(vec![Due::Member(0x52, depth); word(body, 9) as usize]);
            stack.push(Due::Expr(depth + 1));
        }
        0x44 => stack.extend([Due::Type(depth + 1), Due::Expr(depth + 1)]),
        0x10..=0x23 => stack.extend([Due::Expr(depth + 1); 2]),
        0x24..=0x27 => stack.push(Due::Expr(depth + 1)),
        _ => {}
    }
}

/// A definition is done once all that it leads to are done; one that never is
/// is on a cycle or leads to one.
fn without_cycle(definitions: &[(Name, Vec<Name>)]) -> bool {
    let mut done = vec![false; definitions.len()];
    let place = |name: &Name| definitions.iter().position(|(other, _)| other == name);
    loop {
        let mut changed = false;
        for (index, (_, leads)) in definitions.iter().enumerate() {
            let ready = |name: &Name| place(name).is_none_or(|found| done[found]);
            if !done[index] && leads.iter().all(ready) {
                done[index] = true;
                changed = true;
            }
        }
        if !changed {
            return done.iter().all(|done| *done);
        }
    }
}

/// The renumbered bundle, made on the bytes alone.
pub fn renumber_bytes(bytes: &[u8]) -> Result<Vec<u8>, Refusal> {
    let scan = scan(bytes)?;
    let mut numbers = vec![0u16; 65_536];
    let mut used = 0;
    let mut result = bytes.to_vec();
    for at in scan.names {
        let old = word(bytes, at);
        if old != 0 && numbers[old as usize] == 0 {
            used += 1;
            numbers[old as usize] = used;
        }
        result[at..at + 2].copy_from_slice(&numbers[old as usize].to_le_bytes());
    }
    Ok(result)
}
