//! Bytes to a tree, or the first fault, by recursive descent.

use crate::bundle::*;
use std::collections::HashMap;

type Read<T> = Result<T, Refusal>;

pub fn read(bytes: &[u8]) -> Read<Bundle> {
    if bytes.len() > BYTE_LIMIT {
        return Err(TOO_LONG);
    }
    let mut reader = Reader { bytes, at: 0 };
    let bundle = reader.bundle()?;
    if reader.at < bytes.len() {
        return Err(BYTES_LEFT);
    }
    if has_cycle(&bundle) {
        return Err(REFERENCE_CYCLE);
    }
    Ok(bundle)
}

struct Reader<'a> {
    bytes: &'a [u8],
    at: usize,
}

impl Reader<'_> {
    fn take(&mut self, count: usize) -> Read<&[u8]> {
        let body = self.bytes.get(self.at..self.at + count).ok_or(TOO_SHORT)?;
        self.at += count;
        Ok(body)
    }

    fn exact_kind(&mut self, kind: u8) -> Read<()> {
        if self.take(1)?[0] == kind {
            Ok(())
        } else {
            Err(UNEXPECTED_KIND)
        }
    }

    fn name(&mut self) -> Read<Name> {
        Ok(number(self.take(2)?) as Name)
    }

    fn bundle(&mut self) -> Read<Bundle> {
        self.exact_kind(0x60)?;
        let body = self.take(6)?;
        let definition_count = number(&body[0..2]) as usize;
        let edge_count = number(&body[2..4]) as usize;
        let current = number(&body[4..6]) as Name;
        if definition_count > DEFINITION_LIMIT || edge_count > EDGE_LIMIT {
            return Err(COUNT_OVER_LIMIT);
        }
        let mut bundle = Bundle {
            current,
            ..Bundle::default()
        };
        for _ in 0..definition_count {
            self.exact_kind(0x61)?;
            let name = self.name()?;
            let body = self.type_node(1)?;
            bundle.definitions.push(Definition { name, body });
        }
        for _ in 0..edge_count {
            bundle.edges.push(self.edge()?);
        }
        Ok(bundle)
    }

    fn edge(&mut self) -> Read<Edge> {
        self.exact_kind(0x62)?;
        let body = self.take(5)?;
        let edge = Edge {
            from: number(&body[0..2]) as Name,
            to: number(&body[2..4]) as Name,
            kind: body[4],
        };
        if edge.kind > 3 {
            return Err(VALUE_OUT_OF_RANGE);
        }
        Ok(edge)
    }

    fn type_node(&mut self, depth: usize) -> Read<Type> {
        if depth > DEPTH_LIMIT {
            return Err(TOO_DEEP);
        }
        let kind = self.take(1)?[0];
        match kind {
            0x30..=0x3B => Ok(Type::Primitive(kind)),
            0x40 => Ok(Type::TypeRef(self.name()?)),
            0x44 => self.array(depth),
            0x41..=0x43 | 0x45 => self.group(kind, depth),
            _ => Err(UNEXPECTED_KIND),
        }
    }

    fn array(&mut self, depth: usize) -> Read<Type> {
        let body = self.take(10)?;
        let attributes = Attributes {
            packed: body[0] == 1,
            aligned: number(&body[1..9]),
        };
        let jagged = body[9] == 1;
        if body[0] > 1 || body[9] > 1 {
            return Err(VALUE_OUT_OF_RANGE);
        }
        let size = self.expr(depth + 1)?;
        let element = Box::new(self.type_node(depth + 1)?);
        Ok(Type::Array(attributes, jagged, size, element))
    }

    fn group(&mut self, kind: u8, depth: usize) -> Read<Type> {
        let body = self.take(11)?;
        let attributes = Attributes {
            packed: body[0] == 1,
            aligned: number(&body[1..9]),
        };
        let count = number(&body[9..11]);
        if body[0] > 1 {
            return Err(VALUE_OUT_OF_RANGE);
        }
        if kind == 0x43 {
            let tag = self.expr(depth + 1)?;
            let members = self.members(kind, count, depth)?;
            return Ok(Type::Enum(attributes, tag, members));
        }
        let members = self.members(kind, count, depth)?;
        Ok(match kind {
            0x41 => Type::Struct(attributes, members),
            0x42 => Type::Union(attributes, members),
            _ => Type::SizeUnion(attributes, members),
        })
    }

    fn members(&mut self, group: u8, count: u64, depth: usize) -> Read<Vec<Member>> {
        let mut members = Vec::new();
        for _ in 0..count {
            self.exact_kind(member_kind(group))?;
            let body = self.take(if has_value(group) { 10 } else { 2 })?;
            let name = number(&body[0..2]) as Name;
            let value = number(&body[2..]);
            let member_type = self.type_node(depth + 1)?;
            members.push(Member {
                name,
                value,
                member_type,
            });
        }
        Ok(members)
    }

    fn expr(&mut self, depth: usize) -> Read<Expr> {
        if depth > DEPTH_LIMIT {
            return Err(TOO_DEEP);
        }
        let kind = self.take(1)?[0];
        match kind {
            0x01..=0x08 => Ok(Expr::Literal(kind, number(self.take(literal_width(kind))?))),
            0x09..=0x0C => {
                let body = self.take(2 * (kind as usize - 8))?;
                let path = body.chunks(2).map(|pair| number(pair) as Name).collect();
                Ok(Expr::FieldRef(path))
            }
            0x0D => Ok(Expr::Sizeof(self.name()?)),
            0x0E => Ok(Expr::Alignof(self.name()?)),
            0x10..=0x23 => {
                let left = Box::new(self.expr(depth + 1)?);
                let right = Box::new(self.expr(depth + 1)?);
                Ok(Expr::Binary(kind, left, right))
            }
            0x24..=0x27 => Ok(Expr::Unary(kind, Box::new(self.expr(depth + 1)?))),
            _ => Err(UNEXPECTED_KIND),
        }
    }
}

fn number(bytes: &[u8]) -> u64 {
    bytes
        .iter()
        .rev()
        .fold(0, |sum, b| sum << 8 | u64::from(*b))
}

/// Names of the TypeRefs anywhere inside a type, in order.
pub fn type_refs(node: &Type, found: &mut Vec<Name>) {
    match node {
        Type::Primitive(_) => {}
        Type::TypeRef(name) => found.push(*name),
        Type::Array(_, _, _, element) => type_refs(element, found),
        Type::Struct(_, list)
        | Type::Union(_, list)
        | Type::Enum(_, _, list)
        | Type::SizeUnion(_, list) => list.iter().for_each(|m| type_refs(&m.member_type, found)),
    }
}

/// The place of the first definition of each name.
pub fn first_places(bundle: &Bundle) -> HashMap<Name, usize> {
    let mut places = HashMap::new();
    for (place, definition) in bundle.definitions.iter().enumerate() {
        places.entry(definition.name).or_insert(place);
    }
    places
}

/// For each definition, the definitions that its TypeRefs lead to.
pub fn leads(bundle: &Bundle) -> Vec<Vec<usize>> {
    let places = first_places(bundle);
    let targets = |definition: &Definition| {
        let mut names = Vec::new();
        type_refs(&definition.body, &mut names);
        let mut list: Vec<usize> = names
            .iter()
            .filter_map(|n| places.get(n).copied())
            .collect();
        list.sort_unstable();
        list.dedup();
        list
    };
    bundle.definitions.iter().map(targets).collect()
}

#[derive(Clone, Copy, PartialEq)]
enum Visit {
    New,
    Open,
    Done,
}

pub fn has_cycle(bundle: &Bundle) -> bool {
    let leads = leads(bundle);
    let mut visits = vec![Visit::New; leads.len()];
    (0..leads.len()).any(|start| meets_open(start, &leads, &mut visits))
}

/// Depth-first visit; true when it meets a definition that is still open.
fn meets_open(at: usize, leads: &[Vec<usize>], visits: &mut [Visit]) -> bool {
    match visits[at] {
        Visit::Open => return true,
        Visit::Done => return false,
        Visit::New => visits[at] = Visit::Open,
    }
    let found = leads[at]
        .iter()
        .any(|next| meets_open(*next, leads, visits));
    visits[at] = Visit::Done;
    found
}
