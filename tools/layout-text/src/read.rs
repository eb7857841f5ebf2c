//! Bytes to a tree, or the first fault with the place where reading stopped.

use crate::tree::*;
use layout::Refusal;
use std::fmt;

/// Why and where reading stopped. Refusals 8 and 9 are no faults of reading.
#[derive(Clone, Debug, PartialEq, Eq)]
pub struct Fault {
    pub refusal: Refusal,
    pub position: usize,
    /// Number and name of the definition that was being read.
    pub definition: Option<(usize, Name)>,
    pub detail: String,
}

impl fmt::Display for Fault {
    fn fmt(&self, out: &mut fmt::Formatter) -> fmt::Result {
        write!(
            out,
            "byte {}: {}; {}",
            self.position, self.refusal, self.detail
        )
    }
}

type Read<T> = Result<T, Fault>;

pub fn read(bytes: &[u8]) -> Read<Bundle> {
    let mut reader = Reader {
        bytes,
        at: 0,
        definition: None,
    };
    if bytes.len() > BYTE_LIMIT {
        reader.at = BYTE_LIMIT;
        return reader.fault(
            Refusal::Overlong,
            format!("there are {} bytes or more", bytes.len()),
        );
    }
    let bundle = reader.bundle()?;
    let left = bytes.len() - reader.at;
    if left > 0 {
        let detail = format!("the last record ends here, {left} before the end of the bytes");
        return reader.fault(Refusal::Trailing, detail);
    }
    Ok(bundle)
}

struct Reader<'a> {
    bytes: &'a [u8],
    at: usize,
    definition: Option<(usize, Name)>,
}

fn number(bytes: &[u8]) -> u64 {
    let joined = |sum: u64, byte: &u8| sum << 8 | u64::from(*byte);
    bytes.iter().rev().fold(0, joined)
}

fn name_at(body: &[u8], at: usize) -> Name {
    Name::from_le_bytes([body[at], body[at + 1]])
}

impl<'a> Reader<'a> {
    fn fault<T>(&self, refusal: Refusal, detail: String) -> Read<T> {
        Err(Fault {
            refusal,
            position: self.at,
            definition: self.definition,
            detail,
        })
    }

    /// A kind byte that `fits`; reading stops before one that does not.
    fn kind(&mut self, due: &str, fits: impl Fn(u8) -> bool) -> Read<u8> {
        match self.bytes.get(self.at) {
            None => self.fault(Refusal::Short, format!("{due} is due")),
            Some(kind) if fits(*kind) => {
                self.at += 1;
                Ok(*kind)
            }
            Some(kind) => self.fault(Refusal::Stranger, format!("{kind:02X} where {due} is due")),
        }
    }

    /// The body of a record whose kind byte has just been read.
    fn body(&mut self, length: usize) -> Read<&'a [u8]> {
        let left = &self.bytes[self.at..];
        if left.len() < length {
            let record = self.at - 1;
            let kind = self.bytes[record];
            self.at = self.bytes.len();
            let detail = format!(
                "the record of kind {kind:02X} at byte {record} has a body of {length}, \
                 of which {} are there",
                left.len()
            );
            return self.fault(Refusal::Short, detail);
        }
        self.at += length;
        Ok(&left[..length])
    }

    /// A byte of a record that may not exceed `most`; `back` is how far before
    /// the reader it stands.
    fn value(&mut self, value: u8, most: u8, back: usize, what: &str) -> Read<u8> {
        if value > most {
            self.at -= back;
            return self.fault(Refusal::OffScale, format!("{what} is {value}"));
        }
        Ok(value)
    }

    fn bundle(&mut self) -> Read<Bundle> {
        self.kind("the header (60)", |kind| kind == 0x60)?;
        let body = self.body(6)?;
        let definitions = usize::from(name_at(body, 0));
        let edges = usize::from(name_at(body, 2));
        let mut bundle = Bundle {
            current: name_at(body, 4),
            ..Bundle::default()
        };
        if definitions > DEFINITION_LIMIT || edges > EDGE_LIMIT {
            self.at -= if definitions > DEFINITION_LIMIT { 6 } else { 4 };
            let detail = format!("the header counts {definitions} definitions and {edges} edges");
            return self.fault(Refusal::Crowded, detail);
        }
        for place in 0..definitions {
            let due = format!("definition {place} (61)");
            self.kind(&due, |kind| kind == 0x61)?;
            let name = name_at(self.body(2)?, 0);
            self.definition = Some((place, name));
            let body = self.type_node(1)?;
            self.definition = None;
            bundle.definitions.push(Definition { name, body });
        }
        for place in 0..edges {
            bundle.edges.push(self.edge(place)?);
        }
        Ok(bundle)
    }

    fn edge(&mut self, place: usize) -> Read<Edge> {
        let due = format!("edge {place} (62)");
        self.kind(&due, |kind| kind == 0x62)?;
        let body = self.body(5)?;
        let kind = self.value(body[4], 3, 1, "the edge's kind")?;
        Ok(Edge {
            from: name_at(body, 0),
            to: name_at(body, 2),
            kind,
        })
    }

    fn not_too_deep(&self, depth: usize, what: &str) -> Read<()> {
        match depth > DEPTH_LIMIT {
            true => self.fault(Refusal::Buried, format!("{what} is due at depth {depth}")),
            false => Ok(()),
        }
    }

    fn type_node(&mut self, depth: usize) -> Read<Type> {
        self.not_too_deep(depth, "a type")?;
        let fits = |kind| matches!(kind, 0x30..=0x3B | 0x40..=0x45);
        let kind = self.kind("a type (30 to 3B or 40 to 45)", fits)?;
        match kind {
            0x40 => Ok(Type::TypeRef(name_at(self.body(2)?, 0))),
            0x44 => Ok(Type::Array(Box::new(self.array(depth)?))),
            _ => match GroupKind::from_byte(kind) {
                Some(group) => Ok(Type::Group(Box::new(self.group(group, depth)?))),
                None => Ok(Type::Primitive(kind)),
            },
        }
    }

    /// `length` is that of the body, which starts with the attributes.
    fn attributes(&mut self, body: &[u8], length: usize) -> Read<Attributes> {
        let packed = self.value(body[0], 1, length, "packed")? == 1;
        let aligned = number(&body[1..9]);
        Ok(Attributes { packed, aligned })
    }

    fn array(&mut self, depth: usize) -> Read<Array> {
        let body = self.body(10)?;
        let attributes = self.attributes(body, 10)?;
        let jagged = self.value(body[9], 1, 1, "jagged")? == 1;
        let size = self.expr(depth + 1)?;
        let element = self.type_node(depth + 1)?;
        Ok(Array {
            attributes,
            jagged,
            size,
            element,
        })
    }

    fn group(&mut self, kind: GroupKind, depth: usize) -> Read<Group> {
        let body = self.body(11)?;
        let attributes = self.attributes(body, 11)?;
        let tag = match kind {
            GroupKind::Enum => Some(self.expr(depth + 1)?),
            _ => None,
        };
        let mut members = Vec::new();
        for place in 0..name_at(body, 9) {
            members.push(self.member(kind, place, depth)?);
        }
        Ok(Group {
            kind,
            attributes,
            tag,
            members,
        })
    }

    fn member(&mut self, group: GroupKind, place: u16, depth: usize) -> Read<Member> {
        let due = format!("member {place} ({:02X})", group.member_byte());
        self.kind(&due, |kind| kind == group.member_byte())?;
        let body = self.body(if group.has_values() { 10 } else { 2 })?;
        Ok(Member {
            name: name_at(body, 0),
            value: number(&body[2..]),
            member_type: self.type_node(depth + 1)?,
        })
    }

    fn expr(&mut self, depth: usize) -> Read<Expr> {
        self.not_too_deep(depth, "an expression")?;
        let fits = |kind| matches!(kind, 0x01..=0x0E | 0x10..=0x27);
        let kind = self.kind("an expression (01 to 0E or 10 to 27)", fits)?;
        Ok(match kind {
            0x01..=0x08 => Expr::Literal(kind, number(self.body(literal_width(kind))?)),
            0x09..=0x0C => {
                let body = self.body(2 * (usize::from(kind) - 8))?;
                let mut path = Path::new(name_at(body, 0));
                let places = (2..body.len()).step_by(2);
                places.for_each(|at| path.push(name_at(body, at)));
                Expr::FieldRef(path)
            }
            0x0D => Expr::Sizeof(name_at(self.body(2)?, 0)),
            0x0E => Expr::Alignof(name_at(self.body(2)?, 0)),
            0x10..=0x23 => {
                let left = Box::new(self.expr(depth + 1)?);
                Expr::Binary(kind, left, Box::new(self.expr(depth + 1)?))
            }
            _ => Expr::Unary(kind, Box::new(self.expr(depth + 1)?)),
        })
    }
}
