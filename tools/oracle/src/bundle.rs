//! The tree of a bundle and the bytes it stands for.

pub type Name = u16;
pub type Refusal = u8;

pub const BYTE_LIMIT: usize = 32_768;
pub const DEFINITION_LIMIT: usize = 256;
pub const EDGE_LIMIT: usize = 1_024;
pub const DEPTH_LIMIT: usize = 24;

pub const TOO_LONG: Refusal = 1;
pub const TOO_SHORT: Refusal = 2;
pub const UNEXPECTED_KIND: Refusal = 3;
pub const VALUE_OUT_OF_RANGE: Refusal = 4;
pub const COUNT_OVER_LIMIT: Refusal = 5;
pub const TOO_DEEP: Refusal = 6;
pub const BYTES_LEFT: Refusal = 7;
pub const REFERENCE_CYCLE: Refusal = 8;
pub const OUTPUT_TOO_SMALL: Refusal = 9;
pub const MISALIGNED: Refusal = 10;
pub const VARYING: Refusal = 11;
pub const OVERSIZED: Refusal = 12;
pub const ZERO_DIVISOR: Refusal = 13;
pub const OUT_OF_RANGE: Refusal = 14;
pub const UNCOVERED: Refusal = 15;

/// Words of the refusals, by number.
pub const WORDS: [&str; 16] = [
    "",
    "overlong",
    "short",
    "stranger",
    "off scale",
    "crowded",
    "buried",
    "trailing",
    "circle",
    "narrow",
    "misaligned",
    "varying",
    "oversized",
    "zero divisor",
    "out of range",
    "uncovered",
];

#[derive(Clone, Debug, PartialEq, Eq)]
pub enum Expr {
    /// Kind byte 01 to 08 and the bits, without sign.
    Literal(u8, u64),
    FieldRef(Vec<Name>),
    Sizeof(Name),
    Alignof(Name),
    /// Kind byte 10 to 23.
    Binary(u8, Box<Expr>, Box<Expr>),
    /// Kind byte 24 to 27.
    Unary(u8, Box<Expr>),
}

#[derive(Clone, Copy, Debug, Default, PartialEq, Eq)]
pub struct Attributes {
    pub packed: bool,
    pub aligned: u64,
}

#[derive(Clone, Debug, PartialEq, Eq)]
pub enum Type {
    /// Kind byte 30 to 3B.
    Primitive(u8),
    TypeRef(Name),
    Struct(Attributes, Vec<Member>),
    Union(Attributes, Vec<Member>),
    Enum(Attributes, Expr, Vec<Member>),
    Array(Attributes, bool, Expr, Box<Type>),
    SizeUnion(Attributes, Vec<Member>),
}

#[derive(Clone, Debug, PartialEq, Eq)]
pub struct Member {
    pub name: Name,
    /// Tag value or expected size; 0 in fields and union variants.
    pub value: u64,
    pub member_type: Type,
}

#[derive(Clone, Debug, PartialEq, Eq)]
pub struct Definition {
    pub name: Name,
    pub body: Type,
}

#[derive(Clone, Copy, Debug, PartialEq, Eq)]
pub struct Edge {
    pub from: Name,
    pub to: Name,
    pub kind: u8,
}

#[derive(Clone, Debug, Default, PartialEq, Eq)]
pub struct Bundle {
    pub current: Name,
    pub definitions: Vec<Definition>,
    pub edges: Vec<Edge>,
}

/// Bytes of the literal with this kind byte.
pub fn literal_width(kind: u8) -> usize {
    [8, 4, 2, 1][(kind as usize - 1) % 4]
}

/// What stands at a place of the encoded bytes that a damage may aim at.
#[derive(Clone, Copy, Debug, PartialEq, Eq)]
pub enum Mark {
    Kind,
    Flag,
    EdgeKind,
    MemberCount,
}

#[derive(Default)]
pub struct Encoder {
    pub bytes: Vec<u8>,
    pub marks: Vec<(usize, Mark)>,
}

pub fn encode(bundle: &Bundle) -> Vec<u8> {
    let mut encoder = Encoder::default();
    encoder.bundle(bundle);
    encoder.bytes
}

impl Encoder {
    pub fn bundle(&mut self, bundle: &Bundle) {
        self.kind(0x60);
        self.number(bundle.definitions.len() as u64, 2);
        self.number(bundle.edges.len() as u64, 2);
        self.name(bundle.current);
        for definition in &bundle.definitions {
            self.kind(0x61);
            self.name(definition.name);
            self.type_node(&definition.body);
        }
        for edge in &bundle.edges {
            self.kind(0x62);
            self.name(edge.from);
            self.name(edge.to);
            self.mark(Mark::EdgeKind);
            self.bytes.push(edge.kind);
        }
    }

    fn mark(&mut self, mark: Mark) {
        self.marks.push((self.bytes.len(), mark));
    }

    fn kind(&mut self, kind: u8) {
        self.mark(Mark::Kind);
        self.bytes.push(kind);
    }

    fn number(&mut self, value: u64, width: usize) {
        self.bytes.extend_from_slice(&value.to_le_bytes()[..width]);
    }

    fn name(&mut self, name: Name) {
        self.number(u64::from(name), 2);
    }

    fn flag(&mut self, flag: bool) {
        self.mark(Mark::Flag);
        self.bytes.push(u8::from(flag));
    }

    fn attributes(&mut self, attributes: &Attributes) {
        self.flag(attributes.packed);
        self.number(attributes.aligned, 8);
    }

    fn type_node(&mut self, node: &Type) {
        match node {
            Type::Primitive(kind) => self.kind(*kind),
            Type::TypeRef(name) => {
                self.kind(0x40);
                self.name(*name);
            }
            Type::Struct(attributes, members) => self.group(0x41, attributes, None, members),
            Type::Union(attributes, members) => self.group(0x42, attributes, None, members),
            Type::Enum(attributes, tag, members) => {
                self.group(0x43, attributes, Some(tag), members)
            }
            Type::SizeUnion(attributes, members) => self.group(0x45, attributes, None, members),
            Type::Array(attributes, jagged, size, element) => {
                self.kind(0x44);
                self.attributes(attributes);
                self.flag(*jagged);
                self.expr(size);
                self.type_node(element);
            }
        }
    }

    fn group(&mut self, kind: u8, attributes: &Attributes, tag: Option<&Expr>, list: &[Member]) {
        self.kind(kind);
        self.attributes(attributes);
        self.mark(Mark::MemberCount);
        self.number(list.len() as u64, 2);
        if let Some(tag) = tag {
            self.expr(tag);
        }
        for member in list {
            self.kind(member_kind(kind));
            self.name(member.name);
            if has_value(kind) {
                self.number(member.value, 8);
            }
            self.type_node(&member.member_type);
        }
    }

    fn expr(&mut self, node: &Expr) {
        match node {
            Expr::Literal(kind, bits) => {
                self.kind(*kind);
                self.number(*bits, literal_width(*kind));
            }
            Expr::FieldRef(path) => {
                self.kind(0x08 + path.len() as u8);
                path.iter().for_each(|name| self.name(*name));
            }
            Expr::Sizeof(name) => {
                self.kind(0x0D);
                self.name(*name);
            }
            Expr::Alignof(name) => {
                self.kind(0x0E);
                self.name(*name);
            }
            Expr::Binary(kind, left, right) => {
                self.kind(*kind);
                self.expr(left);
                self.expr(right);
            }
            Expr::Unary(kind, operand) => {
                self.kind(*kind);
                self.expr(operand);
            }
        }
    }
}

/// The member kind that stands inside a group of this kind.
pub fn member_kind(group: u8) -> u8 {
    match group {
        0x41 => 0x50,
        0x42 => 0x51,
        0x43 => 0x52,
        _ => 0x53,
    }
}

/// Whether members of a group of this kind carry an 8-byte value.
pub fn has_value(group: u8) -> bool {
    matches!(group, 0x43 | 0x45)
}
