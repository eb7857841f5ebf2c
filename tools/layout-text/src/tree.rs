//! The tree that both the notation and the bytes stand for.

pub type Name = u16;

/// The depth at which a type or expression is refused is one more.
pub const DEPTH_LIMIT: usize = 24;
pub const BYTE_LIMIT: usize = 32_768;
pub const DEFINITION_LIMIT: usize = 256;
pub const EDGE_LIMIT: usize = 1_024;
pub const PATH_LIMIT: usize = 4;

/// The one to four names of a FieldRef, in place: a text of the greatest length has millions of them.
#[derive(Clone, Copy, Debug, PartialEq, Eq, Hash)]
pub struct Path {
    places: [Name; PATH_LIMIT],
    count: u8,
}

impl Path {
    pub fn new(first: Name) -> Path {
        Path {
            places: [first, 0, 0, 0],
            count: 1,
        }
    }

    pub fn is_full(&self) -> bool {
        self.names().len() == PATH_LIMIT
    }

    /// Adds a name; the path is not full.
    pub fn push(&mut self, name: Name) {
        self.places[usize::from(self.count)] = name;
        self.count += 1;
    }

    pub fn names(&self) -> &[Name] {
        &self.places[..usize::from(self.count)]
    }
}

#[derive(Clone, Debug, PartialEq, Eq, Hash)]
pub enum Expr {
    /// Kind byte 01 to 08 and the bits, without sign.
    Literal(u8, u64),
    FieldRef(Path),
    Sizeof(Name),
    Alignof(Name),
    /// Kind byte 10 to 23.
    Binary(u8, Box<Expr>, Box<Expr>),
    /// Kind byte 24 to 27.
    Unary(u8, Box<Expr>),
}

#[derive(Clone, Copy, Debug, Default, PartialEq, Eq, Hash)]
pub struct Attributes {
    pub packed: bool,
    pub aligned: u64,
}

#[derive(Clone, Copy, Debug, PartialEq, Eq, Hash)]
pub enum GroupKind {
    Struct,
    Union,
    Enum,
    SizeUnion,
}

#[derive(Clone, Debug, PartialEq, Eq, Hash)]
pub struct Group {
    pub kind: GroupKind,
    pub attributes: Attributes,
    /// There in an enum, and only there.
    pub tag: Option<Expr>,
    pub members: Vec<Member>,
}

#[derive(Clone, Debug, PartialEq, Eq, Hash)]
pub struct Array {
    pub attributes: Attributes,
    pub jagged: bool,
    pub size: Expr,
    pub element: Type,
}

#[derive(Clone, Debug, PartialEq, Eq, Hash)]
pub enum Type {
    /// Kind byte 30 to 3B.
    Primitive(u8),
    TypeRef(Name),
    Group(Box<Group>),
    Array(Box<Array>),
}

#[derive(Clone, Debug, PartialEq, Eq, Hash)]
pub struct Member {
    pub name: Name,
    /// Tag value or expected size; 0 in fields and union variants.
    pub value: u64,
    pub member_type: Type,
}

#[derive(Clone, Debug, PartialEq, Eq)]
pub struct Definition {
    pub name: Name,
    pub body: Type,
}

#[derive(Clone, Copy, Debug, PartialEq, Eq)]
pub struct Edge {
    pub from: Name,
    pub to: Name,
    pub kind: u8,
}

#[derive(Clone, Debug, Default, PartialEq, Eq)]
pub struct Bundle {
    pub current: Name,
    pub definitions: Vec<Definition>,
    pub edges: Vec<Edge>,
}

impl GroupKind {
    pub fn group_byte(self) -> u8 {
        match self {
            GroupKind::Struct => 0x41,
            GroupKind::Union => 0x42,
            GroupKind::Enum => 0x43,
            GroupKind::SizeUnion => 0x45,
        }
    }

    pub fn from_byte(kind: u8) -> Option<GroupKind> {
        match kind {
            0x41 => Some(GroupKind::Struct),
            0x42 => Some(GroupKind::Union),
            0x43 => Some(GroupKind::Enum),
            0x45 => Some(GroupKind::SizeUnion),
            _ => None,
        }
    }

    pub fn member_byte(self) -> u8 {
        match self {
            GroupKind::Struct => 0x50,
            GroupKind::Union => 0x51,
            GroupKind::Enum => 0x52,
            GroupKind::SizeUnion => 0x53,
        }
    }

    /// Whether members carry a tag value or an expected size.
    pub fn has_values(self) -> bool {
        matches!(self, GroupKind::Enum | GroupKind::SizeUnion)
    }
}

/// Bytes of the literal with this kind byte.
pub fn literal_width(kind: u8) -> usize {
    [8, 4, 2, 1][(usize::from(kind) - 1) % 4]
}
