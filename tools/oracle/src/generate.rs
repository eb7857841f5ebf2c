//! Random bundles, weighted so that every kind of violation comes up often.
//!
//! While a bundle is made, names are small numbers and a definition only leads
//! to lower ones, so there is no cycle; at the end the names are replaced by
//! others. Field names, edges and references share that one small pool: most of
//! what is to be compared hangs on names that happen to be equal.

use crate::bundle::*;
use crate::random::Random;
use crate::reader;
use crate::reference::rename;
use std::collections::HashSet;

/// A bundle that the reader accepts.
pub fn valid(random: &mut Random) -> Bundle {
    loop {
        let bundle = any(random);
        if reader::read(&encode(&bundle)).is_ok() {
            return bundle;
        }
    }
}

/// A bundle that may have a cycle or pass a limit.
pub fn any(random: &mut Random) -> Bundle {
    let form = random.below(1_000);
    let (pool, definitions, edges) = match form {
        0..=699 => (random.between(2, 6), random.below(6), random.below(9)),
        700..=899 => (
            random.between(4, 15),
            random.between(3, 20),
            random.below(40),
        ),
        900..=979 => (random.between(2, 8), random.between(1, 4), random.below(12)),
        980..=995 => (
            random.between(20, 150),
            random.between(1, 6),
            random.below(20),
        ),
        _ => large(random),
    };
    let deep = random.chance(8);
    let mut maker = Maker {
        pool: pool as Name,
        nodes_left: 30 + random.below(120),
        random,
    };
    let mut bundle = maker.bundle(definitions, edges);
    if deep && definitions > 0 {
        maker.deepen(&mut bundle);
    }
    match form {
        980..=995 => maker.add_long_path(&mut bundle),
        996.. => {
            let short_by = maker.random.pick(&[0, 0, 0, 1, 2, 3, 100, 3_000]);
            pad(&mut bundle, BYTE_LIMIT - short_by);
        }
        _ => {}
    }
    permute_names(random, pool as Name, &bundle)
}

/// Pool, definitions and edges of a bundle near the limits.
fn large(random: &mut Random) -> (usize, usize, usize) {
    let definitions = random.between(200, 300).min(DEFINITION_LIMIT);
    let edges = random.between(900, 1_200).min(EDGE_LIMIT);
    (random.between(20, 90), definitions, edges)
}

/// A short bundle with one violation and little else.
pub fn small(random: &mut Random) -> Bundle {
    loop {
        let pool = random.between(2, 4) as Name;
        let mut maker = Maker {
            pool,
            nodes_left: 4,
            random,
        };
        let mut bundle = Bundle {
            current: maker.name(),
            ..Bundle::default()
        };
        maker.add_violation(&mut bundle);
        for _ in 0..maker.random.below(3) {
            maker.random_edge(&mut bundle);
        }
        let bundle = permute_names(random, pool, &bundle);
        if reader::read(&encode(&bundle)).is_ok() {
            return bundle;
        }
    }
}

/// Puts other names for those of the pool; 0 may be among either.
pub(crate) fn permute_names(random: &mut Random, pool: Name, bundle: &Bundle) -> Bundle {
    let mut names: Vec<Name> = if random.chance(80) {
        (0..pool + 4).collect()
    } else {
        let mut seen = HashSet::from([0, 65_535]);
        while seen.len() < pool as usize + 4 {
            seen.insert(random.bits() as Name);
        }
        let mut list: Vec<Name> = seen.into_iter().collect();
        list.sort_unstable();
        list
    };
    random.shuffle(&mut names);
    let last = names.len() - 1;
    let mut renamed = rename(bundle, &mut |name| names[(name as usize).min(last)]);
    if random.chance(30) {
        renamed.current = 0;
    }
    renamed
}

struct Maker<'a> {
    /// Names are 0 to `pool` - 1; a few numbers above it are never defined.
    pool: Name,
    /// Nodes that may still be made, so that no bundle grows without end.
    nodes_left: usize,
    random: &'a mut Random,
}

impl Maker<'_> {
    fn bundle(&mut self, definitions: usize, edges: usize) -> Bundle {
        let mut bundle = Bundle {
            current: self.name(),
            ..Bundle::default()
        };
        while bundle.definitions.len() < definitions {
            if definitions >= 200 {
                self.nodes_left = 12;
            }
            if self.random.chance(55) && bundle.definitions.len() + 3 <= definitions.max(3) {
                self.add_violation(&mut bundle);
            } else {
                let name = self.name();
                let body = self.type_node(name, 4);
                bundle.definitions.push(Definition { name, body });
            }
        }
        while bundle.edges.len() < edges {
            self.random_edge(&mut bundle);
        }
        bundle.edges.truncate(edges.clamp(8, EDGE_LIMIT));
        if self.random.chance(60) {
            self.random.shuffle(&mut bundle.definitions);
        }
        if self.random.chance(30) {
            self.random.shuffle(&mut bundle.edges);
        }
        self.free_later_definitions(&mut bundle);
        bundle
    }

    /// A second definition of a name is never led to, so it may lead anywhere.
    /// Now and then a first one is freed too, which may close a cycle.
    fn free_later_definitions(&mut self, bundle: &mut Bundle) {
        let mut seen = HashSet::new();
        let cycles = self.random.chance(3);
        for definition in &mut bundle.definitions {
            let later = !seen.insert(definition.name);
            if (later && self.random.chance(40)) || (cycles && self.random.chance(30)) {
                self.nodes_left = 6;
                definition.body = self.type_node(self.pool + 3, 3);
            }
        }
    }

    fn name(&mut self) -> Name {
        self.random.below(self.pool as usize) as Name
    }

    /// A name for a TypeRef in a definition called `owner`.
    fn lower_name(&mut self, owner: Name) -> Name {
        if owner == 0 || self.random.chance(8) {
            self.pool + self.random.below(3) as Name
        } else {
            self.random.below(owner as usize) as Name
        }
    }

    fn take_node(&mut self) -> bool {
        let left = self.nodes_left > 0;
        self.nodes_left = self.nodes_left.saturating_sub(1);
        left
    }

    fn attributes(&mut self) -> Attributes {
        let wide = self.random.bits();
        Attributes {
            packed: self.random.chance(30),
            aligned: self.random.pick(&[0, 0, 1, 8, wide]),
        }
    }

    fn primitive(&mut self) -> Type {
        Type::Primitive(self.random.between(0x30, 0x3B) as u8)
    }

    fn type_node(&mut self, owner: Name, levels: usize) -> Type {
        let own = self.attributes();
        if levels == 0 || !self.take_node() {
            return match self.random.below(5) {
                0 => Type::TypeRef(self.lower_name(owner)),
                1 => Type::Struct(own, Vec::new()),
                _ => self.primitive(),
            };
        }
        match self.random.below(20) {
            0..=2 => self.primitive(),
            3..=6 => Type::TypeRef(self.lower_name(owner)),
            7..=9 => Type::Struct(own, self.members(owner, levels, false)),
            10..=11 => Type::Union(own, self.members(owner, levels, false)),
            12..=14 => {
                let tag = self.expr(3);
                Type::Enum(own, tag, self.variants(owner, levels))
            }
            15..=18 => {
                let size = self.expr(3);
                let jagged = self.random.chance(35);
                let element = Box::new(self.type_node(owner, levels - 1));
                Type::Array(own, jagged, size, element)
            }
            _ => Type::SizeUnion(own, self.members(owner, levels, true)),
        }
    }

    fn member(&mut self, member_type: Type, valued: bool) -> Member {
        let wide = self.random.bits();
        let value = self.random.pick(&[0, 1, 2, wide]);
        Member {
            name: self.name(),
            value: if valued { value } else { 0 },
            member_type,
        }
    }

    fn members(&mut self, owner: Name, levels: usize, valued: bool) -> Vec<Member> {
        let count = self.random.pick(&[0, 1, 1, 2, 2, 3, 4]);
        let mut list = Vec::new();
        for _ in 0..count {
            let member_type = self.type_node(owner, levels - 1);
            list.push(self.member(member_type, valued));
        }
        list
    }

    /// Often primitives of one size, which the enum checks treat apart.
    fn variants(&mut self, owner: Name, levels: usize) -> Vec<Member> {
        match self.random.below(10) {
            0..=3 => {
                let of_size = self.random.pick(&[
                    &[0x30, 0x34, 0x38],
                    &[0x31, 0x35, 0x39],
                    &[0x32, 0x36, 0x3A],
                    &[0x33, 0x37, 0x3B],
                ]);
                let count = self.random.between(1, 3);
                let mut list = Vec::new();
                for _ in 0..count {
                    let kind = self.random.pick(of_size);
                    list.push(self.member(Type::Primitive(kind), true));
                }
                list
            }
            4..=6 => {
                let count = self.random.below(3);
                let mut list = Vec::new();
                for _ in 0..count {
                    let member_type = self.primitive();
                    list.push(self.member(member_type, true));
                }
                list
            }
            _ => self.members(owner, levels, true),
        }
    }

    fn path(&mut self) -> Vec<Name> {
        let length = self.random.pick(&[1, 1, 1, 2, 2, 2, 2, 2, 3, 4]);
        (0..length).map(|_| self.name()).collect()
    }

    fn expr(&mut self, levels: usize) -> Expr {
        if levels == 0 || !self.take_node() {
            return self.leaf();
        }
        match self.random.below(10) {
            0..=5 => self.leaf(),
            6..=8 => {
                let kind = self.random.between(0x10, 0x23) as u8;
                let left = Box::new(self.expr(levels - 1));
                Expr::Binary(kind, left, Box::new(self.expr(levels - 1)))
            }
            _ => {
                let kind = self.random.between(0x24, 0x27) as u8;
                Expr::Unary(kind, Box::new(self.expr(levels - 1)))
            }
        }
    }

    fn leaf(&mut self) -> Expr {
        match self.random.below(10) {
            0..=2 => {
                let kind = self.random.between(1, 8) as u8;
                let bits = self.random.bits() >> (64 - 8 * literal_width(kind));
                Expr::Literal(kind, bits)
            }
            3 => Expr::Sizeof(self.name()),
            4 => Expr::Alignof(self.name()),
            _ => Expr::FieldRef(self.path()),
        }
    }

    /// An expression that holds the given reference among other things.
    fn expr_with(&mut self, path: Vec<Name>) -> Expr {
        let mut expr = Expr::FieldRef(path);
        while self.random.chance(25) && self.take_node() {
            let other = Box::new(self.expr(1));
            let kind = self.random.between(0x10, 0x23) as u8;
            expr = match self.random.below(3) {
                0 => Expr::Binary(kind, Box::new(expr), other),
                1 => Expr::Binary(kind, other, Box::new(expr)),
                _ => Expr::Unary(self.random.between(0x24, 0x27) as u8, Box::new(expr)),
            };
        }
        expr
    }

    fn random_edge(&mut self, bundle: &mut Bundle) {
        let from = self.name();
        let to = if self.random.chance(40) {
            (from + 1) % self.pool
        } else {
            self.name()
        };
        self.edge(bundle, from, to);
    }

    fn edge(&mut self, bundle: &mut Bundle, from: Name, to: Name) {
        let kind = self.random.below(4) as u8;
        bundle.edges.push(Edge { from, to, kind });
    }

    /// Edges from one name to another over some others, mostly complete.
    fn add_path(&mut self, bundle: &mut Bundle, from: Name, to: Name) {
        let mut at = from;
        for _ in 0..self.random.pick(&[0, 0, 1, 1, 2, 3]) {
            let next = self.name();
            self.edge(bundle, at, next);
            at = next;
        }
        if self.random.chance(90) {
            self.edge(bundle, at, to);
        }
    }

    /// Edges over all names of the pool, so that chains grow long.
    fn add_long_path(&mut self, bundle: &mut Bundle) {
        for name in 1..self.pool {
            self.edge(bundle, name - 1, name);
        }
        self.random.shuffle(&mut bundle.edges);
    }

    fn define(&mut self, bundle: &mut Bundle, name: Name, body: Type) {
        bundle.definitions.push(Definition { name, body });
    }

    /// Definitions that nearly always break one rule, of types 1 to 8.
    fn add_violation(&mut self, bundle: &mut Bundle) {
        let low = self.random.below(self.pool as usize - 1) as Name;
        let high = self
            .random
            .between(low as usize + 1, self.pool as usize - 1) as Name;
        match self.random.below(8) {
            0 => self.add_enum_forward(bundle, low, high),
            1 => self.add_enum_cycle(bundle, high),
            2 => self.add_array_cycle(bundle, high),
            3 => self.add_field_forward(bundle, low, high),
            4 => self.add_variable_element(bundle, low, high),
            5 => self.add_jagged_reference(bundle, low, high),
            6 => {
                let element = self.primitive();
                self.add_jagged(bundle, high, element);
            }
            _ => self.add_nested_jagged(bundle, low, high),
        }
    }

    /// A struct with a field of the given type and, mostly later, a named one.
    fn holder(&mut self, owner: Name, target: Name, field: Name) -> Type {
        let mut list = Vec::new();
        for place in 0..self.random.between(2, 4) {
            let member_type = match self.random.below(6) {
                0 => Type::TypeRef(self.lower_name(owner)),
                1 => self.type_node(owner, 1),
                _ if place < 2 => Type::TypeRef(target),
                _ => self.primitive(),
            };
            list.push(self.member(member_type, false));
        }
        let last = list.len() - 1;
        let place = self.random.pick(&[last, last, last, 0, 1]);
        list[place].name = field;
        list[place].value = 0;
        Type::Struct(self.attributes(), list)
    }

    fn own_path(&mut self, bundle: &mut Bundle, owner: Name, field: Name) -> Vec<Name> {
        if self.random.chance(25) {
            bundle.current = owner;
            return vec![field];
        }
        vec![owner, field]
    }

    fn add_enum_forward(&mut self, bundle: &mut Bundle, low: Name, high: Name) {
        let field = self.name();
        let path = self.own_path(bundle, high, field);
        let tag = self.expr_with(path);
        let body = Type::Enum(self.attributes(), tag, self.variants(low, 1));
        self.define(bundle, low, body);
        let body = self.holder(high, low, field);
        self.define(bundle, high, body);
    }

    fn add_enum_cycle(&mut self, bundle: &mut Bundle, name: Name) {
        let path = self.path();
        let start = if path.len() == 1 {
            bundle.current
        } else {
            path[0]
        };
        let tag = self.expr_with(path);
        let body = Type::Enum(self.attributes(), tag, self.members(name, 2, true));
        self.define(bundle, name, body);
        self.add_path(bundle, start, name);
    }

    fn add_array_cycle(&mut self, bundle: &mut Bundle, name: Name) {
        let path = self.path();
        let start = if path.len() == 1 {
            bundle.current
        } else {
            path[0]
        };
        let size = self.expr_with(path);
        let element = Box::new(self.type_node(name, 1));
        let body = Type::Array(self.attributes(), self.random.chance(20), size, element);
        self.define(bundle, name, body);
        self.add_path(bundle, start, name);
    }

    fn add_field_forward(&mut self, bundle: &mut Bundle, low: Name, high: Name) {
        let field = self.name();
        let path = self.own_path(bundle, high, field);
        let expr = self.expr_with(path);
        let own = self.attributes();
        let inner = if self.random.chance(70) {
            let element = Box::new(self.type_node(low, 1));
            Type::Array(own, self.random.chance(10), expr, element)
        } else {
            Type::Enum(own, expr, self.variants(low, 1))
        };
        let body = match self.random.below(6) {
            0 => Type::Struct(own, vec![self.member(inner, false)]),
            1 => Type::Union(own, vec![self.member(inner, false)]),
            2 => Type::Array(own, false, self.leaf(), Box::new(inner)),
            _ => inner,
        };
        self.define(bundle, low, body);
        let body = self.holder(high, low, field);
        self.define(bundle, high, body);
    }

    fn add_variable_element(&mut self, bundle: &mut Bundle, low: Name, high: Name) {
        let body = self.type_node(low, 2);
        self.define(bundle, low, body);
        let own = self.attributes();
        let path = self.path();
        let element = match self.random.below(4) {
            0 => Type::TypeRef(low),
            1 => Type::Array(own, false, Expr::FieldRef(path), Box::new(self.primitive())),
            2 => Type::Enum(own, Expr::FieldRef(path), self.variants(high, 1)),
            _ => Type::Struct(own, vec![self.member(Type::TypeRef(low), false)]),
        };
        let body = Type::Array(own, false, self.leaf(), Box::new(element));
        self.define(bundle, high, body);
    }

    fn add_jagged_reference(&mut self, bundle: &mut Bundle, low: Name, high: Name) {
        let body = self.type_node(low, 1);
        self.define(bundle, low, body);
        self.add_jagged(bundle, high, Type::TypeRef(low));
    }

    fn add_jagged(&mut self, bundle: &mut Bundle, name: Name, element: Type) {
        let size = self.leaf();
        let body = Type::Array(self.attributes(), true, size, Box::new(element));
        self.define(bundle, name, body);
    }

    fn add_nested_jagged(&mut self, bundle: &mut Bundle, low: Name, high: Name) {
        let own = self.attributes();
        let inner = Type::Array(own, true, self.leaf(), Box::new(self.primitive()));
        let wrapped = match self.random.below(4) {
            0 => Type::Union(own, vec![self.member(inner, false)]),
            1 => Type::SizeUnion(own, vec![self.member(inner, true)]),
            2 => Type::Array(own, false, self.leaf(), Box::new(inner)),
            _ => inner,
        };
        let list = vec![self.member(wrapped, false)];
        if self.random.chance(50) {
            self.define(bundle, low, Type::Struct(own, list));
            self.add_jagged(bundle, high, Type::TypeRef(low));
        } else {
            self.add_jagged(bundle, high, Type::Struct(own, list));
        }
    }

    /// Wraps some definition until it ends near the greatest depth.
    fn deepen(&mut self, bundle: &mut Bundle) {
        let place = self.random.below(bundle.definitions.len());
        let owner = bundle.definitions[place].name;
        let old = bundle.definitions[place].body.clone();
        let target = self.random.pick(&[24, 24, 24, 23, 20, 12]);
        let mut body = old;
        self.nodes_left = 30;
        while type_depth(&body) < target {
            body = self.wrap(owner, body, target);
        }
        bundle.definitions[place].body = body;
    }

    fn wrap(&mut self, owner: Name, inner: Type, target: usize) -> Type {
        let own = self.attributes();
        let valued = self.random.chance(20);
        match self.random.below(8) {
            0..=1 => Type::Struct(own, vec![self.member(inner, false)]),
            2 => Type::Union(own, vec![self.member(inner, false)]),
            3 => Type::SizeUnion(own, vec![self.member(inner, true)]),
            4 => Type::Enum(own, self.expr(1), vec![self.member(inner, true)]),
            5 if target > 2 => {
                let levels = target - 2;
                let operand = self.deep_expr(levels);
                Type::Array(own, valued, operand, Box::new(inner))
            }
            6 => {
                let other = self.type_node(owner, 1);
                let mut list = vec![self.member(inner, false), self.member(other, false)];
                self.random.shuffle(&mut list);
                Type::Struct(own, list)
            }
            _ => Type::Array(own, valued, self.leaf(), Box::new(inner)),
        }
    }

    /// An expression of exactly this depth.
    fn deep_expr(&mut self, levels: usize) -> Expr {
        let mut expr = self.leaf();
        for _ in 1..levels {
            let kind = self.random.between(0x10, 0x27) as u8;
            expr = match kind {
                0x10..=0x23 if self.random.chance(50) => {
                    Expr::Binary(kind, Box::new(self.leaf()), Box::new(expr))
                }
                0x10..=0x23 => Expr::Binary(kind, Box::new(expr), Box::new(self.leaf())),
                _ => Expr::Unary(kind, Box::new(expr)),
            };
        }
        expr
    }
}

pub fn type_depth(node: &Type) -> usize {
    let members = |list: &[Member]| list.iter().map(|m| type_depth(&m.member_type)).max();
    let inside = match node {
        Type::Primitive(_) | Type::TypeRef(_) => 0,
        Type::Struct(_, list) | Type::Union(_, list) | Type::SizeUnion(_, list) => {
            members(list).unwrap_or(0)
        }
        Type::Enum(_, tag, list) => members(list).unwrap_or(0).max(expr_depth(tag)),
        Type::Array(_, _, size, element) => expr_depth(size).max(type_depth(element)),
    };
    inside + 1
}

/// The levels of an expression; a literal has one.
pub fn expr_depth(node: &Expr) -> usize {
    match node {
        Expr::Binary(_, left, right) => 1 + expr_depth(left).max(expr_depth(right)),
        Expr::Unary(_, operand) => 1 + expr_depth(operand),
        _ => 1,
    }
}

/// Replaces the last definition by a struct that brings the bundle to exactly
/// this many bytes, where that is more than it has.
pub fn pad(bundle: &mut Bundle, target: usize) {
    let Some(last) = bundle.definitions.last_mut() else {
        return;
    };
    last.body = Type::Struct(Attributes::default(), Vec::new());
    let size = encode(bundle).len();
    let mut room = target.saturating_sub(size);
    let mut list = Vec::new();
    let mut add = |room: &mut usize, bytes: usize, member_type: Type| {
        if *room >= bytes {
            *room -= bytes;
            let name = list.len() as Name % 7;
            list.push(Member {
                name,
                value: 0,
                member_type,
            });
        }
    };
    // Fields of 17, 6 and 4 bytes reach every number of bytes above 20.
    if room % 2 == 1 {
        let element = Box::new(Type::Primitive(0x30));
        let size = Expr::Literal(4, 3);
        let array = Type::Array(Attributes::default(), false, size, element);
        add(&mut room, 17, array);
    }
    if room % 4 == 2 {
        add(&mut room, 6, Type::TypeRef(65_000));
    }
    while room >= 4 {
        add(&mut room, 4, Type::Primitive(0x30));
    }
    let place = bundle.definitions.len() - 1;
    bundle.definitions[place].body = Type::Struct(Attributes::default(), list);
}
