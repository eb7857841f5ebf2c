//! Random bundles for fixed sizes: most of their definitions never vary. In some
//! there are counts written as sums, large counts, an `aligned` that is no power of
//! two, or a part that varies, so that each refusal of the call comes up, also beside
//! another.

use crate::bundle::*;
use crate::fixed::SIZE_LIMIT;
use crate::generate::{pad, permute_names, type_depth};
use crate::random::Random;
use crate::reader;
use crate::value_generate::{any_size, with_value, without_value};

/// The most levels of a sum.
const SUM_LEVELS: usize = 5;

/// A bundle that the reader accepts.
pub fn fixed(random: &mut Random) -> Bundle {
    loop {
        let bundle = any_fixed(random);
        if reader::read(&encode(&bundle)).is_ok() {
            return bundle;
        }
    }
}

/// One that mostly has few bytes.
pub fn small_fixed(random: &mut Random) -> Bundle {
    loop {
        let count = random.between(1, 3);
        let bundle = Maker::new(random, 6).ordinary(count);
        if reader::read(&encode(&bundle)).is_ok() {
            return bundle;
        }
    }
}

fn any_fixed(random: &mut Random) -> Bundle {
    let form = random.below(1_000);
    let nodes = random.between(5, 60);
    let count = match random.below(40) {
        0..=29 => random.between(1, 6),
        30..=38 => random.between(3, 20),
        _ => random.between(20, 200),
    };
    let mut maker = Maker::new(random, nodes);
    match form {
        0..=759 => maker.ordinary(count),
        760..=859 => maker.near_limit(),
        860..=899 => maker.line(),
        900..=939 => maker.doubling(),
        940..=987 => maker.deep(count),
        988..=993 => maker.wide(),
        _ => maker.padded(count),
    }
}

struct Maker<'a> {
    random: &'a mut Random,
    nodes_left: usize,
    /// Percent of the groups whose `aligned` is no power of two.
    misaligned: usize,
    /// Percent of the types that vary.
    varying: usize,
    /// Percent of the counts and `aligned` values that are large.
    large: usize,
    /// Percent of the counts that are sums.
    sums: usize,
    /// Definitions have the names under this one.
    pool: Name,
}

impl Maker<'_> {
    fn new(random: &mut Random, nodes_left: usize) -> Maker<'_> {
        Maker {
            nodes_left,
            misaligned: random.pick(&[0, 0, 0, 0, 0, 0, 4, 12]),
            varying: random.pick(&[0, 0, 0, 0, 0, 0, 3, 8]),
            large: random.pick(&[0, 0, 0, 0, 5, 20, 40]),
            sums: random.pick(&[0, 0, 20, 20, 80]),
            pool: 0,
            random,
        }
    }

    fn ordinary(&mut self, count: usize) -> Bundle {
        let mut bundle = self.definitions(count);
        if self.random.chance(50) {
            self.random.shuffle(&mut bundle.definitions);
        }
        self.finish(bundle)
    }

    /// Each name once, and now and then a second definition of one. A TypeRef in a
    /// definition leads to a lower name, so there is no circle.
    fn definitions(&mut self, count: usize) -> Bundle {
        let mut bundle = Bundle::default();
        self.pool = count as Name;
        let share = self.nodes_left.div_ceil(count).max(3);
        for name in 0..self.pool {
            let again = self.random.chance(10) && bundle.definitions.len() + 2 < DEFINITION_LIMIT;
            for _ in 0..1 + usize::from(again) {
                self.nodes_left = share;
                let body = self.definition_body(name);
                bundle.definitions.push(Definition { name, body });
            }
        }
        bundle
    }

    /// Mostly a struct.
    fn definition_body(&mut self, owner: Name) -> Type {
        match self.random.below(10) {
            0..=4 => Type::Struct(self.attributes(), self.members(owner, 4)),
            5 if owner > 0 => Type::TypeRef(self.random.below(owner as usize) as Name),
            _ => self.type_node(owner, 4),
        }
    }

    /// Edges, a current name and other names; none of them matters to a size.
    fn finish(&mut self, mut bundle: Bundle) -> Bundle {
        for _ in 0..self.random.pick(&[0, 0, 0, 1, 2, 5]) {
            let edge = Edge {
                from: self.random.below(8) as Name,
                to: self.random.below(8) as Name,
                kind: self.random.below(4) as u8,
            };
            bundle.edges.push(edge);
        }
        bundle.current = self.random.below(self.pool as usize + 1) as Name;
        permute_names(self.random, self.pool.max(8), &bundle)
    }

    fn attributes(&mut self) -> Attributes {
        Attributes {
            packed: self.random.chance(30),
            aligned: self.aligned(),
        }
    }

    fn aligned(&mut self) -> u64 {
        if self.random.chance(self.misaligned) {
            let wide = self.random.bits() | 3;
            return self.random.pick(&[3, 5, 6, 7, 12, 24, u64::MAX, wide]);
        }
        if self.random.chance(self.large) {
            return 1 << self.random.pick(&[8, 16, 31, 32, 33, 62, 63]);
        }
        self.random.pick(&[0, 0, 0, 0, 0, 0, 1, 2, 4, 8, 16])
    }

    /// Those of an array say nothing, whatever they are.
    fn ignored_attributes(&mut self) -> Attributes {
        let wide = self.random.bits();
        Attributes {
            packed: self.random.chance(30),
            aligned: self.random.pick(&[0, 0, 3, 64, wide]),
        }
    }

    fn primitive(&mut self) -> Type {
        Type::Primitive(self.random.between(0x30, 0x3B) as u8)
    }

    fn reference(&mut self, owner: Name) -> Type {
        match owner {
            0 => self.primitive(),
            _ => Type::TypeRef(self.random.below(owner as usize) as Name),
        }
    }

    fn type_node(&mut self, owner: Name, levels: usize) -> Type {
        let left = self.nodes_left > 0;
        self.nodes_left = self.nodes_left.saturating_sub(1);
        if self.random.chance(self.varying) {
            return self.varying_part(owner, levels.saturating_sub(1));
        }
        if levels == 0 || !left {
            return match self.random.below(12) {
                0..=2 => self.reference(owner),
                3 => Type::Struct(self.attributes(), Vec::new()),
                4 => Type::Union(self.attributes(), Vec::new()),
                _ => self.primitive(),
            };
        }
        match self.random.below(20) {
            0..=4 => self.primitive(),
            5..=8 => self.reference(owner),
            9..=13 => Type::Struct(self.attributes(), self.members(owner, levels - 1)),
            14..=15 => Type::Union(self.attributes(), self.members(owner, levels - 1)),
            _ => {
                let size = self.count();
                self.array(size, owner, levels - 1)
            }
        }
    }

    fn array(&mut self, size: Expr, owner: Name, levels: usize) -> Type {
        let element = self.type_node(owner, levels);
        Type::Array(self.ignored_attributes(), false, size, Box::new(element))
    }

    fn member(&mut self, member_type: Type) -> Member {
        Member {
            name: self.random.below(8) as Name,
            value: 0,
            member_type,
        }
    }

    fn members(&mut self, owner: Name, levels: usize) -> Vec<Member> {
        let mut list = Vec::new();
        for _ in 0..self.random.pick(&[0, 1, 2, 2, 3, 3, 4, 6]) {
            let member_type = self.type_node(owner, levels);
            list.push(self.member(member_type));
        }
        list
    }

    fn count(&mut self) -> Expr {
        let value = if self.random.chance(self.large) {
            let wide = self.random.bits() >> self.random.below(64);
            let halves = [0x7FFF_FFFF, 0x8000_0000, 0xFFFF_FFFF, 0x1_0000_0000];
            let few = self
                .random
                .pick(&[127, 128, 255, 256, 32_768, 65_535, 65_536]);
            let most = self.random.pick(&[1 << 62, (1 << 63) - 1, 1 << 63]);
            let half = self.random.pick(&halves);
            self.random.pick(&[wide, half, few, few, most])
        } else {
            self.random.pick(&[0, 1, 1, 2, 2, 3, 3, 4, 5, 7, 8, 16])
        };
        self.size(value)
    }

    /// The value as a literal or as a sum.
    fn size(&mut self, value: u64) -> Expr {
        match i64::try_from(value) {
            Ok(value) if self.random.chance(self.sums) => {
                let levels = self.random.between(2, SUM_LEVELS);
                with_value(self.random, value, levels)
            }
            _ => self.literal(value),
        }
    }

    /// The value as a literal of a kind that can hold it.
    fn literal(&mut self, value: u64) -> Expr {
        let fits = |kind: &u8| {
            let bits = 8 * literal_width(*kind) - usize::from(*kind > 4);
            u128::from(value) < 1 << bits
        };
        let kinds: Vec<u8> = (1..=8).filter(fits).collect();
        Expr::Literal(self.random.pick(&kinds), value)
    }

    fn varying_part(&mut self, owner: Name, levels: usize) -> Type {
        let own = self.attributes();
        match self.random.below(6) {
            0 => Type::Enum(own, self.no_count(), self.members(owner, levels)),
            1 => Type::SizeUnion(own, self.members(owner, levels)),
            2 => {
                let element = Box::new(self.type_node(owner, levels));
                Type::Array(own, true, self.count(), element)
            }
            3 => {
                let size = self.no_count();
                self.array(size, owner, levels)
            }
            4 => {
                let kind = self.random.between(5, 8) as u8;
                let width = 8 * literal_width(kind);
                let sign = 1 << (width - 1);
                let bits = self.random.bits() >> (64 - width) | sign;
                let bits = self.random.pick(&[bits, sign, u64::MAX >> (64 - width)]);
                self.array(Expr::Literal(kind, bits), owner, levels)
            }
            _ => Type::TypeRef(self.pool.max(8) + self.random.below(3) as Name),
        }
    }

    /// A size that mostly has no value or a negative one.
    fn no_count(&mut self) -> Expr {
        let negative = -(self.random.between(1, 300) as i64);
        match self.random.below(6) {
            0 => with_value(self.random, negative, SUM_LEVELS),
            1 => any_size(self.random, 6, SUM_LEVELS),
            _ => without_value(self.random, SUM_LEVELS),
        }
    }

    /// Something of exactly or nearly the greatest size, and something around it.
    fn near_limit(&mut self) -> Bundle {
        let total = SIZE_LIMIT as u64 + self.random.pick(&[0, 0, 0, 0, 1, 1, 2, 8]);
        let first = self.sized(total);
        let mut definitions = vec![Definition {
            name: 0,
            body: first,
        }];
        self.pool = 1;
        for name in 1..self.random.between(1, 4) as Name {
            let inner = match self.random.below(3) {
                0 => definitions[0].body.clone(),
                _ => Type::TypeRef(name - 1),
            };
            let body = self.around(inner);
            definitions.push(Definition { name, body });
            self.pool += 1;
        }
        self.random.shuffle(&mut definitions);
        self.finish(Bundle {
            definitions,
            ..Bundle::default()
        })
    }

    fn bytes(&mut self, count: u64) -> Type {
        let element = Type::Primitive(self.random.pick(&[0x30, 0x34, 0x38]));
        let size = self.size(count);
        Type::Array(self.ignored_attributes(), false, size, Box::new(element))
    }

    /// A type of exactly this size, which is 65,535 or more.
    fn sized(&mut self, total: u64) -> Type {
        let packed = Attributes {
            packed: true,
            aligned: self.random.pick(&[0, 1]),
        };
        let most = self.bytes(total);
        match self.random.below(6) {
            0 => most,
            1 => {
                let last = self.random.between(0, 3);
                let part = self.bytes(total - (1 << last));
                let rest = Type::Primitive(0x30 + last as u8);
                let mut list = vec![self.member(part), self.member(rest)];
                self.random.shuffle(&mut list);
                Type::Struct(packed, list)
            }
            2 => {
                let empty = Type::Struct(self.attributes(), Vec::new());
                Type::Struct(packed, vec![self.member(most), self.member(empty)])
            }
            3 => {
                let other = self.primitive();
                Type::Union(packed, vec![self.member(other), self.member(most)])
            }
            4 => self.product(total),
            _ => {
                let half = self.bytes(total / 2);
                let rest = self.bytes(total - total / 2);
                Type::Struct(packed, vec![self.member(half), self.member(rest)])
            }
        }
    }

    /// An array of larger elements where the size is a multiple of theirs.
    fn product(&mut self, total: u64) -> Type {
        let factors = [3, 4, 8, 17, 257, 65_535, 65_536, 65_537];
        let factor = self.random.pick(&factors);
        let factor = if total.is_multiple_of(factor) {
            factor
        } else {
            1
        };
        let element = Box::new(self.bytes(total / factor));
        let size = self.size(factor);
        Type::Array(self.ignored_attributes(), false, size, element)
    }

    fn around(&mut self, inner: Type) -> Type {
        let own = self.attributes();
        let other = self.primitive();
        match self.random.below(7) {
            0 => inner,
            1 => Type::Struct(own, vec![self.member(inner)]),
            2 => Type::Struct(own, vec![self.member(inner), self.member(other)]),
            3 => Type::Struct(own, vec![self.member(other), self.member(inner)]),
            4 => Type::Union(own, vec![self.member(other), self.member(inner)]),
            _ => {
                let value = self.random.pick(&[0, 1, 1, 2]);
                let size = self.size(value);
                Type::Array(self.ignored_attributes(), false, size, Box::new(inner))
            }
        }
    }

    /// Definitions of which each is a TypeRef to the one before.
    fn line(&mut self) -> Bundle {
        let count = self.random.pick(&[2, 3, 4, 5, 8, 20, 40, 256]);
        let mut bundle = self.definitions(1);
        bundle.definitions.truncate(1);
        self.pool = count as Name;
        for name in 1..self.pool {
            let body = Type::TypeRef(name - 1);
            bundle.definitions.push(Definition { name, body });
        }
        if self.random.chance(50) {
            bundle.definitions.reverse();
        }
        self.finish(bundle)
    }

    /// Definitions of which each holds the one before twice.
    fn doubling(&mut self) -> Bundle {
        let count = self.random.pick(&[3, 5, 8, 30, 33, 34, 64, 200, 256]);
        let mut bundle = self.definitions(1);
        bundle.definitions.truncate(1);
        if self.random.chance(40) {
            bundle.definitions[0].body = Type::Union(Attributes::default(), Vec::new());
        }
        self.pool = count as Name;
        for name in 1..self.pool {
            let twice = [Type::TypeRef(name - 1), Type::TypeRef(name - 1)];
            let list = twice.map(|one| self.member(one)).to_vec();
            let own = Attributes {
                packed: self.random.chance(30),
                aligned: 0,
            };
            let body = match self.random.chance(95) {
                true => Type::Struct(own, list),
                false => Type::Union(own, list),
            };
            bundle.definitions.push(Definition { name, body });
        }
        self.finish(bundle)
    }

    /// Some definition wrapped until it ends near the greatest depth.
    fn deep(&mut self, count: usize) -> Bundle {
        let mut bundle = self.definitions(count.min(20));
        let place = self.random.below(bundle.definitions.len());
        let target = self.random.pick(&[24, 24, 24, 23, 12]);
        let mut body = bundle.definitions[place].body.clone();
        while type_depth(&body) < target {
            body = self.around(body);
        }
        bundle.definitions[place].body = body;
        self.finish(bundle)
    }

    /// A struct of many fields.
    fn wide(&mut self) -> Bundle {
        let mut bundle = self.definitions(2);
        let mut list = Vec::new();
        for _ in 0..self.random.pick(&[300, 1_000, 5_000, 8_000]) {
            let member_type = match self.random.below(60) {
                0 => Type::TypeRef(0),
                _ => self.primitive(),
            };
            list.push(self.member(member_type));
        }
        let own = self.attributes();
        bundle.definitions[1].body = match self.random.chance(80) {
            true => Type::Struct(own, list),
            false => Type::Union(own, list),
        };
        bundle.definitions.swap(0, 1);
        self.finish(bundle)
    }

    /// As many bytes as there can be, or a few less.
    fn padded(&mut self, count: usize) -> Bundle {
        let bundle = self.definitions(count);
        let mut bundle = self.finish(bundle);
        bundle.definitions.push(Definition {
            name: 50_000,
            body: Type::Primitive(0x30),
        });
        let short_by = self.random.pick(&[0, 0, 1, 2, 3, 3_000]);
        pad(&mut bundle, BYTE_LIMIT - short_by);
        bundle
    }
}
