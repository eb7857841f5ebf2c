//! Random expressions as the sizes of arrays. Many are made backwards, from a value
//! that they shall have, so that sums and products end just inside the range or just
//! outside; others are operations on whatever comes. Zero divisors and kinds without
//! a value stand anywhere in some of them.

use crate::bundle::*;
use crate::generate::{expr_depth, permute_names};
use crate::random::Random;
use crate::reader;

const LEAST: i128 = i64::MIN as i128;
const MOST: i128 = i64::MAX as i128;

const ADD: u8 = 0x10;
const SUB: u8 = 0x11;
const MUL: u8 = 0x12;
const DIV: u8 = 0x13;
const MOD: u8 = 0x14;
/// Each beside the one that holds where it does not.
const COMPARISONS: [(u8, u8); 3] = [(0x1B, 0x1C), (0x1D, 0x20), (0x1E, 0x1F)];
const NO_VALUE: [u8; 9] = [0x15, 0x16, 0x17, 0x18, 0x19, 0x1A, 0x21, 0x22, 0x23];

/// A definition has depth 1, so a size that stands in it has this many levels at most.
pub const LEVELS: usize = DEPTH_LIMIT - 1;

/// A bundle that the reader accepts, with an array among its definitions.
pub fn values(random: &mut Random) -> Bundle {
    let count = match random.below(300) {
        0..=199 => random.between(1, 4),
        200..=298 => random.between(4, 12),
        _ => random.between(200, 256),
    };
    let wide = count < 5 && random.chance(1);
    accepted(random, count, if wide { 3_000 } else { 30 })
}

/// One that mostly has few bytes.
pub fn small_values(random: &mut Random) -> Bundle {
    let count = random.between(1, 2);
    accepted(random, count, 6)
}

fn accepted(random: &mut Random, count: usize, nodes: usize) -> Bundle {
    loop {
        let bundle = set(random, count, nodes);
        if reader::read(&encode(&bundle)).is_ok() {
            return bundle;
        }
    }
}

/// An expression of this value, of at most so many levels.
pub fn with_value(random: &mut Random, value: i64, levels: usize) -> Expr {
    let nodes = random.between(2, 9);
    Maker::new(random, nodes, 0).goal(value.into(), levels)
}

/// An expression without a value.
pub fn without_value(random: &mut Random, levels: usize) -> Expr {
    let nodes = random.between(2, 9);
    Maker::new(random, nodes, 0).fault(levels)
}

/// Any expression: a value, also a negative one, or none.
pub fn any_size(random: &mut Random, nodes: usize, levels: usize) -> Expr {
    let most = random.between(1, nodes);
    let faults = random.pick(&[0, 0, 0, 10, 60]);
    let form = random.below(20);
    let mut maker = Maker::new(random, most, faults);
    match form {
        0..=7 => {
            let value = maker.some_value();
            maker.goal(value, levels)
        }
        8..=11 => {
            let value = maker.near_the_ends();
            maker.goal(value, levels)
        }
        12..=15 => maker.free(levels.min(4)),
        16..=17 => maker.free(levels),
        _ => maker.spine(levels),
    }
}

fn binary(kind: u8, left: Expr, right: Expr) -> Expr {
    Expr::Binary(kind, Box::new(left), Box::new(right))
}

fn inside(value: i128) -> bool {
    (LEAST..=MOST).contains(&value)
}

struct Maker<'a> {
    random: &'a mut Random,
    nodes_left: usize,
    /// Of a thousand operands, how many have no value.
    faults: usize,
}

impl Maker<'_> {
    fn new(random: &mut Random, nodes_left: usize, faults: usize) -> Maker<'_> {
        Maker {
            random,
            nodes_left,
            faults,
        }
    }

    fn small(&mut self) -> i128 {
        self.random.below(17) as i128 - 8
    }

    /// Small, near the ends of what some kind of literal holds, or of any length.
    fn some_value(&mut self) -> i128 {
        let value = match self.random.below(8) {
            0..=3 => self.small() + self.random.pick(&[0, 0, 0, 8, 50]),
            4..=5 => {
                let end = 1 << self.random.pick(&[7, 8, 15, 16, 31, 32, 62, 63]);
                let end = self.random.pick(&[end, -end]);
                end + self.random.below(5) as i128 - 2
            }
            _ => i128::from(self.random.bits() as i64 >> self.random.below(64)),
        };
        value.clamp(LEAST, MOST)
    }

    /// At the ends of the range, or a little outside.
    fn near_the_ends(&mut self) -> i128 {
        let step = self.random.pick(&[0, 0, 0, 1, 1, 2, 9]);
        let wide = i128::from(self.random.bits() >> self.random.below(64));
        match self.random.below(8) {
            0..=1 => MOST - step,
            2..=3 => LEAST + step,
            4 => MOST + 1 + step,
            5 => LEAST - 1 - step,
            6 => self.random.pick(&[1 << 64, (1 << 64) - 1, -(1 << 64)]),
            _ => self.random.pick(&[MOST + wide, LEAST - wide]),
        }
    }

    fn takes_node(&mut self) -> bool {
        let left = self.nodes_left > 0;
        self.nodes_left = self.nodes_left.saturating_sub(1);
        left
    }

    /// A literal of this value, where some kind has one.
    fn literal(&mut self, value: i128) -> Option<Expr> {
        let fits = |kind: &u8| {
            let width = 8 * literal_width(*kind);
            match *kind > 4 {
                true => (-(1 << (width - 1))..1 << (width - 1)).contains(&value),
                false => (0..1 << width).contains(&value),
            }
        };
        let kinds: Vec<u8> = (1..=8).filter(fits).collect();
        if kinds.is_empty() {
            return None;
        }
        let kind = self.random.pick(&kinds);
        let unused = 64 - 8 * literal_width(kind);
        Some(Expr::Literal(kind, (value as u64) << unused >> unused))
    }

    /// An expression of exactly this value, where no fault is put into it; one outside
    /// the range may become a literal of it, an operation with that result, or one on
    /// another such.
    fn goal(&mut self, value: i128, levels: usize) -> Expr {
        if self.random.below(1_000) < self.faults {
            return self.fault(levels);
        }
        let grows = self.takes_node() && levels > 1 && self.random.chance(85);
        if !grows {
            if let Some(literal) = self.literal(value) {
                return literal;
            }
        }
        if levels <= 1 {
            return Expr::Literal(1, self.random.bits() | 1 << 63);
        }
        let (kind, left, right) = self.parts(value);
        self.operands(kind, levels, |maker, levels, on_left| {
            maker.goal(if on_left { left } else { right }, levels)
        })
    }

    /// Either side may be made first, so that either may have most of the nodes.
    fn operands(
        &mut self,
        kind: u8,
        levels: usize,
        mut side: impl FnMut(&mut Self, usize, bool) -> Expr,
    ) -> Expr {
        if self.random.chance(50) {
            let left = side(self, levels - 1, true);
            return binary(kind, left, side(self, levels - 1, false));
        }
        let right = side(self, levels - 1, false);
        binary(kind, side(self, levels - 1, true), right)
    }

    /// An operation with this result, on two values inside the range if there are any.
    fn parts(&mut self, value: i128) -> (u8, i128, i128) {
        let found = match self.random.below(12) {
            0..=1 => {
                let right = self.some_value();
                (SUB, value + right, right)
            }
            2..=4 => self.product(value),
            5..=6 => self.quotient(value),
            7..=8 => self.remainder(value),
            9 if value == 0 || value == 1 => self.comparison(value == 1),
            _ => {
                let left = self.some_value();
                (ADD, left, value - left)
            }
        };
        match inside(found.1) && inside(found.2) {
            true => found,
            false => (ADD, value / 2, value - value / 2),
        }
    }

    fn product(&mut self, value: i128) -> (u8, i128, i128) {
        let factors = [2, 3, 5, 7, 8, -1, -2, -3, 1 << 31, 1 << 32, -(1 << 62)];
        let some = self.some_value();
        let factor = self.random.pick(&factors);
        let (left, right) = match (value, value % factor) {
            (0, _) => (0, some),
            (_, 0) => (factor, value / factor),
            _ => (1, value),
        };
        match self.random.chance(50) {
            true => (MUL, left, right),
            false => (MUL, right, left),
        }
    }

    /// What is cut off has the sign of the dividend.
    fn quotient(&mut self, value: i128) -> (u8, i128, i128) {
        let wide = if inside(value) { self.some_value() } else { 2 };
        let divisors = [1, -1, -1, 2, -2, 3, -5, 10, wide];
        let divisor = match self.random.pick(&divisors) {
            0 => -1,
            other => other,
        };
        let exact = value * divisor;
        let rest = i128::from(self.random.bits() >> 1) % divisor.abs();
        let rest = match exact {
            0 => self.random.pick(&[rest, -rest]),
            other => rest * other.signum(),
        };
        (DIV, exact + rest, divisor)
    }

    fn remainder(&mut self, value: i128) -> (u8, i128, i128) {
        let more = self.random.pick(&[1, 1, 2, 5, 1 << 20]);
        let divisor = value.abs() + more;
        let whole = self.random.below(5) as i128 * divisor;
        let dividend = match value {
            0 => self.random.pick(&[whole, -whole]),
            other => other + whole * other.signum(),
        };
        (MOD, dividend, self.random.pick(&[divisor, -divisor]))
    }

    fn comparison(&mut self, holds: bool) -> (u8, i128, i128) {
        let left = self.some_value();
        let other = self.some_value();
        let near = (left + self.random.below(3) as i128 - 1).clamp(LEAST, MOST);
        let right = self.random.pick(&[left, near, other]);
        let (one, opposite) = self.random.pick(&COMPARISONS);
        let one_holds = match one {
            0x1B => left == right,
            0x1D => left < right,
            _ => left > right,
        };
        match one_holds == holds {
            true => (one, left, right),
            false => (opposite, left, right),
        }
    }

    /// An expression without a value: a zero divisor, a value outside the range, or a
    /// kind that has none.
    fn fault(&mut self, levels: usize) -> Expr {
        match self.random.below(3) {
            0 if levels > 1 => {
                let kind = self.random.pick(&[DIV, MOD]);
                let left = self.some_value();
                self.operands(kind, levels, |maker, levels, on_left| {
                    maker.goal(if on_left { left } else { 0 }, levels)
                })
            }
            1 => {
                let step = i128::from(self.random.bits() >> self.random.below(64));
                let value = self.random.pick(&[MOST + 1 + step, LEAST - 1 - step]);
                self.goal(value, levels)
            }
            _ => self.uncovered(levels),
        }
    }

    /// A kind without a value; what stands inside may have a fault of its own.
    fn uncovered(&mut self, levels: usize) -> Expr {
        let names = self.random.between(1, 4);
        let path = (0..names).map(|_| self.random.below(8) as Name).collect();
        let name = self.random.below(8) as Name;
        match self.random.below(if levels > 1 { 6 } else { 3 }) {
            0 => Expr::FieldRef(path),
            1 => Expr::Sizeof(name),
            2 => Expr::Alignof(name),
            3 => {
                let kind = self.random.between(0x24, 0x27) as u8;
                Expr::Unary(kind, Box::new(self.free(levels - 1)))
            }
            _ => {
                let kind = self.random.pick(&NO_VALUE);
                self.operands(kind, levels, |maker, levels, _| maker.free(levels))
            }
        }
    }

    /// Any operation on whatever comes.
    fn free(&mut self, levels: usize) -> Expr {
        if self.random.below(1_000) < self.faults {
            return self.fault(levels);
        }
        if !self.takes_node() || levels <= 1 || self.random.chance(20) {
            return self.any_literal();
        }
        let kind = self.covered();
        self.operands(kind, levels, |maker, levels, on_left| {
            if !on_left && maker.random.chance(15) {
                let few = maker.random.pick(&[0, -1, -1, 1, 2]);
                return maker.goal(few, 1);
            }
            maker.free(levels)
        })
    }

    fn covered(&mut self) -> u8 {
        match self.random.below(11) {
            kind @ 0..=4 => ADD + kind as u8,
            kind => 0x1B + kind as u8 - 5,
        }
    }

    /// A literal of any kind, often at an end of what it holds.
    fn any_literal(&mut self) -> Expr {
        let kind = self.random.between(1, 8) as u8;
        let unused = 64 - 8 * literal_width(kind);
        let end = u64::MAX >> unused;
        let sign = end / 2 + 1;
        let near = self.random.pick(&[0, end, sign, sign - 1]);
        let near = near.wrapping_add(self.random.pick(&[0, 0, 0, 1, 2, u64::MAX]));
        let few = self.random.below(10) as u64;
        let wide = self.random.bits();
        let bits = self.random.pick(&[few, few, few, near, near, wide]);
        // A U64 has no value in half of the cases that are not small.
        let bits = match kind == 1 && self.random.chance(70) {
            true => bits >> 1,
            false => bits,
        };
        Expr::Literal(kind, bits & end)
    }

    /// As many levels as there may be, or a few less, one operation above the other.
    fn spine(&mut self, levels: usize) -> Expr {
        let target = levels - self.random.pick(&[0, 0, 0, 1, 5]).min(levels - 1);
        let value = self.some_value();
        let mut found = self.goal(value, target.min(3));
        let way = self.random.pick(&[0, 50, 100]);
        while expr_depth(&found) < target {
            let kind = match self.random.chance(self.faults / 10) {
                true => self.random.pick(&NO_VALUE),
                false => self
                    .random
                    .pick(&[ADD, SUB, ADD, SUB, MUL, DIV, MOD, 0x1C, 0x1D]),
            };
            let few = self.random.pick(&[1, 1, -1, 2, 3, -5, 100]);
            let other = self.literal(few).unwrap_or(Expr::Literal(4, 1));
            found = match self.random.chance(way) {
                true => binary(kind, found, other),
                false => binary(kind, other, found),
            };
        }
        found
    }
}

/// Names under `count` in any order; a TypeRef leads to a lower one. The lowest is
/// that of an array.
fn set(random: &mut Random, count: usize, nodes: usize) -> Bundle {
    let mut bundle = Bundle::default();
    let nodes = if count > 20 { 4 } else { nodes };
    for name in 0..count as Name {
        let body = match name == 0 || random.chance(70) {
            true => array(random, name, nodes, LEVELS),
            false => other_body(random, name, nodes),
        };
        bundle.definitions.push(Definition { name, body });
        // Now and then a second definition of the name.
        if random.chance(4) && count < 20 {
            let body = array(random, name, nodes, LEVELS);
            bundle.definitions.push(Definition { name, body });
        }
    }
    if random.chance(50) {
        random.shuffle(&mut bundle.definitions);
    }
    for _ in 0..random.pick(&[0, 0, 0, 0, 1, 3]) {
        bundle.edges.push(Edge {
            from: random.below(8) as Name,
            to: random.below(8) as Name,
            kind: random.below(4) as u8,
        });
    }
    bundle.current = random.below(count + 1) as Name;
    permute_names(random, count.max(8) as Name, &bundle)
}

fn attributes(random: &mut Random) -> Attributes {
    let wide = random.bits();
    Attributes {
        packed: random.chance(20),
        aligned: random.pick(&[0, 0, 0, 0, 1, 8, 3, wide]),
    }
}

fn array(random: &mut Random, owner: Name, nodes: usize, levels: usize) -> Type {
    let own = attributes(random);
    let size = any_size(random, nodes, levels);
    let element = match random.below(10) {
        0..=1 if levels > 12 => array(random, owner, nodes.min(5), levels - 1),
        2 => other_body(random, owner, 2),
        3..=4 => leaf(random, owner),
        _ => Type::Primitive(random.between(0x30, 0x3B) as u8),
    };
    Type::Array(own, random.chance(15), size, Box::new(element))
}

fn leaf(random: &mut Random, owner: Name) -> Type {
    match owner {
        0 => Type::Primitive(random.between(0x30, 0x3B) as u8),
        _ => Type::TypeRef(random.below(owner as usize) as Name),
    }
}

/// A definition that is no array, mostly with arrays in it or behind it.
fn other_body(random: &mut Random, owner: Name, nodes: usize) -> Type {
    let own = Attributes::default();
    let form = random.below(6);
    let mut list = Vec::new();
    for _ in 0..random.below(4) {
        let member_type = match random.chance(60) {
            true => array(random, owner, nodes.min(5), 8),
            false => leaf(random, owner),
        };
        list.push(Member {
            name: random.below(8) as Name,
            value: 0,
            member_type,
        });
    }
    match form {
        0 => leaf(random, owner),
        1 => Type::Union(own, list),
        2 => Type::Enum(own, any_size(random, nodes, 8), list),
        3 => Type::SizeUnion(own, list),
        _ => Type::Struct(own, list),
    }
}
