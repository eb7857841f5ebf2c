//! An upper bound on the steps that the original needs for a bundle. It walks
//! shared definitions again each time and scans all edges for each name of a
//! search, so some bundles of a few hundred bytes would keep it busy for hours.

use crate::bundle::{Bundle, Expr, Member, Name, Type};
use crate::reader::first_places;
use crate::reference::{references, references_in_type};
use std::collections::{HashMap, HashSet};

/// Bundles above this are left out of runs of the original. Near it, random
/// bundles took 15 ms at most.
pub const STEP_LIMIT: u64 = 10_000_000;

pub fn within_limit(bundle: &Bundle) -> bool {
    steps(bundle) <= STEP_LIMIT
}

pub fn steps(bundle: &Bundle) -> u64 {
    let mut bound = Bound {
        bundle,
        first: first_places(bundle),
        walks: HashMap::new(),
    };
    let targets: HashSet<Name> = bundle.edges.iter().map(|edge| edge.to).collect();
    let edges = bundle.edges.len() as u64 + 1;
    let search = edges * (targets.len() as u64 + 1);
    let lookup = bundle.definitions.len() as u64;
    let fields: u64 = bundle
        .definitions
        .iter()
        .map(|d| field_count(&d.body))
        .sum();
    let mut total: u64 = 0;
    for definition in &bundle.definitions {
        let own = bound.named(definition.name);
        let cost = match &definition.body {
            Type::Enum(_, tag, _) => count(tag).saturating_mul(own + search + fields + lookup),
            Type::Array(_, _, size, element) => {
                (count(size).saturating_mul(search)).saturating_add(bound.walk(element))
            }
            Type::Struct(_, list) => bound.struct_steps(list),
            _ => 0,
        };
        total = total.saturating_add(cost);
    }
    total
}

fn count(expr: &Expr) -> u64 {
    references(expr).len() as u64
}

fn field_count(body: &Type) -> u64 {
    match body {
        Type::Struct(_, list) => list.len() as u64 + 1,
        _ => 1,
    }
}

struct Bound<'a> {
    bundle: &'a Bundle,
    first: HashMap<Name, usize>,
    walks: HashMap<usize, u64>,
}

impl Bound<'_> {
    /// Steps of one walk through the first definition of a name.
    fn named(&mut self, name: Name) -> u64 {
        let Some(place) = self.first.get(&name).copied() else {
            return 1;
        };
        if let Some(known) = self.walks.get(&place) {
            return *known;
        }
        let bundle = self.bundle;
        let steps = self.walk(&bundle.definitions[place].body).min(1 << 40);
        self.walks.insert(place, steps);
        steps
    }

    /// Steps of one walk that follows every TypeRef and never stops early.
    fn walk(&mut self, node: &Type) -> u64 {
        let lookup = self.bundle.definitions.len() as u64;
        match node {
            Type::Primitive(_) => 1,
            Type::TypeRef(name) => self.named(*name).saturating_add(2 * lookup),
            Type::Array(_, _, size, element) => self.walk(element).saturating_add(weight(size)),
            Type::Enum(_, tag, list) => self.walk_all(list).saturating_add(weight(tag)),
            Type::Struct(_, list) | Type::Union(_, list) | Type::SizeUnion(_, list) => {
                self.walk_all(list)
            }
        }
    }

    fn walk_all(&mut self, list: &[Member]) -> u64 {
        list.iter().fold(1, |sum: u64, member| {
            sum.saturating_add(self.walk(&member.member_type))
        })
    }

    /// Every reference of every field's type may start a walk of its own.
    fn struct_steps(&mut self, fields: &[Member]) -> u64 {
        let mut total: u64 = 0;
        for field in fields {
            if let Type::TypeRef(name) = field.member_type {
                let mut paths = Vec::new();
                if let Some(place) = self.first.get(&name) {
                    references_in_type(&self.bundle.definitions[*place].body, &mut paths);
                }
                let each = self.named(name) + self.bundle.definitions.len() as u64 + 1;
                let scan = fields.len() as u64 + paths.len() as u64;
                let cost = (paths.len() as u64 + 1).saturating_mul(each + scan);
                total = total.saturating_add(cost);
            }
        }
        total
    }
}

/// Nodes of an expression.
fn weight(expr: &Expr) -> u64 {
    match expr {
        Expr::Binary(_, left, right) => 1 + weight(left) + weight(right),
        Expr::Unary(_, operand) => 1 + weight(operand),
        _ => 1,
    }
}
