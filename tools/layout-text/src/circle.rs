//! The definitions on a circle of TypeRefs, to name them in an explanation.

use crate::tree::*;
use std::collections::HashMap;

/// Names from a definition back to itself, the first one repeated at the end.
pub fn circle(bundle: &Bundle) -> Option<Vec<Name>> {
    let mut first = HashMap::new();
    for (place, definition) in bundle.definitions.iter().enumerate() {
        first.entry(definition.name).or_insert(place);
    }
    let leads = |definition: &Definition| {
        let mut names = Vec::new();
        type_refs(&definition.body, &mut names);
        let places = names.iter().filter_map(|name| first.get(name).copied());
        places.collect()
    };
    let mut visit = Visit {
        leads: bundle.definitions.iter().map(leads).collect(),
        done: vec![false; bundle.definitions.len()],
        open: Vec::new(),
    };
    let found = (0..visit.leads.len()).find_map(|start| visit.from(start))?;
    Some(
        found
            .iter()
            .map(|at| bundle.definitions[*at].name)
            .collect(),
    )
}

fn type_refs(node: &Type, found: &mut Vec<Name>) {
    match node {
        Type::Primitive(_) => {}
        Type::TypeRef(name) => found.push(*name),
        Type::Array(array) => type_refs(&array.element, found),
        Type::Group(group) => {
            let members = group.members.iter();
            members.for_each(|member| type_refs(&member.member_type, found));
        }
    }
}

struct Visit {
    leads: Vec<Vec<usize>>,
    done: Vec<bool>,
    /// The definitions on the way to the one being visited.
    open: Vec<usize>,
}

impl Visit {
    fn from(&mut self, at: usize) -> Option<Vec<usize>> {
        if let Some(start) = self.open.iter().position(|other| *other == at) {
            let mut found = self.open[start..].to_vec();
            found.push(at);
            return Some(found);
        }
        if self.done[at] {
            return None;
        }
        self.open.push(at);
        let next = self.leads[at].clone();
        let found = next.into_iter().find_map(|other| self.from(other));
        self.open.pop();
        self.done[at] = true;
        found
    }
}
