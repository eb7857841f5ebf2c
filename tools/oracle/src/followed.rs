//! The count of names whose edges a search follows: a second reading of request L3.
//! The first chain to each name is a list of edge numbers, and a list that an edge makes
//! better takes the place of the one before, until no edge makes any better. Then the
//! names are put in the order of their lists and counted.

use crate::bundle::*;
use std::cmp::Ordering;
use std::collections::HashMap;

/// A chain and the count; no names where there is no chain.
#[derive(Clone, Debug, PartialEq, Eq)]
pub struct Followed {
    pub names: Vec<Name>,
    pub followed: usize,
}

/// The first chains from one name to all that edges lead to, itself included.
pub struct Chains<'a> {
    edges: &'a [Edge],
    from: Name,
    /// The numbers of each chain's edges.
    lists: HashMap<Name, Vec<usize>>,
    /// The same names by their chains.
    order: Vec<Name>,
}

/// Fewer edges first, then by edge numbers.
fn compared(one: &[usize], other: &[usize]) -> Ordering {
    one.len().cmp(&other.len()).then_with(|| one.cmp(other))
}

/// Whether a list with one edge more behind it comes before another list.
fn better(before: &[usize], edge: usize, other: &[usize]) -> bool {
    match (before.len() + 1).cmp(&other.len()) {
        Ordering::Equal => before.iter().chain([&edge]).lt(other),
        unequal => unequal == Ordering::Less,
    }
}

impl<'a> Chains<'a> {
    pub fn new(bundle: &'a Bundle, from: Name) -> Self {
        let edges = &bundle.edges[..];
        let lists = best_lists(edges, from);
        let mut order: Vec<Name> = lists.keys().copied().collect();
        order.sort_by(|one, other| compared(&lists[one], &lists[other]));
        Chains {
            edges,
            from,
            lists,
            order,
        }
    }

    /// How many names there are, the start included.
    pub fn reached(&self) -> usize {
        self.order.len()
    }

    /// The names by their chains, the start first.
    pub fn order(&self) -> &[Name] {
        &self.order
    }

    /// Whether another chain to one of these names has as few edges.
    pub fn several(&self, to: Name) -> bool {
        let last_of_a_chain = |edge: &&Edge| match self.lists.get(&edge.from) {
            Some(list) => list.len() + 1 == self.lists[&edge.to].len(),
            None => false,
        };
        let mut ends: HashMap<Name, usize> = HashMap::new();
        for edge in self.edges.iter().filter(last_of_a_chain) {
            *ends.entry(edge.to).or_default() += 1;
        }
        let names = self.to(to).names;
        names.iter().any(|name| ends.get(name) > Some(&1))
    }

    pub fn to(&self, to: Name) -> Followed {
        let Some(list) = self.lists.get(&to) else {
            return Followed {
                names: Vec::new(),
                followed: self.reached(),
            };
        };
        let ends = list.iter().map(|edge| self.edges[*edge].to);
        let names: Vec<Name> = [self.from].into_iter().chain(ends).collect();
        let followed = match names[..] {
            [.., last_but_one, _] => {
                let place = self.order.iter().position(|name| *name == last_but_one);
                place.expect("a name of a chain is reached") + 1
            }
            // From a name to itself.
            _ => 0,
        };
        Followed { names, followed }
    }
}

fn best_lists(edges: &[Edge], from: Name) -> HashMap<Name, Vec<usize>> {
    let mut places = HashMap::from([(from, 0)]);
    let mut place = |name: Name| -> usize {
        let next = places.len();
        *places.entry(name).or_insert(next)
    };
    let ends: Vec<(usize, usize)> = edges
        .iter()
        .map(|edge| (place(edge.from), place(edge.to)))
        .collect();
    let mut lists: Vec<Option<Vec<usize>>> = vec![None; places.len()];
    lists[0] = Some(Vec::new());
    while improve(&ends, &mut lists) {}
    let named = places.into_iter();
    named
        .filter_map(|(name, place)| Some((name, lists[place].take()?)))
        .collect()
}

/// Tries each edge once; whether any made a list better.
fn improve(ends: &[(usize, usize)], lists: &mut [Option<Vec<usize>>]) -> bool {
    let mut any = false;
    for (edge, (from, to)) in ends.iter().enumerate() {
        let Some(before) = &lists[*from] else {
            continue;
        };
        let improves = match &lists[*to] {
            None => true,
            Some(other) => better(before, edge, other),
        };
        if improves {
            let mut list = before.clone();
            list.push(edge);
            lists[*to] = Some(list);
            any = true;
        }
    }
    any
}

/// What the call answers for a sound bundle and a list of so many places.
pub fn within(found: Followed, room: usize) -> Result<Followed, Refusal> {
    match found.names.len() > room {
        true => Err(OUTPUT_TOO_SMALL),
        false => Ok(found),
    }
}

/// The call's answer for bytes.
pub fn followed_answer(
    bytes: &[u8],
    from: Name,
    to: Name,
    room: usize,
) -> Result<Followed, Refusal> {
    let bundle = crate::reader::read(bytes)?;
    within(Chains::new(&bundle, from).to(to), room)
}

/// The count in 8 bytes and each name in 2; or 7E and the refusal.
pub fn answer_bytes(outcome: &Result<Followed, Refusal>) -> Vec<u8> {
    match outcome {
        Err(refusal) => vec![0x7E, *refusal],
        Ok(found) => {
            let mut bytes = (found.followed as u64).to_le_bytes().to_vec();
            bytes.extend(found.names.iter().flat_map(|name| name.to_le_bytes()));
            bytes
        }
    }
}
