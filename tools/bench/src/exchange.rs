//! Names exchanged in a bundle: what must stay the same, and what must not.

use layout_oracle::bundle::Name;
use layout_oracle::random::Random;
use layout_oracle::scan::scan;
use std::collections::HashMap;

/// Compares the answers for an accepted bundle with those for bundles that have
/// other names: alike ones are renumbered to the same bytes, near misses are not,
/// and the report of the renumbered bundle has the new names.
pub fn exchanged(bytes: &[u8], random: &mut Random) -> Result<(), &'static str> {
    let Ok(found) = scan(bytes) else {
        return Ok(());
    };
    let names = distinct(bytes, &found.names);
    let plain = layout::renumber_vec(bytes).map_err(|_| "renumber refused")?;
    let alike = put_through(bytes, &found.names, &exchange(&names, random));
    if layout::renumber_vec(&alike) != Ok(plain.clone()) {
        return Err("renumbering of alike bundles");
    }
    for map in near_misses(&names, random) {
        let other = put_through(bytes, &found.names, &map);
        if layout::renumber_vec(&other) == Ok(plain.clone()) {
            return Err("renumbering of bundles that are not alike");
        }
    }
    renumbered_report(bytes, &plain, &numbering(&names))
}

/// Whether a call's answers for definitions stay the same under exchanges of names, of
/// which one sends 0 to another name, and in the renumbered bundle.
pub fn same_by_any_names<T: PartialEq>(
    bytes: &[u8],
    numbers: &[usize],
    random: &mut Random,
    call: impl Fn(&[u8], usize) -> T,
) -> bool {
    let (Ok(found), Ok(plain)) = (scan(bytes), layout::renumber_vec(bytes)) else {
        return true;
    };
    let names = distinct(bytes, &found.names);
    let mut maps = vec![exchange(&names, random)];
    if !names.is_empty() {
        let name = random.pick(&names);
        maps.push(HashMap::from([(name, 0), (0, name)]));
    }
    let mut others = vec![plain];
    others.extend(maps.iter().map(|map| put_through(bytes, &found.names, map)));
    numbers.iter().all(|number| {
        let before = call(bytes, *number);
        others.iter().all(|other| call(other, *number) == before)
    })
}

/// Whether a search gives the same count under exchanges of names, of which one sends 0
/// to another name and one renumbers the bundle, and the chain with its names exchanged.
#[cfg(not(without_count))]
pub fn same_search(bytes: &[u8], from: Name, to: Name, random: &mut Random) -> bool {
    let (Ok(found), Ok(before)) = (scan(bytes), layout::chain_followed_vec(bytes, from, to)) else {
        return true;
    };
    let mut names = distinct(bytes, &found.names);
    for name in [from, to] {
        if name != 0 && !names.contains(&name) {
            names.push(name);
        }
    }
    let mut maps = vec![exchange(&names, random), numbering(&names)];
    if !names.is_empty() {
        let name = random.pick(&names);
        maps.push(HashMap::from([(name, 0), (0, name)]));
    }
    maps.iter().all(|map| {
        let renamed = |name: &Name| map.get(name).copied().unwrap_or(*name);
        let other = put_through(bytes, &found.names, map);
        let due = layout::FollowedChain {
            names: before.names.iter().map(renamed).collect(),
            followed: before.followed,
        };
        layout::chain_followed_vec(&other, renamed(&from), renamed(&to)) == Ok(due)
    })
}

fn renumbered_report(
    bytes: &[u8],
    plain: &[u8],
    numbers: &HashMap<Name, Name>,
) -> Result<(), &'static str> {
    let before = layout::report_vec(bytes).map_err(|_| "report refused")?;
    let after = layout::report_vec(plain).map_err(|_| "report of renumbered refused")?;
    match after == put_through(&before, &report_places(&before), numbers) {
        true => Ok(()),
        false => Err("report of the renumbered bundle"),
    }
}

fn word(bytes: &[u8], at: usize) -> Name {
    Name::from_le_bytes([bytes[at], bytes[at + 1]])
}

/// The names other than 0, by first appearance.
fn distinct(bytes: &[u8], places: &[usize]) -> Vec<Name> {
    let mut names = Vec::new();
    for at in places {
        let name = word(bytes, *at);
        if name != 0 && !names.contains(&name) {
            names.push(name);
        }
    }
    names
}

fn numbering(names: &[Name]) -> HashMap<Name, Name> {
    names.iter().copied().zip(1..).collect()
}

/// Each name to another one, no two to the same, and none to 0.
fn exchange(names: &[Name], random: &mut Random) -> HashMap<Name, Name> {
    let mut targets: Vec<Name> = (1..=Name::MAX).collect();
    for place in 0..names.len() {
        let other = random.between(place, targets.len() - 1);
        targets.swap(place, other);
    }
    names.iter().copied().zip(targets).collect()
}

/// Two names merged, and 0 exchanged with a name.
fn near_misses(names: &[Name], random: &mut Random) -> Vec<HashMap<Name, Name>> {
    let mut maps = Vec::new();
    if names.len() > 1 {
        let first = random.below(names.len() - 1);
        maps.push(HashMap::from([(names[first + 1], names[first])]));
    }
    if !names.is_empty() {
        let name = random.pick(names);
        maps.push(HashMap::from([(name, 0), (0, name)]));
    }
    maps
}

fn put_through(bytes: &[u8], places: &[usize], map: &HashMap<Name, Name>) -> Vec<u8> {
    let mut result = bytes.to_vec();
    for at in places {
        let old = word(bytes, *at);
        let new = map.get(&old).copied().unwrap_or(old);
        result[*at..*at + 2].copy_from_slice(&new.to_le_bytes());
    }
    result
}

/// Where the names stand in a report: violating names, used path names, chains.
fn report_places(report: &[u8]) -> Vec<usize> {
    let mut places = Vec::new();
    let mut at = 3;
    while at < report.len() {
        if report[at] == 0x7F {
            places.push(at + 1);
            at += 3;
        } else {
            places.push(at + 3);
            places.extend((0..report[at + 5] as usize).map(|k| at + 6 + 2 * k));
            at += 16;
        }
    }
    places
}
