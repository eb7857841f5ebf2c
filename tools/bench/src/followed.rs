//! The library's counts of searches against the oracle's, on examples and random bundles.

use crate::exchange::same_search;
use layout::{Refusal, CHAIN_LIMIT};
use layout_oracle::bundle::{Bundle, Name, EDGE_LIMIT, WORDS};
use layout_oracle::compare::hex;
use layout_oracle::followed::{within, Chains, Followed};
use layout_oracle::followed_cases::{followed_bytes, some_end, some_start};
use layout_oracle::followed_examples::examples;
use layout_oracle::random::Random;
use layout_oracle::{reader, reference};
use std::collections::HashSet;

type Answer = Result<Followed, u8>;

/// What a run came across.
#[derive(Default)]
struct Tally {
    bundles: usize,
    alike: usize,
    loops: usize,
    full: usize,
    calls: usize,
    itself: usize,
    none_from_one: usize,
    none: usize,
    chains: usize,
    one_edge: usize,
    several_ways: usize,
    more_than_chain: usize,
    longest: usize,
    most: usize,
    refusals: [usize; WORDS.len()],
}

/// Prints what was met, or the first bundle with another answer.
pub fn compare(seed: u64, count: usize) -> bool {
    let mut noise = Random::new(seed);
    for example in examples() {
        let asked = (example.from, example.to);
        if !one_call(
            &example.bytes,
            asked,
            example.room,
            &example.answer,
            &mut noise,
        ) {
            return false;
        }
    }
    let mut random = Random::new(seed);
    let mut tally = Tally::default();
    for _ in 0..count {
        let bytes = followed_bytes(&mut random);
        if !one_bundle(&bytes, &mut random, &mut tally) {
            return false;
        }
    }
    tally.print();
    true
}

/// Searches from one or two names to some others, to itself and to a name without edges.
fn one_bundle(bytes: &[u8], random: &mut Random, tally: &mut Tally) -> bool {
    let sound = reader::read(bytes);
    let refusal = sound.as_ref().err().copied();
    let bundle = sound.unwrap_or_default();
    tally.add_bundle(&bundle);
    for _ in 0..random.between(1, 2) {
        let from = some_start(random, &bundle);
        let chains = Chains::new(&bundle, from);
        let mut ends: Vec<Name> = (0..3).map(|_| some_end(random, &bundle, &chains)).collect();
        if random.chance(20) {
            ends.push(from);
        }
        if random.chance(20) {
            ends.push(random.bits() as Name);
        }
        for to in ends {
            let due = refusal.map_or_else(|| Ok(chains.to(to)), Err);
            tally.add(&chains, to, &due);
            if !one_search(bytes, &bundle, (from, to), due, random, tally) {
                return false;
            }
        }
    }
    true
}

/// One search with lists of several lengths, and now and then with other names.
fn one_search(
    bytes: &[u8],
    bundle: &Bundle,
    (from, to): (Name, Name),
    due: Answer,
    random: &mut Random,
    tally: &mut Tally,
) -> bool {
    let names = due.as_ref().map_or(3, |found| found.names.len());
    if due.is_ok() {
        let second = reference::chain(bundle, from, to).unwrap_or_default();
        let same = due.as_ref().is_ok_and(|found| found.names == second);
        assert!(same, "the oracle's two chains differ on {}", hex(bytes));
    }
    let some = names + random.below(9);
    let longer = random.pick(&[names + 1, some, CHAIN_LIMIT]);
    let short = random.pick(&[0, names.saturating_sub(1)]);
    for room in [longer, names, names.saturating_sub(1), short] {
        let answer = due.clone().and_then(|found| within(found, room));
        tally.calls += 1;
        if let Err(number) = answer {
            tally.refusals[number as usize] += 1;
        }
        if !one_call(bytes, (from, to), room, &answer, random) {
            return false;
        }
    }
    let same = random.chance(90) || same_search(bytes, from, to, random);
    if !same {
        println!(
            "the search from {from} to {to} with exchanged names differs on {}",
            hex(bytes)
        );
    }
    same
}

/// All that a call may write.
#[derive(Clone, Debug, PartialEq, Eq)]
struct Places {
    list: Vec<Name>,
    written: usize,
    followed: usize,
}

fn noise(random: &mut Random, room: usize) -> Places {
    Places {
        list: (0..room).map(|_| random.bits() as Name).collect(),
        written: random.bits() as usize,
        followed: random.bits() as usize,
    }
}

/// The answers of the wrapper and of the call of C, and that of `chain`, each with every
/// place that it may write filled with noise before.
fn one_call(
    bytes: &[u8],
    (from, to): (Name, Name),
    room: usize,
    due: &Answer,
    random: &mut Random,
) -> bool {
    let before = noise(random, room);
    let mut after = before.clone();
    if let Ok(found) = due {
        after.list[..found.names.len()].copy_from_slice(&found.names);
        after.written = found.names.len();
        after.followed = found.followed;
    }
    let number = due.as_ref().err().copied().unwrap_or(0);
    let plain = plain_call(bytes, from, to, before.clone());
    let safe = safe_call(bytes, from, to, before.clone());
    let mut list = before.list.clone();
    let chain = layout::chain(bytes, from, to, &mut list).map_err(Refusal::number);
    let length = due.as_ref().map(|found| found.names.len());
    let what = match (plain == (number, after.clone()), safe == plain) {
        (false, _) => format!("{plain:?} of the call of C"),
        (_, false) => format!("{safe:?}"),
        _ if chain != length.map_err(|number| *number) => format!("{chain:?} of chain"),
        _ if list != after.list => format!("the list {list:?} of chain"),
        _ => return true,
    };
    println!(
        "from {from} to {to}, a list of {room}: {what} on {}",
        hex(bytes)
    );
    println!("expected {number}, {after:?}, and before {before:?}");
    false
}

extern "C" {
    fn layout_chain_followed(
        bundle: *const u8,
        bundle_len: usize,
        from: Name,
        to: Name,
        list: *mut Name,
        list_len: usize,
        written: *mut usize,
        followed: *mut usize,
    ) -> u8;
}

fn plain_call(bytes: &[u8], from: Name, to: Name, mut places: Places) -> (u8, Places) {
    // The slices are valid for their lengths, and the places are this function's own.
    let number = unsafe {
        layout_chain_followed(
            bytes.as_ptr(),
            bytes.len(),
            from,
            to,
            places.list.as_mut_ptr(),
            places.list.len(),
            &mut places.written,
            &mut places.followed,
        )
    };
    (number, places)
}

/// A refusal has no numbers, so they stay as they were.
fn safe_call(bytes: &[u8], from: Name, to: Name, mut places: Places) -> (u8, Places) {
    match layout::chain_followed(bytes, from, to, &mut places.list) {
        Err(refusal) => (refusal.number(), places),
        Ok(found) => {
            places.written = found.written;
            places.followed = found.followed;
            (0, places)
        }
    }
}

impl Tally {
    fn add_bundle(&mut self, bundle: &Bundle) {
        let edges = &bundle.edges;
        let pairs: HashSet<(Name, Name)> = edges.iter().map(|edge| (edge.from, edge.to)).collect();
        self.bundles += 1;
        self.alike += usize::from(pairs.len() < edges.len());
        self.loops += usize::from(edges.iter().any(|edge| edge.from == edge.to));
        self.full += usize::from(edges.len() == EDGE_LIMIT);
    }

    fn add(&mut self, chains: &Chains, to: Name, due: &Answer) {
        let Ok(found) = due else {
            return;
        };
        self.longest = self.longest.max(found.names.len());
        self.most = self.most.max(found.followed);
        match found.names.len() {
            0 if found.followed == 1 => self.none_from_one += 1,
            0 => self.none += 1,
            1 => self.itself += 1,
            names => {
                self.chains += 1;
                self.one_edge += usize::from(names == 2);
                self.several_ways += usize::from(chains.several(to));
                self.more_than_chain += usize::from(found.followed >= names);
            }
        }
    }

    fn print(&self) {
        println!("counts: random bundles   {}", self.bundles);
        println!("with edges alike         {}", self.alike);
        println!("with a loop              {}", self.loops);
        println!("of 1,024 edges           {}", self.full);
        println!("searches with a chain    {}", self.chains);
        println!("of one edge              {}", self.one_edge);
        println!("with other ways as short {}", self.several_ways);
        println!("over other names too     {}", self.more_than_chain);
        println!("from a name to itself    {}", self.itself);
        println!("without a chain          {}", self.none);
        println!("without any edge         {}", self.none_from_one);
        println!("longest chain            {} names", self.longest);
        println!("highest count            {}", self.most);
        println!("calls                    {}", self.calls);
        for (number, count) in self.refusals.iter().enumerate().take(10).skip(1) {
            println!("refusal {number:>2} {:<13} {count}", WORDS[number]);
        }
    }
}
