//! The library's fixed sizes against the oracle's, on examples and random bundles.

use crate::exchange::same_by_any_names;
use layout::Refusal;
use layout_oracle::bundle::{encode, Bundle, Expr, Type, WORDS};
use layout_oracle::compare::hex;
use layout_oracle::fixed::{fixed_size, Fixed};
use layout_oracle::fixed_cases::{fixed_bytes, some_definition};
use layout_oracle::fixed_examples::examples;
use layout_oracle::random::Random;
use layout_oracle::{reader, repr_c};

type Answer = Result<Fixed, u8>;

/// What a run came across.
#[derive(Default)]
struct Tally {
    bundles: usize,
    with_sums: usize,
    calls: usize,
    accepted: usize,
    with_offsets: usize,
    most_offsets: usize,
    refusals: [usize; WORDS.len()],
}

/// Prints what was met, or the first bundle with another answer.
pub fn compare(seed: u64, count: usize) -> bool {
    let mut random = Random::new(seed);
    let mut tally = Tally::default();
    for example in examples() {
        let bytes = encode(&example.bundle);
        if !one_number(
            &bytes,
            example.definition,
            &example.answer,
            &mut random,
            &mut tally,
        ) {
            return false;
        }
    }
    for _ in 0..count {
        let bytes = fixed_bytes(&mut random);
        if !one_bundle(&bytes, &mut random, &mut tally) {
            return false;
        }
    }
    tally.print();
    true
}

fn one_bundle(bytes: &[u8], random: &mut Random, tally: &mut Tally) -> bool {
    let sound = reader::read(bytes);
    tally.bundles += 1;
    let sums = sound.as_ref().is_ok_and(has_sum);
    tally.with_sums += usize::from(sums);
    let numbers = asked(random, bytes, sound.as_ref().ok());
    for definition in &numbers {
        let due = sound.as_ref().map_err(|number| *number);
        let due = due.and_then(|bundle| fixed_size(bundle, *definition));
        if !one_number(bytes, *definition, &due, random, tally) {
            return false;
        }
    }
    let same = same_by_any_names(bytes, &numbers, random, layout::fixed_size_vec);
    if !same {
        println!(
            "fixed sizes {numbers:?} with exchanged names differ on {}",
            hex(bytes)
        );
    }
    same
}

/// Whether the size of an array somewhere in the bundle is an operation.
fn has_sum(bundle: &Bundle) -> bool {
    let mut bodies = bundle.definitions.iter().map(|found| &found.body);
    bodies.any(has_sum_inside)
}

fn has_sum_inside(part: &Type) -> bool {
    match part {
        Type::Primitive(_) | Type::TypeRef(_) => false,
        Type::Array(_, _, size, element) => {
            matches!(size, Expr::Binary(..)) || has_sum_inside(element)
        }
        Type::Struct(_, list)
        | Type::Union(_, list)
        | Type::Enum(_, _, list)
        | Type::SizeUnion(_, list) => list.iter().any(|m| has_sum_inside(&m.member_type)),
    }
}

/// Numbers of definitions to ask for: some that there are, and some that there are not.
fn asked(random: &mut Random, bytes: &[u8], bundle: Option<&Bundle>) -> Vec<usize> {
    let Some(count) = bundle.map(|bundle| bundle.definitions.len()) else {
        return vec![some_definition(random, bytes)];
    };
    let mut list: Vec<usize> = match count <= 4 {
        true => (0..count).collect(),
        false => (0..4).map(|_| random.below(count)).collect(),
    };
    if random.chance(10) {
        let wide = random.bits() as usize | 1 << 40;
        list.push(random.pick(&[count, count + 1, 256, 65_536, usize::MAX, wide]));
    }
    list
}

/// Lists longer than the offsets, exact and one short.
fn one_number(
    bytes: &[u8],
    definition: usize,
    due: &Answer,
    random: &mut Random,
    tally: &mut Tally,
) -> bool {
    let length = due.as_ref().map_or(0, |found| found.offsets.len());
    let mut rooms = vec![length, length + random.between(1, 9)];
    rooms.extend(length.checked_sub(1));
    for room in rooms {
        let due = match room < length {
            true => Err(Refusal::Narrow.number()),
            false => due.clone(),
        };
        let noise: Vec<u32> = (0..room).map(|_| random.bits() as u32).collect();
        tally.add(&due);
        if let Err(what) = one_call(bytes, definition, &noise, &due) {
            println!(
                "fixed_size {definition} with {room} places: {what} on {}",
                hex(bytes)
            );
            println!("expected {due:?}");
            return false;
        }
    }
    true
}

/// The wrapper's answer and every place of the list, and the same for the call of C,
/// whose numbers must stay as they were on a refusal.
fn one_call(
    bytes: &[u8],
    definition: usize,
    noise: &[u32],
    due: &Answer,
) -> Result<(), &'static str> {
    let mut expected = noise.to_vec();
    if let Ok(found) = due {
        expected[..found.offsets.len()].copy_from_slice(&found.offsets);
    }
    let mut list = noise.to_vec();
    let found = layout::fixed_size(bytes, definition, &mut list);
    let numbers = found.map(|found| (found.size, found.alignment, found.written));
    let wanted = due
        .as_ref()
        .map(|found| (found.size, found.alignment, found.offsets.len()));
    if numbers.map_err(Refusal::number) != wanted.map_err(|number| *number) {
        return Err("another answer");
    }
    if list != expected {
        return Err("another list");
    }
    let mut list = noise.to_vec();
    match plain_call(bytes, definition, &mut list) == plain_answer(due) && list == expected {
        true => Ok(()),
        false => Err("another answer of the call of C"),
    }
}

/// What the numbers that are lent by pointer hold before the call of C.
const BEFORE: (u64, u64, usize) = (0x1111_2222_3333_4444, 0x5555_6666, 0x7777);

fn plain_answer(due: &Answer) -> (u8, (u64, u64, usize)) {
    match due {
        Ok(found) => (0, (found.size, found.alignment, found.offsets.len())),
        Err(number) => (*number, BEFORE),
    }
}

extern "C" {
    fn layout_fixed_size(
        bundle: *const u8,
        bundle_len: usize,
        definition: usize,
        offsets: *mut u32,
        offsets_len: usize,
        size: *mut u64,
        alignment: *mut u64,
        written: *mut usize,
    ) -> u8;
}

fn plain_call(bytes: &[u8], definition: usize, list: &mut [u32]) -> (u8, (u64, u64, usize)) {
    let (mut size, mut alignment, mut written) = BEFORE;
    // Both slices are valid for their lengths, and `&mut` keeps them apart.
    let number = unsafe {
        layout_fixed_size(
            bytes.as_ptr(),
            bytes.len(),
            definition,
            list.as_mut_ptr(),
            list.len(),
            &mut size,
            &mut alignment,
            &mut written,
        )
    };
    (number, (size, alignment, written))
}

/// Compares the library with what rustc says of the same types, from standard input.
pub fn compare_repr_c(seed: u64, count: usize) -> bool {
    let lines = std::io::read_to_string(std::io::stdin()).expect("standard input");
    let answer = |bytes: &[u8], definition: usize| {
        let found = layout::fixed_size_vec(bytes, definition).map_err(Refusal::number)?;
        Ok(Fixed {
            size: found.size,
            alignment: found.alignment,
            offsets: found.offsets,
        })
    };
    let outcome = repr_c::compare(seed, count, &lines, &answer);
    match &outcome {
        Ok(tally) => println!("as in rustc, by the library: {tally}"),
        Err(text) => println!("unlike rustc, by the library: {text}"),
    }
    outcome.is_ok()
}

impl Tally {
    fn add(&mut self, due: &Answer) {
        self.calls += 1;
        match due {
            Err(number) => self.refusals[*number as usize] += 1,
            Ok(found) => {
                self.accepted += 1;
                self.with_offsets += usize::from(!found.offsets.is_empty());
                self.most_offsets = self.most_offsets.max(found.offsets.len());
            }
        }
    }

    fn print(&self) {
        println!("fixed sizes: random bundles {}", self.bundles);
        println!("accepted, with sums      {}", self.with_sums);
        println!("calls                    {}", self.calls);
        println!("accepted                 {}", self.accepted);
        println!("with offsets             {}", self.with_offsets);
        println!("most offsets             {}", self.most_offsets);
        for (number, count) in self.refusals.iter().enumerate().skip(1) {
            println!("refusal {number:>2} {:<13} {count}", WORDS[number]);
        }
    }
}
