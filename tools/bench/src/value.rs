//! The library's values of sizes against the oracle's, on examples and random bundles.

use crate::exchange::same_by_any_names;
use layout::Refusal;
use layout_oracle::bundle::{encode, Bundle, Expr, Type, DEPTH_LIMIT, WORDS};
use layout_oracle::compare::hex;
use layout_oracle::fixed_cases::some_definition;
use layout_oracle::generate::expr_depth;
use layout_oracle::random::Random;
use layout_oracle::reader;
use layout_oracle::value::size_value;
use layout_oracle::value_cases::value_bytes;
use layout_oracle::value_examples::examples;

type Answer = Result<i64, u8>;

/// What a run came across.
#[derive(Default)]
struct Tally {
    bundles: usize,
    calls: usize,
    expressions: usize,
    sums: usize,
    deepest: usize,
    values: usize,
    negative: usize,
    at_the_ends: usize,
    refusals: [usize; WORDS.len()],
}

/// Prints what was met, or the first bundle with another answer.
pub fn compare(seed: u64, count: usize) -> bool {
    let mut noise = Random::new(seed);
    for example in examples() {
        let bytes = encode(&example.bundle);
        if !one_number(&bytes, example.definition, &example.answer, &mut noise) {
            return false;
        }
    }
    let mut random = Random::new(seed);
    let mut tally = Tally::default();
    for _ in 0..count {
        let bytes = value_bytes(&mut random);
        if !one_bundle(&bytes, &mut random, &mut tally) {
            return false;
        }
    }
    tally.print();
    true
}

fn one_bundle(bytes: &[u8], random: &mut Random, tally: &mut Tally) -> bool {
    let sound = reader::read(bytes);
    tally.bundles += 1;
    let numbers = asked(random, bytes, sound.as_ref().ok());
    for definition in &numbers {
        let due = sound.as_ref().map_err(|number| *number);
        let due = due.and_then(|bundle| size_value(bundle, *definition));
        tally.add(sound.as_ref().ok(), *definition, &due);
        if !one_number(bytes, *definition, &due, random) {
            return false;
        }
    }
    let same = random.chance(90) || same_by_any_names(bytes, &numbers, random, layout::size_value);
    if !same {
        println!(
            "values {numbers:?} with exchanged names differ on {}",
            hex(bytes)
        );
    }
    same
}

/// Every definition, the number behind the last one, and now and then a far one.
fn asked(random: &mut Random, bytes: &[u8], bundle: Option<&Bundle>) -> Vec<usize> {
    let Some(count) = bundle.map(|bundle| bundle.definitions.len()) else {
        return vec![some_definition(random, bytes)];
    };
    let mut list: Vec<usize> = (0..=count).collect();
    if random.chance(10) {
        let wide = random.bits() as usize | 1 << 40;
        let over = random.pick(&[8, 16, 32]);
        let aside = 1 << over | random.below(count + 1);
        list.push(random.pick(&[count + 1, 256, 65_536, usize::MAX, wide, aside]));
    }
    list
}

/// The wrapper's answer, and that of the call of C, whose number must stay as it was on
/// a refusal.
fn one_number(bytes: &[u8], definition: usize, due: &Answer, random: &mut Random) -> bool {
    let noise = random.bits() as i64;
    let found = layout::size_value(bytes, definition).map_err(Refusal::number);
    let plain = plain_call(bytes, definition, noise);
    let expected = match due {
        Ok(value) => (0, *value),
        Err(number) => (*number, noise),
    };
    let what = match (found == *due, plain == expected) {
        (true, true) => return true,
        (false, _) => format!("{found:?}"),
        _ => format!("{plain:?} of the call of C, which held {noise},"),
    };
    println!("size_value {definition}: {what} on {}", hex(bytes));
    println!("expected {due:?}");
    false
}

extern "C" {
    fn layout_size_value(
        bundle: *const u8,
        bundle_len: usize,
        definition: usize,
        value: *mut i64,
    ) -> u8;
}

fn plain_call(bytes: &[u8], definition: usize, before: i64) -> (u8, i64) {
    let mut value = before;
    // The slice is valid for its length, and the number is this function's own.
    let number = unsafe { layout_size_value(bytes.as_ptr(), bytes.len(), definition, &mut value) };
    (number, value)
}

impl Tally {
    fn add(&mut self, bundle: Option<&Bundle>, definition: usize, due: &Answer) {
        self.calls += 1;
        let found = bundle.and_then(|bundle| bundle.definitions.get(definition));
        if let Some(Type::Array(_, _, size, _)) = found.map(|found| &found.body) {
            self.expressions += 1;
            self.sums += usize::from(matches!(size, Expr::Binary(..)));
            self.deepest += usize::from(1 + expr_depth(size) == DEPTH_LIMIT);
        }
        match due {
            Err(number) => self.refusals[*number as usize] += 1,
            Ok(value) => {
                self.values += 1;
                self.negative += usize::from(*value < 0);
                self.at_the_ends += usize::from([i64::MIN, i64::MAX].contains(value));
            }
        }
    }

    fn print(&self) {
        println!("values: random bundles   {}", self.bundles);
        println!("calls                    {}", self.calls);
        println!("expressions              {}", self.expressions);
        println!("with an operation        {}", self.sums);
        println!("down to depth 24         {}", self.deepest);
        println!("with a value             {}", self.values);
        println!("with a negative one      {}", self.negative);
        println!("at an end of the range   {}", self.at_the_ends);
        for (number, count) in self.refusals.iter().enumerate().skip(1) {
            println!("refusal {number:>2} {:<13} {count}", WORDS[number]);
        }
    }
}
