//! Random types that are both Rust with `repr(C)` and definitions of a bundle, and
//! the comparison of what rustc says of them with an answer for the bundle.

use crate::bundle::*;
use crate::compare::hex;
use crate::fixed::{Fixed, SIZE_LIMIT};
use crate::random::Random;
use crate::reader;
use crate::value_generate::with_value;
use std::fmt::{self, Write};

/// Types of one bundle, of which each holds only those before it.
pub struct Set {
    items: Vec<Item>,
    bundle: Bundle,
}

struct Item {
    union: bool,
    own: Attributes,
    fields: Vec<Part>,
    /// Whether an `align` stands on it or in it: rustc has no packed type around such.
    aligned_inside: bool,
    /// An upper bound of its size.
    bound: u64,
}

#[derive(Clone)]
enum Part {
    Primitive(u8),
    Array(u64, Box<Part>),
    Item(usize),
}

/// What is said of a definition of a bundle, by its number.
pub type Answer<'a> = dyn Fn(&[u8], usize) -> Result<Fixed, Refusal> + 'a;

/// Above this bound a type is not held by another one: rustc has a limit too.
const HELD_BOUND: u64 = 1 << 33;
/// Names of the definitions that are TypeRefs to the others.
const SECOND: Name = 1_000;

pub fn sets(seed: u64, count: usize) -> Vec<Set> {
    let mut random = Random::new(seed);
    let mut list = Vec::new();
    let mut left = count;
    while left > 0 {
        let types = random.between(1, 10).min(left);
        list.push(Set::new(&mut random, types));
        left -= types;
    }
    list
}

impl Set {
    fn new(random: &mut Random, count: usize) -> Set {
        let mut items = Vec::new();
        for _ in 0..count {
            let item = Maker {
                random,
                before: &items,
            }
            .item();
            items.push(item);
        }
        let inline = bundle_of(random, &items, 60);
        let bundle = match reader::read(&encode(&inline)) {
            Ok(_) => inline,
            Err(_) => bundle_of(random, &items, 0),
        };
        Set { items, bundle }
    }
}

struct Maker<'a> {
    random: &'a mut Random,
    before: &'a [Item],
}

impl Maker<'_> {
    fn item(&mut self) -> Item {
        let union = self.random.chance(25);
        let packed = self.random.chance(30);
        // rustc takes no type that is packed and aligned.
        let aligned = match packed {
            true => 0,
            false => self.random.pick(&[0, 0, 0, 0, 1, 2, 4, 8, 16, 64, 4_096]),
        };
        // rustc has no union without members.
        let least = usize::from(union);
        let fields: Vec<Part> = (0..self.random.between(least, 7))
            .map(|_| self.part(packed, 3))
            .collect();
        let inside = fields.iter().any(|part| self.aligned_inside(part));
        let total: u64 = fields.iter().map(|part| self.bound(part) + 8_192).sum();
        Item {
            union,
            own: Attributes { packed, aligned },
            fields,
            aligned_inside: aligned > 0 || inside,
            bound: total + 8_192,
        }
    }

    fn part(&mut self, packed: bool, levels: usize) -> Part {
        match self.random.below(10) {
            0..=4 => self.primitive(),
            5..=7 => self.earlier(packed),
            _ if levels == 0 => self.primitive(),
            8 if self.random.chance(10) => {
                let few = self.random.below(12) as u64;
                let count = self.random.pick(&[SIZE_LIMIT as u64, 1 << 32, 1 << 31]);
                Part::Array(count - few, Box::new(Part::Primitive(0x30)))
            }
            _ => {
                let element = self.part(packed, levels - 1);
                let most = (HELD_BOUND / self.bound(&element).max(1)).min(40);
                // Elements of an array of 0 are small, so that only a whole that is
                // over the limit has a part that is.
                let least = u64::from(self.bound(&element) > 1 << 30);
                let count = self.random.between(least as usize, most.max(1) as usize);
                Part::Array(count as u64, Box::new(element))
            }
        }
    }

    /// All but F16, for which Rust has no type.
    fn primitive(&mut self) -> Part {
        let kinds = [
            0x30, 0x31, 0x32, 0x33, 0x34, 0x35, 0x36, 0x37, 0x38, 0x3A, 0x3B,
        ];
        Part::Primitive(self.random.pick(&kinds))
    }

    fn earlier(&mut self, packed: bool) -> Part {
        let fits = |place: &usize| {
            let item = &self.before[*place];
            item.bound <= HELD_BOUND && !(packed && item.aligned_inside)
        };
        let places: Vec<usize> = (0..self.before.len()).filter(fits).collect();
        match places.is_empty() {
            true => self.primitive(),
            false => Part::Item(self.random.pick(&places)),
        }
    }

    fn aligned_inside(&self, part: &Part) -> bool {
        match part {
            Part::Primitive(_) => false,
            Part::Array(_, element) => self.aligned_inside(element),
            Part::Item(place) => self.before[*place].aligned_inside,
        }
    }

    fn bound(&self, part: &Part) -> u64 {
        match part {
            Part::Primitive(_) => 8,
            Part::Array(count, element) => count * self.bound(element),
            Part::Item(place) => self.before[*place].bound,
        }
    }
}

/// The types as definitions and, behind them, a TypeRef to each. So many percent of
/// the types that stand in others are written out there.
fn bundle_of(random: &mut Random, items: &[Item], inline: usize) -> Bundle {
    let mut definitions = Vec::new();
    for (item, name) in items.iter().zip(1..) {
        let body = body_of(random, items, item, inline);
        definitions.push(Definition { name, body });
    }
    for name in 1..=items.len() as Name {
        definitions.push(Definition {
            name: SECOND + name,
            body: Type::TypeRef(name),
        });
    }
    Bundle {
        definitions,
        ..Bundle::default()
    }
}

fn body_of(random: &mut Random, items: &[Item], item: &Item, inline: usize) -> Type {
    let named = item.fields.iter().zip(0..);
    let members = named.map(|(part, name)| Member {
        name,
        value: 0,
        member_type: type_of(random, items, part, inline),
    });
    let members = members.collect();
    match item.union {
        true => Type::Union(item.own, members),
        false => Type::Struct(item.own, members),
    }
}

fn type_of(random: &mut Random, items: &[Item], part: &Part, inline: usize) -> Type {
    match part {
        Part::Primitive(kind) => Type::Primitive(*kind),
        Part::Item(place) if random.chance(inline) => {
            body_of(random, items, &items[*place], inline)
        }
        Part::Item(place) => Type::TypeRef(*place as Name + 1),
        Part::Array(count, element) => {
            let element = Box::new(type_of(random, items, element, inline));
            let ignored = Attributes {
                packed: random.chance(50),
                aligned: random.pick(&[0, 3, 64]),
            };
            Type::Array(ignored, false, size_of(random, *count), element)
        }
    }
}

/// The count as a literal or as a sum.
fn size_of(random: &mut Random, count: u64) -> Expr {
    match i64::try_from(count) {
        Ok(count) if random.chance(40) => with_value(random, count, 4),
        _ => Expr::Literal(1, count),
    }
}

/// A program that prints a line for each type: size, alignment, offsets.
pub fn source(seed: u64, count: usize) -> String {
    let mut text =
        String::from("#![allow(dead_code)]\nuse std::mem::{align_of, offset_of, size_of};\n\n");
    let mut rows = String::new();
    for (set, number) in sets(seed, count).iter().zip(0..) {
        for (item, place) in set.items.iter().zip(0..) {
            let name = format!("T{number}x{place}");
            text += &declaration(&name, number, item);
            write!(rows, "    &[size_of::<{name}>(), align_of::<{name}>()").expect("text");
            if !item.union {
                for field in 0..item.fields.len() {
                    write!(rows, ", offset_of!({name}, f{field})").expect("text");
                }
            }
            rows += "],\n";
        }
    }
    write!(text, "static ROWS: &[&[usize]] = &[\n{rows}];\n\n").expect("text");
    text += "fn main() {\n    for row in ROWS {\n";
    text += "        let words: Vec<String> = row.iter().map(usize::to_string).collect();\n";
    text += "        println!(\"{}\", words.join(\" \"));\n    }\n}\n";
    text
}

fn declaration(name: &str, set: usize, item: &Item) -> String {
    let kind = if item.union { "union" } else { "struct" };
    let packed = if item.own.packed { ", packed" } else { "" };
    let aligned = match item.own.aligned {
        0 => String::new(),
        aligned => format!(", align({aligned})"),
    };
    let mut text =
        format!("#[derive(Clone, Copy)]\n#[repr(C{packed}{aligned})]\n{kind} {name} {{\n");
    for (part, field) in item.fields.iter().zip(0..) {
        writeln!(text, "    f{field}: {},", rust_type(set, part)).expect("text");
    }
    text + "}\n\n"
}

fn rust_type(set: usize, part: &Part) -> String {
    const NAMES: [&str; 12] = [
        "u8",
        "u16",
        "u32",
        "u64",
        "i8",
        "i16",
        "i32",
        "i64",
        "std::ffi::c_char",
        "",
        "f32",
        "f64",
    ];
    match part {
        Part::Primitive(kind) => NAMES[usize::from(kind - 0x30)].to_string(),
        Part::Item(place) => format!("T{set}x{place}"),
        Part::Array(count, element) => format!("[{}; {count}]", rust_type(set, element)),
    }
}

#[derive(Default)]
pub struct Tally {
    types: usize,
    unions: usize,
    packed: usize,
    aligned: usize,
    fields: usize,
    over: usize,
}

impl fmt::Display for Tally {
    fn fmt(&self, out: &mut fmt::Formatter) -> fmt::Result {
        let Tally { types, unions, .. } = self;
        write!(
            out,
            "{types} types ({unions} unions, {} packed, ",
            self.packed
        )?;
        write!(
            out,
            "{} aligned) and {} offsets; ",
            self.aligned, self.fields
        )?;
        write!(out, "{} of the types are over the limit", self.over)
    }
}

/// Compares the lines that the program printed with the answers for the bundles, for
/// each type and for a TypeRef to it.
pub fn compare(seed: u64, count: usize, lines: &str, answer: &Answer) -> Result<Tally, String> {
    let mut rows = lines.lines();
    let mut tally = Tally::default();
    for set in sets(seed, count) {
        let bytes = encode(&set.bundle);
        for (place, item) in set.items.iter().enumerate() {
            let row = rows.next().ok_or("a line is missing")?;
            let due = due(row, item.union);
            for number in [place, place + set.items.len()] {
                let found = answer(&bytes, number);
                if found != due {
                    let bundle = hex(&bytes);
                    return Err(format!("{number} of {bundle}: {found:?}, rustc: {row}"));
                }
            }
            tally.add(item, &due);
        }
    }
    match rows.next() {
        None => Ok(tally),
        Some(_) => Err("a line is left".to_string()),
    }
}

/// The answer that a line of the program stands for.
fn due(row: &str, union: bool) -> Result<Fixed, Refusal> {
    let numbers: Vec<u64> = row
        .split(' ')
        .map(|word| word.parse().expect("a number"))
        .collect();
    if u128::from(numbers[0]) > SIZE_LIMIT {
        return Err(OVERSIZED);
    }
    assert!(!union || numbers.len() == 2, "a union has no offsets");
    Ok(Fixed {
        size: numbers[0],
        alignment: numbers[1],
        offsets: numbers[2..].iter().map(|offset| *offset as u32).collect(),
    })
}

impl Tally {
    fn add(&mut self, item: &Item, due: &Result<Fixed, Refusal>) {
        self.types += 1;
        self.unions += usize::from(item.union);
        self.packed += usize::from(item.own.packed);
        self.aligned += usize::from(item.own.aligned > 0);
        match due {
            Ok(found) => self.fields += found.offsets.len(),
            Err(_) => self.over += 1,
        }
    }
}
