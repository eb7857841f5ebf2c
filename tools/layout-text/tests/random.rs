//! Random bundles of the oracle's generator, sound and damaged, and damaged texts.

use layout_oracle::followed::Chains;
use layout_oracle::random::Random;
use layout_oracle::{
    bundle, damage, fixed_generate, followed_cases, followed_generate, generate, reader,
};
use layout_text::chain::Search;
use layout_text::encode::encode;
use layout_text::explain::{explain, Source};
use layout_text::names::Names;
use layout_text::parse::parse;
use layout_text::read::read;
use layout_text::report::{self, Report};
use layout_text::show::show;
use layout_text::sizes::Sizes;
use layout_text::tree::*;

const ROUNDS: usize = 4_000;

/// Words for about two thirds of the names up to 40.
fn some_names(random: &mut Random) -> Names {
    let mut names = Names::default();
    for number in 0..40 {
        if random.chance(66) {
            names.set(&format!("name_{number}"), number).unwrap();
        }
    }
    names
}

fn assemble(text: &str) -> Vec<u8> {
    let parsed = parse(text).unwrap_or_else(|error| panic!("{error}\n{text}"));
    encode(&parsed.bundle).expect("few enough of everything")
}

#[test]
fn assemble_undoes_show() {
    let mut random = Random::new(1);
    let mut kinds = [false; 256];
    for _ in 0..ROUNDS {
        let sound = generate::valid(&mut random);
        let mut encoder = bundle::Encoder::default();
        encoder.bundle(&sound);
        for (at, mark) in &encoder.marks {
            if *mark == bundle::Mark::Kind {
                kinds[usize::from(encoder.bytes[*at])] = true;
            }
        }
        let tree = read(&encoder.bytes).expect("a sound bundle");
        assert_eq!(encode(&tree).unwrap(), encoder.bytes);
        let plain = show(&tree, &Names::default());
        assert_eq!(assemble(&plain), encoder.bytes, "{plain}");
        let named = show(&tree, &some_names(&mut random));
        assert_eq!(assemble(&named), encoder.bytes, "{named}");
        let parsed = parse(&named).unwrap();
        assert_eq!(show(&parsed.bundle, &parsed.names), named);
    }
    let all = (0x01..=0x0E).chain(0x10..=0x27).chain(0x30..=0x3B);
    let all = all.chain(0x40..=0x45).chain(0x50..=0x53).chain(0x60..=0x62);
    for kind in all {
        assert!(kinds[kind], "no record of kind {kind:02X} was met");
    }
}

#[test]
fn refusals_are_the_oracle_s() {
    let mut random = Random::new(2);
    let mut seen = [0; 9];
    for _ in 0..ROUNDS * 3 {
        let bytes = damage::damaged(&mut random);
        let expected = reader::read(&bytes).err();
        let found = read(&bytes).err().map(|fault| {
            assert!(fault.position <= bytes.len());
            fault.refusal.number()
        });
        seen[usize::from(expected.unwrap_or(0))] += 1;
        match expected {
            Some(bundle::REFERENCE_CYCLE) => assert_eq!(found, None),
            _ => assert_eq!(found, expected, "{bytes:02X?}"),
        }
    }
    assert!(seen.iter().all(|count| *count > 10), "{seen:?}");
}

#[test]
fn every_answer_of_the_library_can_be_explained() {
    let mut random = Random::new(3);
    for round in 0..ROUNDS {
        let bytes = match round % 3 {
            0 => damage::damaged(&mut random),
            _ => bundle::encode(&generate::small(&mut random)),
        };
        let answer = layout::report_vec(&bytes);
        let answer = answer.unwrap_or_else(|refusal| vec![0x7E, refusal.number()]);
        let report = report::read(&answer).expect("a report");
        let source = Source {
            names: some_names(&mut random),
            lines: Vec::new(),
        };
        let words = explain(&bytes, &report, &source).unwrap_or_else(|error| panic!("{error}"));
        let due = match &report {
            Report::Violations(list) if !list.is_empty() => 1 + list.len(),
            _ => 1,
        };
        assert_eq!(words.count(), due);
    }
}

/// The walk agrees with the library on every definition, and what is fixed can be drawn.
#[test]
fn every_fixed_size_can_be_told() {
    let mut random = Random::new(5);
    let (mut fixed, mut refused) = (0, [0; 3]);
    for round in 0..ROUNDS {
        let tree = match round % 4 {
            0 => generate::small(&mut random),
            1 => fixed_generate::fixed(&mut random),
            _ => fixed_generate::small_fixed(&mut random),
        };
        let bytes = bundle::encode(&tree);
        if layout::accept(&bytes).is_err() {
            continue;
        }
        let tree = read(&bytes).expect("accepted");
        let source = Source {
            names: some_names(&mut random),
            lines: Vec::new(),
        };
        let mut sizes = Sizes::new(&tree, &bytes, &source);
        for place in 0..tree.definitions.len() {
            let answer = sizes.answer(place);
            let answer = answer.unwrap_or_else(|error| panic!("{error}\n{bytes:02X?}"));
            for (count, word) in refused.iter_mut().zip(["(10)", "(11)", "(12)"]) {
                *count += usize::from(answer.text.contains(word));
            }
            fixed += usize::from(answer.fixed);
            assert_eq!(sizes.picture(place).unwrap().is_ok(), answer.fixed);
        }
    }
    assert!(
        fixed > 1_000 && refused.iter().all(|count| *count > 300),
        "{fixed}, {refused:?}"
    );
}

/// Numbers at which values turn: small ones, and those at the ends of 64 bits.
const TURNS: [u64; 8] = [0, 1, 2, 3, 7, u64::MAX, 1 << 63, (1 << 63) - 1];

/// A literal whose bits are those of a turn, or of one of its neighbours.
fn some_literal(random: &mut Random) -> Expr {
    let kind = random.between(1, 8) as u8;
    let turn = random.pick(&TURNS).wrapping_add(random.below(3) as u64);
    let unused = 64 - 8 * literal_width(kind) as u32;
    Expr::Literal(kind, turn << unused >> unused)
}

/// An expression of at most so many levels. One part in 30 has a kind without a value.
fn some_size(random: &mut Random, levels: usize) -> Expr {
    if levels == 1 || random.chance(25) {
        return match random.chance(3) {
            true => Expr::Sizeof(1),
            false => some_literal(random),
        };
    }
    let left = Box::new(some_size(random, levels - 1));
    if random.chance(2) {
        return Expr::Unary(random.between(0x24, 0x27) as u8, left);
    }
    let kind = match random.chance(97) {
        true => random.pick(&[
            0x10, 0x11, 0x12, 0x13, 0x14, 0x1B, 0x1C, 0x1D, 0x1E, 0x1F, 0x20,
        ]),
        false => random.between(0x10, 0x23) as u8,
    };
    Expr::Binary(kind, left, Box::new(some_size(random, levels - 1)))
}

/// An array of this size, jagged or not; or a struct with it as a field.
fn some_holder(random: &mut Random, size: Expr) -> Type {
    let array = Type::Array(Box::new(Array {
        attributes: Attributes::default(),
        jagged: random.chance(20),
        size,
        element: Type::Primitive(0x30),
    }));
    if random.chance(70) {
        return array;
    }
    Type::Group(Box::new(Group {
        kind: GroupKind::Struct,
        attributes: Attributes::default(),
        tag: None,
        members: vec![Member {
            name: 2,
            value: 0,
            member_type: array,
        }],
    }))
}

/// The evaluation agrees with the library on every size, and each can be told.
#[test]
fn every_value_can_be_told() {
    let mut random = Random::new(6);
    let (mut fixed, mut valued, mut refused) = (0, 0, [0; 3]);
    for round in 0..ROUNDS * 3 {
        let levels = 1 + round % 6;
        let size = some_size(&mut random, levels);
        let bundle = Bundle {
            definitions: vec![Definition {
                name: 1,
                body: some_holder(&mut random, size),
            }],
            ..Bundle::default()
        };
        let bytes = encode(&bundle).expect("few enough of everything");
        let source = Source::default();
        let answer = Sizes::new(&bundle, &bytes, &source).answer(0);
        let answer = answer.unwrap_or_else(|error| panic!("{error}\n{bytes:02X?}"));
        for (count, word) in refused.iter_mut().zip(["(13)", "(14)", "(15)"]) {
            *count += usize::from(answer.text.contains(word));
        }
        valued += usize::from(answer.text.contains("` = "));
        fixed += usize::from(answer.fixed);
    }
    assert!(
        fixed > 1_000 && valued > 1_000 && refused.iter().all(|count| *count > 300),
        "{fixed}, {valued}, {refused:?}"
    );
}

#[test]
fn chains_have_the_oracle_s_names_and_counts() {
    let mut random = Random::new(7);
    let (mut found, mut none) = (0, 0);
    for _ in 0..ROUNDS {
        let sound = followed_generate::searched(&mut random);
        let from = followed_cases::some_start(&mut random, &sound);
        let chains = Chains::new(&sound, from);
        let to = followed_cases::some_end(&mut random, &sound, &chains);
        let bytes = bundle::encode(&sound);
        let tree = read(&bytes).expect("a sound bundle");
        let search = Search::new(&tree, &bytes, from, to).unwrap();
        let words = search.words(&Names::default());
        let due = chains.to(to);
        let names: Vec<String> = due.names.iter().map(|name| format!("#{name}")).collect();
        let chain = match names.is_empty() {
            true => format!("No chain leads from `#{from}` to `#{to}`.\n"),
            false => names.join(" -> ") + "\n",
        };
        let followed = match due.followed {
            0 => "followed no edges.".to_string(),
            1 => "followed the edges of 1 name.".to_string(),
            count => format!("followed the edges of {count} names."),
        };
        let others = match chains.reached() {
            1 => "No edge leads ".to_string(),
            2 => " to 1 other name.".to_string(),
            reached => format!(" to {} other names.", reached - 1),
        };
        assert!(words.starts_with(&chain), "{words}\n{chain}");
        assert!(words.contains(&followed), "{words}\n{followed}");
        assert!(words.contains(&others), "{words}\n{others}");
        found += usize::from(names.len() > 1);
        none += usize::from(names.is_empty());
    }
    assert!(found > 1_000 && none > 300, "{found}, {none}");
}

#[test]
fn damaged_texts_get_a_place() {
    let mut random = Random::new(4);
    let signs: Vec<char> = "{}()[]:=,.+-*/%&|^<>~!# \n0u8ajé\"".chars().collect();
    let mut faults = 0;
    for _ in 0..ROUNDS {
        let tree = read(&bundle::encode(&generate::small(&mut random))).expect("sound");
        let text = show(&tree, &some_names(&mut random));
        let mut letters: Vec<char> = text.chars().collect();
        for _ in 0..random.between(1, 3) {
            let at = random.below(letters.len());
            match random.below(3) {
                0 => letters[at] = random.pick(&signs),
                1 => letters.insert(at, random.pick(&signs)),
                _ if letters.len() > 1 => drop(letters.remove(at)),
                _ => {}
            }
        }
        let damaged: String = letters.into_iter().collect();
        if let Err(error) = parse(&damaged) {
            faults += 1;
            let lines = damaged.split('\n').count();
            assert!(
                (1..=lines).contains(&error.place.line),
                "{error}\n{damaged}"
            );
        }
    }
    assert!(faults > ROUNDS / 3, "{faults}");
}
