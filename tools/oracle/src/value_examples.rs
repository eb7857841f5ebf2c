//! Examples of request L2 with answers that were worked out by hand.

use crate::bundle::*;
use crate::value::{answer_bytes, value_answer};

pub struct Example {
    pub bundle: Bundle,
    pub definition: usize,
    pub answer: Result<i64, Refusal>,
}

const PLAIN: Attributes = Attributes {
    packed: false,
    aligned: 0,
};
const U8: Type = Type::Primitive(0x30);

const ADD: u8 = 0x10;
const SUB: u8 = 0x11;
const MUL: u8 = 0x12;
const DIV: u8 = 0x13;
const MOD: u8 = 0x14;
const POW: u8 = 0x15;
const COMPARISONS: [u8; 6] = [0x1B, 0x1C, 0x1D, 0x1E, 0x1F, 0x20];
const NEG: u8 = 0x25;

const LEAST: i64 = i64::MIN;
const MOST: i64 = i64::MAX;

type List = Vec<Example>;
type Answer = Result<i64, Refusal>;

pub fn examples() -> List {
    let mut list = Vec::new();
    unsigned_literals(&mut list);
    signed_literals(&mut list);
    sums(&mut list);
    products(&mut list);
    quotients(&mut list);
    remainders(&mut list);
    comparisons(&mut list);
    comparisons_across_kinds(&mut list);
    zero_divisors(&mut list);
    values_outside(&mut list);
    uncovered_kinds(&mut list);
    kind_before_operands(&mut list);
    left_first(&mut list);
    nested(&mut list);
    depth(&mut list);
    other_definitions(&mut list);
    no_definition(&mut list);
    arrays_of_all_sorts(&mut list);
    circles(&mut list);
    list
}

/// The first example that the second reading answers otherwise.
pub fn check() -> Result<usize, String> {
    let list = examples();
    for (place, example) in list.iter().enumerate() {
        let found = value_answer(&encode(&example.bundle), example.definition);
        if found != example.answer {
            let (found, due) = (answer_bytes(&found), answer_bytes(&example.answer));
            return Err(format!(
                "example {place}: {found:02X?} in place of {due:02X?}"
            ));
        }
    }
    Ok(list.len())
}

/// Definitions named 1, 2, 3 in order, of which one is asked about.
fn set(bodies: Vec<Type>) -> Bundle {
    let named = bodies.into_iter().zip(1..);
    Bundle {
        definitions: named
            .map(|(body, name)| Definition { name, body })
            .collect(),
        ..Bundle::default()
    }
}

fn asked(list: &mut List, bodies: Vec<Type>, definition: usize, answer: Answer) {
    list.push(Example {
        bundle: set(bodies),
        definition,
        answer,
    });
}

fn array(size: Expr) -> Type {
    Type::Array(PLAIN, false, size, Box::new(U8))
}

/// The size of the one definition.
fn alone(list: &mut List, size: Expr, answer: Answer) {
    asked(list, vec![array(size)], 0, answer);
}

fn unsigned(bits: u64) -> Expr {
    Expr::Literal(1, bits)
}

fn signed(value: i64) -> Expr {
    Expr::Literal(5, value as u64)
}

fn binary(kind: u8, left: Expr, right: Expr) -> Expr {
    Expr::Binary(kind, Box::new(left), Box::new(right))
}

fn of(kind: u8, left: i64, right: i64) -> Expr {
    binary(kind, signed(left), signed(right))
}

/// One of each fault, behind a kind that has a value.
fn zero_divisor() -> Expr {
    of(DIV, 1, 0)
}

fn outside() -> Expr {
    of(ADD, MOST, 1)
}

fn uncovered() -> Expr {
    Expr::Sizeof(1)
}

fn unsigned_literals(list: &mut List) {
    let ends = [
        (4, 0, 0),
        (4, 0x7F, 127),
        (4, 0x80, 128),
        (4, 0xFF, 255),
        (3, 0, 0),
        (3, 0x8000, 32_768),
        (3, 0xFFFF, 65_535),
        (2, 0, 0),
        (2, 0x8000_0000, 2_147_483_648),
        (2, 0xFFFF_FFFF, 4_294_967_295),
        (1, 0, 0),
        (1, 0x7FFF_FFFF_FFFF_FFFF, MOST),
    ];
    for (kind, bits, value) in ends {
        alone(list, Expr::Literal(kind, bits), Ok(value));
    }
    alone(list, unsigned(1 << 63), Err(14));
    alone(list, unsigned(u64::MAX), Err(14));
}

fn signed_literals(list: &mut List) {
    let ends = [
        (8, 0, 0),
        (8, 0x7F, 127),
        (8, 0x80, -128),
        (8, 0xFF, -1),
        (7, 0x7FFF, 32_767),
        (7, 0x8000, -32_768),
        (7, 0xFFFE, -2),
        (6, 0x7FFF_FFFF, 2_147_483_647),
        (6, 0x8000_0000, -2_147_483_648),
        (6, 0xFFFF_FFFF, -1),
        (5, 0x7FFF_FFFF_FFFF_FFFF, MOST),
        (5, 0x8000_0000_0000_0000, LEAST),
        (5, 0xFFFF_FFFF_FFFF_FFFF, -1),
    ];
    for (kind, bits, value) in ends {
        alone(list, Expr::Literal(kind, bits), Ok(value));
    }
}

fn sums(list: &mut List) {
    alone(list, of(ADD, 4, 3), Ok(7));
    alone(list, of(ADD, -4, 3), Ok(-1));
    alone(list, of(ADD, MOST, 0), Ok(MOST));
    alone(list, of(ADD, MOST - 1, 1), Ok(MOST));
    alone(list, of(ADD, MOST, 1), Err(14));
    alone(list, of(ADD, MOST, MOST), Err(14));
    alone(list, of(ADD, LEAST, -1), Err(14));
    alone(list, of(ADD, LEAST, LEAST), Err(14));
    alone(list, of(ADD, LEAST, MOST), Ok(-1));
    alone(list, of(SUB, 3, 4), Ok(-1));
    alone(list, of(SUB, LEAST, 0), Ok(LEAST));
    alone(list, of(SUB, LEAST + 1, 1), Ok(LEAST));
    alone(list, of(SUB, LEAST, 1), Err(14));
    alone(list, of(SUB, 0, MOST), Ok(LEAST + 1));
    alone(list, of(SUB, 0, LEAST), Err(14));
    alone(list, of(SUB, -1, LEAST), Ok(MOST));
    alone(list, of(SUB, LEAST, LEAST), Ok(0));
    // A byte takes no wrap of its own.
    let bytes = |kind, left, right| binary(kind, Expr::Literal(4, left), Expr::Literal(4, right));
    alone(list, bytes(ADD, 255, 1), Ok(256));
    alone(list, bytes(SUB, 0, 255), Ok(-255));
    alone(list, bytes(MUL, 4, 3), Ok(12));
}

fn products(list: &mut List) {
    let half = 1 << 62;
    alone(list, of(MUL, -4, 3), Ok(-12));
    alone(list, of(MUL, -4, -3), Ok(12));
    alone(list, of(MUL, 0, LEAST), Ok(0));
    alone(list, of(MUL, MOST, 1), Ok(MOST));
    alone(list, of(MUL, MOST, -1), Ok(LEAST + 1));
    alone(list, of(MUL, LEAST, 1), Ok(LEAST));
    alone(list, of(MUL, LEAST, -1), Err(14));
    alone(list, of(MUL, -1, LEAST), Err(14));
    alone(list, of(MUL, half, 2), Err(14));
    alone(list, of(MUL, half, -2), Ok(LEAST));
    alone(list, of(MUL, -half, 2), Ok(LEAST));
    alone(list, of(MUL, -half, -2), Err(14));
    alone(list, of(MUL, LEAST, LEAST), Err(14));
    alone(list, of(MUL, MOST, MOST), Err(14));
    alone(list, of(MUL, LEAST, MOST), Err(14));
    // 2^63 - 1 is 7 times 1,317,624,576,693,539,401.
    let seventh = 1_317_624_576_693_539_401;
    alone(list, of(MUL, 7, seventh), Ok(MOST));
    alone(list, of(MUL, 7, seventh + 1), Err(14));
    alone(list, of(MUL, -7, seventh), Ok(LEAST + 1));
    let root = 3_037_000_499;
    alone(list, of(MUL, root, root), Ok(9_223_372_030_926_249_001));
    alone(list, of(MUL, root + 1, root + 1), Err(14));
    // A product that is 0 again in 64 bits, and one that is 1.
    alone(list, of(MUL, 1 << 32, 1 << 32), Err(14));
    let inverse = -6_148_914_691_236_517_205;
    alone(list, of(MUL, 3, inverse), Err(14));
}

fn quotients(list: &mut List) {
    let sevens = [(7, 2, 3), (-7, 2, -3), (7, -2, -3), (-7, -2, 3)];
    for (left, right, value) in sevens {
        alone(list, of(DIV, left, right), Ok(value));
    }
    alone(list, of(DIV, 6, 2), Ok(3));
    alone(list, of(DIV, -6, 2), Ok(-3));
    alone(list, of(DIV, 1, 2), Ok(0));
    alone(list, of(DIV, -1, 2), Ok(0));
    alone(list, of(DIV, 0, -5), Ok(0));
    alone(list, of(DIV, LEAST, 1), Ok(LEAST));
    alone(list, of(DIV, LEAST, -1), Err(14));
    alone(list, of(DIV, MOST, -1), Ok(LEAST + 1));
    alone(list, of(DIV, LEAST, 2), Ok(-(1 << 62)));
    alone(list, of(DIV, LEAST, MOST), Ok(-1));
    alone(list, of(DIV, MOST, LEAST), Ok(0));
    alone(list, of(DIV, LEAST, LEAST), Ok(1));
}

fn remainders(list: &mut List) {
    let sevens = [(7, 3, 1), (-7, 3, -1), (7, -3, 1), (-7, -3, -1)];
    for (left, right, value) in sevens {
        alone(list, of(MOD, left, right), Ok(value));
    }
    alone(list, of(MOD, 6, -3), Ok(0));
    alone(list, of(MOD, -6, 3), Ok(0));
    alone(list, of(MOD, 2, 5), Ok(2));
    alone(list, of(MOD, -2, 5), Ok(-2));
    alone(list, of(MOD, LEAST, -1), Ok(0));
    alone(list, of(MOD, LEAST, 1), Ok(0));
    alone(list, of(MOD, LEAST, MOST), Ok(-1));
    alone(list, of(MOD, MOST, LEAST), Ok(MOST));
    alone(list, of(MOD, LEAST, LEAST), Ok(0));
    alone(list, of(MOD, LEAST, 10), Ok(-8));
    alone(list, of(MOD, MOST, 10), Ok(7));
}

/// For each pair the answers of Eq, Ne, Lt, Gt, Le, Ge.
fn comparisons(list: &mut List) {
    const BELOW: [i64; 6] = [0, 1, 1, 0, 1, 0];
    const EQUAL: [i64; 6] = [1, 0, 0, 0, 1, 1];
    const ABOVE: [i64; 6] = [0, 1, 0, 1, 0, 1];
    let pairs = [
        (1, 2, BELOW),
        (2, 2, EQUAL),
        (2, 1, ABOVE),
        (-1, 1, BELOW),
        (1, -1, ABOVE),
        (-2, -1, BELOW),
        (LEAST, MOST, BELOW),
        (MOST, LEAST, ABOVE),
        (LEAST, LEAST, EQUAL),
        (MOST - 1, MOST, BELOW),
        (LEAST + 1, LEAST, ABOVE),
    ];
    for (left, right, answers) in pairs {
        for (kind, answer) in COMPARISONS.into_iter().zip(answers) {
            alone(list, of(kind, left, right), Ok(answer));
        }
    }
}

/// Values are compared, not bits: 255 as U8 and -1 as I8 have the same byte.
fn comparisons_across_kinds(list: &mut List) {
    let byte = Expr::Literal(4, 0xFF);
    let minus = Expr::Literal(8, 0xFF);
    let wide = Expr::Literal(1, 255);
    for (kind, answer) in COMPARISONS.into_iter().zip([0, 1, 0, 1, 0, 1]) {
        alone(list, binary(kind, byte.clone(), minus.clone()), Ok(answer));
    }
    for (kind, answer) in COMPARISONS.into_iter().zip([1, 0, 0, 0, 1, 1]) {
        alone(list, binary(kind, byte.clone(), wide.clone()), Ok(answer));
    }
    // A literal outside the range has no value to be compared.
    for kind in COMPARISONS {
        let over = || unsigned(1 << 63);
        alone(list, binary(kind, over(), over()), Err(14));
        alone(list, binary(kind, signed(0), over()), Err(14));
        alone(list, binary(kind, zero_divisor(), signed(1)), Err(13));
        alone(list, binary(kind, signed(1), uncovered()), Err(15));
    }
}

fn zero_divisors(list: &mut List) {
    for kind in [DIV, MOD] {
        for left in [0, 1, -1, LEAST, MOST] {
            alone(list, of(kind, left, 0), Err(13));
        }
        let nothing = of(SUB, 7, 7);
        alone(list, binary(kind, signed(5), nothing), Err(13));
        alone(list, binary(kind, signed(5), of(0x1D, 2, 1)), Err(13));
        for literal in 1..=8 {
            let zero = Expr::Literal(literal, 0);
            alone(list, binary(kind, signed(5), zero), Err(13));
        }
    }
    // A zero on the left divides nothing.
    alone(list, of(DIV, 0, 3), Ok(0));
    alone(list, of(MOD, 0, 3), Ok(0));
}

/// Every value in between counts, also where a later step would lead back.
fn values_outside(list: &mut List) {
    alone(list, binary(SUB, outside(), signed(1)), Err(14));
    alone(list, binary(MUL, outside(), signed(0)), Err(14));
    alone(list, binary(MUL, signed(0), outside()), Err(14));
    alone(list, binary(DIV, unsigned(1 << 63), signed(2)), Err(14));
    alone(list, binary(SUB, unsigned(u64::MAX), signed(1)), Err(14));
    alone(list, binary(DIV, signed(0), unsigned(1 << 63)), Err(14));
    let quotient = of(DIV, LEAST, -1);
    alone(list, binary(MUL, signed(0), quotient), Err(14));
}

fn uncovered_kinds(list: &mut List) {
    let three = || signed(3);
    for kind in (0x15..=0x1A).chain(0x21..=0x23) {
        alone(list, binary(kind, three(), three()), Err(15));
    }
    for kind in 0x24..=0x27 {
        alone(list, Expr::Unary(kind, Box::new(three())), Err(15));
    }
    for length in 1..=4 {
        alone(list, Expr::FieldRef(vec![1; length]), Err(15));
    }
    for name in [0, 1, 900] {
        alone(list, Expr::Sizeof(name), Err(15));
        alone(list, Expr::Alignof(name), Err(15));
    }
}

/// What stands inside an uncovered kind is not looked at.
fn kind_before_operands(list: &mut List) {
    for inside in [zero_divisor(), outside(), unsigned(1 << 63)] {
        for kind in [POW, 0x16, 0x1A, 0x21, 0x23] {
            let left = binary(kind, inside.clone(), signed(1));
            alone(list, left, Err(15));
            let right = binary(kind, signed(1), inside.clone());
            alone(list, right, Err(15));
        }
        for kind in 0x24..=0x27 {
            alone(list, Expr::Unary(kind, Box::new(inside.clone())), Err(15));
        }
    }
}

fn left_first(list: &mut List) {
    let faults = [
        (zero_divisor(), 13),
        (outside(), 14),
        (unsigned(1 << 63), 14),
        (uncovered(), 15),
        (Expr::Unary(NEG, Box::new(signed(1))), 15),
    ];
    for kind in (ADD..=MOD).chain(COMPARISONS) {
        for (fault, number) in &faults {
            let others = faults.iter().filter(|(_, other)| other != number);
            for (other, _) in others {
                let both = binary(kind, fault.clone(), other.clone());
                alone(list, both, Err(*number));
            }
            alone(list, binary(kind, signed(1), fault.clone()), Err(*number));
        }
    }
    // The left side's fault comes before the zero on the right.
    alone(list, binary(DIV, outside(), signed(0)), Err(14));
    alone(list, binary(DIV, uncovered(), signed(0)), Err(15));
    // One level down on the left, and on the right.
    let deeper = binary(ADD, signed(1), zero_divisor());
    alone(list, binary(ADD, deeper, uncovered()), Err(13));
    let deeper = binary(ADD, uncovered(), zero_divisor());
    alone(list, binary(ADD, deeper, outside()), Err(15));
}

fn nested(list: &mut List) {
    // (2 + 3) * 4 - 20 / 3 = 14.
    let product = binary(MUL, of(ADD, 2, 3), signed(4));
    alone(list, binary(SUB, product, of(DIV, 20, 3)), Ok(14));
    // 10 - (4 - 3) = 9, and (10 - 4) - 3 = 3.
    alone(list, binary(SUB, signed(10), of(SUB, 4, 3)), Ok(9));
    alone(list, binary(SUB, of(SUB, 10, 4), signed(3)), Ok(3));
    // (1 < 2) + (2 < 2) = 1; (3 = 3) * 5 = 5.
    alone(list, binary(ADD, of(0x1D, 1, 2), of(0x1D, 2, 2)), Ok(1));
    alone(list, binary(MUL, of(0x1B, 3, 3), signed(5)), Ok(5));
    // (7 / 2) * 2 + 7 % 2 = 7, and the same with -7.
    for number in [7, -7] {
        let whole = binary(MUL, of(DIV, number, 2), signed(2));
        let both = binary(ADD, whole, of(MOD, number, 2));
        alone(list, both, Ok(number));
    }
    // (2^62 - 1) + 2^62 stays inside.
    let half = 1 << 62;
    alone(list, binary(ADD, of(SUB, half, 1), signed(half)), Ok(MOST));
}

/// The definition has depth 1 and its size 2, so 22 operations stand above a literal
/// at depth 24.
fn depth(list: &mut List) {
    let above = |count: usize, right: bool| {
        let wrapped = |inner, _| match right {
            true => binary(ADD, signed(1), inner),
            false => binary(ADD, inner, signed(1)),
        };
        (0..count).fold(signed(1), wrapped)
    };
    for right in [false, true] {
        alone(list, above(22, right), Ok(23));
        alone(list, above(23, right), Err(6));
    }
    let doubled = (0..22).fold(signed(1), |inner, _| binary(MUL, inner, signed(2)));
    alone(list, doubled, Ok(4_194_304));
    let eighth = (0..21).fold(signed(1), |inner, _| binary(MUL, signed(8), inner));
    alone(list, eighth.clone(), Err(14));
    alone(list, binary(ADD, signed(0), eighth), Err(14));
    let twentieth = (0..20).fold(signed(-8), |inner, _| binary(MUL, signed(8), inner));
    alone(list, twentieth, Ok(LEAST));
    let last = (0..22).fold(Expr::FieldRef(vec![1]), |inner, _| {
        binary(SUB, signed(3), inner)
    });
    alone(list, last, Err(15));
    let divided = (0..22).fold(signed(0), |inner, _| binary(DIV, signed(3), inner));
    alone(list, divided, Err(13));
}

/// Only a definition that is an array itself has a size to ask for.
fn other_definitions(list: &mut List) {
    let field = |member_type| Member {
        name: 1,
        value: 0,
        member_type,
    };
    let size = || array(signed(3));
    let others = [
        U8,
        Type::TypeRef(2),
        Type::TypeRef(900),
        Type::Struct(PLAIN, vec![field(size())]),
        Type::Union(PLAIN, vec![field(size())]),
        Type::Enum(PLAIN, signed(3), vec![field(size())]),
        Type::SizeUnion(PLAIN, vec![field(size())]),
    ];
    for other in others {
        asked(list, vec![other.clone(), size()], 0, Err(11));
        asked(list, vec![other, size()], 1, Ok(3));
    }
    // An array that is a later definition of a name is asked for by its number.
    let mut bundle = set(vec![U8, size()]);
    bundle.definitions[1].name = 1;
    for (definition, answer) in [(0, Err(11)), (1, Ok(3))] {
        list.push(Example {
            bundle: bundle.clone(),
            definition,
            answer,
        });
    }
}

fn no_definition(list: &mut List) {
    for definition in [0, 1, 256, usize::MAX] {
        asked(list, vec![], definition, Err(11));
    }
    let bodies = || vec![array(signed(3)), array(zero_divisor())];
    for definition in [2, 3, 255, 256, 65_536, 1 << 32, usize::MAX] {
        asked(list, bodies(), definition, Err(11));
    }
    let many = || (0..256).map(|number| array(signed(number))).collect();
    for definition in [0, 1, 128, 255] {
        asked(list, many(), definition, Ok(definition as i64));
    }
    asked(list, many(), 256, Err(11));
}

/// Neither jagged nor the attributes nor the element says anything.
fn arrays_of_all_sorts(list: &mut List) {
    let sizes = [
        (of(MUL, 4, 3), Ok(12)),
        (of(SUB, 3, 4), Ok(-1)),
        (zero_divisor(), Err(13)),
        (outside(), Err(14)),
        (uncovered(), Err(15)),
    ];
    let elements = [
        U8,
        Type::TypeRef(2),
        Type::TypeRef(900),
        array(zero_divisor()),
        Type::SizeUnion(PLAIN, vec![]),
    ];
    for (size, answer) in &sizes {
        for element in &elements {
            for jagged in [false, true] {
                let own = Attributes {
                    packed: jagged,
                    aligned: 3,
                };
                let body = Type::Array(own, jagged, size.clone(), Box::new(element.clone()));
                asked(list, vec![body, array(uncovered())], 0, *answer);
            }
        }
    }
}

/// A circle anywhere comes before the definition is looked at.
fn circles(list: &mut List) {
    let own = || Type::Array(PLAIN, false, signed(3), Box::new(Type::TypeRef(1)));
    for definition in [0, 1, usize::MAX] {
        asked(list, vec![own()], definition, Err(8));
    }
    for size in [signed(3), zero_divisor(), outside(), uncovered()] {
        let bodies = vec![array(size), Type::TypeRef(3), Type::TypeRef(2)];
        for definition in 0..4 {
            asked(list, bodies.clone(), definition, Err(8));
        }
    }
    // A name in a size leads nowhere.
    alone(list, Expr::Sizeof(1), Err(15));
}
