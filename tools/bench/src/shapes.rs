//! Bundles in which a check could multiply one count by another: fields by
//! references, references by definitions of one name, and so on. Each is as large
//! as the bytes allow, with the counts shared out so that the product is large.

use crate::inputs::{array, field_of, literal, size, structure, PLAIN, U16, U8};
use layout_oracle::bundle::*;
use layout_oracle::generate::pad;

const OWNER: Name = 1;
const TARGET: Name = 2;
const OTHER: Name = 3;
/// A field that no struct has.
const MISSING: Name = 65_000;
const FIRST: Name = 1_000;
const MANY: Name = 250;

pub fn define(name: Name, body: Type) -> Definition {
    Definition { name, body }
}

/// A field of the current name: the shortest reference.
fn own(field: Name) -> Expr {
    Expr::FieldRef(vec![field])
}

/// A sum of references, in a tree of as few levels as there can be.
fn sum(count: usize, reference: &dyn Fn(usize) -> Expr) -> Expr {
    fn part(first: usize, count: usize, reference: &dyn Fn(usize) -> Expr) -> Expr {
        if count == 1 {
            return reference(first);
        }
        let half = count / 2;
        let left = Box::new(part(first, half, reference));
        let right = Box::new(part(first + half, count - half, reference));
        Expr::Binary(0x10, left, right)
    }
    match count {
        0 => literal(3),
        _ => part(0, count, reference),
    }
}

fn variants(count: usize, last: Type) -> Vec<Member> {
    let variant = |number: usize| Member {
        name: number as Name,
        value: number as u64,
        member_type: match number + 1 == count {
            true => last.clone(),
            false => U8,
        },
    };
    (0..count).map(variant).collect()
}

fn enumeration(tag: Expr, list: Vec<Member>) -> Type {
    Type::Enum(PLAIN, tag, list)
}

/// Fields of this type with names of their own.
pub fn fields(count: usize, body: Type) -> Vec<(Name, Type)> {
    let field = |number: usize| (FIRST + number as Name, body.clone());
    (0..count).map(field).collect()
}

/// The largest bundle of the family that fits, and a definition that fills the rest.
pub fn largest(bytes: usize, family: &dyn Fn(usize) -> Bundle) -> Bundle {
    const FILLING: usize = 15 + 20;
    let fits = |count: usize| size(&family(count)) + FILLING <= bytes;
    let mut count = 1;
    while fits(2 * count) {
        count *= 2;
    }
    for bit in (0..count.ilog2()).rev() {
        if fits(count + (1 << bit)) {
            count += 1 << bit;
        }
    }
    let mut bundle = family(count);
    bundle.definitions.push(define(60_000, U8));
    pad(&mut bundle, bytes);
    bundle
}

pub fn bundle(definitions: Vec<Definition>) -> Bundle {
    Bundle {
        current: OWNER,
        definitions,
        edges: Vec::new(),
    }
}

/// A struct whose fields all lead to one array, whose size refers to a field that
/// the struct does not have.
pub fn missing_field(bytes: usize) -> Bundle {
    largest(bytes, &|count| {
        bundle(vec![
            define(OWNER, structure(fields(4 * count, Type::TypeRef(TARGET)))),
            define(TARGET, array(sum(3 * count, &|_| own(MISSING)), U8)),
        ])
    })
}

/// The same in 7,236 bytes.
pub fn some_missing(_: usize) -> Bundle {
    missing_field(7_236)
}

/// The same with an enum of two variants of one size, whose tag refers to the last
/// field: every reference leads behind every field, and none is a violation.
pub fn last_field(bytes: usize) -> Bundle {
    largest(bytes, &|count| {
        let mut list = fields(4 * count, Type::TypeRef(TARGET));
        list.push((MISSING, U8));
        let tag = sum(3 * count, &|_| own(MISSING));
        bundle(vec![
            define(OWNER, structure(list)),
            define(TARGET, enumeration(tag, variants(2, U8))),
        ])
    })
}

/// The same with an array of a fixed size, in whose elements the references stand.
pub fn in_elements(bytes: usize) -> Bundle {
    largest(bytes, &|count| {
        let mut list = fields(4 * count, Type::TypeRef(TARGET));
        list.push((MISSING, U8));
        let inner = array(sum(3 * count, &|_| own(MISSING)), U8);
        bundle(vec![
            define(OWNER, structure(list)),
            define(TARGET, array(literal(3), inner)),
        ])
    })
}

/// Fields that lead to an enum of many variants, of which the last has another
/// size, with references to a field that is not there.
pub fn many_variants(bytes: usize) -> Bundle {
    largest(bytes, &|count| {
        let tag = sum(2 * count, &|_| own(MISSING));
        bundle(vec![
            define(OWNER, structure(fields(2 * count, Type::TypeRef(TARGET)))),
            define(TARGET, enumeration(tag, variants(count, U16))),
        ])
    })
}

/// A record that a plausible set could have: 1,200 fields of one type, whose size
/// has 20 references.
pub fn plausible(bytes: usize) -> Bundle {
    let count = (1_200 * bytes / BYTE_LIMIT).max(1);
    let mut list = fields(20, U8);
    list.extend((0..count).map(|number| (FIRST + 20 + number as Name, Type::TypeRef(TARGET))));
    let length = sum(20, &|number| field_of(OWNER, FIRST + number as Name));
    bundle(vec![
        define(OWNER, structure(list)),
        define(TARGET, array(length, U8)),
    ])
}

/// An enum whose tag has many references into a struct of many fields that holds it.
pub fn tag_into_struct(bytes: usize) -> Bundle {
    largest(bytes, &|count| {
        let mut list = vec![(FIRST - 1, Type::TypeRef(TARGET))];
        list.extend(fields(count, U8));
        let tag = sum(count, &|number| own(FIRST + number as Name % 16));
        bundle(vec![
            define(OWNER, structure(list)),
            define(TARGET, enumeration(tag, variants(2, U8))),
        ])
    })
}

/// The same with references into two structs in turn, both of which hold the enum.
pub fn two_structs_in_turn(bytes: usize) -> Bundle {
    largest(bytes, &|count| {
        let mut list = vec![(FIRST - 1, Type::TypeRef(TARGET))];
        list.extend(fields(count, U8));
        let owner = |number: usize| [OWNER, OTHER][number % 2];
        let tag = sum(count, &|number| {
            field_of(owner(number), FIRST + number as Name % 16)
        });
        bundle(vec![
            define(OWNER, structure(list.clone())),
            define(OTHER, structure(list)),
            define(TARGET, enumeration(tag, variants(2, U8))),
        ])
    })
}

/// Many structs of one name whose fields lead to one array of many references.
pub fn one_name(bytes: usize) -> Bundle {
    largest(bytes, &|count| {
        let one = structure(vec![(FIRST, Type::TypeRef(TARGET))]);
        let mut list = vec![define(OWNER, one); MANY as usize];
        list.push(define(TARGET, array(sum(count, &|_| own(MISSING)), U8)));
        bundle(list)
    })
}

/// The same, where the first of these structs has many fields, to which the
/// references lead.
pub fn one_name_many_fields(bytes: usize) -> Bundle {
    largest(bytes, &|count| {
        let mut first = vec![(FIRST - 1, Type::TypeRef(TARGET))];
        first.extend(fields(count, U8));
        let last = FIRST + count as Name - 1;
        // A field as last as can be, that no struct of that name but the first has.
        let reference = |number: usize| own(last - number as Name % 16);
        let other = structure(vec![(last + 1, Type::TypeRef(TARGET))]);
        let mut list = vec![define(OWNER, structure(first))];
        list.extend(vec![define(OWNER, other); MANY as usize]);
        let tag = sum(count, &reference);
        list.push(define(TARGET, enumeration(tag, variants(2, U8))));
        bundle(list)
    })
}

/// The same, where the names of the first struct's fields are equal modulo 256, and
/// so is the name that is referred to and that no field has.
pub fn one_name_one_bucket(bytes: usize) -> Bundle {
    largest(bytes, &|count| {
        let mut first: Vec<(Name, Type)> = (1..256).map(|number| (number * 256, U8)).collect();
        first.push((OTHER, Type::TypeRef(TARGET)));
        let other = structure(vec![(OTHER, Type::TypeRef(TARGET))]);
        let mut list = vec![define(OWNER, structure(first))];
        list.extend(vec![define(OWNER, other); MANY as usize]);
        list.push(define(TARGET, array(sum(count, &|_| own(0)), U8)));
        bundle(list)
    })
}

/// Many structs that lead to one array with a long size, of which the last part alone
/// is a reference.
pub fn one_long_size(bytes: usize) -> Bundle {
    largest(bytes, &|count| {
        let body = || structure(vec![(OTHER, Type::TypeRef(TARGET))]);
        let mut list: Vec<Definition> = (0..MANY)
            .map(|number| define(FIRST + number, body()))
            .collect();
        let part = |number: usize| match number + 1 == count {
            true => own(MISSING),
            false => literal(0),
        };
        list.push(define(TARGET, array(sum(count, &part), U8)));
        bundle(list)
    })
}

/// Many enums of one name, the first with a long tag, the others with references into
/// structs that hold the enum.
pub fn one_long_tag(bytes: usize) -> Bundle {
    const STRUCTS: usize = 30;
    const ENUMS: usize = 80;
    largest(bytes, &|count| {
        let long = sum(count, &|_| literal(0));
        let tag = sum(STRUCTS, &|number| field_of(FIRST + number as Name, OTHER));
        let mut list = vec![define(TARGET, enumeration(long, variants(2, U16)))];
        list.extend(vec![
            define(TARGET, enumeration(tag, variants(2, U16)));
            ENUMS
        ]);
        let holder = structure(vec![(OTHER, Type::TypeRef(TARGET))]);
        list.extend((0..STRUCTS).map(|number| define(FIRST + number as Name, holder.clone())));
        bundle(list)
    })
}

/// A tag with references to a field that the struct which holds the enum lacks, among
/// fields whose names are equal modulo 256; the first 45 are violations, so that the
/// report is worked out twice.
pub fn one_tag_one_bucket(bytes: usize) -> Bundle {
    largest(bytes, &|count| {
        let mut list = vec![(OTHER, Type::TypeRef(TARGET))];
        list.extend((1..256).map(|number| (number * 256, U8)));
        let part = |number: usize| match number < 45 {
            true => own(256),
            false => own(0),
        };
        let tag = sum(count, &part);
        bundle(vec![
            define(OWNER, structure(list)),
            define(TARGET, enumeration(tag, Vec::new())),
        ])
    })
}

/// A tag with references to a name that has no definition, where the names of the
/// definitions and edges are equal modulo 256.
pub fn one_tag_full_buckets(bytes: usize) -> Bundle {
    let equal = |number: usize| 0x37 + 256 * number as Name;
    let edge = |number: usize| Edge {
        from: equal(2 * number),
        to: equal(2 * number + 1),
        kind: 0,
    };
    let edges: Vec<Edge> = (0..127).map(edge).collect();
    largest(bytes, &|count| {
        let tag = sum(count, &|number| own(equal(number % 256)));
        let mut list = vec![define(equal(254), enumeration(tag, Vec::new()))];
        list.extend((0..254).map(|number| define(equal(number), U8)));
        Bundle {
            current: equal(255),
            edges: edges.clone(),
            ..bundle(list)
        }
    })
}

/// A tag with references to a field whose name agrees with that of field k of the
/// struct in k low bits, for each k below 16.
pub fn one_tag_deep_field(bytes: usize) -> Bundle {
    const DEEP: Name = 0x5555;
    let above = |bit: u32| DEEP & ((1 << bit) - 1) | !DEEP & (1 << bit);
    largest(bytes, &|count| {
        let mut list: Vec<(Name, Type)> = (0..16).map(|bit| (above(bit), U8)).collect();
        list.push((DEEP, U8));
        list.push((OTHER, Type::TypeRef(TARGET)));
        bundle(vec![
            define(OWNER, structure(list)),
            define(
                TARGET,
                enumeration(sum(count, &|_| own(DEEP)), variants(2, U16)),
            ),
        ])
    })
}

/// Many enums of one name without variants, the first with a long tag; 42 of the others
/// are violations, so that the report is worked out twice.
pub fn one_tag_asked_often(bytes: usize) -> Bundle {
    largest(bytes, &|count| {
        let holder = structure(vec![(OTHER, Type::TypeRef(TARGET)), (FIRST, U8)]);
        let long = sum(count, &|_| literal(0));
        let mut list = vec![
            define(OWNER, holder),
            define(TARGET, enumeration(long, Vec::new())),
        ];
        list.extend((0..MANY).map(|number| {
            let field = if number < 42 { FIRST } else { OTHER };
            define(TARGET, enumeration(own(field), Vec::new()))
        }));
        bundle(list)
    })
}

/// A tag with many references to a name that has many structs, none of which holds
/// the enum.
pub fn no_container(bytes: usize) -> Bundle {
    largest(bytes, &|count| {
        let one = structure(fields(count, U8));
        let mut list = vec![define(OWNER, one); MANY as usize];
        let tag = sum(MANY as usize * count, &|_| own(FIRST));
        list.push(define(TARGET, enumeration(tag, variants(2, U8))));
        bundle(list)
    })
}

/// Many enums that refer to one struct of many fields, of which the last hold them.
pub fn many_enums(bytes: usize) -> Bundle {
    largest(bytes, &|count| {
        let enums = MANY - 4;
        let mut list = fields(count, U8);
        list.extend((0..enums).map(|number| (MISSING, Type::TypeRef(TARGET + number))));
        let mut definitions = vec![define(OWNER, structure(list))];
        let body = |number: Name| enumeration(own(FIRST + number), variants(1, U8));
        definitions.extend((0..enums).map(|number| define(TARGET + number, body(number))));
        bundle(definitions)
    })
}

/// Many structs of names of their own, whose fields lead to one array that refers to
/// fields of all of them.
pub fn many_structs(bytes: usize) -> Bundle {
    const STRUCTS: Name = 240;
    largest(bytes, &|count| {
        let body = |_| structure(vec![(1, Type::TypeRef(500)), (2, U8)]);
        let mut list: Vec<Definition> = (1..=STRUCTS)
            .map(|number| define(number, body(number)))
            .collect();
        let reference = |number: usize| field_of(1 + number as Name % STRUCTS, 3);
        list.push(define(500, array(sum(count, &reference), U8)));
        bundle(list)
    })
}

/// 250 levels, each a struct that holds the level before twice and an array inside
/// whose size refers to the level above.
pub fn levels_held_twice(bytes: usize) -> Bundle {
    largest(bytes, &|count| {
        let level = |number: Name| {
            let length = sum(count, &|_| field_of(number + 1, 4));
            let below = Type::TypeRef(number - 1);
            let list = vec![
                (1, below.clone()),
                (2, below),
                (3, array(length, U8)),
                (4, U8),
            ];
            define(number, structure(list))
        };
        bundle((1..=MANY).map(level).collect())
    })
}

/// A struct of many fields that all lead to arrays in arrays, 12 deep, each with
/// many references.
pub fn deep_and_wide(bytes: usize) -> Bundle {
    const DEEP: usize = 12;
    largest(bytes, &|count| {
        let inner = |body, _| array(sum(count, &|_| own(MISSING)), body);
        let deep = (0..DEEP).fold(U8, inner);
        let list = fields(DEEP * count, Type::TypeRef(TARGET));
        bundle(vec![define(OWNER, structure(list)), define(TARGET, deep)])
    })
}

/// One array that refers to two names in turn, each with some 500 edges, of which
/// the last leads to the array.
pub fn wide_searches(bytes: usize) -> Bundle {
    let edges = bytes * EDGE_LIMIT / BYTE_LIMIT;
    let mut list = Vec::new();
    for from in [OWNER, OTHER] {
        for number in 1..edges / 2 {
            let to = FIRST * from + number as Name;
            list.push(Edge { from, to, kind: 0 });
        }
    }
    for from in [OWNER, OTHER] {
        list.push(Edge {
            from,
            to: TARGET,
            kind: 2,
        });
    }
    largest(bytes, &|count| {
        let reference = |number: usize| field_of([OWNER, OTHER][number % 2], 1);
        Bundle {
            edges: list.clone(),
            ..bundle(vec![define(TARGET, array(sum(count, &reference), U8))])
        }
    })
}

/// Many arrays whose names all lead to each other, so that each needs a search of its
/// own over all edges.
pub fn many_searches(bytes: usize) -> Bundle {
    const KNOT: Name = 32;
    let count = (bytes * EDGE_LIMIT / BYTE_LIMIT) as Name;
    let edge = |number: Name| Edge {
        from: 1 + number / KNOT,
        to: 1 + number % KNOT,
        kind: 2,
    };
    let edges: Vec<Edge> = (0..count).map(edge).collect();
    largest(bytes, &|count| {
        let body = array(
            sum(count, &|number| field_of(1 + number as Name % KNOT, 1)),
            U8,
        );
        let array = |number: Name| define(1 + number % KNOT, body.clone());
        Bundle {
            edges: edges.clone(),
            ..bundle((0..MANY).map(array).collect())
        }
    })
}

/// Many arrays of the name at the end of one line of edges: each needs a search over
/// the whole line, if it goes backwards, and every chain has two names.
pub fn searches_over_a_line(bytes: usize) -> Bundle {
    let count = (bytes * EDGE_LIMIT / BYTE_LIMIT) as Name;
    let edge = |from: Name| Edge {
        from,
        to: from + 1,
        kind: 2,
    };
    let edges: Vec<Edge> = (1..=count).map(edge).collect();
    largest(bytes, &|references| {
        let body = array(sum(references, &|_| field_of(count, 1)), U8);
        Bundle {
            edges: edges.clone(),
            ..bundle(vec![define(count + 1, body); MANY as usize])
        }
    })
}

/// Names of few low bytes: each 256 of them are equal modulo 256, so that a table that
/// goes by the low byte has them all in one place.
fn alike(number: usize) -> Name {
    ((number % 256) * 256 + 7 + number / 256) as Name
}

/// Definitions, edges and references of such names.
pub fn names_alike(bytes: usize) -> Bundle {
    let count = bytes * EDGE_LIMIT / BYTE_LIMIT;
    let edge = |number: usize| Edge {
        from: alike(number),
        to: alike(number + count),
        kind: 2,
    };
    let edges: Vec<Edge> = (0..count).map(edge).collect();
    largest(bytes, &|references| {
        let part = |first: usize| {
            sum(references, &|number| {
                let far = (first + number) * 11 % (2 * count);
                field_of(alike(far), alike(number))
            })
        };
        let list = (0..MANY as usize)
            .map(|number| define(alike(number), array(part(number * references), U8)));
        Bundle {
            edges: edges.clone(),
            ..bundle(list.collect())
        }
    })
}

/// The same for the fields of one struct, which all lead to an array that refers to
/// them.
pub fn fields_alike(bytes: usize) -> Bundle {
    largest(bytes, &|count| {
        let field = |number: usize| (alike(number), Type::TypeRef(TARGET));
        let list = (0..2 * count).map(field).collect();
        // No reference leads behind the last field.
        let length = sum(3 * count, &|number| own(alike(number % (2 * count))));
        bundle(vec![
            define(OWNER, structure(list)),
            define(TARGET, array(literal(3), array(length, U8))),
        ])
    })
}

/// As many names as there can be, all in references of four names.
pub fn all_names_alike(bytes: usize) -> Bundle {
    largest(bytes, &|count| {
        let path = |number: usize| Expr::FieldRef((0..4).map(|k| alike(4 * number + k)).collect());
        bundle(vec![define(TARGET, array(sum(count, &path), U8))])
    })
}

// The bundles that a request named, with the bytes that it gave: references of two
// names and no edges fit all five. In the last two the bytes do not say which fields
// are referred to, nor in which order fields of two types stand.

/// A struct whose fields all lead to one definition.
fn all_lead_to(count: usize, target: Type) -> Bundle {
    bundle(vec![
        define(OWNER, structure(fields(count, Type::TypeRef(TARGET)))),
        define(TARGET, target),
    ])
}

/// So many fields that lead to an array, whose size has as many references to a field
/// that the struct does not have.
fn requested_missing(count: usize) -> Bundle {
    let length = sum(count, &|_| field_of(OWNER, MISSING));
    all_lead_to(count, array(length, U8))
}

pub fn request_missing() -> Bundle {
    requested_missing(2_700)
}

/// The same with an enum of two U8 variants, whose tag refers to the last field.
pub fn request_enum() -> Bundle {
    const COUNT: usize = 2_700;
    let last = FIRST + COUNT as Name - 1;
    let tag = sum(COUNT, &|_| field_of(OWNER, last));
    all_lead_to(COUNT, enumeration(tag, variants(2, U8)))
}

/// The first with 600 fields and references.
pub fn request_some_missing() -> Bundle {
    requested_missing(600)
}

/// An enum tag of 3,000 references into a struct of 3,500 fields, of which the last
/// holds the enum. Each reference leads to a field of its own.
pub fn request_tag() -> Bundle {
    let mut list = fields(3_499, U8);
    list.push((MISSING, Type::TypeRef(TARGET)));
    let tag = sum(3_000, &|number| field_of(OWNER, FIRST + number as Name));
    bundle(vec![
        define(OWNER, structure(list)),
        define(TARGET, enumeration(tag, variants(2, U8))),
    ])
}

/// 1,200 fields, the first half plain. The others lead to one record of 20 arrays, each
/// of which has the length that one of the plain fields gives.
pub fn request_plausible() -> Bundle {
    const HALF: usize = 600;
    const ARRAYS: usize = 20;
    let mut list = fields(2 * HALF, Type::TypeRef(TARGET));
    list[..HALF].iter_mut().for_each(|field| field.1 = U8);
    let length = |number: usize| field_of(OWNER, FIRST + (number * HALF / ARRAYS) as Name);
    let record = (0..ARRAYS).map(|number| (number as Name, array(length(number), U8)));
    bundle(vec![
        define(OWNER, structure(list)),
        define(TARGET, structure(record.collect())),
    ])
}
