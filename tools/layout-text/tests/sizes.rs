//! Fixed sizes in words, tables and pictures, on small texts and at the limits.

use layout_text::encode::encode;
use layout_text::explain::Source;
use layout_text::parse::parse;
use layout_text::sizes::Sizes;
use layout_text::tree::Bundle;

/// Runs something over the definitions of a text.
fn with<T>(text: &str, run: impl FnOnce(&mut Sizes) -> T) -> T {
    let text = parse(text).unwrap_or_else(|error| panic!("{error}"));
    let bytes = encode(&text.bundle).expect("few enough of everything");
    assert_eq!(layout::accept(&bytes), Ok(()));
    let source = Source {
        names: text.names,
        lines: text.lines,
    };
    let bundle: Bundle = text.bundle;
    run(&mut Sizes::new(&bundle, &bytes, &source))
}

/// What is said about definition 0, and whether it is fixed.
fn said(text: &str) -> (String, bool) {
    with(text, |sizes| {
        let answer = sizes.answer(0).unwrap();
        (answer.text, answer.fixed)
    })
}

fn fixed(text: &str) -> String {
    let (words, fixed) = said(text);
    assert!(fixed, "{words}");
    words
}

/// The sentence about definition 0, which has no fixed size, and the refusal in its head.
fn why(text: &str, refusal: &str) -> String {
    let (words, fixed) = said(text);
    let mut lines = words.lines();
    let head = lines.next().unwrap_or_default();
    assert!(
        !fixed && head.ends_with(&format!(": no fixed size, {refusal}")),
        "{words}"
    );
    lines.next().unwrap_or_default().trim_start().to_string()
}

fn picture(text: &str) -> String {
    let drawn = with(text, |sizes| sizes.picture(0).unwrap());
    drawn.unwrap_or_else(|answer| panic!("{}", answer.text))
}

#[test]
fn a_table_has_gaps_and_padding() {
    let due = "\
Definition 0 (line 1), struct `cell`: 28 bytes, alignment 4
  offset  size  alignment  name         type
       0     1          1  serial       u8
       1     3             (gap)
       4     4          4  gain         f32
       8    18          2  inner        struct, packed, aligned 2
       8     1          1    a          u8
       9    16          4    b          array [4u8] ref word
      25     1               (padding)
      26     0          1  none         struct, no fields
      26     1          1  last         char
      27     1             (padding)
";
    let text = "define cell struct { serial: u8, gain: f32,
        inner: struct packed aligned 2 { a: u8, b: array [4u8] ref word },
        none: struct {}, last: char } define word u32";
    assert_eq!(fixed(text), due);
}

#[test]
fn unions_arrays_primitives_and_references() {
    let due = "\
Definition 0 (line 1), union `u`: 8 bytes, alignment 8; aligned 8
  offset  size  alignment  name       type
       0     2          2  a          u16
       0     3          1  b          array [3u8] u8
       3     5             (padding)
";
    assert_eq!(
        fixed("define u union aligned 8 { a: u16 b: array [3u8] u8 }"),
        due
    );
    let due = "Definition 0 (line 1), array `a`: 6 bytes, alignment 2; 3 elements of type ref b, 2 bytes each\n";
    assert_eq!(
        fixed("define a array packed aligned 3 [3i64] ref b define b f16"),
        due
    );
    let due = "Definition 0 (line 1), f64 `a`: 8 bytes, alignment 8\n";
    assert_eq!(fixed("define a f64"), due);
    let due = "\
Definition 0 (line 1), ref `a`: 2 bytes, alignment 1; it is struct `c`; packed
  offset  size  alignment  name  type
       0     1          1  x     u8
       1     1          1  y     i8
";
    let text = "define a ref b define b ref c define c struct packed { x: u8 y: i8 }";
    assert_eq!(fixed(text), due);
    let due = "Definition 0 (line 1), struct `a`: 0 bytes, alignment 9223372036854775808; \
               aligned 9223372036854775808; no fields\n";
    assert_eq!(fixed("define a struct aligned 0x8000000000000000 {}"), due);
}

#[test]
fn elements_show_the_first_of_them() {
    let text = fixed("define a array [2u8] array [3u8] struct { l: u8, r: u32 }");
    let rows: Vec<&str> = text.lines().skip(2).collect();
    let due = [
        "       0     1          1  [0][0].l  u8",
        "       1     3             (gap)",
        "       4     4          4  [0][0].r  u32",
    ];
    assert_eq!(rows, due);
    assert_eq!(
        fixed("define a array [0u8] struct { l: u8 }")
            .lines()
            .count(),
        1
    );
}

#[test]
fn offsets_count_from_the_start_of_the_definition() {
    let text = "define a struct { x: u32, i: struct { y: u16, j: array [2u8] struct { k: u8, l: union { m: u8 } } } }";
    let table = fixed(text);
    let offset = |name: &str| {
        let row = table.lines().find(|row| row.contains(&format!(" {name} ")));
        row.and_then(|row| row.split_whitespace().next()?.parse().ok())
    };
    let due = [
        ("x", 0),
        ("i", 4),
        ("y", 4),
        ("j", 6),
        ("[0].k", 6),
        ("[0].l", 7),
        ("m", 7),
    ];
    for (name, place) in due {
        assert_eq!(offset(name), Some(place), "{name}\n{table}");
    }
}

#[test]
fn what_varies_is_named() {
    let word = "varying (11)";
    let cases = [
        ("define a enum (x) { b = 1: u8 }", "It is an enum."),
        ("define a size-union {}", "It is a size-union."),
        ("define a jagged array [2u8] u8", "It is a jagged array."),
        (
            "define a ref b",
            "It is of type `b`, which has no definition.",
        ),
        (
            "define a struct { x: u8, y: ref b }\ndefine b ref c\ndefine c enum (x) {}",
            "`a.y` is of type `b`, which is `c` (definition 2, line 3), an enum.",
        ),
        (
            "define a array [0u8] union { x: ref b }\ndefine b struct { y: size-union {} }",
            "`a[].x.y` is a size-union; it stands in `b` (definition 1, line 2).",
        ),
    ];
    for (text, due) in cases {
        assert_eq!(why(text, word), due);
    }
}

#[test]
fn a_size_that_gives_no_count_is_named() {
    let cases = [
        (
            "define a array [-1i16] u8",
            "It is an array whose size is negative, `-1i16`.",
        ),
        (
            "define a array [2u8 - 3u8] u8",
            "It is an array whose size is negative, `2u8 - 3u8` = -1.",
        ),
        (
            "define a array [b.c] u8",
            "It is an array whose size has no value, uncovered (15): it reads the field `b.c`.",
        ),
        (
            "define a struct { x: ref b }\ndefine b array [4u8 / 0u8] u8",
            "`a.x` is of type `b` (definition 1, line 2), an array whose size has no value, zero divisor (13): \
             the divisor `0u8` of `4u8 / 0u8` is 0.",
        ),
        (
            "define a struct { x: ref b }\ndefine b union { y: array [1u8 + 0xffffffffffffffff] u8 }",
            "`a.x.y` is an array whose size `1u8 + 18446744073709551615u64` has no value, out of range (14): \
             the literal `18446744073709551615u64` is over 9,223,372,036,854,775,807; \
             it stands in `b` (definition 1, line 2).",
        ),
    ];
    for (text, due) in cases {
        assert_eq!(why(text, "varying (11)"), due);
    }
}

/// The line on the size of definition 0, an array; nothing where there is none.
fn size_line(text: &str) -> Option<String> {
    let (words, _) = said(text);
    let mut lines = words.lines().map(str::trim_start);
    let line = lines.find(|line| line.starts_with("Its size "));
    line.map(String::from)
}

#[test]
fn a_sum_is_shown_with_its_value() {
    let due = "\
Definition 0 (line 1), array `a`: 24 bytes, alignment 2; 12 elements of type struct, 2 bytes each
  Its size is `4u8 * 3u8` = 12.
  offset  size  alignment  name   type
       0     2          2  [0].x  u16
";
    assert_eq!(fixed("define a array [4u8 * 3u8] struct { x: u16 }"), due);
    let due = "Definition 0 (line 1), ref `a`: 3 bytes, alignment 1; it is array `b`; 3 elements of type u8, 1 byte each\n";
    assert_eq!(fixed("define a ref b define b array [7i8 / 2u8] u8"), due);
    let due = "\
Definition 0 (line 1), struct `a`: 8 bytes, alignment 1
  offset  size  alignment  name  type
       0     5          1  x     array [2u8 + 3u8 = 5] u8
       5     3          1  y     array [(1u8 < 2u8) * 3u8 = 3] u8
";
    let text = "define a struct { x: array [2u8 + 3u8] u8, y: array [(1u8 < 2u8) * 3u8] u8 }";
    assert_eq!(fixed(text), due);
    // Arrays in arrays, each with the value of its own size.
    let due = "\
Definition 0 (line 1), array `a`: 12 bytes, alignment 1; 2 elements of type array [7u8 % 4u8 = 3] array [1u8 + 1u8 = 2] u8, 6 bytes each
";
    assert_eq!(
        fixed("define a array [2u8] array [7u8 % 4u8] array [1u8 + 1u8] u8"),
        due
    );
    // Elements of a count of 0 are not shown.
    assert_eq!(
        fixed("define a array [3u8 - 3u8] struct { x: u8 }")
            .lines()
            .count(),
        2
    );
}

#[test]
fn each_operator_gives_its_value() {
    let cases = [
        ("200u8 + 100u8", 300),
        ("-128i8 + -1i8", -129),
        ("3u8 - 5u8", -2),
        ("-3i16 * 5u8", -15),
        ("7i8 / -2i8", -3),
        ("-7i32 / 2u8", -3),
        ("7i8 % -2i8", 1),
        ("-7i64 % 2u8", -1),
        ("255u8 == -1i8", 0),
        ("255u8 == 255u64", 1),
        ("255u8 != -1i8", 1),
        ("3u8 != 3i8", 0),
        ("-1i8 < 0u64", 1),
        ("3u8 < 3u8", 0),
        ("0u64 > -1i8", 1),
        ("3u8 > 3u8", 0),
        ("3u8 <= 3u8", 1),
        ("4u8 <= 3u8", 0),
        ("3u8 >= 3u8", 1),
        ("3u8 >= 4u8", 0),
    ];
    for (size, value) in cases {
        let due = format!("Its size is `{size}` = {value}.");
        let told = size_line(&format!("define a jagged array [{size}] u8"));
        assert_eq!(told, Some(due));
    }
}

#[test]
fn a_size_is_told_of_arrays_that_are_not_fixed() {
    let sum = Some("Its size is `4u8 - 6u8` = -2.".to_string());
    assert_eq!(size_line("define a jagged array [4u8 - 6u8] u8"), sum);
    assert_eq!(
        size_line("define a array [4u8 - 6u8] struct aligned 3 {}"),
        sum
    );
    let sum = Some("Its size is `2u16 * 3u16` = 6.".to_string());
    assert_eq!(size_line("define a array [2u16 * 3u16] ref b"), sum);
    assert_eq!(
        size_line("define a array [2u16 * 3u16] array [2147483648u64] u8"),
        sum
    );
    assert_eq!(
        size_line("define a array [2u16 * 3u16] array [b.c] u8"),
        sum
    );
}

#[test]
fn a_size_is_told_only_where_there_is_more_to_say() {
    // A literal says it all, unless it has no value.
    assert_eq!(size_line("define a jagged array [3u8] u8"), None);
    assert_eq!(size_line("define a jagged array [-3i8] u8"), None);
    assert_eq!(size_line("define a array [3u8] ref b"), None);
    let due =
        "Its size has no value, out of range (14): the literal `9223372036854775808u64` is over \
               9,223,372,036,854,775,807.";
    assert_eq!(
        size_line("define a jagged array [0x8000000000000000] u8"),
        Some(due.to_string())
    );
    // Where the size itself is in the way, that is said once.
    assert_eq!(size_line("define a array [4u8 - 6u8] u8"), None);
    assert_eq!(size_line("define a array [b.c] ref nowhere"), None);
    // The size of what it leads to is not the definition's own.
    assert_eq!(
        size_line("define a ref b define b jagged array [b.c] u8"),
        None
    );
    assert_eq!(
        size_line("define a struct { x: array [1u8 + 1u8] u8 }"),
        None
    );
}

/// Why a size has no value: what stands behind the colon, and the refusal.
fn lack(size: &str) -> (String, String) {
    let line = size_line(&format!("define a jagged array [{size}] u8"));
    let line = line.unwrap_or_else(|| panic!("{size} has nothing said about it"));
    let (_, rest) = line.split_once("has no value, ").expect(&line);
    let (refusal, why) = rest.split_once(": ").expect(&line);
    (refusal.to_string(), why.to_string())
}

#[test]
fn the_part_without_a_value_is_named() {
    let fields = [
        ("1u8 % (b == c)", "b"),
        ("b + (2u8 / 0i8)", "b"),
        ("4u8 * b.c", "b.c"),
    ];
    for (size, field) in fields {
        let due = format!("it reads the field `{field}`.");
        assert_eq!(lack(size), ("uncovered (15)".to_string(), due), "{size}");
    }
    let kinds = [
        ("(1u8 / 0u8) ** 2u8", "(1u8 / 0u8) ** 2u8", "Pow"),
        ("1u8 + !(1u8 / 0u8)", "!(1u8 / 0u8)", "Not"),
        ("alignof(b) / 0u8", "alignof(b)", "Alignof"),
    ];
    for (size, part, kind) in kinds {
        let due = format!("`{part}` is of kind {kind}, which has none.");
        assert_eq!(lack(size), ("uncovered (15)".to_string(), due), "{size}");
    }
    let divided = [
        ("1u8 % (2u8 - 2u8)", "2u8 - 2u8", "1u8 % (2u8 - 2u8)"),
        ("(2u8 / 0i8) + b", "0i8", "2u8 / 0i8"),
    ];
    for (size, divisor, part) in divided {
        let due = format!("the divisor `{divisor}` of `{part}` is 0.");
        assert_eq!(lack(size), ("zero divisor (13)".to_string(), due), "{size}");
    }
}

#[test]
fn a_part_outside_the_range_is_named_with_its_number() {
    let (over, below) = (
        "over 9,223,372,036,854,775,807.",
        "below -9,223,372,036,854,775,808.",
    );
    let ranges = [
        ("9223372036854775807u64 + 1u8", "9223372036854775808", over),
        (
            "-9223372036854775808i64 - 1u8",
            "-9223372036854775809",
            below,
        ),
        (
            "-9223372036854775808i64 / -1i8",
            "9223372036854775808",
            over,
        ),
        (
            "9223372036854775807u64 * -2i8",
            "-18446744073709551614",
            below,
        ),
    ];
    for (size, value, beyond) in ranges {
        let due = format!("`{size}` is {value}, {beyond}");
        assert_eq!(lack(size), ("out of range (14)".to_string(), due), "{size}");
    }
    for size in [
        "-9223372036854775808i64 % -1i8",
        "9223372036854775807 + 0u8",
    ] {
        assert!(size_line(&format!("define a jagged array [{size}] u8"))
            .is_some_and(|line| line.contains(" = ")));
    }
}

/// A size of so many levels of Add.
fn doubled(operand: &str, levels: usize) -> String {
    (0..levels).fold(operand.to_string(), |size, _| format!("({size} + {size})"))
}

#[test]
fn long_sizes_are_shown_from_their_start() {
    let row = |count: usize| vec!["(1u8 + 1u8)"; count].join(" * ");
    // Four operands of 11 letters, three signs with blanks: 53 letters; seven are 95.
    assert_eq!(
        size_line(&format!("define a jagged array [{}] u8", row(4))),
        Some(format!("Its size is `{}` = 16.", row(4)))
    );
    let shown = size_line(&format!("define a jagged array [{}] u8", row(7))).unwrap();
    assert_eq!(shown, format!("Its size is `{}…` = 128.", &row(7)[..80]));
    let table = fixed(&format!("define a struct {{ x: array [{}] u8 }}", row(7)));
    assert!(
        table.contains(&format!("array [{}… = 128] u8", &row(7)[..80])),
        "{table}"
    );
    // A long name, once in the text and often in a size, by its number.
    let long = "n".repeat(3_000_000);
    let text = format!(
        "name {long} = 9 define a jagged array [{}] u8",
        doubled("#9", 12)
    );
    assert!(said(&text).0.len() < 1_000);
}

#[test]
fn the_deepest_and_the_longest_size() {
    let deep = format!("{}1u8{}", "(1u8 + ".repeat(21), ")".repeat(21));
    assert_eq!(
        size_line(&format!("define a jagged array [1u8 + {deep}] u8"))
            .map(|line| line.ends_with("` = 23.")),
        Some(true)
    );
    // As many literals as a bundle has room for: a tree of 13 levels of Add.
    let size = doubled("1u8", 13);
    let text = format!("define a array [{size}] u8 define b struct {{ x: ref a }}");
    assert!(fixed(&text).contains("8192 bytes, alignment 1; 8192 elements"));
}

#[test]
fn what_is_misaligned_or_too_large_is_named() {
    let power = "which is neither 0 nor a power of two";
    let (ten, twelve, over) = ("misaligned (10)", "oversized (12)", "over 4,294,967,295");
    let text = "define a enum (x) { b = 1: jagged array [y] struct aligned 6 {} }";
    assert_eq!(
        why(text, ten),
        format!("`a.b[]` is a struct with aligned 6, {power}.")
    );
    let text = "define a enum aligned 6 (x) {}";
    assert_eq!(
        why(text, ten),
        format!("It is an enum with aligned 6, {power}.")
    );
    let text = "define a struct { x: ref b } define b array [65536u32] array [65537u32] u8";
    let due = format!(
        "`a.x` is of type `b` (definition 1, line 1), an array of 65536 elements of 65537 bytes each, \
         4295032832 in all, {over}."
    );
    assert_eq!(why(text, twelve), due);
    let text = "define a struct { x: array [4294967295u32] u8, y: u8, z: u8 }";
    let due = format!("It is a struct whose field `z` would start at byte 4294967296, {over}.");
    assert_eq!(why(text, twelve), due);
    let text = "define a struct { u: union aligned 2 { x: array [4294967295u32] u8 } }";
    let due = format!("`a.u` is a union that would have 4294967296 bytes, {over}.");
    assert_eq!(why(text, twelve), due);
    // Fixed: one byte less.
    fixed("define a struct { x: array [4294967294u32] u8, y: u8 }");
}

#[test]
fn a_long_path_is_shortened() {
    let mut text = String::new();
    for level in 0..100 {
        text.push_str(&format!(
            "define d{level} struct {{ m{level}: ref d{} }}\n",
            level + 1
        ));
    }
    let due =
        "`d0.m0.m1.m2.m3.m4.m5.m6.m7 … 84 steps … .m92.m93.m94.m95.m96.m97.m98.m99` is of type \
               `d100`, which has no definition.";
    assert_eq!(why(&text, "varying (11)"), due);
}

#[test]
fn all_definitions_in_order() {
    let text = "define a u8 define b ref nowhere define a u16";
    let parts: Vec<String> = with(text, |sizes| sizes.all().map(Result::unwrap).collect());
    assert_eq!(parts.len(), 4);
    assert_eq!(parts[0], "2 of 3 definitions have a fixed size.\n");
    assert_eq!(
        parts[3],
        "\nDefinition 2 (line 1), u16 `a`: 2 bytes, alignment 2\n"
    );
    with(text, |sizes| {
        assert_eq!(sizes.find("a"), Some(0));
        assert_eq!(sizes.find("#2"), Some(1));
        assert_eq!(sizes.find("nowhere"), None);
        assert_eq!(sizes.find("#99999"), None);
    });
}

/// The value of an attribute of an element, as a number.
fn attribute(element: &str, name: &str) -> Option<i64> {
    let start = element.find(&format!(" {name}=\""))? + name.len() + 3;
    let rest = &element[start..];
    rest[..rest.find('"')?].parse().ok()
}

fn number(element: &str, name: &str) -> i64 {
    attribute(element, name).unwrap_or_else(|| panic!("no {name} in {element}"))
}

/// A box of a picture: from the top, from the left, height and width.
type Box = [i64; 4];

/// The boxes of a picture, row by row. They neither overlap nor leave it.
fn boxes(elements: &[&str]) -> Vec<Box> {
    let (width, height) = (number(elements[1], "width"), number(elements[1], "height"));
    let found = elements
        .iter()
        .filter(|element| element.starts_with("rect x="));
    let mut boxes: Vec<Box> = found
        .map(|element| ["y", "x", "height", "width"].map(|name| number(element, name)))
        .collect();
    boxes.sort_unstable();
    for [y, x, tall, wide] in &boxes {
        assert!(*x >= 0 && *y >= 0 && x + wide <= width && y + tall <= height);
    }
    for pair in boxes.windows(2) {
        let [[y, x, tall, wide], [next_y, next_x, ..]] = [pair[0], pair[1]];
        let apart = next_y >= y + tall || (next_y == y && next_x >= x + wide);
        assert!(apart, "{pair:?}");
    }
    boxes
}

/// Checks the boxes, and that each text stays in its box and in the picture; how many boxes there are.
fn check_picture(drawn: &str) -> usize {
    let elements: Vec<&str> = drawn.split('<').collect();
    let (width, height) = (number(elements[1], "width"), number(elements[1], "height"));
    let boxes = boxes(&elements);
    for element in elements
        .iter()
        .filter(|element| element.starts_with("text "))
    {
        let (x, y) = (number(element, "x"), number(element, "y"));
        let words = element.split_once('>').expect(element).1;
        // Letters of 12 pixels are 7.3 pixels wide at most.
        let right = x + (words.chars().count() as i64 * 73 + 9) / 10;
        assert!(
            x >= 0 && y >= 10 && right <= width && y <= height,
            "{element}"
        );
        // The last box that starts above, and left of it.
        let before = boxes.partition_point(|[top, left, ..]| (*top, *left) <= (y, x));
        let row = boxes[..before].last().map_or(0, |[top, ..]| *top);
        let inside = boxes[..before]
            .iter()
            .rev()
            .take_while(|[top, ..]| *top == row);
        let mut inside = inside
            .filter(|[top, left, tall, wide]| y < top + tall && (*left..left + wide).contains(&x));
        assert!(
            inside.all(|[_, left, _, wide]| right <= left + wide),
            "{element}"
        );
    }
    boxes.len()
}

#[test]
fn pictures_have_a_box_for_each_field_and_gap() {
    // Two fields, a gap and padding; the second field goes on in the next row.
    let drawn = picture("define a struct aligned 8 { x: u8, y: array [3u16] u32, z: u8 }");
    assert_eq!(check_picture(&drawn), 6);
    for due in [
        ">x</text>",
        ">y</text>",
        ">z</text>",
        ">gap</text>",
        ">padding</text>",
        ">at 16, 1 byte</text>",
    ] {
        assert_eq!(drawn.matches(due).count(), 1, "{due}\n{drawn}");
    }
    assert!(drawn.contains("fill=\"url(#hatch)\""));
    // A count that is worked out is drawn as the same literal is.
    let sum = picture("define a struct aligned 8 { x: u8, y: array [7u8 % 4u8] u32, z: u8 }");
    assert_eq!(sum.replace("7u8 % 4u8 = 3", "3u16"), drawn);
    // Each member of a union in a row of its own.
    let drawn = picture("define a union { x: u8, y: u32, z: struct {} }");
    assert_eq!(check_picture(&drawn), 3);
    assert!(
        drawn.contains("No bytes: z at 0, struct, no fields"),
        "{drawn}"
    );
    for text in [
        "define a u8",
        "define a array [3u8] u8",
        "define a struct {}",
        "define a union {}",
    ] {
        let drawn = picture(text);
        assert!(
            drawn.contains("There are no fields") && check_picture(&drawn) == 0,
            "{drawn}"
        );
    }
}

#[test]
fn long_fields_are_broken_off() {
    let text = "define a struct { x: u8, big: array [4294967000u32] u8, y: u32 }";
    let drawn = picture(text);
    assert!(drawn.len() < 8_000, "{}", drawn.len());
    assert!(
        drawn.contains("4294966984 bytes more of big, not drawn"),
        "{drawn}"
    );
    check_picture(&drawn);
    let long = "n".repeat(3_000_000);
    let drawn = picture(&format!("define {long} struct {{ {long}: u8, y: u64 }}"));
    assert!(drawn.len() < 8_000, "{}", drawn.len());
    check_picture(&drawn);
    assert!(fixed(&format!("define {long} struct {{ {long}: u8, y: u64 }}")).len() < 1_000);
}

#[test]
fn the_most_fields() {
    for kind in ["u8", "u64"] {
        let fields: String = (0..8_186).map(|_| format!("f: {kind}\n")).collect();
        let text = format!("define a struct {{ {fields} }}");
        assert_eq!(fixed(&text).lines().count(), 8_186 + 2);
        let drawn = picture(&text);
        assert_eq!(drawn.matches(">f</text>").count(), 8_186);
        check_picture(&drawn);
    }
}

#[test]
fn many_different_types_and_definitions() {
    // Inline arrays of different sizes, each asked about by itself.
    let fields: String = (0..1_800)
        .map(|count| format!("f: array [{count}u16] u8\n"))
        .collect();
    assert_eq!(
        fixed(&format!("define a struct {{ {fields} }}"))
            .lines()
            .count(),
        1_800 + 2
    );
    // Structs of two fields that lead to the next, which doubles the paths at each level.
    let mut text = String::new();
    for level in 0..31 {
        let next = level + 1;
        text.push_str(&format!(
            "define d{level} struct {{ a: ref d{next} b: ref d{next} }}\n"
        ));
    }
    assert!(fixed(&(text.clone() + "define d31 u8")).contains(": 2147483648 bytes"));
    let due = "`d0.a.a.a.a.a.a.a.a … 15 steps … .a.a.a.a.a.a.a.a` is of type `d31`, which has no definition.";
    assert_eq!(why(&text, "varying (11)"), due);
}

#[test]
fn the_deepest_line_of_definitions() {
    let mut text = String::new();
    for level in 0..100 {
        let open = "a: struct { ".repeat(20);
        text.push_str(&format!(
            "define d{level} struct {{ {open} a: ref d{} ",
            level + 1
        ));
        text.push_str(&"}".repeat(21));
    }
    text.push_str("define d100 u8");
    let large = std::thread::Builder::new().stack_size(8 << 20);
    let run = move || assert!(fixed(&text).contains(": 1 byte, alignment 1"));
    large.spawn(run).unwrap().join().unwrap();
}
