//! The bytes of a definition as a drawing in SVG: a box for each field, eight bytes in a row.

use crate::sizes::Plan;
use crate::table::{Content, Row};
use crate::tree::{GroupKind, Type};
use crate::words::counted;
use std::collections::BTreeSet;
use std::fmt::Write;

const ROW_BYTES: u64 = 8;
/// Of a field in more rows than this the first two and the last are drawn.
const WHOLE_ROWS: u64 = 4;

// Pixels.
const LEFT: u64 = 92;
const BYTE: u64 = 110;
const RIGHT: u64 = 18;
const ROW: u64 = 72;
const BREAK: u64 = 30;
const LINE: u64 = 15;
const WIDTH: u64 = LEFT + ROW_BYTES * BYTE + RIGHT;
/// The width of a letter in tenths; the font has letters of one width.
const LETTER_TENTHS: u64 = 73;

const STYLE: &str = "<style>text{font:12px monospace;fill:#1a1a1a}.name{font-weight:bold}\
.faint{fill:#555}.gap{stroke:#fff;stroke-width:4px;paint-order:stroke}\
.line{fill:none;stroke:#333;stroke-width:1.2}</style>\n\
<defs><pattern id=\"hatch\" width=\"7\" height=\"7\" patternUnits=\"userSpaceOnUse\" \
patternTransform=\"rotate(45)\"><rect width=\"7\" height=\"7\" fill=\"#fff\"/>\
<rect width=\"2\" height=\"7\" fill=\"#d4d4d4\"/></pattern></defs>\n";
const FILLS: [&str; 2] = ["#e3ecfb", "#fbf0d9"];
const HATCH: &str = "url(#hatch)";

/// A field or a gap that is drawn; it has bytes.
struct Part<'r> {
    row: &'r Row,
    fill: &'static str,
}

impl Part<'_> {
    fn end(&self) -> u64 {
        self.row.offset + self.row.size
    }

    /// Its first and its last row.
    fn rows(&self) -> (u64, u64) {
        (self.row.offset / ROW_BYTES, (self.end() - 1) / ROW_BYTES)
    }

    /// The bytes that stand in a row, counted from the row's start.
    fn within(&self, row: u64) -> (u64, u64) {
        let start = row * ROW_BYTES;
        let from = self.row.offset.max(start) - start;
        (from, self.end().min(start + ROW_BYTES) - start)
    }

    /// The class of a text in the box: hatching needs its own.
    fn class(&self, plain: &'static str, hatched: &'static str) -> &'static str {
        match self.fill == HATCH {
            true => hatched,
            false => plain,
        }
    }

    fn name(&self) -> &str {
        match &self.row.content {
            Content::Field { name, .. } => name,
            Content::Gap => "gap",
            Content::Padding => "padding",
            Content::Unused => "unused",
        }
    }
}

/// The drawing of a definition with its title.
pub fn picture(title: &str, plan: &Plan) -> String {
    let mut canvas = Canvas::default();
    canvas.lines(title);
    let own: Vec<&Row> = plan.rows.iter().filter(|row| row.level == 0).collect();
    match plan.body {
        Type::Group(group) if group.members.is_empty() => canvas.lines("There are no fields."),
        Type::Group(group) if group.kind == GroupKind::Union => {
            canvas.union(&own, plan.layout.size)
        }
        Type::Group(_) => canvas.band(&parts(&own)),
        _ => canvas.lines("There are no fields: it is neither a struct nor a union."),
    }
    for row in own.iter().filter(|row| row.size == 0) {
        if let Content::Field {
            name, type_text, ..
        } = &row.content
        {
            canvas.lines(&format!("No bytes: {name} at {}, {type_text}", row.offset));
        }
    }
    canvas.finish()
}

fn parts<'r>(rows: &[&'r Row]) -> Vec<Part<'r>> {
    let mut out = Vec::new();
    let mut fields = 0;
    for row in rows.iter().filter(|row| row.size > 0) {
        let fill = match row.content {
            Content::Field { .. } => {
                fields += 1;
                FILLS[fields % FILLS.len()]
            }
            _ => HATCH,
        };
        out.push(Part { row, fill });
    }
    out
}

#[derive(Default)]
struct Canvas {
    body: String,
    /// How far down the drawing goes so far.
    down: u64,
}

impl Canvas {
    fn add(&mut self, text: std::fmt::Arguments) {
        self.body.write_fmt(text).expect("a string takes all");
    }

    fn text(&mut self, x: u64, y: u64, class: &str, text: &str) {
        let text = escaped(text);
        self.add(format_args!(
            "<text x=\"{x}\" y=\"{y}\" class=\"{class}\">{text}</text>\n"
        ));
    }

    /// A text of its own, as many lines as it needs.
    fn lines(&mut self, text: &str) {
        for line in wrapped(text, letters(WIDTH - 2 * RIGHT)) {
            self.down += LINE;
            self.text(RIGHT, self.down + 8, "", &line);
        }
        self.down += LINE + 4;
    }

    /// Each member by itself, from byte 0 to the size of the union.
    fn union(&mut self, rows: &[&Row], size: u64) {
        for row in rows.iter().filter(|row| row.size > 0) {
            if !matches!(row.content, Content::Field { .. }) {
                continue;
            }
            let rest = Row {
                level: 0,
                offset: row.size,
                size: size.saturating_sub(row.size),
                content: Content::Unused,
            };
            self.band(&parts(&[row, &rest]));
        }
    }

    /// Parts that follow each other from byte 0 on, in rows of eight bytes.
    fn band(&mut self, parts: &[Part]) {
        let Some(last) = parts.last() else {
            return;
        };
        let columns = last.end().min(ROW_BYTES);
        for column in 0..columns {
            let x = LEFT + column * BYTE + 4;
            self.text(x, self.down + 12, "faint", &format!("+{column}"));
        }
        self.down += 18;
        let drawn = drawn_rows(parts);
        let mut first = 0;
        for (place, row) in drawn.iter().enumerate() {
            while parts[first].rows().1 < *row {
                first += 1;
            }
            self.row(*row, &parts[first..], &drawn);
            if let Some(next) = drawn.get(place + 1).filter(|next| **next > row + 1) {
                self.broken(&parts[first..], *row, *next);
            }
        }
        self.down += LINE;
    }

    /// One row of eight bytes, with the parts from the first that has bytes in it.
    fn row(&mut self, row: u64, parts: &[Part], drawn: &[u64]) {
        let start = row * ROW_BYTES;
        let digits = start.to_string();
        let x = LEFT - 8 - (digits.len() as u64 * LETTER_TENTHS).div_ceil(10);
        self.text(x, self.down + 20, "faint", &digits);
        for part in parts.iter().take_while(|part| part.rows().0 <= row) {
            self.segment(part, row, label_row(part, drawn) == row);
        }
        self.down += ROW;
    }

    /// The bytes of a part in one row. Where the part goes on in another row, the box is open.
    fn segment(&mut self, part: &Part, row: u64, labelled: bool) {
        let (from, to) = part.within(row);
        let (x, y, width) = (LEFT + from * BYTE, self.down, (to - from) * BYTE);
        let (fill, right, bottom) = (part.fill, x + width, y + ROW);
        let tip = escaped(&tip(part.row));
        self.add(format_args!(
            "<g><title>{tip}</title>\
             <rect x=\"{x}\" y=\"{y}\" width=\"{width}\" height=\"{ROW}\" fill=\"{fill}\"/>\
             <path class=\"line\" d=\"M{x} {y}H{right}M{x} {bottom}H{right}"
        ));
        let (first, last) = part.rows();
        if row == first {
            self.add(format_args!("M{x} {y}V{bottom}"));
        }
        if row == last {
            self.add(format_args!("M{right} {y}V{bottom}"));
        }
        self.add(format_args!("\"/></g>\n"));
        match labelled {
            true => self.label(part, x, width),
            false => {
                let words = match row == first {
                    true => format!("{} …", part.name()),
                    false => format!("… {}", part.name()),
                };
                let words = fitted(&words, width);
                self.text(
                    x + 5,
                    y + LINE + 3,
                    part.class("faint", "faint gap"),
                    &words,
                );
            }
        }
    }

    /// Name, type and place, each cut to what the box has room for; a name may take two lines.
    fn label(&mut self, part: &Part, x: u64, width: u64) {
        let mut y = self.down + 3;
        let mut names = wrapped_letters(part.name(), letters(width - 10));
        if names.len() > 2 {
            let rest = names.split_off(1).concat();
            names.push(fitted(&rest, width));
        }
        for line in names {
            y += LINE;
            self.text(x + 5, y, part.class("name", "name gap"), &line);
        }
        if let Content::Field { type_text, .. } = &part.row.content {
            y += LINE;
            self.text(x + 5, y, "", &fitted(type_text, width));
        }
        let at = format!("at {}", part.row.offset);
        let long = format!("{at}, {}", counted(part.row.size, "byte"));
        let fits = long.chars().count() as u64 <= letters(width - 10);
        let class = part.class("faint", "faint gap");
        self.text(x + 5, y + LINE, class, if fits { &long } else { &at });
    }

    /// The mark for rows that are left out, all of one part.
    fn broken(&mut self, parts: &[Part], row: u64, next: u64) {
        let whole = |part: &&Part| part.rows().0 <= row && part.rows().1 >= next;
        let part = parts.iter().find(whole);
        let (fill, name, class) = match part {
            Some(part) => (part.fill, part.name(), part.class("", "gap")),
            None => (HATCH, "", "gap"),
        };
        let left_out = counted((next - row - 1) * ROW_BYTES, "byte");
        let (x, y, width) = (LEFT, self.down, ROW_BYTES * BYTE);
        self.add(format_args!(
            "<rect x=\"{x}\" y=\"{y}\" width=\"{width}\" height=\"{BREAK}\" fill=\"{fill}\"/>\n"
        ));
        for edge in [y + 4, y + BREAK - 4] {
            let teeth = "l5 -4l5 4".repeat((width / 10) as usize);
            self.add(format_args!(
                "<path class=\"line\" d=\"M{x} {edge}{teeth}\"/>\n"
            ));
        }
        let words = format!("… {left_out} more of {name}, not drawn …");
        self.text(x + 5, y + BREAK / 2 + 4, class, &fitted(&words, width));
        self.down += BREAK;
    }

    fn finish(self) -> String {
        let (height, body) = (self.down + LINE, self.body);
        format!(
            "<svg xmlns=\"http://www.w3.org/2000/svg\" width=\"{WIDTH}\" height=\"{height}\" \
             viewBox=\"0 0 {WIDTH} {height}\">\n{STYLE}\
             <rect width=\"{WIDTH}\" height=\"{height}\" fill=\"#fff\"/>\n{body}</svg>\n"
        )
    }
}

/// The rows of a band that are drawn, in order.
fn drawn_rows(parts: &[Part]) -> Vec<u64> {
    let mut rows = BTreeSet::new();
    for part in parts {
        let (first, last) = part.rows();
        match last - first < WHOLE_ROWS {
            true => rows.extend(first..=last),
            false => rows.extend([first, first + 1, last]),
        }
    }
    rows.into_iter().collect()
}

/// The drawn row in which a part has the most room, the first of several.
fn label_row(part: &Part, drawn: &[u64]) -> u64 {
    let (first, last) = part.rows();
    let start = drawn.partition_point(|row| *row < first);
    let own = drawn[start..].iter().take_while(|row| **row <= last);
    let room = |row: &&u64| {
        let (from, to) = part.within(**row);
        (to - from, u64::MAX - **row)
    };
    own.max_by_key(room).copied().unwrap_or(first)
}

/// All there is to say about a row of the table.
fn tip(row: &Row) -> String {
    let (offset, size) = (row.offset, counted(row.size, "byte"));
    match &row.content {
        Content::Field {
            name,
            type_text,
            alignment,
        } => format!("{name}: {type_text}, at {offset}, {size}, alignment {alignment}"),
        Content::Gap => format!("gap at {offset}, {size}"),
        Content::Padding => format!("padding at {offset}, {size}"),
        Content::Unused => format!("unused by this member, from {offset}, {size}"),
    }
}

/// How many letters have room in so many pixels.
fn letters(width: u64) -> u64 {
    width * 10 / LETTER_TENTHS
}

/// A text cut to the width of a box.
fn fitted(text: &str, width: u64) -> String {
    let room = letters(width - 10) as usize;
    match text.chars().count() > room {
        true => text.chars().take(room - 1).chain(['…']).collect(),
        false => text.to_string(),
    }
}

/// Lines of at most so many letters.
fn wrapped_letters(text: &str, most: u64) -> Vec<String> {
    let letters: Vec<char> = text.chars().collect();
    let lines = letters.chunks(most as usize);
    lines.map(|line| line.iter().collect()).collect()
}

/// Lines of at most so many letters, broken at blanks; a longer word is broken anywhere.
fn wrapped(text: &str, most: u64) -> Vec<String> {
    let mut lines: Vec<String> = Vec::new();
    for word in text.split(' ') {
        for piece in wrapped_letters(word, most) {
            match lines.last_mut() {
                Some(line) if (line.chars().count() + 1 + piece.chars().count()) as u64 <= most => {
                    line.push(' ');
                    line.push_str(&piece);
                }
                _ => lines.push(piece),
            }
        }
    }
    lines
}

fn escaped(text: &str) -> String {
    let mut out = String::new();
    for letter in text.chars() {
        match letter {
            '<' => out.push_str("&lt;"),
            '>' => out.push_str("&gt;"),
            '&' => out.push_str("&amp;"),
            '"' => out.push_str("&quot;"),
            _ => out.push(letter),
        }
    }
    out
}
