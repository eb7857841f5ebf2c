//! The refusals, by number, word and meaning.

use std::fmt;

#[derive(Clone, Copy, Debug, PartialEq, Eq, PartialOrd, Ord, Hash)]
#[repr(u8)]
pub enum Refusal {
    Overlong = 1,
    Short = 2,
    Stranger = 3,
    OffScale = 4,
    Crowded = 5,
    Buried = 6,
    Trailing = 7,
    Circle = 8,
    Narrow = 9,
    Misaligned = 10,
    Varying = 11,
    Oversized = 12,
    ZeroDivisor = 13,
    OutOfRange = 14,
    Uncovered = 15,
}

impl Refusal {
    pub const ALL: [Refusal; 15] = [
        Refusal::Overlong,
        Refusal::Short,
        Refusal::Stranger,
        Refusal::OffScale,
        Refusal::Crowded,
        Refusal::Buried,
        Refusal::Trailing,
        Refusal::Circle,
        Refusal::Narrow,
        Refusal::Misaligned,
        Refusal::Varying,
        Refusal::Oversized,
        Refusal::ZeroDivisor,
        Refusal::OutOfRange,
        Refusal::Uncovered,
    ];

    /// The refusal of that number; none for 0, which is an acceptance.
    pub fn from_number(number: u8) -> Option<Refusal> {
        let place = usize::from(number).checked_sub(1)?;
        Refusal::ALL.get(place).copied()
    }

    pub fn number(self) -> u8 {
        self as u8
    }

    pub fn word(self) -> &'static str {
        match self {
            Refusal::Overlong => "overlong",
            Refusal::Short => "short",
            Refusal::Stranger => "stranger",
            Refusal::OffScale => "off scale",
            Refusal::Crowded => "crowded",
            Refusal::Buried => "buried",
            Refusal::Trailing => "trailing",
            Refusal::Circle => "circle",
            Refusal::Narrow => "narrow",
            Refusal::Misaligned => "misaligned",
            Refusal::Varying => "varying",
            Refusal::Oversized => "oversized",
            Refusal::ZeroDivisor => "zero divisor",
            Refusal::OutOfRange => "out of range",
            Refusal::Uncovered => "uncovered",
        }
    }

    pub fn meaning(self) -> &'static str {
        match self {
            Refusal::Overlong => "more than 32,768 bytes",
            Refusal::Short => "the bytes end where more are due",
            Refusal::Stranger => "a kind byte that may not stand at this place",
            Refusal::OffScale => "packed or jagged over 1, or an edge kind over 3",
            Refusal::Crowded => "more than 256 definitions or more than 1,024 edges",
            Refusal::Buried => "a type or expression deeper than 24",
            Refusal::Trailing => "bytes after the last record due",
            Refusal::Circle => "a definition leads, by its TypeRefs, back to itself",
            Refusal::Narrow => "the output is longer than the buffer lent for it",
            Refusal::Misaligned => "an aligned that is neither 0 nor a power of two is reached",
            Refusal::Varying => {
                "no such definition, a size that is not fixed, or the value of what is no array"
            }
            Refusal::Oversized => "a part is reached with a size or offset over 4,294,967,295",
            Refusal::ZeroDivisor => "a Div or Mod by 0 is met",
            Refusal::OutOfRange => "a value below -2^63 or over 2^63 - 1 is met",
            Refusal::Uncovered => "an expression of a kind without a value is met",
        }
    }
}

impl fmt::Display for Refusal {
    fn fmt(&self, out: &mut fmt::Formatter) -> fmt::Result {
        let (word, number, meaning) = (self.word(), self.number(), self.meaning());
        write!(out, "{word} ({number}): {meaning}")
    }
}

impl std::error::Error for Refusal {}
