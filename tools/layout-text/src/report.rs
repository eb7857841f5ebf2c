//! The bytes of a report to violations, and a file of hexadecimal digits to bytes.

use crate::tree::{Name, PATH_LIMIT};
use crate::words::cut;

#[derive(Clone, Debug, PartialEq, Eq)]
pub struct Violation {
    /// 1 to 8.
    pub kind: u8,
    pub definition: usize,
    pub name: Name,
    pub path: Vec<Name>,
    pub chain: Vec<Name>,
}

/// What the bytes of a report or of the program's output say.
#[derive(Clone, Debug, PartialEq, Eq)]
pub enum Report {
    Violations(Vec<Violation>),
    Refused(u8),
}

/// The report, or where and why the bytes are none.
pub fn read(bytes: &[u8]) -> Result<Report, String> {
    let mut reader = Reader { bytes, at: 0 };
    let report = match reader.byte()? {
        0x7E => Report::Refused(reader.byte()?),
        0x70 => {
            let count = reader.word()?;
            let list = (0..count).map(|_| reader.violation());
            Report::Violations(list.collect::<Result<_, String>>()?)
        }
        kind => return Err(format!("byte 0 is {kind:02X}, but 70 or 7E is due")),
    };
    match reader.at == bytes.len() {
        true => Ok(report),
        false => Err(format!(
            "the report ends at byte {}, but more follow",
            reader.at
        )),
    }
}

/// The bytes that a report's file stands for: its own, or those that it has as
/// hexadecimal digits. A report starts with 70 or 7E, which is no such digit.
pub fn from_file(file: Vec<u8>) -> Result<Vec<u8>, String> {
    let digit = |byte: &u8| char::from(*byte).to_digit(16);
    let mut visible = file.iter().filter(|byte| !byte.is_ascii_whitespace());
    if !visible.next().is_some_and(|byte| digit(byte).is_some()) {
        return Ok(file);
    }
    let mut bytes = Vec::new();
    for word in file.split(|byte| byte.is_ascii_whitespace()) {
        let digits: Option<Vec<u32>> = word.iter().map(digit).collect();
        let digits = digits.filter(|digits| digits.len() % 2 == 0);
        let Some(digits) = digits else {
            let word = String::from_utf8_lossy(word);
            return Err(format!(
                "`{}` is not made of pairs of hexadecimal digits",
                cut(&word)
            ));
        };
        let pairs = digits.chunks(2).map(|pair| (pair[0] * 16 + pair[1]) as u8);
        bytes.extend(pairs);
    }
    Ok(bytes)
}

/// Where two reports differ, in words: what the first has and what the second.
pub fn difference(given: &[u8], own: &[u8]) -> Option<String> {
    if given == own {
        return None;
    }
    let same = given
        .iter()
        .zip(own)
        .take_while(|(one, other)| one == other);
    let at = same.count();
    let byte = |list: &[u8]| match list.get(at) {
        Some(byte) => format!("{byte:02X}"),
        None => "the end".to_string(),
    };
    Some(format!(
        "byte {at} is {}, and in this bundle's it is {}",
        byte(given),
        byte(own)
    ))
}

struct Reader<'a> {
    bytes: &'a [u8],
    at: usize,
}

impl Reader<'_> {
    fn byte(&mut self) -> Result<u8, String> {
        let byte = self.bytes.get(self.at).copied();
        self.at += 1;
        byte.ok_or_else(|| format!("the bytes end at {}, where more are due", self.bytes.len()))
    }

    fn word(&mut self) -> Result<u16, String> {
        Ok(u16::from_le_bytes([self.byte()?, self.byte()?]))
    }

    fn violation(&mut self) -> Result<Violation, String> {
        let start = self.at;
        let kind = self.byte()?;
        if !(0x71..=0x78).contains(&kind) {
            return Err(format!("byte {start} is {kind:02X}, but 71 to 78 is due"));
        }
        let definition = usize::from(self.word()?);
        let name = self.word()?;
        let count = usize::from(self.byte()?);
        if count > PATH_LIMIT {
            return Err(format!("byte {} counts {count} names of a path", start + 5));
        }
        let mut path = vec![self.word()?, self.word()?, self.word()?, self.word()?];
        if path.drain(count..).any(|unused| unused != 0) {
            return Err(format!(
                "the path that starts at byte {} has {count} names, but more places that are not 0",
                start + 6
            ));
        }
        let length = self.word()?;
        let chain = (0..length).map(|_| self.chain_name());
        let chain = chain.collect::<Result<_, String>>()?;
        Ok(Violation {
            kind: kind - 0x70,
            definition,
            name,
            path,
            chain,
        })
    }

    fn chain_name(&mut self) -> Result<Name, String> {
        match self.byte()? {
            0x7F => self.word(),
            kind => Err(format!("byte {} is {kind:02X}, but 7F is due", self.at - 1)),
        }
    }
}
