//! Words for names, and the numbers that stand for them in the bytes.

use crate::tree::Name;
use crate::words::cut;
use std::collections::{BTreeMap, HashMap, HashSet};

#[derive(Clone, Debug, Default)]
pub struct Names {
    words: BTreeMap<Name, String>,
    numbers: HashMap<String, Name>,
    /// Numbers that no word may be given without being asked for.
    taken: HashSet<Name>,
    last_given: Name,
}

impl Names {
    /// Keeps a number from being given to a word.
    pub fn take(&mut self, number: Name) {
        self.taken.insert(number);
    }

    /// Gives a word its number, or says which word has one of the two already.
    pub fn set(&mut self, word: &str, number: Name) -> Result<(), String> {
        if let Some(other) = self.words.get(&number) {
            let other = cut(other);
            return Err(format!("number {number} is the name `{other}` already"));
        }
        if let Some(other) = self.numbers.get(word) {
            let word = cut(word);
            return Err(format!("`{word}` has the number {other} already"));
        }
        self.words.insert(number, word.to_string());
        self.numbers.insert(word.to_string(), number);
        self.taken.insert(number);
        Ok(())
    }

    /// The word's number; a new word gets the lowest free one, from 1 on.
    pub fn number(&mut self, word: &str) -> Result<Name, String> {
        if let Some(number) = self.numbers.get(word) {
            return Ok(*number);
        }
        let free = |number: &Name| !self.taken.contains(number);
        let start = self.last_given.saturating_add(1);
        let number = (start..=Name::MAX)
            .find(free)
            .ok_or("no number is left for this name; there are 65,535")?;
        self.last_given = number;
        self.set(word, number)?;
        Ok(number)
    }

    /// The word of a number, or the number with its sign: `#17`.
    pub fn word(&self, number: Name) -> String {
        match self.words.get(&number) {
            Some(word) => word.clone(),
            None => format!("#{number}"),
        }
    }

    /// The number that a word has, or that `#17` says.
    pub fn find(&self, word: &str) -> Option<Name> {
        match word.strip_prefix('#') {
            // A sign is no digit.
            Some(digits) if digits.bytes().all(|byte| byte.is_ascii_digit()) => digits.parse().ok(),
            Some(_) => None,
            None => self.numbers.get(word).copied(),
        }
    }

    /// The word of a number for a message or a table: of a long one the start.
    pub fn short(&self, number: Name) -> String {
        match self.words.get(&number) {
            Some(word) => cut(word).into_owned(),
            None => self.word(number),
        }
    }

    /// Whether no number has a word.
    pub fn is_empty(&self) -> bool {
        self.words.is_empty()
    }

    pub fn has(&self, number: Name) -> bool {
        self.words.contains_key(&number)
    }

    /// Names joined by a sign or an arrow.
    pub fn join(&self, list: &[Name], between: &str) -> String {
        let words: Vec<String> = list.iter().map(|name| self.word(*name)).collect();
        words.join(between)
    }
}
