//! Text to tokens, each with its line and column.

use crate::tree::Name;
use crate::words;
use std::fmt;

#[derive(Clone, Copy, Debug, Default, PartialEq, Eq)]
pub struct Place {
    pub line: usize,
    pub column: usize,
}

/// A fault of the text.
#[derive(Clone, Debug, PartialEq, Eq)]
pub struct TextError {
    pub place: Place,
    pub message: String,
}

impl fmt::Display for TextError {
    fn fmt(&self, out: &mut fmt::Formatter) -> fmt::Result {
        let Place { line, column } = self.place;
        write!(out, "line {line}, column {column}: {}", self.message)
    }
}

impl std::error::Error for TextError {}

#[derive(Clone, Copy, Debug, PartialEq, Eq)]
pub enum Token<'a> {
    Word(&'a str),
    /// A name by its number: `#17`.
    Numbered(Name),
    /// Size of a number without its sign, and the literal kind that it ends in.
    Number(u64, Option<u8>),
    Sign(&'static str),
    End,
}

impl fmt::Display for Token<'_> {
    fn fmt(&self, out: &mut fmt::Formatter) -> fmt::Result {
        match self {
            Token::Word(word) => write!(out, "`{}`", words::cut(word)),
            Token::Numbered(number) => write!(out, "`#{number}`"),
            Token::Number(value, _) => write!(out, "the number {value}"),
            Token::Sign(sign) => write!(out, "`{sign}`"),
            Token::End => write!(out, "the end of the text"),
        }
    }
}

#[derive(Clone, Copy, Debug)]
pub struct Placed<'a> {
    pub token: Token<'a>,
    pub place: Place,
    /// Whether the token before it ends where this one starts.
    pub adjacent: bool,
}

/// Longer signs first, so that `->` is not read as two.
const SIGNS: [&str; 33] = [
    "->", "**", "<<", ">>", "==", "!=", "<=", ">=", "&&", "||", "^^", "{", "}", "(", ")", "[", "]",
    ":", "=", ",", ".", "+", "-", "*", "/", "%", "&", "|", "^", "<", ">", "~", "!",
];

/// Goes through a text token by token. No list of them is kept: it would be many times as long as the text.
#[derive(Clone, Copy)]
pub struct Lexer<'a> {
    rest: &'a str,
    place: Place,
    /// Whether a carriage return comes directly before `rest`: a line feed there ends no further line.
    after_return: bool,
}

impl<'a> Lexer<'a> {
    pub fn new(text: &'a str) -> Self {
        Lexer {
            rest: text,
            place: Place { line: 1, column: 1 },
            after_return: false,
        }
    }

    /// The next token; at the end of the text `Token::End`, however often.
    pub fn placed(&mut self) -> Result<Placed<'a>, TextError> {
        let skipped = self.skip_blank();
        let place = self.place;
        let token = self.token()?;
        Ok(Placed {
            token,
            place,
            adjacent: !skipped,
        })
    }

    /// Passes over white space and comments; says whether there were any.
    fn skip_blank(&mut self) -> bool {
        let before = self.rest.len();
        loop {
            let blank = self.rest.len() - self.rest.trim_start().len();
            self.advance(blank);
            if !self.rest.starts_with("//") {
                return self.rest.len() < before;
            }
            let line = self.rest.find(['\n', '\r']).unwrap_or(self.rest.len());
            self.advance(line);
        }
    }

    /// A line ends with a line feed, a carriage return, or both in the order of CRLF.
    fn advance(&mut self, bytes: usize) -> &'a str {
        let (passed, rest) = self.rest.split_at(bytes);
        self.rest = rest;
        for letter in passed.chars() {
            match letter {
                '\n' if self.after_return => {}
                '\n' | '\r' => {
                    self.place.line += 1;
                    self.place.column = 1;
                }
                _ => self.place.column += 1,
            }
            self.after_return = letter == '\r';
        }
        passed
    }

    fn error<T>(&self, message: String) -> Result<T, TextError> {
        Err(TextError {
            place: self.place,
            message,
        })
    }

    fn token(&mut self) -> Result<Token<'a>, TextError> {
        let Some(first) = self.rest.chars().next() else {
            return Ok(Token::End);
        };
        if first.is_ascii_digit() {
            return self.number();
        }
        if first == '#' {
            return self.numbered();
        }
        if first.is_alphabetic() || first == '_' {
            return Ok(self.word());
        }
        match SIGNS.iter().find(|sign| self.rest.starts_with(**sign)) {
            Some(sign) => {
                self.advance(sign.len());
                Ok(Token::Sign(sign))
            }
            None => {
                let first = first.to_string();
                let first = words::cut(&first);
                self.error(format!("`{first}` has no meaning here"))
            }
        }
    }

    fn word_length(&self) -> usize {
        let ends = |letter: char| !letter.is_alphanumeric() && letter != '_';
        self.rest.find(ends).unwrap_or(self.rest.len())
    }

    /// `size-union` is the only word with a hyphen.
    fn word(&mut self) -> Token<'a> {
        let mut length = self.word_length();
        if let Some(after) = self.rest.strip_prefix("size-union") {
            let goes_on = |letter: char| letter.is_alphanumeric() || letter == '_';
            if !after.starts_with(goes_on) {
                length = "size-union".len();
            }
        }
        Token::Word(self.advance(length))
    }

    fn numbered(&mut self) -> Result<Token<'a>, TextError> {
        let digits = &self.rest[1..];
        let ends = |letter: char| !letter.is_ascii_digit();
        let length = digits.find(ends).unwrap_or(digits.len());
        let Ok(number) = digits[..length].parse() else {
            return self.error("after `#` a number from 0 to 65535 is due".to_string());
        };
        self.advance(1 + length);
        Ok(Token::Numbered(number))
    }

    fn number(&mut self) -> Result<Token<'a>, TextError> {
        let text = &self.rest[..self.word_length()];
        // Neither `u` nor `i` is a hexadecimal digit.
        let split = text.find(['u', 'i']).unwrap_or(text.len());
        let (digits, ending) = text.split_at(split);
        let digits = digits.replace('_', "");
        let value = match digits.strip_prefix("0x") {
            Some(hexadecimal) => u64::from_str_radix(hexadecimal, 16),
            None => digits.parse(),
        };
        let kind = words::kind_of(&words::LITERALS, words::FIRST_LITERAL, ending);
        let Ok(value) = value else {
            return self.error(format!("`{}` is no number of 64 bits", words::cut(text)));
        };
        if kind.is_none() && !ending.is_empty() {
            let endings = words::LITERALS.join(", ");
            let text = words::cut(text);
            return self.error(format!("`{text}` must end in one of {endings}, or in none"));
        }
        self.advance(text.len());
        Ok(Token::Number(value, kind))
    }
}
