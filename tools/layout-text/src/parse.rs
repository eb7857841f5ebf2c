//! Text to a tree and the numbers of its names.
//!
//! No word is reserved: names and words of the notation never stand at the same
//! place. The order of the text is that of the bytes, so numbers given in order
//! of first use are those that renumbering would give.

use crate::lex::{Lexer, Place, Placed, TextError, Token};
use crate::names::Names;
use crate::tree::*;
use crate::words;

type Parsed<T> = Result<T, TextError>;

/// More than a bundle may have, so that a set which is too deep can be written
/// down, and little enough for the stack.
const NESTING_LIMIT: usize = 60;

pub struct Text {
    pub bundle: Bundle,
    pub names: Names,
    /// The line on which each definition starts.
    pub lines: Vec<usize>,
}

/// A byte order mark at the start is passed over.
pub fn parse(text: &str) -> Parsed<Text> {
    let mut lexer = Lexer::new(text.strip_prefix('\u{FEFF}').unwrap_or(text));
    let mut parser = Parser {
        names: numbers_taken(lexer)?,
        next: lexer.placed()?,
        lexer,
        nesting: 0,
        lines: Vec::new(),
    };
    let bundle = parser.bundle()?;
    Ok(Text {
        bundle,
        names: parser.names,
        lines: parser.lines,
    })
}

/// The names with the numbers of each `#` in the text taken. All of the text is passed over, so that it has no token
/// that cannot be read behind this.
fn numbers_taken(mut lexer: Lexer) -> Parsed<Names> {
    let mut names = Names::default();
    loop {
        match lexer.placed()?.token {
            Token::Numbered(number) => names.take(number),
            Token::End => return Ok(names),
            _ => {}
        }
    }
}

struct Parser<'a> {
    /// Behind the next token.
    lexer: Lexer<'a>,
    next: Placed<'a>,
    nesting: usize,
    names: Names,
    lines: Vec<usize>,
}

impl<'a> Parser<'a> {
    fn next(&self) -> Token<'a> {
        self.next.token
    }

    fn place(&self) -> Place {
        self.next.place
    }

    fn after_next(&self) -> (Lexer<'a>, Placed<'a>) {
        let mut lexer = self.lexer;
        let placed = lexer.placed().expect("the whole text was passed over");
        (lexer, placed)
    }

    fn advance(&mut self) {
        (self.lexer, self.next) = self.after_next();
    }

    fn error<T>(&self, message: impl Into<String>) -> Parsed<T> {
        Err(TextError {
            place: self.place(),
            message: message.into(),
        })
    }

    fn expected<T>(&self, what: &str) -> Parsed<T> {
        self.error(format!("{what} is due here, but there is {}", self.next()))
    }

    fn at_sign(&self, sign: &str) -> bool {
        matches!(self.next(), Token::Sign(other) if other == sign)
    }

    fn at_word(&self, word: &str) -> bool {
        matches!(self.next(), Token::Word(other) if other == word)
    }

    fn take_sign(&mut self, sign: &str) -> bool {
        let found = self.at_sign(sign);
        if found {
            self.advance();
        }
        found
    }

    fn take_word(&mut self, word: &str) -> bool {
        let found = self.at_word(word);
        if found {
            self.advance();
        }
        found
    }

    fn sign(&mut self, sign: &str) -> Parsed<()> {
        match self.take_sign(sign) {
            true => Ok(()),
            false => self.expected(&format!("`{sign}`")),
        }
    }

    /// Runs a part of the grammar one level further inside.
    fn inside<T>(&mut self, part: impl FnOnce(&mut Self) -> Parsed<T>) -> Parsed<T> {
        if self.nesting == NESTING_LIMIT {
            return self.error(format!("nested more than {NESTING_LIMIT} deep"));
        }
        self.nesting += 1;
        let result = part(self);
        self.nesting -= 1;
        result
    }

    fn bundle(&mut self) -> Parsed<Bundle> {
        let mut bundle = Bundle::default();
        while self.take_word("name") {
            self.name_line()?;
        }
        if self.take_word("current") {
            bundle.current = self.name()?;
        }
        while self.at_word("define") {
            self.lines.push(self.place().line);
            self.advance();
            let name = self.name()?;
            let body = self.type_node()?;
            bundle.definitions.push(Definition { name, body });
        }
        while self.take_word("edge") {
            bundle.edges.push(self.edge()?);
        }
        if self.next() != Token::End {
            return self.misplaced();
        }
        Ok(bundle)
    }

    fn misplaced<T>(&self) -> Parsed<T> {
        let order = "first come `name` lines, then one `current`, then `define`, then `edge`";
        match self.next() {
            Token::Word(word) if ["name", "current", "define", "edge"].contains(&word) => {
                self.error(format!("`{word}` comes too late: {order}"))
            }
            other => self.error(format!("{other} is not due here: {order}")),
        }
    }

    /// `name cell = 17`
    fn name_line(&mut self) -> Parsed<()> {
        let place = self.place();
        let Token::Word(word) = self.next() else {
            return self.expected("a name in letters");
        };
        self.name_may_be(word)?;
        self.advance();
        self.sign("=")?;
        let number = match self.next() {
            Token::Number(value, None) => Name::try_from(value).ok(),
            _ => None,
        };
        let Some(number) = number else {
            return self.expected("a number from 0 to 65535");
        };
        self.advance();
        let set = self.names.set(word, number);
        set.map_err(|message| TextError { place, message })
    }

    fn name_may_be(&self, word: &str) -> Parsed<()> {
        match word.contains('-') {
            true => self.expected("a name"),
            false => Ok(()),
        }
    }

    fn name(&mut self) -> Parsed<Name> {
        let number = match self.next() {
            Token::Numbered(number) => number,
            Token::Word(word) => {
                self.name_may_be(word)?;
                let given = self.names.number(word);
                given.or_else(|message| self.error(message))?
            }
            _ => return self.expected("a name"),
        };
        self.advance();
        Ok(number)
    }

    /// `winch -> load_cell type`
    fn edge(&mut self) -> Parsed<Edge> {
        let from = self.name()?;
        self.sign("->")?;
        let to = self.name()?;
        let kind = match self.next() {
            Token::Word(word) => words::kind_of(&words::EDGE_KINDS, 0, word),
            _ => None,
        };
        let Some(kind) = kind else {
            return self.expected("the edge's kind (type, field, size or tag)");
        };
        self.advance();
        Ok(Edge { from, to, kind })
    }

    fn type_node(&mut self) -> Parsed<Type> {
        self.inside(|parser| parser.type_inside())
    }

    fn type_inside(&mut self) -> Parsed<Type> {
        let Token::Word(word) = self.next() else {
            return self.expected("a type");
        };
        if let Some(kind) = words::kind_of(&words::PRIMITIVES, words::FIRST_PRIMITIVE, word) {
            self.advance();
            return Ok(Type::Primitive(kind));
        }
        if let Some((_, kind)) = words::GROUPS.iter().find(|(other, _)| *other == word) {
            self.advance();
            return Ok(Type::Group(Box::new(self.group(*kind)?)));
        }
        match word {
            "ref" => {
                self.advance();
                Ok(Type::TypeRef(self.name()?))
            }
            "array" | "jagged" => Ok(Type::Array(Box::new(self.array()?))),
            _ => self.error(format!(
                "`{}` is no type; a definition's name needs `ref` before it",
                words::cut(word)
            )),
        }
    }

    fn attributes(&mut self) -> Parsed<Attributes> {
        let packed = self.take_word("packed");
        let mut aligned = 0;
        if self.take_word("aligned") {
            aligned = self.plain_number("the alignment")?;
        }
        Ok(Attributes { packed, aligned })
    }

    fn plain_number(&mut self, what: &str) -> Parsed<u64> {
        match self.next() {
            Token::Number(value, None) => {
                self.advance();
                Ok(value)
            }
            Token::Number(_, Some(_)) => {
                self.error(format!("{what} has no ending such as u8: it has 8 bytes"))
            }
            _ => self.expected(&format!("{what}, a number,")),
        }
    }

    fn array(&mut self) -> Parsed<Array> {
        let jagged = self.take_word("jagged");
        if !self.take_word("array") {
            return self.expected("`array`");
        }
        let attributes = self.attributes()?;
        self.sign("[")?;
        let size = self.expr()?;
        self.sign("]")?;
        let element = self.type_node()?;
        Ok(Array {
            attributes,
            jagged,
            size,
            element,
        })
    }

    fn group(&mut self, kind: GroupKind) -> Parsed<Group> {
        let attributes = self.attributes()?;
        let mut tag = None;
        if kind == GroupKind::Enum {
            self.sign("(")?;
            tag = Some(self.expr()?);
            self.sign(")")?;
        }
        self.sign("{")?;
        let mut members = Vec::new();
        while !self.take_sign("}") {
            if self.next() == Token::End {
                return self.expected("`}` or a member");
            }
            members.push(self.member(kind)?);
            self.take_sign(",");
        }
        Ok(Group {
            kind,
            attributes,
            tag,
            members,
        })
    }

    fn member(&mut self, kind: GroupKind) -> Parsed<Member> {
        let name = self.name()?;
        let mut value = 0;
        if kind.has_values() {
            let what = match kind {
                GroupKind::Enum => "the tag value",
                _ => "the expected size",
            };
            self.sign("=")?;
            value = self.plain_number(what)?;
        }
        self.sign(":")?;
        let member_type = self.type_node()?;
        Ok(Member {
            name,
            value,
            member_type,
        })
    }

    fn binary_kind(&self) -> Option<u8> {
        match self.next() {
            Token::Sign(sign) => words::kind_of(&words::BINARY, words::FIRST_BINARY, sign),
            _ => None,
        }
    }

    /// A row of one operator, grouped from the left.
    fn expr(&mut self) -> Parsed<Expr> {
        let mut left = self.operand()?;
        let mut row = None;
        let mut length = self.nesting;
        while let Some(kind) = self.binary_kind() {
            if row.is_some_and(|other| other != kind) {
                return self.error(format!(
                    "{} after another operator: parentheses must say which comes first",
                    self.next()
                ));
            }
            if length == NESTING_LIMIT {
                return self.error(format!("nested more than {NESTING_LIMIT} deep"));
            }
            length += 1;
            row = Some(kind);
            self.advance();
            let right = self.operand()?;
            left = Expr::Binary(kind, Box::new(left), Box::new(right));
        }
        Ok(left)
    }

    fn operand(&mut self) -> Parsed<Expr> {
        self.inside(|parser| parser.operand_inside())
    }

    fn operand_inside(&mut self) -> Parsed<Expr> {
        match self.next() {
            Token::Number(value, kind) => self.literal(value, kind, false),
            Token::Sign("(") => {
                self.advance();
                let inner = self.expr()?;
                self.sign(")")?;
                Ok(inner)
            }
            Token::Sign("-") => self.minus(),
            Token::Sign(sign) => {
                let kind = words::kind_of(&words::UNARY, words::FIRST_UNARY, sign);
                let Some(kind) = kind else {
                    return self.expected("an expression");
                };
                self.advance();
                Ok(Expr::Unary(kind, Box::new(self.operand()?)))
            }
            Token::Word(word) if self.is_call(word) => self.call(word),
            Token::Word(_) | Token::Numbered(_) => self.path(),
            Token::End => self.expected("an expression"),
        }
    }

    /// A minus directly before a number is its sign; elsewhere it is an operator.
    fn minus(&mut self) -> Parsed<Expr> {
        self.advance();
        let adjacent = self.next.adjacent;
        match self.next() {
            Token::Number(value, kind) if adjacent => self.literal(value, kind, true),
            _ => Ok(Expr::Unary(words::NEG, Box::new(self.operand()?))),
        }
    }

    fn literal(&mut self, size: u64, kind: Option<u8>, negative: bool) -> Parsed<Expr> {
        let kind = kind.unwrap_or(words::FIRST_LITERAL);
        let signed = kind >= words::FIRST_SIGNED_LITERAL;
        let width = 8 * literal_width(kind) as u32;
        let most = match (signed, negative) {
            (false, false) => u64::MAX >> (64 - width),
            (false, true) => 0,
            (true, false) => (1 << (width - 1)) - 1,
            (true, true) => 1 << (width - 1),
        };
        if size > most || (negative && !signed) {
            let ending = words::word_of(&words::LITERALS, words::FIRST_LITERAL, kind);
            let minus = if negative { "-" } else { "" };
            let hint = match negative && !signed {
                true => format!("; with a sign it needs an ending with one, as `-{size}i64`"),
                false => String::new(),
            };
            return self.error(format!("{minus}{size} is no {ending}{hint}"));
        }
        let value = match negative {
            true => size.wrapping_neg(),
            false => size,
        };
        self.advance();
        Ok(Expr::Literal(kind, value & (u64::MAX >> (64 - width))))
    }

    fn is_call(&self, word: &str) -> bool {
        let named = ["sizeof", "alignof", "popcount"].contains(&word);
        named && self.after_next().1.token == Token::Sign("(")
    }

    fn call(&mut self, word: &str) -> Parsed<Expr> {
        self.advance();
        self.sign("(")?;
        let result = match word {
            "sizeof" => Expr::Sizeof(self.name()?),
            "alignof" => Expr::Alignof(self.name()?),
            _ => Expr::Unary(words::POPCOUNT, Box::new(self.expr()?)),
        };
        self.sign(")")?;
        Ok(result)
    }

    fn path(&mut self) -> Parsed<Expr> {
        let mut path = Path::new(self.name()?);
        while self.at_sign(".") {
            if path.is_full() {
                return self.error("a path has four names at most");
            }
            self.advance();
            path.push(self.name()?);
        }
        Ok(Expr::FieldRef(path))
    }
}
