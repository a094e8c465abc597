//! What the readers of layouts, tables and records have in common.

use super::lex::{Place, TextError, Token, lex};
use crate::number;
use crate::read::Step;
use crate::wrap::listed;
use std::collections::HashMap;

/// What a text holds, by its first word.
#[derive(Clone, Copy, Debug, PartialEq, Eq)]
pub enum Kind {
    Layout,
    Defaults,
    Record,
}

impl Kind {
    pub const ALL: [Kind; 3] = [Kind::Layout, Kind::Defaults, Kind::Record];

    pub fn word(self) -> &'static str {
        ["layout", "defaults", "record"][self as usize]
    }
}

/// What bytes hold as a text; none where they are no text of this form, but the bytes themselves.
pub fn kind_of(bytes: &[u8]) -> Option<Kind> {
    let mut rest = bytes.strip_prefix("\u{feff}".as_bytes()).unwrap_or(bytes);
    loop {
        rest = rest.trim_ascii_start();
        if !rest.starts_with(b"#") {
            break;
        }
        let end = rest.iter().position(|byte| *byte == b'\n')?;
        rest = &rest[end..];
    }
    Kind::ALL.into_iter().find(|kind| {
        let after = rest.strip_prefix(kind.word().as_bytes());
        after.is_some_and(|after| {
            after
                .first()
                .is_none_or(|byte| matches!(byte, b' ' | b'\t' | b'\r' | b'\n' | b'#'))
        })
    })
}

/// Where the columns, entries or values of a text stand, by the places on the way to them.
#[derive(Clone, Debug, Default, PartialEq, Eq)]
pub struct Places(HashMap<Vec<usize>, Place>);

impl Places {
    /// The place of the longest part of a path that has one.
    pub fn of(&self, path: &[Step]) -> Option<Place> {
        let path: Vec<usize> = path
            .iter()
            .map_while(|step| match step {
                Step::Column(index, _) | Step::Entry(index, _) | Step::Value(index) => Some(*index),
                Step::Element(index) => Some(index.unwrap_or(0)),
                Step::Selector(_) | Step::Mapped | Step::Input => None,
            })
            .collect();
        (0..=path.len())
            .rev()
            .find_map(|length| self.0.get(&path[..length]).copied())
    }
}

pub type Parsed<T> = Result<T, TextError>;

/// How deep braces and brackets may stand in each other. The forms allow 16.
const NEST_LIMIT: usize = 200;

pub struct Parser {
    tokens: Vec<(Token, Place)>,
    at: usize,
    path: Vec<usize>,
    places: Places,
}

impl Parser {
    /// Begins with the word of a kind.
    pub fn new(text: &[u8], kind: Kind) -> Parsed<Parser> {
        let text =
            std::str::from_utf8(text).map_err(|error| not_text(text, error.valid_up_to()))?;
        let (tokens, path, places) = (lex(text)?, Vec::new(), Places::default());
        let mut parser = Parser {
            tokens,
            at: 0,
            path,
            places,
        };
        parser.skip();
        parser.word(kind.word())?;
        Ok(parser)
    }

    /// What was read, with where its parts stand, once nothing is left.
    pub fn finish<T>(mut self, result: T) -> Parsed<(T, Places)> {
        self.skip();
        match self.peek() {
            Token::End => Ok((result, self.places)),
            _ => self.wrong("the end of the text"),
        }
    }

    pub fn peek(&self) -> &Token {
        &self.tokens[self.at].0
    }

    pub fn place(&self) -> Place {
        self.tokens[self.at].1
    }

    /// The last token is the end, which stays.
    pub fn next(&mut self) -> Token {
        let token = self.peek().clone();
        self.at = (self.at + 1).min(self.tokens.len() - 1);
        token
    }

    pub fn error<T>(&self, place: Place, message: impl Into<String>) -> Parsed<T> {
        Err(TextError {
            place,
            message: message.into(),
        })
    }

    /// Says what was expected here.
    pub fn wrong<T>(&self, expected: &str) -> Parsed<T> {
        self.error(
            self.place(),
            format!("expected {expected}, found {}", self.peek()),
        )
    }

    /// Line ends and commas.
    pub fn skip(&mut self) {
        while let Token::Line | Token::Mark(',') = self.peek() {
            self.next();
        }
    }

    pub fn is_mark(&self, mark: char) -> bool {
        *self.peek() == Token::Mark(mark)
    }

    pub fn mark(&mut self, mark: char) -> Parsed<()> {
        match self.is_mark(mark) {
            true => {
                self.next();
                Ok(())
            }
            false => self.wrong(&format!("`{mark}`")),
        }
    }

    pub fn is_word(&self, word: &str) -> bool {
        matches!(self.peek(), Token::Word(found) if found == word)
    }

    pub fn word(&mut self, word: &str) -> Parsed<()> {
        match self.is_word(word) {
            true => {
                self.next();
                Ok(())
            }
            false => self.wrong(&format!("`{word}`")),
        }
    }

    /// A word, whichever it is.
    pub fn any_word(&mut self, expected: &str) -> Parsed<String> {
        match self.peek() {
            Token::Word(word) => {
                let word = word.clone();
                self.next();
                Ok(word)
            }
            _ => self.wrong(expected),
        }
    }

    /// A name: a word that begins with a letter or `_`, or a text between quotes.
    pub fn name(&mut self, expected: &str) -> Parsed<Vec<u8>> {
        match self.peek() {
            Token::Text(text) => {
                let text = text.clone();
                self.next();
                Ok(text)
            }
            Token::Word(word) if word.starts_with(super::quote::begins_word) => {
                Ok(self.any_word(expected)?.into_bytes())
            }
            Token::Word(_) => self.wrong(&format!(
                "{expected}, which stands between quotes unless it begins with a letter"
            )),
            _ => self.wrong(expected),
        }
    }

    /// A whole number from 0 to a most.
    pub fn number(&mut self, most: u64, expected: &str) -> Parsed<u64> {
        let place = self.place();
        let word = self.any_word(expected)?;
        let number = number::whole(&word).and_then(|number| u64::try_from(number).ok());
        match number.filter(|number| *number <= most) {
            Some(number) => Ok(number),
            None => self.error(
                place,
                format!("expected {expected}, 0 to {most}, found `{word}`"),
            ),
        }
    }

    /// `version` and a number that is one of these.
    pub fn version(&mut self, versions: &[u16]) -> Parsed<u16> {
        self.word("version")?;
        let place = self.place();
        let version = self.number(u64::from(u16::MAX), "a version")? as u16;
        match versions.contains(&version) {
            true => Ok(version),
            false => {
                let known = listed(versions, "and");
                let message = format!("version {version} is not known here, but {known}");
                self.error(place, message)
            }
        }
    }

    /// Parts up to a closing mark, or at the top up to the end, each on a line of its own or after a comma.
    pub fn parts(
        &mut self,
        close: Option<char>,
        mut part: impl FnMut(&mut Parser, usize) -> Parsed<()>,
    ) -> Parsed<()> {
        let mut index = 0;
        loop {
            let before = self.at;
            self.skip();
            let closed = close.map_or(*self.peek() == Token::End, |mark| self.is_mark(mark));
            if closed {
                if close.is_some() {
                    self.next();
                }
                return Ok(());
            }
            if self.at == before && (index > 0 || close.is_none()) {
                let ends = close.map_or("a line end".to_string(), |mark| {
                    format!("a comma, a line end or `{mark}`")
                });
                return self.wrong(&ends);
            }
            self.inside(index, |parser| part(parser, index))?;
            index += 1;
        }
    }

    /// Reads what stands at an index, and notes its place.
    pub fn inside<T>(
        &mut self,
        index: usize,
        read: impl FnOnce(&mut Parser) -> Parsed<T>,
    ) -> Parsed<T> {
        if self.path.len() >= NEST_LIMIT {
            return self.error(self.place(), "too many brackets inside each other");
        }
        self.path.push(index);
        let place = self.place();
        self.places.0.entry(self.path.clone()).or_insert(place);
        let result = read(self);
        self.path.pop();
        result
    }

    /// The part that is being read stands at another index.
    pub fn moved(&mut self, index: usize) {
        if let Some(last) = self.path.last_mut() {
            *last = index;
            let place = self.tokens[self.at].1;
            self.places.0.insert(self.path.clone(), place);
        }
    }
}

fn not_text(bytes: &[u8], at: usize) -> TextError {
    let before = String::from_utf8_lossy(&bytes[..at]).into_owned();
    let line = before.matches('\n').count() + 1;
    let column = before
        .rsplit('\n')
        .next()
        .map_or(0, |last| last.chars().count())
        + 1;
    let message = format!(
        "byte 0x{:02x} is no UTF-8; write it as `\\x{:02x}` between quotes",
        bytes[at], bytes[at]
    );
    TextError {
        place: Place { line, column },
        message,
    }
}
