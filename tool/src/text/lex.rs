//! Text to tokens, each with its line and column.

use super::quote::{begins_word, in_word};
use std::fmt;

/// A line and a column, from 1; columns count letters.
#[derive(Clone, Copy, Debug, PartialEq, Eq)]
pub struct Place {
    pub line: usize,
    pub column: usize,
}

impl fmt::Display for Place {
    fn fmt(&self, f: &mut fmt::Formatter<'_>) -> fmt::Result {
        write!(f, "{}:{}", self.line, self.column)
    }
}

/// What is wrong with a text, and where.
#[derive(Clone, Debug, PartialEq, Eq)]
pub struct TextError {
    pub place: Place,
    pub message: String,
}

#[derive(Clone, Debug, PartialEq, Eq)]
pub enum Token {
    /// A name, a word of the form, a number or a time.
    Word(String),
    /// `"text"`
    Text(Vec<u8>),
    /// `x"00ff"`
    Hex(Vec<u8>),
    /// One of `: @ { } [ ] ( )` and the comma.
    Mark(char),
    Line,
    End,
}

impl fmt::Display for Token {
    fn fmt(&self, f: &mut fmt::Formatter<'_>) -> fmt::Result {
        match self {
            Token::Word(word) => write!(f, "`{word}`"),
            Token::Text(_) => write!(f, "a text between quotes"),
            Token::Hex(_) => write!(f, "bytes"),
            Token::Mark(mark) => write!(f, "`{mark}`"),
            Token::Line => write!(f, "the end of the line"),
            Token::End => write!(f, "the end of the text"),
        }
    }
}

pub fn lex(text: &str) -> Result<Vec<(Token, Place)>, TextError> {
    let mut lexer = Lexer {
        letters: text.chars().collect(),
        at: 0,
        place: Place { line: 1, column: 1 },
    };
    let mut tokens = Vec::new();
    loop {
        lexer.pass_blanks();
        let place = lexer.place;
        let token = lexer.token()?;
        let last = token == Token::End;
        tokens.push((token, place));
        if last {
            return Ok(tokens);
        }
    }
}

struct Lexer {
    letters: Vec<char>,
    at: usize,
    place: Place,
}

impl Lexer {
    fn peek(&self) -> Option<char> {
        self.letters.get(self.at).copied()
    }

    fn next(&mut self) -> Option<char> {
        let letter = self.peek()?;
        self.at += 1;
        self.place.column += 1;
        if letter == '\n' {
            self.place = Place {
                line: self.place.line + 1,
                column: 1,
            };
        }
        Some(letter)
    }

    fn error<T>(&self, place: Place, message: impl Into<String>) -> Result<T, TextError> {
        Err(TextError {
            place,
            message: message.into(),
        })
    }

    /// Blanks, and comments up to the end of their line. A byte order mark at the start is passed too.
    fn pass_blanks(&mut self) {
        let mut comment = false;
        while let Some(letter) = self.peek() {
            comment |= letter == '#';
            let blank = matches!(letter, ' ' | '\t' | '\r') || letter == '\u{feff}' && self.at == 0;
            if letter == '\n' || !comment && !blank {
                return;
            }
            self.next();
        }
    }

    fn token(&mut self) -> Result<Token, TextError> {
        let place = self.place;
        let Some(letter) = self.peek() else {
            return Ok(Token::End);
        };
        match letter {
            '\n' => {
                self.next();
                Ok(Token::Line)
            }
            ':' | '@' | '{' | '}' | '[' | ']' | '(' | ')' | ',' => {
                self.next();
                Ok(Token::Mark(letter))
            }
            '"' => Ok(Token::Text(self.text()?)),
            'x' if self.letters.get(self.at + 1) == Some(&'"') => {
                self.next();
                self.hex(place)
            }
            letter if begins_word(letter) => Ok(Token::Word(self.run(|_, letter| in_word(letter)))),
            '0'..='9' | '-' | '+' | '.' => Ok(Token::Word(self.run(in_number))),
            letter => self.error(
                place,
                format!("`{}` begins nothing here", letter.escape_debug()),
            ),
        }
    }

    /// The letters that belong to what was taken so far.
    fn run(&mut self, belongs: impl Fn(&str, char) -> bool) -> String {
        let mut word = String::new();
        while let Some(letter) = self.peek().filter(|letter| belongs(&word, *letter)) {
            word.push(letter);
            self.next();
        }
        word
    }

    /// Between quotes, on one line.
    fn text(&mut self) -> Result<Vec<u8>, TextError> {
        let start = self.place;
        self.next();
        let mut bytes = Vec::new();
        loop {
            let place = self.place;
            match self.next() {
                Some('"') => return Ok(bytes),
                Some('\\') => self.escape(place, &mut bytes)?,
                Some('\n') | None => {
                    return self.error(start, "the text has no closing quote on its line");
                }
                Some(letter) => bytes.extend(letter.encode_utf8(&mut [0; 4]).bytes()),
            }
        }
    }

    fn escape(&mut self, place: Place, bytes: &mut Vec<u8>) -> Result<(), TextError> {
        match self.next() {
            Some('n') => bytes.push(b'\n'),
            Some('r') => bytes.push(b'\r'),
            Some('t') => bytes.push(b'\t'),
            Some(letter @ ('"' | '\\')) => bytes.push(letter as u8),
            Some('x') => {
                let digits: String = (0..2).filter_map(|_| self.next()).collect();
                let Some(byte) = number_of(&digits, 2) else {
                    return self.error(
                        place,
                        "`\\x` is followed by two hexadecimal digits, as in `\\xff`",
                    );
                };
                bytes.push(byte as u8);
            }
            Some('u') => {
                let opened = self.next() == Some('{');
                let digits = self.run(|_, letter| letter.is_ascii_hexdigit());
                let closed = self.next() == Some('}');
                let letter = number_of(&digits, digits.len()).and_then(char::from_u32);
                let (true, true, Some(letter)) = (opened, closed, letter) else {
                    return self.error(
                        place,
                        "`\\u` is followed by a letter's number, as in `\\u{e9}`",
                    );
                };
                bytes.extend(letter.encode_utf8(&mut [0; 4]).bytes());
            }
            _ => return self.error(place, "after `\\` stands one of `\\ \" n r t x u`"),
        }
        Ok(())
    }

    fn hex(&mut self, place: Place) -> Result<Token, TextError> {
        let text = self.text()?;
        let digits: Vec<u8> = text.into_iter().filter(|byte| *byte != b' ').collect();
        let bytes = digits.chunks(2).map(|pair| {
            let pair = std::str::from_utf8(pair).ok()?;
            Some(number_of(pair, 2)? as u8)
        });
        match bytes.collect() {
            Some(bytes) => Ok(Token::Hex(bytes)),
            None => self.error(place, "`x\"..\"` holds two hexadecimal digits a byte"),
        }
    }
}

/// A number or a time: within a time, after its `T`, colons belong to it too.
fn in_number(word: &str, letter: char) -> bool {
    letter.is_ascii_alphanumeric()
        || matches!(letter, '_' | '.' | '+' | '-')
        || letter == ':' && word.contains('T')
}

fn number_of(digits: &str, length: usize) -> Option<u32> {
    let plain = digits.len() == length && digits.bytes().all(|digit| digit.is_ascii_hexdigit());
    plain
        .then(|| u32::from_str_radix(digits, 16).ok())
        .flatten()
}

#[cfg(test)]
mod tests {
    use super::*;

    fn tokens(text: &str) -> Vec<Token> {
        lex(text)
            .unwrap()
            .into_iter()
            .map(|(token, _)| token)
            .collect()
    }

    #[test]
    fn tokens_of_each_kind() {
        let word = |text: &str| Token::Word(text.to_string());
        let mark = Token::Mark;
        assert_eq!(
            tokens("é-1 @2: \"a\\x00\\u{e9}\" x\"00 fF\" -1.5e-3, # rest\n2020-01-01T00:00:00Z]"),
            vec![
                word("é-1"),
                mark('@'),
                word("2"),
                mark(':'),
                Token::Text(b"a\x00\xc3\xa9".to_vec()),
                Token::Hex(vec![0, 255]),
                word("-1.5e-3"),
                mark(','),
                Token::Line,
                word("2020-01-01T00:00:00Z"),
                mark(']'),
                Token::End,
            ]
        );
    }

    #[test]
    fn errors_have_line_and_column() {
        for (text, line, column) in [
            ("a\n  \"b", 2, 3),
            ("\"\\q\"", 1, 2),
            ("\"\\x0g\"", 1, 2),
            ("\"\\u{d800}\"", 1, 2),
            ("x\"0\"", 1, 1),
            ("ab ?", 1, 4),
        ] {
            let error = lex(text).unwrap_err();
            assert_eq!(
                error.place,
                Place { line, column },
                "{text}: {}",
                error.message
            );
        }
    }
}
