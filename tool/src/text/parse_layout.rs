//! Layouts, and types wherever they stand.

use super::lex::Token;
use super::parse::{Kind, Parsed, Parser, Places};
use crate::form::{self, Column, Layout, Leaf, Type, Unit};
use crate::near::hint;

pub fn parse_layout(text: &[u8]) -> Parsed<(Layout, Places)> {
    let mut parser = Parser::new(text, Kind::Layout)?;
    let version = parser.version(form::LAYOUT_VERSIONS)?;
    let columns = columns(&mut parser, version, None)?;
    parser.finish(Layout { version, columns })
}

fn columns(parser: &mut Parser, version: u16, close: Option<char>) -> Parsed<Vec<Column>> {
    let mut found = Vec::new();
    parser.parts(close, |parser, _| {
        found.push(column(parser, version)?);
        Ok(())
    })?;
    Ok(found)
}

/// `name: type`, in a layout by number `name @id: type`, in version 3 also `name @id required: type`.
fn column(parser: &mut Parser, version: u16) -> Parsed<Column> {
    let name = parser.name("a column's name")?;
    let id = match (form::by_number(version), parser.is_mark('@')) {
        (true, true) => {
            parser.next();
            parser.number(u64::from(u32::MAX), "a field id")? as u32
        }
        (true, false) => return parser.wrong("`@` and the field id"),
        (false, true) => return parser.wrong("`:`, for a layout of version 1 has no ids"),
        (false, false) => 0,
    };
    let required = parser.is_word("required");
    if required && !form::marked(version) {
        return parser.wrong("`:`, for only a layout of version 3 says what is required");
    }
    if required {
        parser.next();
    }
    parser.mark(':')?;
    let of = of(parser, version)?;
    Ok(Column {
        name,
        id,
        required,
        of,
    })
}

fn of(parser: &mut Parser, version: u16) -> Parsed<Type> {
    let place = parser.place();
    let word = parser.any_word("a type")?;
    match word.as_str() {
        "struct" => {
            parser.mark('{')?;
            Ok(Type::Struct(columns(parser, version, Some('}'))?))
        }
        "list" => Ok(Type::List(element(parser, version)?)),
        "array" => {
            let width = parser.number(u64::from(u32::MAX), "the array's width")? as u32;
            Ok(Type::Array(width, element(parser, version)?))
        }
        word => match leaf(parser, word)? {
            Some(leaf) => Ok(Type::Leaf(leaf)),
            None => parser.error(place, format!("`{word}` is no type{}", hint(word, &TYPES))),
        },
    }
}

fn element(parser: &mut Parser, version: u16) -> Parsed<Box<Column>> {
    parser.word("of")?;
    parser.inside(0, |parser| {
        Ok(Box::new(match form::by_number(version) {
            true => column(parser, version)?,
            false => Column::bare(of(parser, version)?),
        }))
    })
}

/// The types by name; the leaves but date-times and decimals stand at their codes.
const TYPES: [&str; 22] = [
    "null",
    "boolean",
    "int8",
    "int16",
    "int32",
    "int64",
    "uint8",
    "uint16",
    "uint32",
    "uint64",
    "float16",
    "float32",
    "float64",
    "date",
    "date-time",
    "string",
    "binary",
    "category",
    "struct",
    "list",
    "array",
    "decimal",
];

pub fn type_name(code: u8) -> &'static str {
    TYPES[usize::from(code)]
}

/// A leaf's type, where a word of its own begins it.
pub fn leaf_type(parser: &mut Parser) -> Parsed<Leaf> {
    let place = parser.place();
    let word = parser.any_word("a leaf's type")?;
    match leaf(parser, &word)? {
        Some(leaf) => Ok(leaf),
        None => parser.error(
            place,
            format!("`{word}` is no leaf's type{}", hint(&word, &TYPES)),
        ),
    }
}

fn leaf(parser: &mut Parser, word: &str) -> Parsed<Option<Leaf>> {
    let Some(code) = TYPES.iter().position(|name| *name == word) else {
        return Ok(None);
    };
    match code as u8 {
        form::DATETIME => Ok(Some(datetime(parser)?)),
        form::DECIMAL => {
            let most = u64::from(u8::MAX);
            parser.mark('(')?;
            let precision = parser.number(most, "a precision")? as u8;
            parser.mark(',')?;
            let scale = parser.number(most, "a scale")? as u8;
            parser.mark(')')?;
            Ok(Some(Leaf::Decimal { precision, scale }))
        }
        code => Ok(Leaf::plain(code)),
    }
}

/// `ms`, or with a zone `ms "Europe/Berlin"`.
fn datetime(parser: &mut Parser) -> Parsed<Leaf> {
    let place = parser.place();
    let word = parser.any_word("a unit, `ns`, `us` or `ms`")?;
    let Some(unit) = Unit::ALL
        .into_iter()
        .find(|unit| unit.name() == word || unit.name() == word.replace('µ', "u"))
    else {
        return parser.error(
            place,
            format!("expected a unit, `ns`, `us` or `ms`, found `{word}`"),
        );
    };
    let zone = match parser.peek() {
        Token::Text(zone) => zone.clone(),
        _ => {
            return Ok(Leaf::Datetime {
                unit,
                zone: Vec::new(),
            });
        }
    };
    parser.next();
    Ok(Leaf::Datetime { unit, zone })
}
