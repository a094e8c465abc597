//! Records, and values wherever they stand.

use super::lex::{Place, Token};
use super::parse::{Kind, Parsed, Parser, Places};
use super::quote::name_text;
use crate::calendar;
use crate::form::{Column, Layout, Leaf, Type, Value};
use crate::number;

/// The values of a record, one for each column of its layout.
pub fn parse_record(text: &[u8], layout: &Layout) -> Parsed<(Vec<Value>, Places)> {
    let mut parser = Parser::new(text, Kind::Record)?;
    let place = parser.place();
    let values = row(&mut parser, &layout.columns, None, place)?;
    parser.finish(values)
}

/// `name: value` for each column, in any order; of columns with one name the first comes first.
fn row(
    parser: &mut Parser,
    columns: &[Column],
    close: Option<char>,
    start: Place,
) -> Parsed<Vec<Value>> {
    let mut values: Vec<Option<Value>> = vec![None; columns.len()];
    parser.parts(close, |parser, _| {
        let index = next_of_name(parser, columns, &values)?;
        parser.mark(':')?;
        parser.moved(index);
        values[index] = Some(value(parser, &columns[index].of)?);
        Ok(())
    })?;
    let missing = values.iter().position(Option::is_none);
    let Some(index) = missing else {
        return Ok(values.into_iter().flatten().collect());
    };
    let name = name_text(&columns[index].name);
    parser.error(
        start,
        format!("column {name} has no value; where there is none, write `{name}: null`"),
    )
}

/// A name, and the first column that has it and no value yet.
fn next_of_name(
    parser: &mut Parser,
    columns: &[Column],
    values: &[Option<Value>],
) -> Parsed<usize> {
    let place = parser.place();
    let name = parser.name("a column's name")?;
    let named = || (0..columns.len()).filter(|index| columns[*index].name == name);
    let written = name_text(&name);
    match named().find(|index| values[*index].is_none()) {
        Some(index) => Ok(index),
        None if named().next().is_some() => {
            parser.error(place, format!("column {written} has its value already"))
        }
        None => parser.error(
            place,
            format!("there is no column {written}{}", known(columns)),
        ),
    }
}

fn known(columns: &[Column]) -> String {
    let names: Vec<String> = columns
        .iter()
        .take(8)
        .map(|column| name_text(&column.name))
        .collect();
    let more = if columns.len() > names.len() {
        ", .."
    } else {
        ""
    };
    match names.is_empty() {
        true => ", nor any other".to_string(),
        false => format!(", but {}{more}", names.join(", ")),
    }
}

fn value(parser: &mut Parser, of: &Type) -> Parsed<Value> {
    if let Type::Leaf(leaf) = of {
        return leaf_value(parser, leaf);
    }
    let start = parser.place();
    if parser.is_word("null") {
        parser.next();
        return Ok(Value::Null);
    }
    if let Type::Struct(fields) = of {
        parser.mark('{')?;
        return Ok(Value::Row(row(parser, fields, Some('}'), start)?));
    }
    parser.mark('[')?;
    let mut values = Vec::new();
    parser.parts(Some(']'), |parser, _| {
        values.push(value(parser, &of.inside()[0].of)?);
        Ok(())
    })?;
    match of {
        Type::Array(width, _) if values.len() != *width as usize => parser.error(
            start,
            format!("an array of {width} elements, not {}", values.len()),
        ),
        _ => Ok(Value::Row(values)),
    }
}

pub fn leaf_value(parser: &mut Parser, leaf: &Leaf) -> Parsed<Value> {
    let place = parser.place();
    if parser.is_word("null") {
        parser.next();
        return Ok(Value::Null);
    }
    let said = |result: Result<i128, String>| result.map(Value::Number);
    let result = match leaf {
        Leaf::Null => return parser.wrong("`null`"),
        Leaf::Boolean => boolean(&parser.any_word("`true` or `false`")?),
        Leaf::Int(width) => said(integer(parser, *width, true)?),
        Leaf::Uint(width) => said(integer(parser, *width, false)?),
        Leaf::Float(width) => float(parser, *width)?.map(Value::Bits),
        Leaf::Date => said(date(&parser.any_word("a date")?)),
        Leaf::Datetime { unit, zone } => {
            let word = parser.any_word("a date-time")?;
            said(match number::whole(&word) {
                Some(count) => fits(count, 8, true, &word),
                None => calendar::time_count(&word, *unit, !zone.is_empty()).map(i128::from),
            })
        }
        Leaf::Decimal { scale, .. } => {
            let word = parser.any_word("a decimal number")?;
            said(
                number::decimal_number(&word, *scale)
                    .and_then(|number| fits(number, 8, true, &word)),
            )
        }
        Leaf::String | Leaf::Category | Leaf::Binary => return text(parser, leaf),
    };
    result.or_else(|message| parser.error(place, message))
}

fn text(parser: &mut Parser, leaf: &Leaf) -> Parsed<Value> {
    match parser.peek() {
        Token::Text(bytes) | Token::Hex(bytes) => {
            let bytes = bytes.clone();
            parser.next();
            Ok(Value::Text(bytes))
        }
        _ if *leaf == Leaf::Binary => parser.wrong("bytes, as x\"00ff\", or `null`"),
        _ => parser.wrong("a text between quotes, or `null`"),
    }
}

fn boolean(word: &str) -> Result<Value, String> {
    match word {
        "true" => Ok(Value::Boolean(true)),
        "false" => Ok(Value::Boolean(false)),
        _ => Err(format!("expected `true` or `false`, found `{word}`")),
    }
}

fn integer(parser: &mut Parser, width: u8, signed: bool) -> Parsed<Result<i128, String>> {
    let word = parser.any_word("a whole number")?;
    Ok(match number::whole(&word) {
        Some(number) => fits(number, width, signed, &word),
        None => Err(format!("`{word}` is no whole number")),
    })
}

/// A number that so many bytes hold.
fn fits(number: i128, width: u8, signed: bool, word: &str) -> Result<i128, String> {
    let bits = u32::from(width) * 8;
    let (least, most) = match signed {
        true => (-(1i128 << (bits - 1)), (1i128 << (bits - 1)) - 1),
        false => (0, (1i128 << bits) - 1),
    };
    match (least..=most).contains(&number) {
        true => Ok(number),
        false => Err(format!("`{word}` is not within {least} to {most}")),
    }
}

/// A number, `inf`, `nan`, or `bits(0x7e01)`.
fn float(parser: &mut Parser, width: u8) -> Parsed<Result<u64, String>> {
    let word = parser.any_word("a number")?;
    if word != "bits" {
        return Ok(number::float_bits(&word, width));
    }
    parser.mark('(')?;
    let most = u64::MAX >> (64 - 8 * u32::from(width));
    let bits = parser.number(most, "a float's bits")?;
    parser.mark(')')?;
    Ok(Ok(bits))
}

fn date(word: &str) -> Result<i128, String> {
    match number::whole(word) {
        Some(days) => fits(days, 4, true, word),
        None => fits(i128::from(calendar::date_days(word)?), 4, true, word),
    }
}
