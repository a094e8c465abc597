//! Types, values and selectors that many trials use.

use plain::form::{Column, Leaf, Type};
use plain::rules::CastOption::{self, Strict};
use plain::write::{cast, constant, position};

pub const NS: u8 = 0;
pub const US: u8 = 1;
pub const MS: u8 = 2;
/// The last count of milliseconds that nanoseconds hold.
pub const LAST: i64 = 9_223_372_036_854;

pub fn leaf(code: u8) -> Type {
    Type::Leaf(Leaf::Plain(code))
}

pub fn int8() -> Type {
    leaf(2)
}

pub fn time(unit: u8) -> Type {
    let zone = Vec::new();
    Type::Leaf(Leaf::Datetime { unit, zone })
}

pub fn column(name: &str, type_: Type) -> Column {
    Column::of(name.as_bytes(), type_)
}

pub fn list(type_: Type) -> Type {
    Type::List(Box::new(column("", type_)))
}

pub fn array(width: u32, type_: Type) -> Type {
    Type::Array(width, Box::new(column("", type_)))
}

pub fn structure(types: &[Type]) -> Type {
    let fields = types.iter().zip('a'..);
    Type::Struct(
        fields
            .map(|(type_, name)| column(&name.to_string(), type_.clone()))
            .collect(),
    )
}

/// A list of so many levels.
pub fn lists(levels: u32, inner: Type) -> Type {
    (0..levels).fold(inner, |inner, _| list(inner))
}

pub fn count(value: i64) -> Vec<u8> {
    [&[1], value.to_le_bytes().as_slice()].concat()
}

pub fn list_value(values: &[Vec<u8>]) -> Vec<u8> {
    [
        &[1],
        (values.len() as u16).to_le_bytes().as_slice(),
        &values.concat(),
    ]
    .concat()
}

pub fn struct_value(values: &[Vec<u8>]) -> Vec<u8> {
    [&[1], values.concat().as_slice()].concat()
}

pub fn text_value(length: usize) -> Vec<u8> {
    [
        &[1],
        (length as u16).to_le_bytes().as_slice(),
        &vec![b'x'; length],
    ]
    .concat()
}

pub const NULL: [u8; 1] = [0];

/// A strict cast of a constant.
pub fn nanoseconds(milliseconds: i64) -> Vec<u8> {
    let input = constant(b"", &time(MS), &count(milliseconds));
    cast(&input, &time(NS), Strict)
}

/// A cast of the column or element at position 0.
pub fn cast_first(type_: &Type, option: CastOption) -> Vec<u8> {
    cast(&position(0), type_, option)
}

pub fn seven() -> Vec<u8> {
    constant(b"c", &int8(), &[1, 7])
}
