//! What is written for programs; docs/TEXT.md says what stands where.

use crate::form::{
    self, Cast, Column, Default, Entry, Layout, Leaf, Plan, Selector, Table, Type, Value,
};
use crate::text::{type_name, value_text};
use std::fmt::{self, Write};

#[derive(Clone, Debug, PartialEq, Eq)]
pub enum Json {
    Null,
    Truth(bool),
    Number(i128),
    Text(String),
    List(Vec<Json>),
    Object(Vec<(&'static str, Json)>),
}

impl fmt::Display for Json {
    fn fmt(&self, f: &mut fmt::Formatter<'_>) -> fmt::Result {
        match self {
            Json::Null => f.write_str("null"),
            Json::Truth(value) => write!(f, "{value}"),
            Json::Number(number) => write!(f, "{number}"),
            Json::Text(text) => string(f, text),
            Json::List(list) => {
                f.write_char('[')?;
                for (index, item) in list.iter().enumerate() {
                    write!(f, "{}{item}", if index == 0 { "" } else { "," })?;
                }
                f.write_char(']')
            }
            Json::Object(fields) => {
                f.write_char('{')?;
                for (index, (name, value)) in fields.iter().enumerate() {
                    write!(f, "{}\"{name}\":{value}", if index == 0 { "" } else { "," })?;
                }
                f.write_char('}')
            }
        }
    }
}

fn string(f: &mut fmt::Formatter<'_>, text: &str) -> fmt::Result {
    f.write_char('"')?;
    for letter in text.chars() {
        match letter {
            '"' => f.write_str("\\\"")?,
            '\\' => f.write_str("\\\\")?,
            '\n' => f.write_str("\\n")?,
            letter if letter.is_control() => write!(f, "\\u{:04x}", u32::from(letter))?,
            letter => f.write_char(letter)?,
        }
    }
    f.write_char('"')
}

impl From<&str> for Json {
    fn from(text: &str) -> Json {
        Json::Text(text.to_string())
    }
}

impl From<String> for Json {
    fn from(text: String) -> Json {
        Json::Text(text)
    }
}

impl From<u32> for Json {
    fn from(number: u32) -> Json {
        Json::Number(i128::from(number))
    }
}

impl From<usize> for Json {
    fn from(number: usize) -> Json {
        Json::Number(number as i128)
    }
}

impl<T: Into<Json>> From<Option<T>> for Json {
    fn from(option: Option<T>) -> Json {
        option.map_or(Json::Null, Into::into)
    }
}

/// A text where the bytes are one, else `{"hex": ".."}`.
pub fn bytes_json(bytes: &[u8]) -> Json {
    match std::str::from_utf8(bytes) {
        Ok(text) => text.into(),
        Err(_) => hex_json(bytes),
    }
}

pub fn hex_json(bytes: &[u8]) -> Json {
    Json::Object(vec![("hex", crate::text::hex(bytes).into())])
}

fn list<T>(items: &[T], json: impl Fn(&T) -> Json) -> Json {
    Json::List(items.iter().map(json).collect())
}

pub fn layout_json(layout: &Layout) -> Json {
    Json::Object(vec![
        ("kind", "layout".into()),
        ("version", u32::from(layout.version).into()),
        (
            "columns",
            list(&layout.columns, |column| {
                column_json(column, layout.version)
            }),
        ),
    ])
}

/// By the layout's version.
fn column_json(column: &Column, version: u16) -> Json {
    let mut fields = vec![("name", bytes_json(&column.name))];
    if form::by_number(version) {
        fields.push(("id", column.id.into()));
    }
    if form::marked(version) {
        fields.push(("required", Json::Truth(column.required)));
    }
    fields.push(("type", of_json(&column.of, version)));
    Json::Object(fields)
}

/// A type without ids and marks.
pub fn type_json(of: &Type) -> Json {
    of_json(of, 1)
}

fn of_json(of: &Type, version: u16) -> Json {
    let element = |column: &Column| match form::by_number(version) {
        true => column_json(column, version),
        false => of_json(&column.of, version),
    };
    Json::Object(match of {
        Type::Leaf(leaf) => leaf_fields(leaf),
        Type::Struct(fields) => {
            vec![
                ("type", "struct".into()),
                ("fields", list(fields, |field| column_json(field, version))),
            ]
        }
        Type::List(inner) => vec![("type", "list".into()), ("element", element(inner))],
        Type::Array(width, inner) => {
            vec![
                ("type", "array".into()),
                ("width", (*width).into()),
                ("element", element(inner)),
            ]
        }
    })
}

fn leaf_fields(leaf: &Leaf) -> Vec<(&'static str, Json)> {
    let mut fields = vec![("type", type_name(leaf.code()).into())];
    match leaf {
        Leaf::Datetime { unit, zone } => {
            fields.push(("unit", unit.name().into()));
            let zone = if zone.is_empty() {
                Json::Null
            } else {
                bytes_json(zone)
            };
            fields.push(("zone", zone));
        }
        Leaf::Decimal { precision, scale } => {
            fields.push(("precision", u32::from(*precision).into()));
            fields.push(("scale", u32::from(*scale).into()));
        }
        _ => {}
    }
    fields
}

/// Numbers of 64 bits, decimals, dates and date-times are texts; a float has its text and its bits.
pub fn value_json(value: &Value, of: &Type) -> Json {
    let text = || Json::from(value_text(value, of));
    match (value, of) {
        (Value::Null, _) => Json::Null,
        (Value::Boolean(value), _) => Json::Truth(*value),
        (Value::Number(number), Type::Leaf(Leaf::Int(1..=4) | Leaf::Uint(1..=4))) => {
            Json::Number(*number)
        }
        (Value::Number(days), Type::Leaf(Leaf::Date)) => {
            Json::Object(vec![("date", text()), ("days", Json::Number(*days))])
        }
        (Value::Number(count), Type::Leaf(Leaf::Datetime { .. })) => {
            Json::Object(vec![("time", text()), ("count", count.to_string().into())])
        }
        (Value::Number(_), _) => text(),
        (Value::Bits(bits), _) => Json::Object(vec![
            ("float", text()),
            ("bits", format!("{bits:#x}").into()),
        ]),
        (Value::Text(bytes), Type::Leaf(Leaf::Binary)) => hex_json(bytes),
        (Value::Text(bytes), _) => bytes_json(bytes),
        (Value::Row(row), Type::Struct(fields)) => row_json(row, fields),
        (Value::Row(row), of) => list(row, |value| value_json(value, &of.inside()[0].of)),
    }
}

fn row_json(row: &[Value], columns: &[Column]) -> Json {
    let member = |(value, column): (&Value, &Column)| {
        Json::Object(vec![
            ("name", bytes_json(&column.name)),
            ("value", value_json(value, &column.of)),
        ])
    };
    Json::List(row.iter().zip(columns).map(member).collect())
}

pub fn record_json(values: &[Value], layout: &Layout) -> Json {
    let columns = row_json(values, &layout.columns);
    Json::Object(vec![("kind", "record".into()), ("columns", columns)])
}

pub fn table_json(table: &Table) -> Json {
    Json::Object(vec![
        ("kind", "defaults".into()),
        ("version", u32::from(table.version).into()),
        ("entries", list(&table.entries, entry_json)),
    ])
}

fn entry_json(entry: &Entry) -> Json {
    let owner = entry.owner.map(|owner| ("owner", u32::from(owner).into()));
    let mut fields: Vec<_> = owner.into_iter().chain([("id", entry.id.into())]).collect();
    match &entry.default {
        Default::Initial(leaf, value) => {
            let of = Type::Leaf(leaf.clone());
            fields.extend([("default", "initial".into()), ("type", type_json(&of))]);
            fields.push(("value", value_json(value, &of)));
        }
        Default::Loaded(leaf, values) => {
            let of = Type::Leaf(leaf.clone());
            fields.extend([
                ("default", "partition".into()),
                ("loaded", Json::Truth(true)),
            ]);
            fields.push(("type", type_json(&of)));
            fields.push(("values", list(values, |value| value_json(value, &of))));
        }
        Default::Failed => fields.extend([
            ("default", "partition".into()),
            ("loaded", Json::Truth(false)),
        ]),
    }
    Json::Object(fields)
}

pub fn plan_json(plan: &Plan) -> Vec<(&'static str, Json)> {
    vec![
        ("kind", "plan".into()),
        ("version", u32::from(plan.version).into()),
        ("selectors", list(&plan.selectors, selector_json)),
    ]
}

fn selector_json(selector: &Selector) -> Json {
    let mut fields = match selector {
        Selector::Position(position) => vec![("position", u32::from(*position).into())],
        Selector::Constant(name, of, value) => vec![
            ("constant", value_json(value, of)),
            ("name", bytes_json(name)),
            ("type", type_json(of)),
        ],
        Selector::Cast(_, of, cast) => {
            vec![("cast", type_json(of)), ("option", cast_json(*cast))]
        }
        Selector::Rename(_, name) => vec![("rename", bytes_json(name))],
        Selector::Struct(_, fields) => vec![("struct", list(fields, selector_json))],
        Selector::List(_, element) => vec![("list", selector_json(element))],
        Selector::Array(_, element) => vec![("array", selector_json(element))],
    };
    fields.extend(selector.input().map(|input| ("of", selector_json(input))));
    Json::Object(fields)
}

pub fn cast_json(cast: Cast) -> Json {
    cast.name().into()
}
