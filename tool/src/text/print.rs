//! Trees to text that is read back to the same trees.

use super::parse_layout::type_name;
use super::quote::{name_text, quoted};
use crate::calendar;
use crate::form::{Column, Default, Layout, Leaf, Table, Type, Value};
use crate::number;

/// A line, and what stands beside it as a comment.
#[derive(Clone, Debug, Default, PartialEq, Eq)]
pub struct Line {
    pub text: String,
    pub comment: String,
}

impl Line {
    fn new(text: impl Into<String>) -> Line {
        Line {
            text: text.into(),
            comment: String::new(),
        }
    }
}

/// Lines with their comments below each other.
pub fn aligned(lines: &[Line]) -> String {
    let commented = lines.iter().filter(|line| !line.comment.is_empty());
    let width = commented
        .map(|line| line.text.chars().count())
        .filter(|width| *width <= 60)
        .max()
        .unwrap_or(0);
    let mut text = String::new();
    for line in lines {
        match line.comment.is_empty() {
            true => text.push_str(&line.text),
            false => text.push_str(&format!("{:width$}  # {}", line.text, line.comment)),
        }
        text.push('\n');
    }
    text
}

pub fn layout_text(layout: &Layout) -> String {
    let mut head = Line::new(format!("layout version {}", layout.version));
    let by = if layout.by_number() { "number" } else { "name" };
    head.comment = format!("columns by {by}, counted from 0");
    let mut lines = vec![head];
    for (index, column) in layout.columns.iter().enumerate() {
        let first = lines.len();
        column_lines(column, layout.by_number(), 0, &mut lines);
        lines[first].comment = index.to_string();
    }
    aligned(&lines)
}

/// A column or field, its fields each on a line of its own.
fn column_lines(column: &Column, by_number: bool, depth: usize, lines: &mut Vec<Line>) {
    let head = column_head(column, by_number);
    let Some((before, fields)) = open_struct(&column.of, by_number) else {
        lines.push(Line::new(format!(
            "{}{head}{}",
            indent(depth),
            of_text(&column.of, by_number)
        )));
        return;
    };
    lines.push(Line::new(format!(
        "{}{head}{before}struct {{",
        indent(depth)
    )));
    for field in fields {
        column_lines(field, by_number, depth + 1, lines);
    }
    lines.push(Line::new(format!("{}}}", indent(depth))));
}

/// The struct with fields that ends a type, and what stands before it.
fn open_struct(of: &Type, by_number: bool) -> Option<(String, &[Column])> {
    match of {
        Type::Struct(fields) if !fields.is_empty() => Some((String::new(), fields)),
        Type::List(element) | Type::Array(_, element) => {
            let (before, fields) = open_struct(&element.of, by_number)?;
            Some((format!("{}{before}", row_head(of, by_number)), fields))
        }
        _ => None,
    }
}

fn indent(depth: usize) -> String {
    "    ".repeat(depth)
}

fn column_head(column: &Column, by_number: bool) -> String {
    match by_number {
        true => {
            let required = if column.required { " required" } else { "" };
            format!("{} @{}{required}: ", name_text(&column.name), column.id)
        }
        false => format!("{}: ", name_text(&column.name)),
    }
}

/// What stands before the type of an element.
fn row_head(of: &Type, by_number: bool) -> String {
    let head = match of {
        Type::Array(width, _) => format!("array {width} of "),
        _ => "list of ".to_string(),
    };
    match by_number {
        true => format!("{head}{}", column_head(&of.inside()[0], true)),
        false => head,
    }
}

/// A type on one line, without ids.
pub fn type_text(of: &Type) -> String {
    of_text(of, false)
}

/// A type in few words: of a struct with many fields, or with others inside, only how many there are.
pub fn brief_type(of: &Type) -> String {
    let leaf = |field: &Column| matches!(field.of, Type::Leaf(_));
    match of {
        Type::Struct(fields) if fields.len() > 4 || !fields.iter().all(leaf) => {
            let count = fields.len();
            format!(
                "struct of {count} field{}",
                if count == 1 { "" } else { "s" }
            )
        }
        Type::List(element) | Type::Array(_, element) => {
            format!("{}{}", row_head(of, false), brief_type(&element.of))
        }
        of => type_text(of),
    }
}

fn of_text(of: &Type, by_number: bool) -> String {
    match of {
        Type::Leaf(leaf) => leaf_text(leaf),
        Type::Struct(fields) => {
            let field = |field: &Column| {
                format!(
                    "{}{}",
                    column_head(field, by_number),
                    of_text(&field.of, by_number)
                )
            };
            let fields: Vec<String> = fields.iter().map(field).collect();
            format!("struct {{{}}}", fields.join(", "))
        }
        Type::List(element) | Type::Array(_, element) => {
            format!(
                "{}{}",
                row_head(of, by_number),
                of_text(&element.of, by_number)
            )
        }
    }
}

fn leaf_text(leaf: &Leaf) -> String {
    let name = type_name(leaf.code());
    match leaf {
        Leaf::Datetime { unit, zone } if zone.is_empty() => format!("{name} {}", unit.name()),
        Leaf::Datetime { unit, zone } => format!("{name} {} {}", unit.name(), quoted(zone)),
        Leaf::Decimal { precision, scale } => format!("{name}({precision},{scale})"),
        _ => name.to_string(),
    }
}

pub fn table_text(table: &Table) -> String {
    let mut lines = vec![Line::new(format!("defaults version {}", table.version))];
    for entry in &table.entries {
        let owner = entry
            .owner
            .map_or(String::new(), |owner| format!("owner {owner} "));
        let head = format!("{owner}@{} ", entry.id);
        match &entry.default {
            Default::Initial(leaf, value) => {
                let head = format!("{head}initial {}: ", leaf_text(leaf));
                lines.extend(value_lines(&head, value, &Type::Leaf(leaf.clone()), 0));
            }
            Default::Loaded(leaf, values) => {
                let head = format!("{head}partition {}: ", leaf_text(leaf));
                let of = Type::List(Box::new(Column::bare(Type::Leaf(leaf.clone()))));
                lines.extend(value_lines(&head, &Value::Row(values.clone()), &of, 0));
            }
            Default::Failed => lines.push(Line::new(format!("{head}partition failed"))),
        }
    }
    aligned(&lines)
}

pub fn record_text(values: &[Value], layout: &Layout) -> String {
    let mut lines = vec![Line::new("record")];
    for (value, column) in values.iter().zip(&layout.columns) {
        let head = format!("{}: ", name_text(&column.name));
        lines.extend(value_lines(&head, value, &column.of, 0));
    }
    aligned(&lines)
}

/// The widest row of values that stands on one line.
const WIDEST: usize = 100;

/// A value after what stands before it. A row is on one line where that is not too wide and nothing needs a comment.
pub fn value_lines(head: &str, value: &Value, of: &Type, depth: usize) -> Vec<Line> {
    let line = Line {
        text: format!("{}{head}{}", indent(depth), value_text(value, of)),
        comment: beside(value, of),
    };
    let Value::Row(row) = value else {
        return vec![line];
    };
    if !has_comment(value, of) && line.text.chars().count() <= WIDEST {
        return vec![line];
    }
    let (open, close) = brackets(of);
    let mut lines = vec![Line::new(format!("{}{head}{open}", indent(depth)))];
    for (value, column) in members(row, of) {
        let head = member_head(column, of);
        lines.extend(value_lines(&head, value, &column.of, depth + 1));
    }
    lines.push(Line::new(format!("{}{close}", indent(depth))));
    lines
}

/// The members of a row with their columns.
fn members<'a>(row: &'a [Value], of: &'a Type) -> impl Iterator<Item = (&'a Value, &'a Column)> {
    let columns = of.inside();
    row.iter().enumerate().filter_map(move |(index, value)| {
        let column = if let Type::Struct(_) = of {
            columns.get(index)
        } else {
            columns.first()
        };
        Some((value, column?))
    })
}

fn member_head(column: &Column, of: &Type) -> String {
    match of {
        Type::Struct(_) => format!("{}: ", name_text(&column.name)),
        _ => String::new(),
    }
}

fn brackets(of: &Type) -> (char, char) {
    match of {
        Type::Struct(_) => ('{', '}'),
        _ => ('[', ']'),
    }
}

fn has_comment(value: &Value, of: &Type) -> bool {
    match value {
        Value::Row(row) => members(row, of).any(|(value, column)| has_comment(value, &column.of)),
        _ => !beside(value, of).is_empty(),
    }
}

/// What stands beside a value: the count that a calendar time is.
fn beside(value: &Value, of: &Type) -> String {
    match (value, of) {
        (Value::Number(days), Type::Leaf(Leaf::Date)) => format!("day {days}"),
        (Value::Number(count), Type::Leaf(Leaf::Datetime { unit, .. })) => {
            format!("{count} {}", unit.name())
        }
        _ => String::new(),
    }
}

/// A value on one line.
pub fn value_text(value: &Value, of: &Type) -> String {
    match (value, of) {
        (Value::Null, _) => "null".to_string(),
        (Value::Boolean(value), _) => value.to_string(),
        (Value::Number(number), Type::Leaf(leaf)) => number_text(*number, leaf),
        (Value::Number(number), _) => number.to_string(),
        (Value::Bits(bits), Type::Leaf(Leaf::Float(width))) => number::float_text(*bits, *width),
        (Value::Bits(bits), _) => format!("bits({bits:#x})"),
        (Value::Text(bytes), Type::Leaf(Leaf::Binary)) => format!("x\"{}\"", hex(bytes)),
        (Value::Text(bytes), _) => quoted(bytes),
        (Value::Row(row), of) => {
            let (open, close) = brackets(of);
            let member = |(value, column): (&Value, &Column)| {
                format!(
                    "{}{}",
                    member_head(column, of),
                    value_text(value, &column.of)
                )
            };
            let members: Vec<String> = members(row, of).map(member).collect();
            format!("{open}{}{close}", members.join(", "))
        }
    }
}

fn number_text(number: i128, leaf: &Leaf) -> String {
    match leaf {
        Leaf::Date => calendar::date_text(number as i64),
        Leaf::Datetime { unit, zone } => {
            let zone = if zone.is_empty() { "" } else { "Z" };
            format!("{}{zone}", calendar::time_text(number as i64, *unit))
        }
        Leaf::Decimal { scale, .. } => number::decimal_text(number, *scale),
        _ => number.to_string(),
    }
}

/// Two digits a byte.
pub fn hex(bytes: &[u8]) -> String {
    bytes.iter().map(|byte| format!("{byte:02x}")).collect()
}
