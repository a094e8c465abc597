//! Layouts, and types wherever they stand.

use super::cursor::{Cause, Cursor, Fault, File, Read, Step};
use crate::form::{self, Column, Layout, Leaf, Type, Unit};
use crate::text::name_text;
use std::collections::HashSet;

const DEPTH_LIMIT: usize = 16;
const PRECISION_LIMIT: u8 = 18;

pub fn read_layout(bytes: &[u8]) -> Result<Layout, Fault> {
    let mut cursor = Cursor::new(File::Layout, bytes);
    let version = cursor.start(form::LAYOUT_VERSIONS)?;
    let columns = Types { version }.columns(&mut cursor, 1, true)?;
    cursor.end("the last column")?;
    Ok(Layout { version, columns })
}

/// How types are read: by the version of the layout, types of plans as those of version 1.
pub struct Types {
    version: u16,
}

impl Types {
    /// Of plans, and of tables.
    pub const PLAIN: Types = Types { version: 1 };

    fn columns(&self, cursor: &mut Cursor, depth: usize, top: bool) -> Read<Vec<Column>> {
        let what = if top { "columns" } else { "fields" };
        let count = cursor.u16(&format!("the count of {what}"))?;
        let mut seen = HashSet::new();
        let mut columns = Vec::new();
        for index in 0..usize::from(count) {
            let column = cursor.within(Step::Column(index, None), |cursor| {
                let from = cursor.at;
                let (column, named) = self.column(cursor, index, depth)?;
                match self.label(&column, top) {
                    Some(label) if !seen.insert(label.clone()) => {
                        let expected = format!("no second one of the {label} among these {what}");
                        Err(cursor.fault_at(Cause::Repeated, from, named, expected))
                    }
                    _ => Ok(column),
                }
            })?;
            columns.push(column);
        }
        Ok(columns)
    }

    /// What no sibling may have too.
    fn label(&self, column: &Column, top: bool) -> Option<String> {
        match (form::by_number(self.version), top) {
            (true, _) => Some(format!("id {}", column.id)),
            (false, true) => Some(format!("name {}", name_text(&column.name))),
            (false, false) => None,
        }
    }

    /// A column, and where its name and id end.
    fn column(&self, cursor: &mut Cursor, index: usize, depth: usize) -> Read<(Column, usize)> {
        let name = cursor.text("the column's name")?;
        cursor.know(Step::Column(index, Some(name.clone())));
        let id = self.id(cursor)?;
        let named = cursor.at;
        let required = self.mark(cursor)?;
        let of = self.of(cursor, depth)?;
        let column = Column {
            name,
            id,
            required,
            of,
        };
        Ok((column, named))
    }

    fn id(&self, cursor: &mut Cursor) -> Read<u32> {
        match form::by_number(self.version) {
            true => cursor.u32("the column's id"),
            false => Ok(0),
        }
    }

    fn mark(&self, cursor: &mut Cursor) -> Read<bool> {
        if !form::marked(self.version) {
            return Ok(false);
        }
        let from = cursor.at;
        match cursor.u8("the required mark")? {
            mark @ (0 | 1) => Ok(mark == 1),
            mark => {
                let expected = format!("a required mark, 0 (optional) or 1 (required), not {mark}");
                Err(cursor.fault(Cause::Code, from, expected))
            }
        }
    }

    fn element(&self, cursor: &mut Cursor, depth: usize) -> Read<Box<Column>> {
        cursor.within(Step::Element(None), |cursor| {
            if !form::by_number(self.version) {
                return Ok(Box::new(Column::bare(self.of(cursor, depth)?)));
            }
            let name = cursor.text("the element's name")?;
            let id = self.id(cursor)?;
            let required = self.mark(cursor)?;
            let of = self.of(cursor, depth)?;
            Ok(Box::new(Column {
                name,
                id,
                required,
                of,
            }))
        })
    }

    pub fn of(&self, cursor: &mut Cursor, depth: usize) -> Read<Type> {
        if depth > DEPTH_LIMIT {
            let (at, expected) = (cursor.at, "a type no deeper than 16");
            return Err(cursor.fault_at(Cause::TooDeep, at, at, expected.to_string()));
        }
        let from = cursor.at;
        Ok(match cursor.u8("a type")? {
            form::STRUCT => Type::Struct(self.columns(cursor, depth + 1, false)?),
            form::LIST => Type::List(self.element(cursor, depth + 1)?),
            form::ARRAY => {
                let width = cursor.u32("the array's width")?;
                Type::Array(width, self.element(cursor, depth + 1)?)
            }
            code => Type::Leaf(leaf(cursor, code, from)?),
        })
    }
}

/// A type that must be a leaf.
pub fn leaf_type(cursor: &mut Cursor) -> Read<Leaf> {
    let from = cursor.at;
    let code = cursor.u8("a type")?;
    if let form::STRUCT | form::LIST | form::ARRAY = code {
        let expected = format!("the type of a leaf, not code {code}");
        return Err(cursor.fault(Cause::Code, from, expected));
    }
    leaf(cursor, code, from)
}

/// What follows a leaf's code, which stands at an offset.
fn leaf(cursor: &mut Cursor, code: u8, from: usize) -> Read<Leaf> {
    match code {
        form::DATETIME => {
            let at = cursor.at;
            let unit = cursor.u8("the date-time's unit")?;
            let Some(unit) = Unit::ALL.get(usize::from(unit)) else {
                let expected = format!("a unit, 0 (ns), 1 (us) or 2 (ms), not {unit}");
                return Err(cursor.fault(Cause::Code, at, expected));
            };
            let zone = cursor.text("the zone")?;
            Ok(Leaf::Datetime { unit: *unit, zone })
        }
        form::DECIMAL => decimal(cursor),
        code => Leaf::plain(code).ok_or_else(|| {
            let expected = format!("a type code, 0 to 21, not {code}");
            cursor.fault(Cause::Code, from, expected)
        }),
    }
}

fn decimal(cursor: &mut Cursor) -> Read<Leaf> {
    let from = cursor.at;
    let precision = cursor.u8("the decimal's precision")?;
    let scale = cursor.u8("the decimal's scale")?;
    if !(1..=PRECISION_LIMIT).contains(&precision) || scale > precision {
        let expected = format!(
            "a precision of 1 to {PRECISION_LIMIT} and a scale up to it, not precision {precision} and scale {scale}"
        );
        return Err(cursor.fault(Cause::DecimalLimits, from, expected));
    }
    Ok(Leaf::Decimal { precision, scale })
}
