//! Layouts and tables of defaults: trees and their bytes, by document 01.

use crate::name::Name;
use crate::number::Kind;
use crate::reader::{Reader, Siblings};
use crate::value::Value;

/// The most bytes of a layout or a table of defaults.
pub const LAYOUT_LIMIT: usize = 16_384;
pub const PLAN_LIMIT: usize = 65_536;
pub const RECORD_LIMIT: usize = 16_384;
pub const TEXT_LIMIT: usize = 63;
pub const DEPTH_LIMIT: u32 = 16;
/// The most digits of a decimal.
pub const PRECISION_LIMIT: u8 = 18;

#[derive(Clone, Debug, PartialEq, Eq)]
pub struct Column {
    pub name: Name,
    /// 0 in version 1.
    pub id: u32,
    /// Only version 3 has such.
    pub required: bool,
    pub type_: Type,
}

impl Column {
    /// A name and a type, as version 1 has them.
    pub fn of(name: &[u8], type_: Type) -> Column {
        Column {
            name: name.into(),
            id: 0,
            required: false,
            type_,
        }
    }
}

#[derive(Clone, Debug, PartialEq, Eq)]
pub enum Type {
    Leaf(Leaf),
    Struct(Vec<Column>),
    /// The element's name is empty in version 1.
    List(Box<Column>),
    Array(u32, Box<Column>),
}

#[derive(Clone, Debug, PartialEq, Eq)]
pub enum Leaf {
    /// Any leaf but a date-time and a decimal, by its code.
    Plain(u8),
    Datetime {
        unit: u8,
        zone: Vec<u8>,
    },
    Decimal {
        precision: u8,
        scale: u8,
    },
}

#[derive(Clone, Debug, PartialEq, Eq)]
pub struct Layout {
    pub version: u8,
    pub columns: Vec<Column>,
}

/// A leaf's value: none for null, else the bytes after the presence byte.
pub type LeafValue = Option<Vec<u8>>;

#[derive(Clone, Debug, PartialEq, Eq)]
pub struct Entry {
    pub id: u32,
    pub default: Default,
}

#[derive(Clone, Debug, PartialEq, Eq)]
pub enum Default {
    Initial(Leaf, LeafValue),
    Failed,
    Loaded(Leaf, Vec<LeafValue>),
}

/// The number of a refusal, without its place.
pub type Fault = u32;

/// The length of a present value's bytes, unless they begin with it.
pub fn fixed_width(leaf: &Leaf) -> Option<usize> {
    Kind::of(leaf).map(Kind::width)
}

/// A reader of what follows a layout's mark and version.
pub(crate) fn layout_head(bytes: &[u8]) -> Result<Reader<'_>, Fault> {
    if bytes.len() > LAYOUT_LIMIT {
        return Err(4);
    }
    match bytes {
        [b'L', b'A', b'Y', version @ 1..=3, 0, rest @ ..] => Ok(Reader::new(rest, *version)),
        _ => Err(1),
    }
}

pub fn read_layout(bytes: &[u8]) -> Result<Layout, Fault> {
    let mut reader = layout_head(bytes)?;
    let version = reader.version;
    let columns = reader.columns(1, true)?;
    reader.end(Layout { version, columns })
}

/// A type in version 1 form at the start of the bytes, and what follows it.
pub fn read_type(bytes: &[u8]) -> Result<(Type, &[u8]), Fault> {
    let mut reader = Reader::new(bytes, 1);
    let type_ = reader.type_(1)?;
    Ok((type_, reader.rest))
}

/// In a table the faults of decimals, 50 and 52, are 3.
fn table_fault(fault: Fault) -> Fault {
    match fault {
        50 | 52 => 3,
        fault => fault,
    }
}

impl Reader<'_> {
    /// A type that must be a leaf.
    fn leaf_type(&mut self) -> Result<Leaf, Fault> {
        match self.u8()? {
            code @ (0..=17 | 21) => self.leaf(code).map_err(table_fault),
            _ => Err(3),
        }
    }

    fn table_value(&mut self, leaf: &Leaf) -> Result<LeafValue, Fault> {
        let before = self.rest;
        let value = self.leaf_value(leaf).map_err(table_fault)?;
        let taken = &before[1..before.len() - self.rest.len()];
        Ok((value != Value::Null).then(|| taken.to_vec()))
    }

    fn entry(&mut self) -> Result<Entry, Fault> {
        let id = self.u32()?;
        let default = match self.u8()? {
            0 => {
                let leaf = self.leaf_type()?;
                let value = self.table_value(&leaf)?;
                Default::Initial(leaf, value)
            }
            1 => match self.u8()? {
                0 => {
                    let leaf = self.leaf_type()?;
                    let count = self.u16()?;
                    let values: Result<_, _> =
                        (0..count).map(|_| self.table_value(&leaf)).collect();
                    Default::Loaded(leaf, values?)
                }
                1 => Default::Failed,
                _ => return Err(3),
            },
            _ => return Err(3),
        };
        Ok(Entry { id, default })
    }
}

/// The entries of a table that count for an owner: in version 1 all.
pub fn read_defaults(bytes: &[u8], owner: u16) -> Result<Vec<Entry>, Fault> {
    if bytes.len() > LAYOUT_LIMIT {
        return Err(4);
    }
    let (version, rest) = match bytes {
        [b'D', b'E', b'F', version @ (1 | 2), 0, rest @ ..] => (*version, rest),
        _ => return Err(1),
    };
    let mut reader = Reader::new(rest, 1);
    let count = reader.u16()?;
    let mut entries = Vec::new();
    let mut seen = Siblings::default();
    for _ in 0..count {
        let whose = match version {
            1 => None,
            _ => Some(reader.u16()?),
        };
        let entry = reader.entry()?;
        let initial = matches!(entry.default, Default::Initial(..));
        if !seen.insert((whose, entry.id, initial)) {
            return Err(5);
        }
        if whose.is_none_or(|whose| whose == owner) {
            entries.push(entry);
        }
    }
    reader.end(entries)
}

pub fn write_layout(layout: &Layout) -> Vec<u8> {
    let mut bytes = b"LAY".to_vec();
    bytes.extend([layout.version, 0]);
    write_columns(&mut bytes, layout.version, &layout.columns);
    bytes
}

fn write_columns(bytes: &mut Vec<u8>, version: u8, columns: &[Column]) {
    bytes.extend((columns.len() as u16).to_le_bytes());
    for column in columns {
        write_column(bytes, version, column);
    }
}

fn write_column(bytes: &mut Vec<u8>, version: u8, column: &Column) {
    write_text(bytes, &column.name);
    if version >= 2 {
        bytes.extend(column.id.to_le_bytes());
    }
    if version >= 3 {
        bytes.push(column.required.into());
    }
    write_type(bytes, version, &column.type_);
}

fn write_element(bytes: &mut Vec<u8>, version: u8, element: &Column) {
    match version {
        1 => write_type(bytes, version, &element.type_),
        _ => write_column(bytes, version, element),
    }
}

pub fn write_type(bytes: &mut Vec<u8>, version: u8, type_: &Type) {
    match type_ {
        Type::Leaf(leaf) => write_leaf(bytes, leaf),
        Type::Struct(columns) => {
            bytes.push(18);
            write_columns(bytes, version, columns);
        }
        Type::List(element) => {
            bytes.push(19);
            write_element(bytes, version, element);
        }
        Type::Array(width, element) => {
            bytes.push(20);
            bytes.extend(width.to_le_bytes());
            write_element(bytes, version, element);
        }
    }
}

fn write_leaf(bytes: &mut Vec<u8>, leaf: &Leaf) {
    match leaf {
        Leaf::Plain(code) => bytes.push(*code),
        Leaf::Datetime { unit, zone } => {
            bytes.extend([14, *unit]);
            write_text(bytes, zone);
        }
        Leaf::Decimal { precision, scale } => bytes.extend([21, *precision, *scale]),
    }
}

pub fn write_text(bytes: &mut Vec<u8>, text: &[u8]) {
    bytes.push(text.len() as u8);
    bytes.extend(text);
}

fn write_leaf_value(bytes: &mut Vec<u8>, value: &LeafValue) {
    bytes.push(value.is_some() as u8);
    bytes.extend(value.iter().flatten());
}

fn write_entry(bytes: &mut Vec<u8>, entry: &Entry) {
    bytes.extend(entry.id.to_le_bytes());
    match &entry.default {
        Default::Initial(leaf, value) => {
            bytes.push(0);
            write_leaf(bytes, leaf);
            write_leaf_value(bytes, value);
        }
        Default::Failed => bytes.extend([1, 1]),
        Default::Loaded(leaf, values) => {
            bytes.extend([1, 0]);
            write_leaf(bytes, leaf);
            bytes.extend((values.len() as u16).to_le_bytes());
            for value in values {
                write_leaf_value(bytes, value);
            }
        }
    }
}

/// A table of version 1.
pub fn write_defaults(entries: &[Entry]) -> Vec<u8> {
    let mut bytes = b"DEF\x01\x00".to_vec();
    bytes.extend((entries.len() as u16).to_le_bytes());
    for entry in entries {
        write_entry(&mut bytes, entry);
    }
    bytes
}

/// A table of version 2: each entry with its owner.
pub fn write_owned(entries: &[(u16, Entry)]) -> Vec<u8> {
    let mut bytes = b"DEF\x02\x00".to_vec();
    bytes.extend((entries.len() as u16).to_le_bytes());
    for (owner, entry) in entries {
        bytes.extend(owner.to_le_bytes());
        write_entry(&mut bytes, entry);
    }
    bytes
}
