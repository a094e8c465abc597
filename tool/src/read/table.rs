//! Tables of defaults.

use super::cursor::{Cause, Cursor, Fault, File, Read, Step};
use super::layout::leaf_type;
use super::value::value;
use crate::form::{self, Default, Entry, Leaf, Table, Type, Value};
use std::collections::HashSet;

pub fn read_table(bytes: &[u8]) -> Result<Table, Fault> {
    let mut cursor = Cursor::new(File::Table, bytes);
    let version = cursor.start(form::TABLE_VERSIONS)?;
    let count = cursor.u16("the count of entries")?;
    let mut seen = HashSet::new();
    let mut entries = Vec::new();
    for index in 0..usize::from(count) {
        let entry = cursor.within(Step::Entry(index, None), |cursor| {
            let from = cursor.at;
            let (entry, kind_read) = entry(cursor, index, form::owned(version))?;
            let initial = matches!(entry.default, Default::Initial(..));
            if seen.insert((entry.owner, entry.id, initial)) {
                return Ok(entry);
            }
            let kind = if initial {
                "initial default"
            } else {
                "partition"
            };
            let expected = format!("one {kind} of an id, not a second of {}", entry.id);
            Err(cursor.fault_at(Cause::Repeated, from, kind_read, expected))
        })?;
        entries.push(entry);
    }
    cursor.end("the last entry")?;
    Ok(Table { version, entries })
}

/// An entry, and where its id and kind end.
fn entry(cursor: &mut Cursor, index: usize, owned: bool) -> Read<(Entry, usize)> {
    let owner = match owned {
        true => Some(cursor.u16("the entry's owner")?),
        false => None,
    };
    let id = cursor.u32("the entry's id")?;
    cursor.know(Step::Entry(index, Some(id)));
    let partition = flag(
        cursor,
        "the entry's kind",
        "a kind, 0 (initial) or 1 (partition)",
    )?;
    let kind_read = cursor.at;
    let default = match partition {
        false => {
            let leaf = leaf_type(cursor)?;
            let value = leaf_value(cursor, &leaf)?;
            Default::Initial(leaf, value)
        }
        true => match flag(
            cursor,
            "the load byte",
            "a load byte, 0 (loaded) or 1 (failed)",
        )? {
            true => Default::Failed,
            false => loaded(cursor)?,
        },
    };
    Ok((Entry { owner, id, default }, kind_read))
}

fn loaded(cursor: &mut Cursor) -> Read<Default> {
    let leaf = leaf_type(cursor)?;
    let count = cursor.u16("the count of values")?;
    let values: Read<Vec<Value>> = (0..usize::from(count))
        .map(|index| cursor.within(Step::Value(index), |cursor| leaf_value(cursor, &leaf)))
        .collect();
    Ok(Default::Loaded(leaf, values?))
}

fn leaf_value(cursor: &mut Cursor, leaf: &Leaf) -> Read<Value> {
    value(cursor, &Type::Leaf(leaf.clone()))
}

/// A byte that is 0 or 1.
fn flag(cursor: &mut Cursor, what: &str, wanted: &str) -> Read<bool> {
    let from = cursor.at;
    match cursor.u8(what)? {
        byte @ (0 | 1) => Ok(byte == 1),
        byte => Err(cursor.fault(Cause::Code, from, format!("{wanted}, not {byte}"))),
    }
}
