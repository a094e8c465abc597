//! The record due to a build: worked out from the build's arguments and the record, never from the plan.

use crate::form::{Column, Default, Entry, Fault, Layout, RECORD_LIMIT, Type};
use crate::number::{Kind, Overflow};
use crate::value::Value;

/// How fields are paired.
#[derive(Clone, Copy)]
pub enum Pairing<'a> {
    ByName,
    /// With the table of defaults and the source index.
    ByNumber(&'a [Entry], u32),
}

/// The output so far. Past the limit no bytes are kept, but an overflow may still follow.
#[derive(Default)]
struct Output {
    bytes: Vec<u8>,
    full: bool,
    overflow: bool,
}

impl Output {
    fn put(&mut self, bytes: &[u8]) {
        self.full |= self.bytes.len() + bytes.len() > RECORD_LIMIT;
        if !self.full {
            self.bytes.extend(bytes);
        }
    }

    fn null(&mut self) {
        self.put(&[0]);
    }
}

impl Pairing<'_> {
    fn counterpart<'c>(
        self,
        columns: &'c [Column],
        target: &Column,
    ) -> Option<(usize, &'c Column)> {
        let same = |(_, column): &(usize, &Column)| match self {
            Pairing::ByName => column.name == target.name,
            Pairing::ByNumber(..) => column.id == target.id,
        };
        columns.iter().enumerate().find(same)
    }

    /// Each target field takes its counterpart's value; with none, its default if it has one, else null.
    fn fields(self, from: &[Column], values: &[Value], to: &[Column], output: &mut Output) {
        for target in to {
            match self.counterpart(from, target) {
                Some((at, column)) => {
                    self.convert(&column.type_, &values[at], &target.type_, output);
                }
                None => match self.default(target) {
                    Some(value) => output.put(&value),
                    None => output.null(),
                },
            }
        }
    }

    fn convert(self, from: &Type, value: &Value, to: &Type, output: &mut Output) {
        if *value == Value::Null {
            return output.null();
        }
        output.put(&[1]);
        match (from, value, to) {
            (_, Value::Number(number), Type::Leaf(leaf)) => {
                let kind = Kind::of(leaf).expect("a number stays a number");
                match number.convert(kind) {
                    Ok(number) => output.put(&number.bits.to_le_bytes()[..kind.width()]),
                    Err(Overflow) => output.overflow = true,
                }
            }
            (_, Value::Text(text), Type::Leaf(_)) => {
                output.put(&(text.len() as u16).to_le_bytes());
                output.put(text);
            }
            (Type::Struct(columns), Value::Struct(values), Type::Struct(targets)) => {
                self.fields(columns, values, targets, output);
            }
            (Type::List(from), Value::List(values), Type::List(to)) => {
                output.put(&(values.len() as u16).to_le_bytes());
                self.elements(&from.type_, values, &to.type_, output);
            }
            (Type::Array(_, from), Value::Array(values), Type::Array(_, to)) => {
                self.elements(&from.type_, values, &to.type_, output);
            }
            _ => panic!("no build takes {from:?} to {to:?}"),
        }
    }

    /// Fields inside elements have no defaults.
    fn elements(self, from: &Type, values: &[Value], to: &Type, output: &mut Output) {
        let inside = match self {
            Pairing::ByName => Pairing::ByName,
            Pairing::ByNumber(_, source_index) => Pairing::ByNumber(&[], source_index),
        };
        for value in values {
            inside.convert(from, value, to, output);
        }
    }

    /// The bytes of a default. A struct's has its fields' defaults, null where none, and is none where all are.
    fn default(self, target: &Column) -> Option<Vec<u8>> {
        match &target.type_ {
            Type::Leaf(_) => Some([&[1], self.leaf_default(target.id)?].concat()),
            Type::Struct(columns) => {
                let fields: Vec<_> = columns.iter().map(|column| self.default(column)).collect();
                let null = || vec![0];
                fields.iter().any(Option::is_some).then(|| {
                    let fields = fields
                        .into_iter()
                        .flat_map(|field| field.unwrap_or_else(null));
                    [1].into_iter().chain(fields).collect()
                })
            }
            Type::List(_) | Type::Array(..) => None,
        }
    }

    /// A leaf's default that is not null. A partition entry wins.
    fn leaf_default<'d>(self, id: u32) -> Option<&'d [u8]>
    where
        Self: 'd,
    {
        let Pairing::ByNumber(entries, source_index) = self else {
            return None;
        };
        let of_id = || entries.iter().filter(|entry| entry.id == id);
        let initial = |entry: &&Entry| matches!(entry.default, Default::Initial(..));
        let partition = of_id().find(|entry| !initial(entry));
        let entry = partition.or_else(|| of_id().find(initial))?;
        match &entry.default {
            Default::Initial(_, value) => value.as_deref(),
            Default::Loaded(_, values) => values.get(source_index as usize)?.as_deref(),
            Default::Failed => panic!("no build takes a default that failed to load"),
        }
    }
}

/// The record due to an accepted build, for a buffer of `space` bytes: 44 where a date-time in it is too large, 45
/// where it is too long.
pub fn due(
    pairing: Pairing,
    incoming: &Layout,
    target: &Layout,
    record: &[Value],
    space: usize,
) -> Result<Vec<u8>, Fault> {
    let mut output = Output::default();
    pairing.fields(&incoming.columns, record, &target.columns, &mut output);
    if output.overflow {
        return Err(44);
    }
    if output.full || output.bytes.len() > space {
        return Err(45);
    }
    Ok(output.bytes)
}
