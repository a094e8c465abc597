//! Names and ids that fall together in the library's tables of labels (crates/layout/src/seen.rt, crates/labels), at
//! the top and inside structs: no answer may change by that.

use super::values::{column, int8};
use super::{Trials, layout};
use crate::judge::{Call, Trial};
use plain::form::{self, Column, Type};
use plain::policy;
use plain::random::Random;
use std::collections::HashMap;

/// Of the library's hash, which goes from `h` to `(h + x) * FACTOR` by 2^32.
const FACTOR: u32 = 0x5BD1_E995;
/// Where the top columns begin, which goes into the hash when they are read.
const TOP: u32 = 7;
const COUNT: u32 = 300;
/// The fields beside the struct that is inside another: so many that both have tables.
const BESIDE: u32 = 20;

fn hash(from: u32, numbers: impl IntoIterator<Item = u32>) -> u32 {
    let step = |h: u32, x: u32| h.wrapping_add(x).wrapping_mul(FACTOR);
    numbers.into_iter().fold(from, step)
}

/// By 2^32: each step doubles the number of low bits that are right, 3 of them at first.
fn inverse(odd: u32) -> u32 {
    let step = |x: u32, _| x.wrapping_mul(2u32.wrapping_sub(odd.wrapping_mul(x)));
    (0..4).fold(odd, step)
}

/// A name's bytes, two at a time.
fn pairs(bytes: [u8; 4]) -> [u32; 2] {
    let [a, b, c, d] = bytes;
    [[a, b], [c, d]].map(|pair| u32::from(u16::from_le_bytes(pair)))
}

/// Two blocks with the same hash. From any hash on they lead to the same one.
fn equal_blocks() -> [[u8; 4]; 2] {
    let mut random = Random::new(1);
    let mut seen = HashMap::new();
    loop {
        let [block @ .., _, _, _, _] = random.next().to_le_bytes();
        match seen.insert(hash(0, pairs(block)), block) {
            Some(other) if other != block => return [block, other],
            _ => (),
        }
    }
}

/// Columns whose names all have one hash.
fn equal_names() -> Vec<Column> {
    let blocks = equal_blocks();
    let name = |n: u32| (0..9).flat_map(move |bit| blocks[(n >> bit & 1) as usize]);
    let column = |n: u32| Column {
        name: name(n).collect(),
        ..column("", int8())
    };
    (0..COUNT).map(column).collect()
}

/// Columns whose ids have the hashes, after `from`.
fn numbered(from: u32, hashes: impl Iterator<Item = u32>) -> Vec<Column> {
    let id = |h: u32| h.wrapping_mul(inverse(FACTOR)).wrapping_sub(from);
    let column = |h: u32| Column {
        id: id(h),
        ..column("", int8())
    };
    hashes.map(column).collect()
}

/// The columns as fields of a struct beside others, and that struct so again, so many times.
fn within(columns: Vec<Column>, levels: u32) -> Vec<Column> {
    let beside = |n: u32| Column {
        id: n,
        ..column(&format!("beside {n}"), int8())
    };
    let structure = |columns: Vec<Column>, _| {
        let inner = Column {
            id: BESIDE,
            ..column("inner", Type::Struct(columns))
        };
        (0..BESIDE).map(beside).chain([inner]).collect()
    };
    (0..levels).fold(columns, structure)
}

/// The record of a layout within, by that of its columns.
fn record_within(record: Vec<u8>, levels: u32) -> Vec<u8> {
    let structure = |record: Vec<u8>, _| {
        let beside = (0..BESIDE).flat_map(|n| [1, n as u8]);
        beside.chain([1]).chain(record).collect()
    };
    (0..levels).fold(record, structure)
}

impl Trials<'_> {
    /// The columns read, at the top and in a struct; 5 with one of them repeated at the end, but for names in a struct,
    /// which may repeat.
    fn siblings(&mut self, version: u8, columns: &[Column]) {
        let repeated = [columns, &columns[columns.len() / 2..][..1]].concat();
        let mut read = |columns: Vec<Column>, number: u32| {
            let trial = Trial {
                incoming: layout(version, columns),
                ..Trial::new(Call::ReadLayout)
            };
            self.add(trial, number);
        };
        let inside = |columns: &[Column]| vec![column("", Type::Struct(columns.to_vec()))];
        read(inside(columns), 0);
        read(inside(&repeated), if version == 1 { 0 } else { 5 });
        read(columns.to_vec(), 0);
        read(repeated, 5);
    }

    /// From all columns but some to all of them in the other order, inside so many structs.
    fn turned_round(&mut self, call: Call, version: u8, columns: &[Column], levels: u32) {
        let (incoming, _) = columns.split_at(columns.len() - 20);
        let target = columns.iter().rev().cloned().collect();
        let record = (0..incoming.len()).flat_map(|n| [1, n as u8]).collect();
        let trial = Trial {
            policy: policy::ALL,
            space: 70_000,
            incoming: layout(version, within(incoming.to_vec(), levels)),
            target: layout(version, within(target, levels)),
            defaults: form::write_defaults(&[]),
            record: record_within(record, levels),
            ..Trial::new(call)
        };
        self.add(trial, 0);
    }

    /// Tests 12 and 13 of structs by name: one of the names repeated at the end, in either layout; an extra field.
    fn struct_faults(&mut self, columns: &[Column], levels: u32) {
        let repeated = [columns, &columns[columns.len() / 2..][..1]].concat();
        let fewer = &columns[1..];
        let raise = policy::ALL & !policy::EXTRA_STRUCT_FIELDS;
        for (policy, incoming, target, number) in [
            (policy::ALL, &repeated[..], columns, 12),
            (policy::ALL, columns, &repeated[..], 12),
            (raise, columns, fewer, 13),
            (raise, fewer, columns, 0),
        ] {
            let trial = Trial {
                policy,
                space: 70_000,
                incoming: layout(1, within(incoming.to_vec(), levels)),
                target: layout(1, within(target.to_vec(), levels)),
                ..Trial::new(Call::BuildByName)
            };
            self.add(trial, number);
        }
    }

    /// Extra top columns under Raise: two of them, of which the first is refused; none.
    fn extra_columns(&mut self, call: Call, version: u8, columns: &[Column]) {
        let strict = policy::ALL & !policy::EXTRA_COLUMNS;
        let fewer = [&columns[..1], &columns[3..]].concat();
        for (incoming, target, number) in [(columns, &fewer[..], 53), (&fewer[..], columns, 0)] {
            let trial = Trial {
                policy: strict,
                space: 70_000,
                incoming: layout(version, incoming.to_vec()),
                target: layout(version, target.to_vec()),
                defaults: form::write_defaults(&[]),
                record: incoming.iter().flat_map(|_| [1, 1]).collect(),
                ..Trial::new(call)
            };
            self.add(trial, number);
        }
    }

    pub(super) fn collisions(&mut self) {
        let names = equal_names();
        self.siblings(1, &names);
        // The table of slots goes by the highest bits of a hash, the table of labels by the lowest.
        let slots = numbered(hash(0, [TOP]), 0..COUNT);
        let labels = numbered(0, (1..=COUNT).map(|n| n << 16));
        self.siblings(2, &slots);
        self.siblings(2, &labels);
        for levels in 0..4 {
            self.turned_round(Call::BuildByName, 1, &names, levels);
            self.turned_round(Call::BuildByNumber, 2, &slots, levels);
            self.turned_round(Call::BuildByNumber, 2, &labels, levels);
        }
        self.extra_columns(Call::BuildByName, 1, &names);
        self.extra_columns(Call::BuildByNumber, 2, &slots);
        self.extra_columns(Call::BuildByNumber, 2, &labels);
        let few: Vec<Column> = within(Vec::new(), 1);
        for levels in 1..4 {
            self.struct_faults(&names, levels);
            self.struct_faults(&few, levels);
        }
    }
}
