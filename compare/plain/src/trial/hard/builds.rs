//! Layouts of the most columns, and builds of the longest plans.

use super::values::{column, int8, leaf, text_value};
use super::{Trials, layout};
use crate::judge::{Call, Trial};
use plain::form::{self, Column, Default, Entry, LAYOUT_LIMIT, Leaf, Type};
use plain::policy;

impl Trials<'_> {
    /// The most columns that there may be.
    pub(super) fn layouts(&mut self) {
        let most = (LAYOUT_LIMIT - 7) / 4;
        let name = |at: usize| Column {
            name: (at as u16).to_le_bytes().as_slice().into(),
            ..column("", int8())
        };
        let names: Vec<Column> = (0..most).map(name).collect();
        let mut read = |columns: &[Column], extra: usize, number: u32| {
            let mut incoming = layout(1, columns.to_vec());
            incoming.extend(vec![0; extra]);
            let trial = Trial {
                incoming,
                ..Trial::new(Call::ReadLayout)
            };
            self.add(trial, number);
        };
        read(&names, 0, 0);
        read(&names, 1, 6);
        read(&names, 2, 4);
        read(&[&names[1..], &names[1..2]].concat(), 0, 5);
    }

    /// One default of 16,000 bytes serves a field of its id in each of some structs.
    pub(super) fn long_plans(&mut self) {
        for (structs, space, number) in [(4, 70_000, 0), (5, 70_000, 27), (4, 60_000, 27)] {
            let layout = |fields: &[Column]| {
                let structure = |id: u32| Column {
                    id,
                    ..column("", Type::Struct(fields.to_vec()))
                };
                layout(2, (10..10 + structs).map(structure).collect())
            };
            let field = Column {
                id: 2,
                ..column("a", leaf(15))
            };
            let value = text_value(16_000)[1..].to_vec();
            let default = Default::Initial(Leaf::Plain(15), Some(value));
            let trial = Trial {
                policy: policy::ALL,
                space,
                incoming: layout(&[]),
                target: layout(&[field]),
                defaults: form::write_defaults(&[Entry { id: 2, default }]),
                record: vec![1; structs as usize],
                ..Trial::new(Call::BuildByNumber)
            };
            self.add(trial, number);
        }
    }
}
