//! Every pair of leaf kinds, date-times with seven zones, decimals with four pairs of precision and scale, by name and
//! by number.

use crate::decimals;
use plain::case::{Case, Number};
use plain::form::{Column, Layout, Leaf, Type, write_defaults, write_layout};
use plain::policy::{ALL, BITS, EXTRA_COLUMNS};

const ZONES: [&str; 7] = ["", "UTC", "Europe/Oslo", "Etc/UTC", "Z", "Zulu", "utc"];
const DECIMALS: [(u8, u8); 4] = [(6, 3), (9, 3), (9, 2), (18, 3)];

fn leaves() -> Vec<Leaf> {
    let mut leaves: Vec<Leaf> = (0..=17)
        .filter(|code| *code != 14)
        .map(Leaf::Plain)
        .collect();
    for unit in 0..3 {
        leaves.extend(ZONES.map(|zone| {
            let zone = zone.as_bytes().to_vec();
            Leaf::Datetime { unit, zone }
        }));
    }
    leaves.extend(DECIMALS.map(|(precision, scale)| Leaf::Decimal { precision, scale }));
    leaves
}

/// Everything allowed, nothing allowed, and each flag off or on alone; extra top columns ignored.
pub fn single_flags() -> Vec<u32> {
    let bits = (0..BITS).map(|bit| 1 << bit);
    let off = bits.clone().map(|bit| ALL & !bit);
    let words = [ALL, 0].into_iter().chain(off).chain(bits);
    words.map(|word| word | EXTRA_COLUMNS).collect()
}

/// Every setting of the original's flags for leaves.
pub fn all_flags() -> Vec<u32> {
    (0..1 << 11).map(|flags| ALL & !0x7FF | flags).collect()
}

pub fn cases(policies: Vec<u32>) -> impl Iterator<Item = Case> {
    let layout = |version: u8, leaf: &Leaf| {
        let column = Column {
            id: 1,
            ..Column::of(b"a", Type::Leaf(leaf.clone()))
        };
        write_layout(&Layout {
            version,
            columns: vec![column],
        })
    };
    let mut pairs = Vec::new();
    for version in [1, 2] {
        for incoming in leaves() {
            for target in leaves() {
                pairs.push((
                    version,
                    layout(version, &incoming),
                    layout(version, &target),
                ));
            }
        }
    }
    policies.into_iter().flat_map(move |policy| {
        let case = move |(version, incoming, target): (u8, Vec<u8>, Vec<u8>)| Case {
            policy,
            incoming,
            target,
            number: (version == 2).then(|| Number {
                source_index: 0,
                owner: 0,
                defaults: write_defaults(&[]),
            }),
        };
        pairs.clone().into_iter().map(case).map(decimals::flag_off)
    })
}
