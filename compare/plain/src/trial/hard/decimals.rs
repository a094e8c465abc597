//! Decimals: precision, scale and magnitude at their limits and past them, casts between decimals, and builds under the
//! flag for them.

use super::values::{
    NULL, cast_first, column, count, int8, leaf, list, list_value, struct_value, structure,
};
use super::{Trials, layout};
use crate::judge::{Call, Trial};
use plain::form::{self, Column, Default, Entry, Leaf, LeafValue, PRECISION_LIMIT, Type};
use plain::generate::plans::count_ids;
use plain::policy;
use plain::rules::CastOption::{NonStrict, Overflowing, Strict};
use plain::write::{cast, constant, list_mapping, plan, position, rename, struct_mapping};

/// Also one that no layout may have.
fn decimal(precision: u8, scale: u8) -> Type {
    Type::Leaf(Leaf::Decimal { precision, scale })
}

/// Precision and scale, and whether a layout may have them.
const LIMITS: [(u8, u8, bool); 16] = [
    (1, 0, true),
    (1, 1, true),
    (9, 3, true),
    (18, 0, true),
    (18, 17, true),
    (18, 18, true),
    (0, 0, false),
    (0, 1, false),
    (1, 2, false),
    (9, 10, false),
    (17, 18, false),
    (18, 19, false),
    (19, 0, false),
    (19, 19, false),
    (128, 3, false),
    (255, 255, false),
];

/// A table with one entry, of the id 2.
fn table(default: Default) -> Vec<u8> {
    form::write_defaults(&[Entry { id: 2, default }])
}

fn initial(type_: &Type, value: LeafValue) -> Vec<u8> {
    match type_ {
        Type::Leaf(leaf) => table(Default::Initial(leaf.clone(), value)),
        _ => unreachable!(),
    }
}

fn loaded(type_: &Type, values: &[i64]) -> Vec<u8> {
    let values = values.iter().map(|value| Some(value.to_le_bytes().into()));
    match type_ {
        Type::Leaf(leaf) => table(Default::Loaded(leaf.clone(), values.collect())),
        _ => unreachable!(),
    }
}

impl Trials<'_> {
    /// A build by number from a layout without columns to one of the type, with a table of defaults.
    fn defaulted(&mut self, type_: Option<Type>, defaults: Vec<u8>, number: u32) {
        let target = type_.map(|type_| Column {
            id: 2,
            ..column("a", type_)
        });
        let trial = Trial {
            policy: policy::ALL,
            space: 100,
            incoming: layout(2, Vec::new()),
            target: layout(2, target.into_iter().collect()),
            defaults,
            ..Trial::new(Call::BuildByNumber)
        };
        self.add(trial, number);
    }

    /// 50 in layouts, 3 in a table, 30 in a plan; both bytes are read before.
    pub(super) fn decimal_limits(&mut self) {
        for (precision, scale, known) in LIMITS {
            let type_ = decimal(precision, scale);
            let mut read = |version: u8, type_: Type, cut: usize, number: u32| {
                let mut columns = vec![column("a", type_)];
                count_ids(&mut columns);
                let mut incoming = layout(version, columns);
                incoming.truncate(incoming.len() - cut);
                let trial = Trial {
                    incoming,
                    ..Trial::new(Call::ReadLayout)
                };
                self.add(trial, number);
            };
            let number = if known { 0 } else { 50 };
            for version in [1, 2] {
                read(version, type_.clone(), 0, number);
                read(version, type_.clone(), 1, 2);
                read(version, type_.clone(), 2, 2);
                read(
                    version,
                    list(structure(&[int8(), type_.clone()])),
                    0,
                    number,
                );
            }
            let of_table = |number: u32| if known { number } else { 3 };
            self.defaulted(None, initial(&type_, None), of_table(0));
            self.defaulted(None, loaded(&type_, &[]), of_table(0));
            for cut in [1, 2] {
                let mut defaults = initial(&type_, None);
                defaults.truncate(defaults.len() - 1 - cut);
                self.defaulted(None, defaults, 2);
            }
            let number = if known { 0 } else { 30 };
            let constants = [constant(b"c", &type_, &NULL)];
            self.plan(&[], &constants).run(&[], number);
            self.one(leaf(0), cast_first(&type_, NonStrict))
                .run(&NULL, number);
        }
    }

    /// The check and the run read both layouts before the plan.
    pub(super) fn decimal_layouts(&mut self) {
        let good = layout(1, vec![column("a", decimal(18, 18))]);
        let bad = layout(1, vec![column("a", decimal(19, 18))]);
        let plan = plan(&[position(0)]);
        for (incoming, target, number) in [
            (&good, &good, 0),
            (&bad, &good, 50),
            (&good, &bad, 50),
            (&bad, &bad, 50),
        ] {
            for call in [Call::CheckPlan, Call::Run, Call::BuildByName] {
                let trial = Trial {
                    policy: policy::ALL,
                    space: 100,
                    incoming: incoming.clone(),
                    target: target.clone(),
                    plan: plan.clone(),
                    record: NULL.to_vec(),
                    ..Trial::new(call)
                };
                self.add(trial, number);
            }
        }
    }

    /// The largest magnitude and one more: 52 in a record, 3 in a table, 30 in a plan.
    pub(super) fn decimal_values(&mut self) {
        for precision in 1..=PRECISION_LIMIT {
            let type_ = decimal(precision, precision / 2);
            let least = 10i64.pow(precision.into());
            for value in [least, -least, i64::MAX, i64::MIN] {
                self.one(type_.clone(), position(0)).run(&count(value), 52);
                self.defaulted(None, loaded(&type_, &[0, value]), 3);
                let bytes = value.to_le_bytes().to_vec();
                self.defaulted(None, initial(&type_, Some(bytes)), 3);
                let constants = [constant(b"c", &type_, &count(value))];
                self.plan(&[], &constants).run(&[], 30);
            }
            for value in [least - 1, 1 - least, 0, 1, -1] {
                let value = count(value);
                self.one(type_.clone(), position(0)).gives(&value, &value);
                let constants = [constant(b"c", &type_, &value)];
                self.plan(&[], &constants).gives(&[], &value);
                self.defaulted(
                    Some(type_.clone()),
                    initial(&type_, Some(value[1..].to_vec())),
                    0,
                );
            }
        }
    }

    /// 52 stands in byte order beside 40 and 41, and comes once the eight bytes are there.
    pub(super) fn decimal_order(&mut self) {
        let types = [leaf(1), decimal(2, 1), leaf(1)];
        let (large, fits) = (count(100), count(99));
        let record = |parts: &[&[u8]]| parts.concat();
        self.plan(&types, &[position(1)])
            .run(&record(&[&[1, 1], &fits, &[1, 1]]), 0)
            .run(&record(&[&[1, 1], &large, &[1, 1]]), 52)
            .run(&record(&[&[1, 2], &large, &[1, 1]]), 41)
            .run(&record(&[&[1, 1], &large, &[1, 2]]), 52)
            .run(&record(&[&[1, 1], &fits, &[1, 2]]), 41)
            .run(&record(&[&[1, 1], &large]), 52)
            .run(&record(&[&[1, 1], &large, &[1, 1, 0]]), 52)
            .run(&record(&[&[1, 1], &large[..8]]), 40)
            .run(&record(&[&[1, 1], &fits[..8]]), 40)
            .run(&record(&[&[1, 1], &[2], &large[1..]]), 41);
        // Also where the column is dropped, or the value stands inside a list or struct.
        self.plan(&types, &[position(0)])
            .run(&record(&[&[1, 1], &large, &[1, 1]]), 52);
        let listed = list(structure(&[decimal(2, 1)]));
        let values = [NULL.to_vec(), struct_value(&[count(-100)])];
        self.one(listed, position(0)).run(&list_value(&values), 52);
    }

    /// Only a larger precision at the same scale, NonStrict; the value is kept.
    pub(super) fn decimal_casts(&mut self) {
        let decimals = [(2, 0), (2, 1), (2, 2), (3, 1), (3, 2), (17, 1), (18, 1)];
        for (precision, scale) in decimals {
            for (wider, other) in decimals {
                let widens = precision < wider && scale == other;
                let (from, to) = (decimal(precision, scale), decimal(wider, other));
                for option in [NonStrict, Strict, Overflowing] {
                    let number = if widens && option == NonStrict { 0 } else { 32 };
                    self.one(from.clone(), cast_first(&to, option))
                        .run(&count(-99), number);
                }
                if widens {
                    self.one(from, cast_first(&to, NonStrict))
                        .gives(&count(99), &count(99))
                        .gives(&NULL, &NULL)
                        .run(&count(100 * 10i64.pow(u32::from(precision) - 2)), 52)
                        .random();
                }
            }
        }
        // One over another, up to 64 deep; in elements and fields.
        let to = |input: Vec<u8>, precision: u8| cast(&input, &decimal(precision, 0), NonStrict);
        let widest = (2..=PRECISION_LIMIT).fold(position(0), to);
        self.one(decimal(1, 0), widest.clone())
            .gives(&count(-9), &count(-9))
            .run(&count(10), 52)
            .random();
        self.one(decimal(1, 0), rename(&widest, b"w")).random();
        self.one(list(decimal(1, 0)), list_mapping(&position(0), &widest))
            .random();
        let fields = struct_mapping(&position(0), &[position(1), widest]);
        self.one(structure(&[decimal(1, 0), int8()]), fields)
            .random();
    }

    /// Nothing else goes to a decimal but null, and a decimal to nothing else.
    pub(super) fn decimal_others(&mut self) {
        let decimal = || decimal(9, 3);
        for code in (1..=17).filter(|code| *code != 14) {
            for option in [NonStrict, Strict, Overflowing] {
                self.one(leaf(code), cast_first(&decimal(), option))
                    .run(&NULL, 32);
                self.one(decimal(), cast_first(&leaf(code), option))
                    .run(&NULL, 32);
            }
        }
        self.one(leaf(0), cast_first(&decimal(), NonStrict))
            .gives(&NULL, &NULL);
        self.one(leaf(0), cast_first(&decimal(), Strict))
            .run(&NULL, 32);
        self.one(decimal(), cast_first(&leaf(0), NonStrict))
            .run(&NULL, 32);
    }

    /// The same pair as a column, as a field and as an element, by name and by number.
    fn paired(&mut self, policy: u32, from: &Type, to: &Type, number: u32) {
        let alone = |type_: &Type| type_.clone();
        let field = |type_: &Type| structure(&[int8(), type_.clone()]);
        let element = |type_: &Type| list(structure(&[type_.clone()]));
        for place in [&alone as &dyn Fn(&Type) -> Type, &field, &element] {
            for (call, version) in [(Call::BuildByName, 1), (Call::BuildByNumber, 2)] {
                let one = |type_: &Type| {
                    let mut columns = vec![column("z", int8()), column("a", place(type_))];
                    count_ids(&mut columns);
                    layout(version, columns)
                };
                let trial = Trial {
                    policy,
                    space: 200,
                    incoming: one(from),
                    target: one(to),
                    defaults: form::write_defaults(&[]),
                    record: vec![0, 0],
                    ..Trial::new(call)
                };
                self.add(trial, number);
            }
        }
    }

    /// 51 with the flag off and 24 for every other unequal pair, whatever the flag.
    pub(super) fn decimal_builds(&mut self) {
        let off = policy::ALL & !policy::DECIMAL_WIDENING;
        let alone = policy::DECIMAL_WIDENING;
        let mut pair = |from: (u8, u8), to: (u8, u8), on: u32, number: u32| {
            let (from, to) = (decimal(from.0, from.1), decimal(to.0, to.1));
            self.paired(policy::ALL, &from, &to, on);
            self.paired(alone, &from, &to, on);
            self.paired(off, &from, &to, number);
            self.paired(0, &from, &to, number);
        };
        pair((6, 3), (6, 3), 0, 0);
        pair((6, 3), (7, 3), 0, 51);
        pair((6, 3), (18, 3), 0, 51);
        pair((1, 0), (18, 0), 0, 51);
        pair((3, 3), (4, 3), 0, 51);
        pair((9, 3), (6, 3), 24, 24);
        pair((6, 3), (6, 2), 24, 24);
        pair((6, 3), (9, 4), 24, 24);
        pair((6, 3), (9, 2), 24, 24);
        for code in 1..=17 {
            if code != 14 {
                self.paired(policy::ALL, &leaf(code), &decimal(18, 0), 24);
                self.paired(policy::ALL, &decimal(1, 0), &leaf(code), 24);
            }
        }
        self.paired(off, &leaf(0), &decimal(18, 0), 0);
        self.paired(alone, &leaf(0), &decimal(18, 0), 15);
    }

    /// 28 where precision or scale of a default are others; else it is taken, of a loaded partition too.
    pub(super) fn decimal_defaults(&mut self) {
        let value = || Some(12_340i64.to_le_bytes().to_vec());
        let mut taken = |precision: u8, scale: u8, number: u32| {
            let type_ = decimal(precision, scale);
            self.defaulted(Some(decimal(9, 3)), initial(&type_, value()), number);
            self.defaulted(Some(decimal(9, 3)), loaded(&type_, &[-5]), number);
            // No default is taken, so that its type is not looked at.
            self.defaulted(Some(decimal(9, 3)), initial(&type_, None), 0);
            self.defaulted(Some(decimal(9, 3)), loaded(&type_, &[]), 0);
        };
        taken(9, 3, 0);
        taken(9, 2, 28);
        taken(10, 3, 28);
        taken(6, 3, 28);
        self.defaulted(Some(decimal(9, 3)), initial(&leaf(5), value()), 28);
    }
}
