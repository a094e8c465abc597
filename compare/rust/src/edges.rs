//! Cases written by hand, at the edges of the rules of documents 01 and 02.

use plain::case::{Case, Number};
use plain::form::{Column, Default, Entry, Layout, Leaf, LeafValue, Type};
use plain::form::{write_defaults, write_layout};
use plain::policy::{
    self, DATETIME_CONVERT_TIMEZONE, DECIMAL_WIDENING, EXTRA_STRUCT_FIELDS, MISSING_COLUMNS,
    MISSING_STRUCT_FIELDS, NULL_UPCAST,
};

/// Every flag on, and bit 15, which is kept for extra top columns.
const ALL: u32 = policy::ALL;
const ELEMENT: u32 = u32::MAX;

fn column(name: &str, id: u32, type_: Type) -> Column {
    Column {
        id,
        ..Column::of(name.as_bytes(), type_)
    }
}

fn leaf(code: u8) -> Type {
    Type::Leaf(Leaf::Plain(code))
}

fn datetime(unit: u8, zone: &str) -> Type {
    let zone = zone.as_bytes().to_vec();
    Type::Leaf(Leaf::Datetime { unit, zone })
}

fn decimal(precision: u8, scale: u8) -> Type {
    Type::Leaf(Leaf::Decimal { precision, scale })
}

fn list(id: u32, type_: Type) -> Type {
    Type::List(Box::new(column("e", id, type_)))
}

fn array(width: u32, id: u32, type_: Type) -> Type {
    Type::Array(width, Box::new(column("e", id, type_)))
}

fn structure(fields: &[Column]) -> Type {
    Type::Struct(fields.to_vec())
}

fn int8(name: &str, id: u32) -> Column {
    column(name, id, leaf(2))
}

fn initial(id: u32, value: LeafValue) -> Entry {
    let default = Default::Initial(Leaf::Plain(2), value);
    Entry { id, default }
}

fn loaded(id: u32, values: &[LeafValue]) -> Entry {
    let default = Default::Loaded(Leaf::Plain(2), values.to_vec());
    Entry { id, default }
}

fn layout(version: u8, columns: &[Column]) -> Vec<u8> {
    let columns = columns.to_vec();
    write_layout(&Layout { version, columns })
}

fn by_name(policy: u32, incoming: &[Column], target: &[Column]) -> Case {
    Case {
        policy,
        incoming: layout(1, incoming),
        target: layout(1, target),
        number: None,
    }
}

fn by_number(policy: u32, incoming: &[Column], target: &[Column], entries: &[Entry]) -> Case {
    Case {
        policy,
        incoming: layout(2, incoming),
        target: layout(2, target),
        number: Some(Number {
            source_index: 1,
            owner: 0,
            defaults: write_defaults(entries),
        }),
    }
}

/// The same two types in a column `t#1`, by name and by number.
fn both(policy: u32, incoming: &Type, target: &Type) -> [Case; 2] {
    let (incoming, target) = (incoming.clone(), target.clone());
    let (incoming, target) = ([column("t", 1, incoming)], [column("t", 1, target)]);
    [
        by_name(policy, &incoming, &target),
        by_number(policy, &incoming, &target, &[]),
    ]
}

pub fn cases() -> Vec<Case> {
    let mut cases = Vec::new();
    types(&mut cases);
    structs(&mut cases);
    elements(&mut cases);
    defaults(&mut cases);
    decimals(&mut cases);
    zones(&mut cases);
    cases
}

/// Leaves, null, and types of another kind.
fn types(cases: &mut Vec<Case>) {
    // S1, S2, S3 and S12 of document 01.
    let target = [column("t", 1, leaf(4)), column("s", 2, leaf(15))];
    cases.push(by_name(ALL, &[column("t", 1, leaf(3))], &target));
    cases.push(by_name(
        ALL & !MISSING_COLUMNS,
        &[column("t", 1, leaf(3))],
        &target,
    ));
    cases.extend(both(ALL, &leaf(8), &leaf(4)));
    cases.extend(both(ALL, &leaf(8), &leaf(5)));
    cases.extend(both(ALL, &array(2, 2, leaf(2)), &array(3, 2, leaf(2))));

    let nested = [structure(&[]), list(2, leaf(2)), array(1, 2, leaf(2))];
    for type_ in &nested {
        cases.extend(both(ALL, &leaf(0), type_));
        cases.extend(both(0, &leaf(0), type_));
        cases.extend(both(ALL, type_, &leaf(0)));
        for other in &nested {
            cases.extend(both(ALL, type_, other));
        }
    }
    cases.extend(both(0, &leaf(0), &leaf(0)));
}

/// Repeated names, extra and missing fields.
fn structs(cases: &mut Vec<Case>) {
    let repeated = structure(&[int8("a", 2), int8("a", 3)]);
    let (a, b) = (structure(&[int8("a", 2)]), structure(&[int8("b", 4)]));
    cases.extend(both(ALL, &repeated, &repeated));
    // 12 before 13.
    cases.extend(both(ALL & !EXTRA_STRUCT_FIELDS, &repeated, &b));
    cases.extend(both(ALL & !EXTRA_STRUCT_FIELDS, &b, &repeated));
    // 13 before 14.
    cases.extend(both(
        ALL & !EXTRA_STRUCT_FIELDS & !MISSING_STRUCT_FIELDS,
        &a,
        &b,
    ));
    cases.extend(both(ALL & !MISSING_STRUCT_FIELDS, &a, &b));
    cases.extend(both(ALL, &a, &b));
    cases.extend(both(ALL, &structure(&[]), &structure(&[])));
    // Structs that are not visited are not tested for repeated names.
    cases.extend(both(ALL, &leaf(0), &repeated));
    cases.extend(both(
        ALL,
        &structure(&[]),
        &structure(&[column("c", 5, repeated.clone())]),
    ));
    cases.extend(both(
        ALL,
        &structure(&[column("c", 5, repeated)]),
        &structure(&[]),
    ));
    // Fields in order, but fewer.
    let two = structure(&[int8("a", 2), int8("b", 4)]);
    cases.extend(both(ALL, &two, &a));
    // In a struct the id of all ones is like any other.
    let special = structure(&[int8("a", ELEMENT)]);
    cases.extend(both(ALL, &special, &a));
    cases.extend(both(ALL, &special, &special));
}

/// Ids and names of elements.
fn elements(cases: &mut Vec<Case>) {
    for (incoming, target) in [(2, 3), (2, ELEMENT), (ELEMENT, 3), (ELEMENT, ELEMENT)] {
        cases.extend(both(ALL, &list(incoming, leaf(2)), &list(target, leaf(2))));
        let (incoming, target) = (array(1, incoming, leaf(2)), array(1, target, leaf(2)));
        cases.extend(both(ALL, &incoming, &target));
    }
    // 24 for the width before 25, and 25 before the element's own 24.
    cases.extend(both(ALL, &array(1, 2, leaf(2)), &array(2, 3, leaf(2))));
    cases.extend(both(ALL, &list(2, leaf(2)), &list(3, leaf(15))));
    // An element's new name is a rename inside a mapping.
    let renamed = Type::List(Box::new(column("f", 2, leaf(2))));
    cases.extend(both(ALL, &list(2, leaf(2)), &renamed));
}

/// Tables of which no value is taken within the comparison.
fn defaults(cases: &mut Vec<Case>) {
    let seven = || Some(vec![7]);
    let empty = structure(&[]);
    let field = structure(&[int8("a", 2)]);
    let top = |type_: &Type| [column("t", 1, type_.clone())];
    let mut missing = |entries: &[Entry]| {
        cases.push(by_number(ALL, &top(&empty), &top(&field), entries));
        cases.push(by_number(
            ALL & !MISSING_STRUCT_FIELDS,
            &top(&empty),
            &top(&field),
            entries,
        ));
    };
    missing(&[]);
    missing(&[initial(2, None)]);
    // A partition entry wins, null or past the end.
    missing(&[initial(2, seven()), loaded(2, &[seven(), None])]);
    missing(&[initial(2, seven()), loaded(2, &[seven()])]);
    // Entries under a struct's own id, or under another one.
    missing(&[initial(1, seven()), initial(3, seven())]);

    // No default inside an element.
    let entries = [initial(2, seven())];
    let list = |type_: &Type| list(3, type_.clone());
    let array = |type_: &Type| array(1, 3, type_.clone());
    cases.push(by_number(
        ALL,
        &top(&list(&empty)),
        &top(&list(&field)),
        &entries,
    ));
    cases.push(by_number(
        ALL,
        &top(&array(&empty)),
        &top(&array(&field)),
        &entries,
    ));
    let failed = [Entry {
        id: 2,
        default: Default::Failed,
    }];
    cases.push(by_number(
        ALL,
        &top(&list(&empty)),
        &top(&list(&field)),
        &failed,
    ));
    // Nothing is missing, so that nothing is asked for.
    cases.push(by_number(ALL, &top(&field), &top(&field), &entries));
    cases.push(by_number(ALL, &top(&field), &top(&field), &failed));
}

/// Decimals, with the flag for their widening off: equal ones, a widening, and pairs that no flag allows, alone, as a
/// field and as an element.
fn decimals(cases: &mut Vec<Case>) {
    let policy = ALL & !DECIMAL_WIDENING;
    let field = |type_: &Type| structure(&[int8("z", 2), column("a", 3, type_.clone())]);
    let element = |type_: &Type| list(4, structure(&[column("a", 5, type_.clone())]));
    for (to, scale) in [(6, 3), (7, 3), (18, 3), (5, 3), (6, 2), (9, 4), (9, 2)] {
        let (from, to) = (decimal(6, 3), decimal(to, scale));
        cases.extend(both(policy, &from, &to));
        cases.extend(both(policy, &field(&from), &field(&to)));
        cases.extend(both(policy, &element(&from), &element(&to)));
    }
    for other in [leaf(5), leaf(12), leaf(15), structure(&[])] {
        cases.extend(both(ALL, &decimal(18, 0), &other));
        cases.extend(both(ALL, &other, &decimal(18, 0)));
    }
    cases.extend(both(ALL, &leaf(0), &decimal(1, 1)));
    cases.extend(both(ALL & !NULL_UPCAST, &leaf(0), &decimal(1, 1)));
    // The place of a widening is 0, that of what comes before it is not.
    let top =
        |second: Type, third: Type| [int8("a", 1), column("b", 2, second), column("c", 3, third)];
    let from = top(decimal(6, 3), decimal(6, 3));
    cases.push(by_name(policy, &from, &top(decimal(6, 3), decimal(9, 3))));
    cases.push(by_name(policy, &from, &top(decimal(6, 2), decimal(9, 3))));
    cases.push(by_name(policy, &from, &top(decimal(9, 3), decimal(6, 2))));
    // A missing field of a struct is null, of a type that only the target has.
    let empty = [column("t", 1, structure(&[]))];
    let salinity = [column("t", 1, structure(&[column("a", 2, decimal(9, 3))]))];
    cases.push(by_name(ALL, &empty, &salinity));
    cases.push(by_number(ALL, &empty, &salinity, &[]));
}

/// Zones that count as UTC, no zone among them (S4), against each other and against texts that are near them.
fn zones(cases: &mut Vec<Case>) {
    let utc = ["", "UTC", "Etc/UTC", "Z"];
    let near = ["utc", "Zulu", "UTC ", "ETC/UTC"];
    for from in utc {
        for to in utc.into_iter().chain(near) {
            let policy = ALL & !DATETIME_CONVERT_TIMEZONE;
            cases.extend(both(policy, &datetime(1, from), &datetime(1, to)));
        }
    }
}
