//! Where the original differs from documents 01 and 02, with the smallest inputs.

use compare::oracle::{Answer, Aside, answer, original};
use plain::case::{Case, Number};
use plain::form::{Column, Default, Entry, LAYOUT_LIMIT, Layout, Leaf, PLAN_LIMIT, Type};
use plain::form::{write_defaults, write_layout};
use plain::hex::hex;
use plain::policy::{ALL, DECIMAL_WIDENING};

const INT8: Leaf = Leaf::Plain(2);

fn column(name: &str, id: u32, type_: Type) -> Column {
    Column {
        id,
        ..Column::of(name.as_bytes(), type_)
    }
}

fn int8(name: &str, id: u32) -> Column {
    column(name, id, Type::Leaf(INT8))
}

/// A layout of the one column `t#1`, a struct.
fn layout(version: u8, fields: &[Column]) -> Vec<u8> {
    let columns = vec![column("t", 1, Type::Struct(fields.to_vec()))];
    write_layout(&Layout { version, columns })
}

fn by_number(incoming: &[Column], target: &[Column], entries: &[Entry]) -> Case {
    Case {
        policy: ALL,
        incoming: layout(2, incoming),
        target: layout(2, target),
        number: Some(Number {
            source_index: 0,
            owner: 0,
            defaults: write_defaults(entries),
        }),
    }
}

fn initial(id: u32, leaf: Leaf, bytes: &[u8]) -> Entry {
    let default = Default::Initial(leaf, Some(bytes.to_vec()));
    Entry { id, default }
}

fn plan(answer: &Answer) -> String {
    match answer {
        Answer::Plan(plan) => hex(plan),
        answer => panic!("{answer:?}"),
    }
}

#[test]
fn a_missing_field_takes_the_default_of_its_struct() {
    let case = by_number(&[], &[int8("a", 2)], &[initial(2, INT8, &[7])]);
    assert_eq!(hex(&case.incoming), "4c415902000100017401000000120000");
    assert_eq!(
        hex(&case.target),
        "4c41590200010001740100000012010001610200000002"
    );
    // A constant of type struct{a: int8}; document 01 has `01 01 61 02 01 07`.
    let constant = concat!("010161", "1201000161", "02", "01", "0107");
    let expected = format!("504c4e01000100{}{constant}", "040000000100");
    assert_eq!(plan(&original(&case).unwrap()), expected);
    assert_eq!(answer(&case), Err(Aside::StructDefault));
}

#[test]
fn another_field_s_default_comes_in() {
    let target = [int8("a", 2), int8("b", 3)];
    let case = by_number(&[int8("b", 3)], &target, &[initial(3, INT8, &[7])]);
    // Field `a` becomes the constant {a: null, b: 7}; document 01 has the null constant `01 01 61 02 00`.
    let constant = concat!("010161", "12020001610201", "6202", "01", "00", "0107");
    let expected = format!("504c4e01000100{}{constant}000000", "040000000200");
    assert_eq!(plan(&original(&case).unwrap()), expected);
    assert_eq!(answer(&case), Err(Aside::StructDefault));
}

#[test]
fn another_field_s_failed_partition_refuses() {
    let target = [int8("a", 2), int8("b", 3)];
    let failed = Entry {
        id: 3,
        default: Default::Failed,
    };
    let case = by_number(&[int8("b", 3)], &target, &[failed]);
    // Document 01 builds the null constant for `a`.
    let refused = Answer::Refused {
        number: 26,
        place: 0,
    };
    assert_eq!(original(&case), Ok(refused));
    assert_eq!(answer(&case), Err(Aside::StructDefault));
}

#[test]
fn a_default_of_another_type_is_taken() {
    // 28 by document 01; in the original a debug assertion, which these builds leave out.
    let case = by_number(&[], &[int8("a", 2)], &[initial(2, Leaf::Plain(3), &[7, 0])]);
    let constant = concat!("010161", "1201000161", "03", "01", "010700");
    let expected = format!("504c4e01000100{}{constant}", "040000000100");
    assert_eq!(plan(&original(&case).unwrap()), expected);
    assert_eq!(answer(&case), Err(Aside::StructDefault));
}

#[test]
fn a_wider_decimal_is_a_plain_mismatch() {
    let layout = |precision: u8, scale: u8| {
        let type_ = Type::Leaf(Leaf::Decimal { precision, scale });
        let columns = vec![int8("a", 1), column("t", 2, type_)];
        write_layout(&Layout {
            version: 1,
            columns,
        })
    };
    let case = |policy: u32, precision: u8, scale: u8| Case {
        policy,
        incoming: layout(1, 0),
        target: layout(precision, scale),
        number: None,
    };
    let refused = |number: u32, place: u32| Ok(Answer::Refused { number, place });
    let off = ALL & !DECIMAL_WIDENING;
    // By document 02 it is 51, and its place is 0; the original says no more than of any mismatch.
    assert_eq!(answer(&case(off, 2, 0)), refused(51, 0));
    assert_eq!(answer(&case(off, 2, 1)), refused(24, 1));
    assert_eq!(answer(&case(off, 1, 1)), refused(24, 1));
    assert_eq!(answer(&case(ALL, 2, 0)), Err(Aside::Widening));
}

#[test]
fn which_repeated_name_is_found_first_does_not_show() {
    let twice = |name: &str| vec![int8(name, 2), int8(name, 3)];
    let case = |incoming: &[Column], target: &[Column]| Case {
        policy: ALL,
        incoming: layout(1, incoming),
        target: layout(1, target),
        number: None,
    };
    let refused = Ok(Answer::Refused {
        number: 12,
        place: 0,
    });
    assert_eq!(answer(&case(&twice("a"), &[])), refused);
    assert_eq!(answer(&case(&[], &twice("a"))), refused);
    assert_eq!(answer(&case(&twice("a"), &twice("b"))), refused);
}

/// A list fourteen deep.
fn lists(leaf: u8) -> Type {
    let list = |inner: Type, _: u32| Type::List(Box::new(column("", 0, inner)));
    (0..14).fold(Type::Leaf(Leaf::Plain(leaf)), list)
}

#[test]
fn the_longest_plan_found_by_name_is_within_the_limit() {
    // A list level is a byte of a layout and four of the plan, and a field in a struct may have a short name.
    let layout = |leaf: u8| {
        let names = (0..128).map(|byte| vec![byte]).chain([vec![]]);
        let field = |name: Vec<u8>| Column::of(&name, lists(leaf));
        let fields: Vec<Column> = names.map(field).collect();
        let structs = (0..7).map(|i| column(&i.to_string(), i, Type::Struct(fields.clone())));
        let mut columns: Vec<Column> = structs.collect();
        columns.push(column("", 7, Type::Struct(fields[..57].to_vec())));
        write_layout(&Layout {
            version: 1,
            columns,
        })
    };
    let case = Case {
        policy: ALL,
        incoming: layout(2),
        target: layout(3),
        number: None,
    };
    assert!(case.target.len() <= LAYOUT_LIMIT);
    match answer(&case).unwrap() {
        Answer::Plan(plan) => assert_eq!(plan.len(), 59_575),
        refused => panic!("{refused:?}"),
    }
}

#[test]
fn by_number_defaults_pass_the_limit() {
    // One default of 16,000 bytes serves a field of its id in each of five structs: 27 by document 01.
    let text = Leaf::Plain(15);
    let value = [&16_000u16.to_le_bytes(), vec![b'x'; 16_000].as_slice()].concat();
    let layout = |fields: &[Column]| {
        let column = |id: u32| column("", id, Type::Struct(fields.to_vec()));
        write_layout(&Layout {
            version: 2,
            columns: (10..15).map(column).collect(),
        })
    };
    let field = column("a", 2, Type::Leaf(text.clone()));
    let case = Case {
        policy: ALL,
        incoming: layout(&[]),
        target: layout(&[field]),
        number: Some(Number {
            source_index: 0,
            owner: 0,
            defaults: write_defaults(&[initial(2, text, &value)]),
        }),
    };
    match original(&case).unwrap() {
        Answer::Plan(plan) => assert!(plan.len() > PLAN_LIMIT),
        refused => panic!("{refused:?}"),
    }
    assert_eq!(answer(&case), Err(Aside::StructDefault));
}
