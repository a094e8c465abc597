//! S1 to S12 of document 01 on the check and the run, and the limits of decimals in document 02, L1. Where a sample
//! speaks of a build, its plan is written here.

use plain::call::{Refusal, check_plan, read_layout, run};
use plain::form::{Column, Layout, Leaf, Type, write_layout};
use plain::rules::CastOption::{self, NonStrict, Overflowing, Strict};
use plain::write::{array_mapping, cast, plan, position, struct_mapping};

const SPACE: usize = 100;

fn leaf(code: u8) -> Type {
    Type::Leaf(Leaf::Plain(code))
}

fn time(unit: u8, zone: &str) -> Type {
    let zone = zone.as_bytes().to_vec();
    Type::Leaf(Leaf::Datetime { unit, zone })
}

fn decimal(precision: u8, scale: u8) -> Type {
    Type::Leaf(Leaf::Decimal { precision, scale })
}

fn column(name: &str, type_: Type) -> Column {
    Column::of(name.as_bytes(), type_)
}

fn layout(type_: &Type) -> Vec<u8> {
    write_layout(&Layout {
        version: 1,
        columns: vec![column("t", type_.clone())],
    })
}

/// A present number's value.
fn present(bytes: &[u8]) -> Vec<u8> {
    [&[1], bytes].concat()
}

/// The run of one selector over one column.
fn one(from: &Type, to: &Type, selector: &[u8], record: &[u8]) -> Result<Vec<u8>, u32> {
    let (incoming, target) = (layout(from), layout(to));
    let plan = plan(&[selector.to_vec()]);
    run(&incoming, &target, &plan, record, SPACE).map_err(|refusal| refusal.number)
}

/// The run of a cast.
fn converted(from: &Type, to: &Type, option: CastOption, bytes: &[u8]) -> Result<Vec<u8>, u32> {
    let selector = cast(&position(0), to, option);
    let output = one(from, to, &selector, &present(bytes))?;
    assert_eq!(output[0], 1);
    Ok(output[1..].to_vec())
}

#[test]
fn s1_a_widened_column_and_a_new_one() {
    let incoming = b"LAY\x01\x00\x01\x00\x01t\x03";
    let target = b"LAY\x01\x00\x02\x00\x01t\x04\x01s\x0F";
    let plan = b"PLN\x01\x00\x02\x00\x02\x00\x00\x00\x04\x02\x01\x01s\x0F\x00";
    assert_eq!(check_plan(incoming, target, plan), Ok(()));
    let output = run(incoming, target, plan, b"\x01\xFE\xFF", SPACE);
    assert_eq!(
        output.as_deref(),
        Ok(b"\x01\xFE\xFF\xFF\xFF\x00".as_slice())
    );
    let short = run(incoming, target, plan, b"\x01\xFE\xFF", 5);
    let refused = Refusal::of(45);
    assert_eq!(short, Err(refused));
}

#[test]
fn s2_s3_unsigned_to_signed() {
    let bytes = [0xFF, 0xFF, 0xFF, 0xFF];
    assert_eq!(converted(&leaf(8), &leaf(4), Overflowing, &bytes), Err(32));
    let wide = converted(&leaf(8), &leaf(5), Overflowing, &bytes);
    assert_eq!(wide, Ok(vec![0xFF, 0xFF, 0xFF, 0xFF, 0, 0, 0, 0]));
}

#[test]
fn s4_no_zone_to_utc_is_a_cast() {
    let (from, to) = (time(1, ""), time(1, "UTC"));
    let count = 5i64.to_le_bytes();
    assert_eq!(converted(&from, &to, NonStrict, &count), Ok(count.to_vec()));
    assert_eq!(converted(&from, &to, Strict, &count), Err(32));
    assert_eq!(one(&from, &to, &position(0), &present(&count)), Err(33));
}

#[test]
fn s5_s6_milliseconds_to_nanoseconds() {
    let ns = |count: i64| converted(&time(2, ""), &time(0, ""), Strict, &count.to_le_bytes());
    let last = 9_223_372_036_854_000_000i64;
    assert_eq!(ns(9_223_372_036_854), Ok(last.to_le_bytes().to_vec()));
    assert_eq!(ns(9_223_372_036_855), Err(44));
}

#[test]
fn s7_division_rounds_down() {
    let us = converted(
        &time(0, ""),
        &time(1, ""),
        NonStrict,
        &(-1i64).to_le_bytes(),
    );
    assert_eq!(us, Ok((-1i64).to_le_bytes().to_vec()));
}

#[test]
fn s8_s9_s10_integers_to_floats() {
    let float32 = converted(
        &leaf(4),
        &leaf(11),
        Overflowing,
        &16_777_217i32.to_le_bytes(),
    );
    assert_eq!(float32, Ok(16_777_216f32.to_le_bytes().to_vec()));
    let float16 = |value: u16| converted(&leaf(7), &leaf(10), Overflowing, &value.to_le_bytes());
    assert_eq!(float16(65_519), Ok(vec![0xFF, 0x7B]));
    assert_eq!(float16(65_520), Ok(vec![0x00, 0x7C]));
}

#[test]
fn s11_an_overflow_in_a_dropped_field() {
    let from = Type::Struct(vec![column("a", time(2, "")), column("b", leaf(2))]);
    let inner = struct_mapping(
        &position(0),
        &[cast(&position(0), &time(0, ""), Strict), position(1)],
    );
    let count = 9_223_372_036_855i64.to_le_bytes();
    let record = [&[1, 1], count.as_slice(), &[1, 7]].concat();
    let second = Type::Struct(vec![column("b", leaf(2))]);
    let dropped = struct_mapping(&inner, &[position(1)]);
    assert_eq!(one(&from, &second, &dropped, &record), Ok(vec![1, 1, 7]));
    let first = Type::Struct(vec![column("a", time(0, ""))]);
    let kept = struct_mapping(&inner, &[position(0)]);
    assert_eq!(one(&from, &first, &kept, &record), Err(44));
}

#[test]
fn s12_array_widths() {
    let array = |width: u32| Type::Array(width, Box::new(column("", leaf(2))));
    for selector in [position(0), array_mapping(&position(0), &position(0))] {
        assert_eq!(one(&array(2), &array(3), &selector, &[0]), Err(33));
        assert_eq!(one(&array(2), &array(2), &selector, &[0]), Ok(vec![0]));
    }
}

#[test]
fn l1_limits_of_precision_and_scale() {
    for (precision, scale) in [(1, 0), (1, 1), (18, 0), (18, 18)] {
        assert_eq!(read_layout(&layout(&decimal(precision, scale))), Ok(()));
    }
    for (precision, scale) in [(0, 0), (19, 0), (1, 2), (18, 19)] {
        let refused = read_layout(&layout(&decimal(precision, scale)));
        assert_eq!(refused, Err(Refusal::of(50)));
    }
}

#[test]
fn l1_limits_of_the_magnitude() {
    let type_ = decimal(18, 0);
    let run = |value: i64| {
        let record = present(&value.to_le_bytes());
        one(&type_, &type_, &position(0), &record).map(|output| output == record)
    };
    let limit = 1_000_000_000_000_000_000;
    assert_eq!([run(limit - 1), run(1 - limit)], [Ok(true), Ok(true)]);
    assert_eq!([run(limit), run(-limit)], [Err(52), Err(52)]);
}

#[test]
fn l1_a_larger_precision_at_the_same_scale() {
    let value = 12_340i64.to_le_bytes();
    let salinity = decimal(6, 3);
    let kept = converted(&salinity, &decimal(9, 3), NonStrict, &value);
    assert_eq!(kept, Ok(value.to_vec()));
    for (to, option) in [
        (decimal(9, 3), Strict),
        (decimal(5, 3), NonStrict),
        (decimal(9, 4), NonStrict),
        (salinity.clone(), NonStrict),
    ] {
        assert_eq!(converted(&salinity, &to, option, &value), Err(32));
    }
}
