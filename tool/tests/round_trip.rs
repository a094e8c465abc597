//! The text form there and back: text to tree to bytes to tree to text, over the examples and at random.

mod common;

use common::{Random, examples, file};
use selector_tool::form::{Layout, Table, Value};
use selector_tool::text::{
    layout_text, parse_layout, parse_record, parse_table, record_text, table_text,
};
use selector_tool::{read, write};

fn layout(bytes: &[u8]) -> Layout {
    let layout = read::read_layout(bytes).unwrap();
    assert_eq!(write::layout_bytes(&layout).unwrap(), bytes);
    let text = layout_text(&layout);
    match parse_layout(text.as_bytes()) {
        Ok((parsed, _)) => assert_eq!(parsed, layout, "{text}"),
        Err(error) => panic!("{}: {}\n{text}", error.place, error.message),
    }
    layout
}

fn record(bytes: &[u8], layout: &Layout) -> Vec<Value> {
    let values = read::read_record(bytes, layout).unwrap();
    assert_eq!(write::record_bytes(&values, layout).unwrap(), bytes);
    let text = record_text(&values, layout);
    match parse_record(text.as_bytes(), layout) {
        Ok((parsed, _)) => assert_eq!(parsed, values, "{text}"),
        Err(error) => panic!("{}: {}\n{text}", error.place, error.message),
    }
    values
}

fn table(bytes: &[u8]) -> Table {
    let table = read::read_table(bytes).unwrap();
    assert_eq!(write::table_bytes(&table).unwrap(), bytes);
    let text = table_text(&table);
    match parse_table(text.as_bytes()) {
        Ok((parsed, _)) => assert_eq!(parsed, table, "{text}"),
        Err(error) => panic!("{}: {}\n{text}", error.place, error.message),
    }
    table
}

#[test]
fn the_examples() {
    for folder in examples() {
        let incoming = layout(&file(&folder, "incoming.lay").unwrap());
        let target = layout(&file(&folder, "target.lay").unwrap());
        record(&file(&folder, "record.bin").unwrap(), &incoming);
        let output = file(&folder, "output.bin").unwrap();
        if !output.starts_with(b"refused ") {
            record(&output, &target);
        }
        if let Some(bytes) = file(&folder, "defaults.def") {
            table(&bytes);
        }
        let bytes = file(&folder, "plan.pln").unwrap();
        assert_eq!(
            write::plan_bytes(&read::read_plan(&bytes).unwrap()).unwrap(),
            bytes
        );
    }
}

#[test]
fn at_random() {
    let mut random = Random(1);
    for _ in 0..3000 {
        let made = random.layout();
        let bytes = write::layout_bytes(&made).unwrap();
        assert_eq!(column_selector::Layout::read(&bytes).map(|_| ()), Ok(()));
        assert_eq!(layout(&bytes), made);
        let values = random.record(&made);
        assert_eq!(
            record(&write::record_bytes(&values, &made).unwrap(), &made),
            values
        );
        let made = random.table();
        assert_eq!(table(&write::table_bytes(&made).unwrap()), made);
    }
}

/// What a text may have that `show` does not write.
#[test]
fn other_ways_to_write() {
    let text = b"\xef\xbb\xbf# a layout\r\n\nlayout version 2\r\na @0x10: list of e @1: int8, \"b\" @ 2 : struct { c @1: date-time \xc2\xb5s }\n";
    let (layout, _) = parse_layout(text).unwrap();
    assert_eq!(
        layout_text(&layout),
        "layout version 2           # columns by number, counted from 0\n\
         a @16: list of e @1: int8  # 0\n\
         b @2: struct {             # 1\n    c @1: date-time us\n}\n"
    );
    let text = "layout version 1\ni: int64, t: date-time ms \"UTC\", d: decimal(4,2), f: float16, x: binary, s: struct { i: int8, i: int8 }";
    let (layout, _) = parse_layout(text.as_bytes()).unwrap();
    let text = "record\ns: {i: 1, i: 2}, x: \"a\", f: bits(0x7c01), d: -1.5, t: 1970-01-01T01:00:00+01:00, i: -0x8000_0000";
    let (values, _) = parse_record(text.as_bytes(), &layout).unwrap();
    assert_eq!(
        record_text(&values, &layout),
        "record\ni: -2147483648\nt: 1970-01-01T00:00:00.000Z  # 0 ms\nd: -1.50\nf: bits(0x7c01)\nx: x\"61\"\ns: {i: 1, i: 2}\n"
    );
}

#[test]
fn errors_have_line_and_column() {
    for (text, line, column, part) in [
        ("layout version 9", 1, 16, "version 9 is not known"),
        ("layout version 1\nlevel int8", 2, 7, "expected `:`"),
        ("layout version 1\nlevel: int9", 2, 8, "`int9` is no type"),
        ("layout version 1\nlevel @1: int8", 2, 7, "has no ids"),
        (
            "layout version 2\nlevel @1 required: int8",
            2,
            10,
            "only a layout of version 3",
        ),
        (
            "layout version 3\nlevel @1 optional: int8",
            2,
            10,
            "expected `:`",
        ),
        (
            "layout version 2\nlevel: int8",
            2,
            6,
            "`@` and the field id",
        ),
        ("layout version 1\n2nd: int8", 2, 1, "between quotes"),
        (
            "layout version 1\na: int8 b: int8",
            2,
            9,
            "expected a line end",
        ),
        (
            "layout version 1\na: struct { b: int8",
            2,
            20,
            "expected a comma",
        ),
        (
            "layout version 2\na @4294967296: int8",
            2,
            4,
            "0 to 4294967295",
        ),
        (
            "layout version 1\na: decimal(6;3)",
            2,
            13,
            "`;` begins nothing",
        ),
    ] {
        let error = parse_layout(text.as_bytes()).unwrap_err();
        assert_eq!(
            (error.place.line, error.place.column),
            (line, column),
            "{text}: {}",
            error.message
        );
        assert!(error.message.contains(part), "{text}: {}", error.message);
    }
    let error = parse_layout(b"layout version 1\na\xff: int8").unwrap_err();
    assert_eq!((error.place.line, error.place.column), (2, 2));
}

#[test]
fn errors_of_records() {
    let text = "layout version 1\na: int8, b: list of boolean, c: array 2 of string, d: decimal(4,1), e: date, f: null, g: float32";
    let (layout, _) = parse_layout(text.as_bytes()).unwrap();
    let whole = [
        "a: 1",
        "b: [true]",
        "c: [\"\", null]",
        "d: 1.5",
        "e: 2020-02-29",
        "f: null",
        "g: 1e30",
    ];
    let record = |index: usize, value: &str| {
        let mut lines = whole.map(str::to_string);
        lines[index] = value.to_string();
        parse_record(format!("record\n{}", lines.join("\n")).as_bytes(), &layout)
    };
    assert!(record(0, whole[0]).is_ok());
    for (index, value, column, part) in [
        (0, "a: 128", 4, "not within -128 to 127"),
        (0, "a: x", 4, "no whole number"),
        (0, "z: 1", 1, "there is no column z"),
        (0, "e: 1", 1, "has its value already"),
        (1, "b: [1]", 5, "`true` or `false`"),
        (1, "b: true", 4, "expected `[`"),
        (2, "c: [\"\"]", 4, "an array of 2"),
        (3, "d: 1.55", 4, "more than 1 digits"),
        (4, "e: 2021-02-29", 4, "there is no day"),
        (5, "f: 0", 4, "expected `null`"),
        (6, "g: 1e39", 4, "too large"),
    ] {
        let error = record(index, value).unwrap_err();
        assert!(error.message.contains(part), "{value}: {}", error.message);
        if part != "has its value already" {
            assert_eq!(
                (error.place.line, error.place.column),
                (index + 2, column),
                "{value}"
            );
        }
    }
    let error = parse_record(b"record\na: 1", &layout).unwrap_err();
    assert!(
        error.message.contains("column b has no value"),
        "{}",
        error.message
    );
}
