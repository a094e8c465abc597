//! Texts and plans with some letters or bytes changed: nothing stops the readers and writers, and a text that is still
//! read comes back.

mod common;

use common::{Random, examples, file};
use selector_tool::diff;
use selector_tool::plan_text::{Beside, plan_text};
use selector_tool::read;
use selector_tool::terminal::Paint;
use selector_tool::text::{
    layout_text, parse_layout, parse_record, parse_table, record_text, table_text,
};

/// Words and letters that the form has, and some that it has not.
const PARTS: [&str; 24] = [
    ":",
    "@",
    "{",
    "}",
    "[",
    "]",
    ",",
    "\n",
    "\"",
    "\\",
    "#",
    "null",
    "list of ",
    "array 3 of ",
    "struct {",
    "0x",
    "-1",
    "1e999",
    "T",
    "é",
    "\u{0}",
    " ",
    "bits(",
    "2020-01-01T00:00:00.éé",
];

fn damaged(random: &mut Random, text: &str) -> Vec<u8> {
    let mut letters: Vec<String> = text.chars().map(String::from).collect();
    for _ in 0..1 + random.below(4) {
        let at = random.below(letters.len());
        match random.below(3) {
            0 => letters[at] = String::new(),
            1 => letters[at] = PARTS[random.below(PARTS.len())].to_string(),
            _ => letters.insert(at, PARTS[random.below(PARTS.len())].to_string()),
        }
    }
    let mut bytes = letters.concat().into_bytes();
    if random.below(20) == 0 && !bytes.is_empty() {
        let at = random.below(bytes.len());
        bytes[at] = random.next() as u8;
    }
    bytes
}

#[test]
fn texts() {
    let mut random = Random(3);
    let mut read_again = 0;
    for _ in 0..4000 {
        let layout = random.layout();
        let text = damaged(&mut random, &layout_text(&layout));
        if let Ok((layout, _)) = parse_layout(&text) {
            let again = parse_layout(layout_text(&layout).as_bytes());
            assert_eq!(again.map(|(layout, _)| layout), Ok(layout));
            read_again += 1;
        }
        let values = random.record(&layout);
        let text = damaged(&mut random, &record_text(&values, &layout));
        if let Ok((values, _)) = parse_record(&text, &layout) {
            let again = parse_record(record_text(&values, &layout).as_bytes(), &layout);
            assert_eq!(again.map(|(values, _)| values), Ok(values));
        }
        let table = random.table();
        let text = damaged(&mut random, &table_text(&table));
        if let Ok((table, _)) = parse_table(&text) {
            let again = parse_table(table_text(&table).as_bytes());
            assert_eq!(again.map(|(table, _)| table), Ok(table));
        }
    }
    assert!(read_again > 100);
}

/// Brackets that open and never close are refused, not followed.
#[test]
fn brackets() {
    for part in ["list of ", "struct { a: ", "array 1 of "] {
        let text = format!("layout version 1\na: {}", part.repeat(100_000));
        assert!(parse_layout(text.as_bytes()).is_err());
    }
}

#[test]
fn plans() {
    for folder in examples() {
        let layout = |name| read::read_layout(&file(&folder, name).unwrap()).unwrap();
        let (incoming, target) = (layout("incoming.lay"), layout("target.lay"));
        let plan = file(&folder, "plan.pln").unwrap();
        for at in 0..plan.len() {
            for byte in 0..=u8::MAX {
                let mut plan = plan.clone();
                plan[at] = byte;
                let Ok(plan) = read::read_plan(&plan) else {
                    continue;
                };
                let beside = Beside {
                    incoming: Some(&incoming.columns),
                    target: Some(&target.columns),
                    ..Beside::default()
                };
                assert!(!plan_text(&plan, beside, Paint(false)).is_empty());
                let diff = diff::of_plan(&plan, &incoming.columns, &target.columns);
                assert!(diff.text(Paint(true)).len() >= diff.rows.len());
                assert!(!diff.json().to_string().is_empty());
            }
        }
    }
}

/// A plan that asks for types without end, each level twice the one before.
#[test]
fn doubling_plans() {
    let mut plan = b"PLN\x01\x00\x01\x00".to_vec();
    plan.extend([4; 62]);
    plan.extend([0, 0, 0]);
    for _ in 0..62 {
        plan.extend([2, 0, 0, 0, 0, 0, 0, 0]);
    }
    let plan = read::read_plan(&plan).unwrap();
    let (layout, _) =
        parse_layout(b"layout version 1\na: struct { b: int8, c: struct { d: int8 } }").unwrap();
    let beside = Beside {
        incoming: Some(&layout.columns),
        ..Beside::default()
    };
    assert!(plan_text(&plan, beside, Paint(false)).contains("struct mapping of struct mapping"));
}
