//! Where refusals come from: the field of a build, the difference of a plan, the column of a run, the byte of a file.

use column_selector::{Defaults, Incoming, Layout, Plan, Policy, Record, Target};
use selector_tool::files::{Input, of_text};
use selector_tool::find::Build;
use selector_tool::text::Kind;
use selector_tool::told::{Case, Told, tell};
use selector_tool::{follow, lists, path, read};

fn input(name: &str, text: &str, kind: Kind) -> Input {
    let bytes = text.as_bytes().to_vec();
    let input = Input {
        name: name.to_string(),
        bytes,
        places: None,
    };
    of_text(input, kind, None).unwrap()
}

fn layout(name: &str, version: u16, columns: &str) -> Input {
    input(
        name,
        &format!("layout version {version}\n{columns}"),
        Kind::Layout,
    )
}

/// A build that is refused: its number, and the paths of the target's and the incoming column.
fn refused(
    version: u16,
    policy: &str,
    incoming: &str,
    target: &str,
    defaults: &str,
) -> (u32, String, String) {
    let (incoming, target) = (
        layout("in", version, incoming),
        layout("to", version, target),
    );
    let table = input(
        "table",
        &format!("defaults version 1\n{defaults}"),
        Kind::Defaults,
    );
    let policy = lists::policy(policy).unwrap();
    let build = Build {
        by_number: version >= 2,
        policy,
        defaults: Defaults::new(&table.bytes),
    };
    let refusal = build.call(&incoming.bytes, &target.bytes).unwrap_err();
    let case = Case {
        incoming: Some(&incoming),
        target: Some(&target),
        build: Some(build),
        ..Case::default()
    };
    let told = tell(refusal, case);
    let path =
        |about: Option<selector_tool::told::About>| about.map_or(String::new(), |about| about.path);
    (refusal.number(), path(told.target), path(told.incoming))
}

fn by_name(policy: &str, incoming: &str, target: &str) -> (u32, String, String) {
    refused(1, policy, incoming, target, "")
}

fn due(number: u32, target: &str, incoming: &str) -> (u32, String, String) {
    (number, target.to_string(), incoming.to_string())
}

#[test]
fn fields_by_name() {
    let gate = "a: int8, gate: struct { old: int8, open: string }";
    assert_eq!(
        by_name("all", gate, "gate: struct { open: boolean }"),
        due(24, "gate.open", "gate.open")
    );
    assert_eq!(
        by_name(
            "all,-extra_struct_fields",
            gate,
            "gate: struct { open: string }"
        ),
        due(13, "gate", "gate.old")
    );
    assert_eq!(
        by_name(
            "all,-missing_struct_fields",
            gate,
            "a: int8, gate: struct { open: string, new: int8 }"
        ),
        due(14, "gate.new", "")
    );
    assert_eq!(
        by_name("all,-missing_columns", gate, "a: int8, new: int8"),
        due(11, "new", "")
    );
    assert_eq!(
        by_name(
            "all",
            "s: list of array 2 of struct { a: uint32 }",
            "s: list of array 2 of struct { a: int32 }"
        ),
        due(17, "s[][].a", "s[][].a")
    );
    assert_eq!(
        by_name("all", "s: array 2 of int8", "s: array 3 of int8"),
        due(24, "s", "s")
    );
    assert_eq!(
        by_name(
            "all",
            "s: struct { b: int8, a: int8, a: int8 }",
            "s: struct { a: int8 }"
        ),
        due(12, "s", "s.a")
    );
    assert_eq!(
        by_name(
            "-decimal_widening",
            "a: int8, s: list of decimal(4,2)",
            "a: int8, s: list of decimal(5,2)"
        ),
        due(51, "s[]", "s[]")
    );
}

#[test]
fn an_extra_column() {
    let (two, one) = ("a: int8, b: struct { c: int8 }", "a: int8");
    assert_eq!(by_name("-extra_columns", two, one), due(53, "", "b"));
    let (two, one) = ("a @1: int8, b @2: int8", "b @2: int8");
    let refused = refused(2, "-extra_columns", two, one, "");
    assert_eq!(refused, due(53, "", "a"));
}

#[test]
fn required_fields() {
    let refused = |incoming: &str, target: &str, defaults: &str| {
        refused(3, "all", incoming, target, defaults)
    };
    // An optional field meets a required one: at the top, in a struct, in an element, and each before what is inside
    // it.
    assert_eq!(
        refused(
            "a @1: int8, b @2: int8",
            "a @1: int8, c @2 required: int8",
            ""
        ),
        due(55, "c", "b")
    );
    assert_eq!(
        refused(
            "s @1 required: struct { x @2: int8, y @3: int8 }",
            "s @1 required: struct { x @2: int8, z @3 required: string }",
            ""
        ),
        due(55, "s.z", "s.y")
    );
    assert_eq!(
        refused(
            "s @1: struct { x @2: int8 }",
            "s @1 required: struct { x @2 required: int8 }",
            ""
        ),
        due(55, "s", "s")
    );
    let listed = |list: &str, element: &str, field: &str| {
        format!("s @1{list}: list of e @2{element}: struct {{ x @3{field}: int8 }}")
    };
    let required = " required";
    for (list, element, field, path) in [
        ("", required, required, "s"),
        (required, "", "", "s[]"),
        (required, required, "", "s[].x"),
    ] {
        assert_eq!(
            refused(
                &listed(list, element, field),
                &listed(required, required, required),
                ""
            ),
            due(55, path, path)
        );
    }
    assert_eq!(
        refused("a @1 required: null", "a @1 required: int8", ""),
        due(55, "a", "a")
    );
    // A missing one would be null: by itself, in the default of a struct, in a struct that is there, in an element.
    assert_eq!(
        refused("a @1: int8", "a @1: int8, b @2 required: int8", ""),
        due(54, "b", "")
    );
    let missing = "s @1: struct { x @2 required: int8, y @3: int8 }";
    assert_eq!(
        refused("a @9: int8", missing, "@3 initial int8: 7"),
        due(54, "s.x", "")
    );
    assert_eq!(
        refused(
            "a @9: int8",
            "s @1 required: struct { x @2 required: int8, y @3: int8 }",
            ""
        ),
        due(54, "s", "")
    );
    assert_eq!(
        refused("s @1: struct { y @3: int8 }", missing, ""),
        due(54, "s.x", "")
    );
    assert_eq!(
        refused(
            "s @1: list of e @4: struct { y @3: int8 }",
            "s @1: list of e @4: struct { y @3: int8, x @2 required: int8 }",
            "@2 initial int8: 7"
        ),
        due(54, "s[].x", "")
    );
}

/// A plan that may give null to what is required is told with the place.
#[test]
fn plans_for_other_marks() {
    let columns = |a: &str, p: &str, e: &str| {
        format!("a @1{a}: int8, s @2: struct {{ p @3{p}: int8, l @4: list of e @5{e}: int8 }}")
    };
    let required = " required";
    let target = layout("to", 3, &columns(required, required, required));
    let plan = Plan::new(b"PLN\x01\x00\x02\x00\x00\x00\x00\x00\x01\x00");
    for (a, p, e, path) in [
        ("", required, required, "a"),
        (required, "", required, "s.p"),
        (required, required, "", "s.l[]"),
        (required, "", "", "s.p"),
    ] {
        let incoming = layout("in", 3, &columns(a, p, e));
        let layouts = (
            Incoming(Layout::new(&incoming.bytes)),
            Target(Layout::new(&target.bytes)),
        );
        let refusal = plan.check(layouts.0, layouts.1).unwrap_err();
        let input = Input {
            name: "plan".to_string(),
            bytes: plan.as_bytes().to_vec(),
            places: None,
        };
        let case = Case {
            incoming: Some(&incoming),
            target: Some(&target),
            plan: Some(&input),
            ..Case::default()
        };
        let told = tell(refusal, case);
        assert_eq!(refusal.number(), 55);
        assert_eq!(told.target.as_ref().unwrap().path, path);
        assert!(
            told.text().contains(": required, int8\n"),
            "{}",
            told.text()
        );
    }
}

#[test]
fn fields_by_number() {
    let none = "a @9: int8";
    assert_eq!(
        refused(
            2,
            "all",
            "m @1: list of x @2: int8",
            "n @1: list of x @3: int8",
            ""
        ),
        due(25, "n", "m")
    );
    assert_eq!(
        refused(
            2,
            "all",
            "m @1: struct { p @2: int16 }",
            "n @1: struct { q @2: int8 }",
            ""
        ),
        due(17, "n.q", "m.p")
    );
    let wanted = "w @1: struct { x @2: struct { y @3: int8, z @4: string } }";
    assert_eq!(
        refused(2, "all", none, wanted, "@4 partition failed"),
        due(26, "w.x.z", "")
    );
    assert_eq!(
        refused(2, "all", none, wanted, "@4 initial int8: 1"),
        due(28, "w.x.z", "")
    );
}

/// A plan and a record between two layouts; what is told of the refusal.
fn told(incoming: &str, target: &str, plan: &[u8], record: &[u8]) -> Told {
    let (incoming, target) = (layout("in", 1, incoming), layout("to", 1, target));
    let file = |bytes: &[u8]| Input {
        name: "file".to_string(),
        bytes: bytes.to_vec(),
        places: None,
    };
    let (plan, record) = (file(plan), file(record));
    let (from, to) = (
        Incoming(Layout::new(&incoming.bytes)),
        Target(Layout::new(&target.bytes)),
    );
    let refusal = Plan::new(&plan.bytes)
        .run(from, to, Record::new(&record.bytes))
        .unwrap_err();
    let case = Case {
        incoming: Some(&incoming),
        target: Some(&target),
        plan: Some(&plan),
        record: Some(&record),
        ..Case::default()
    };
    tell(refusal, case)
}

#[test]
fn the_first_difference() {
    let bare = b"PLN\x01\x00\x02\x00\x00\x00\x00\x00\x01\x00";
    for (target, path, note) in [
        ("a: int8, c: int8", "c", "the plan makes the name b"),
        ("a: int8", "", "the plan makes 2 columns, not 1"),
        ("a: int16, b: int8", "a", "the plan makes int8, not int16"),
    ] {
        let told = told("a: int8, b: int8", target, bare, b"");
        assert_eq!(told.refusal.number(), 33);
        assert_eq!(told.target.map_or(String::new(), |about| about.path), path);
        assert_eq!(told.note.as_deref(), Some(note));
    }
    let told = told(
        "a: int8, b: list of struct { x: int8, y: int8 }",
        "a: int8, b: list of struct { x: int8, y: string }",
        bare,
        b"",
    );
    assert_eq!(told.target.unwrap().path, "b[].y");
}

/// The selector inside a top selector that is refused.
#[test]
fn the_selector_of_a_check() {
    let columns = "a: int8, s: struct { x: int8, y: list of struct { p: int8, q: string } }";
    // A cast of q to int16 in the element of y; a position that is not there as the input of a rename.
    let cast = [
        4, 0, 1, 0, 1, 0, 5, 0, 1, 0, 4, 0, 0, 0, 2, 0, 0, 0, 0, 2, 0, 1, 0, 3, 2,
    ];
    let gone = [3, 0, 9, 0, 1, b'n'];
    let kind = [5, 0, 0, 0, 2, 1, 0, 1, 0, 1, 2];
    for (selector, number, note) in [
        (
            &cast[..],
            32,
            "selector 0, field 0, element, field 1: cast to int16, Overflowing, of position 1 (q: string)",
        ),
        (
            &gone[..],
            31,
            "selector 0, input: position 9, which is not there",
        ),
        (
            &kind[..],
            32,
            "selector 0: list mapping of position 0 (a: int8)",
        ),
    ] {
        let plan = [b"PLN\x01\x00\x01\x00".as_slice(), selector].concat();
        let told = told(columns, columns, &plan, b"");
        assert_eq!(told.refusal.number(), number);
        assert_eq!(told.note.as_deref(), Some(note));
    }
}

#[test]
fn the_column_of_a_run() {
    let columns = "a: date-time ms, b: date-time ms, c: date-time ms";
    let target = columns.replace("ms", "ns");
    let mut plan = b"PLN\x01\x00\x03\x00".to_vec();
    for position in 0..3 {
        plan.extend([2, 0, position, 0, 14, 0, 0, 1]);
    }
    let mut record = b"\x00".to_vec();
    for _ in 0..2 {
        record.push(1);
        record.extend(i64::MAX.to_le_bytes());
    }
    let said = told(columns, &target, &plan, &record);
    assert_eq!(
        (said.refusal.number(), said.target.unwrap().path.as_str()),
        (44, "b")
    );
    // In a renamed struct's list: the field that is too large by itself.
    let columns = "s: struct { a: int8, t: list of struct { x: date-time ms, y: date-time ms } }";
    let target = columns
        .replace("ms", "ns")
        .replace("s: struct { a: int8, t:", "r: struct { t:");
    let finer = |position| [2, 0, position, 0, 14, 0, 0, 1];
    let mut plan = b"PLN\x01\x00\x01\x00".to_vec();
    plan.extend([3, 4, 0, 0, 0, 1, 0, 5, 0, 1, 0, 4, 0, 0, 0, 2, 0]);
    plan.extend([finer(0), finer(1)].concat());
    plan.extend([1, b'r']);
    let mut record = vec![1, 0, 1, 1, 0, 1, 0, 1];
    record.extend(i64::MAX.to_le_bytes());
    let said = told(columns, &target, &plan, &record);
    assert_eq!(
        (said.refusal.number(), said.target.unwrap().path.as_str()),
        (44, "r.t[].y")
    );
    // A list of 1,500 int8 becomes three of int64: with the second there are more than 16,384 bytes.
    let mut record = vec![1, 0xDC, 0x05];
    record.extend([1, 7].repeat(1500));
    let mut plan = b"PLN\x01\x00\x03\x00".to_vec();
    for name in [b"p", b"q", b"r"] {
        plan.extend([3, 5, 0, 0, 0, 2, 0, 0, 0, 5, 2, 1, name[0]]);
    }
    let said = told(
        "l: list of int8",
        "p: list of int64, q: list of int64, r: list of int64",
        &plan,
        &record,
    );
    assert_eq!(
        (said.refusal.number(), said.target.unwrap().path.as_str()),
        (45, "q")
    );
}

#[test]
fn bytes_of_files() {
    let plan = b"PLN\x01\x00\x01\x00\x00\x00\x00";
    let said = told(
        "g: struct { a: boolean, b: int16 }",
        "g: struct { a: boolean, b: int16 }",
        plan,
        b"\x01\x01\x02",
    );
    let fault = said.fault.unwrap();
    assert_eq!((said.refusal.number(), fault.from, fault.to), (41, 2, 3));
    assert_eq!(read::path_text(&fault.path), "g.a");
    assert_eq!(fault.expected, "a boolean, 0 or 1, not 2");
    let said = told("g: int8", "g: int8", b"PLN\x01\x00\x01\x00\x09", b"");
    assert_eq!(
        said.fault.map(|fault| (fault.from, fault.expected.clone())),
        Some((7, "a selector's code, 0 to 6, not 9".to_string()))
    );
}

/// A text whose bytes the library refuses: the line and column.
#[test]
fn places_in_texts() {
    for (columns, line, column) in [
        ("a: int8\na: int8", 3, 1),
        ("a: int8\ns: struct { x: int8, y: decimal(19,0) }", 3, 22),
        ("s: list of list of struct {\n  y: decimal(1,2)\n}", 3, 3),
    ] {
        let input = layout("in.txt", 1, columns);
        let refusal = Layout::read(&input.bytes).unwrap_err();
        let told = tell(
            refusal,
            Case {
                incoming: Some(&input),
                ..Case::default()
            },
        );
        let place = told.place.unwrap();
        assert_eq!((place.line, place.column), (line, column), "{columns}");
        assert!(
            told.text()
                .contains(&format!("in.txt:{line}:{column}, in ")),
            "{}",
            told.text()
        );
    }
}

/// What plans drop, nested and through elements.
#[test]
fn what_is_dropped() {
    let incoming = layout(
        "in",
        1,
        "a: int8, s: struct { x: int8, y: list of struct { p: int8, q: int8 } }, z: int8",
    );
    for (target, due) in [
        ("a: int8", vec!["s", "z"]),
        ("s: struct { x: int8 }, z: int8", vec!["a", "s.y"]),
        (
            "s: struct { y: list of struct { q: int8 } }",
            vec!["a", "s.x", "s.y[].p", "z"],
        ),
        (
            "a: int8, s: struct { x: int8, y: list of struct { p: int8, q: int8 } }, z: int8",
            vec![],
        ),
        ("s: struct {}", vec!["a", "s.x", "s.y", "z"]),
    ] {
        let target = layout("to", 1, target);
        let build = Build {
            by_number: false,
            policy: Policy::ALL,
            defaults: Defaults::NONE,
        };
        let plan = build.call(&incoming.bytes, &target.bytes).unwrap();
        let plan = read::read_plan(plan.plan().as_bytes()).unwrap();
        let columns = read::read_layout(&incoming.bytes).unwrap().columns;
        let ways = follow::dropped(&plan.selectors, &columns);
        let found: Vec<String> = ways
            .iter()
            .map(|way| path::way_text(way, &columns))
            .collect();
        assert_eq!(found, due);
    }
}
