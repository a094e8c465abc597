//! The bindings over the library: samples of document 01, the folders of examples/ with what the one of decimals tells,
//! and what is promised of buffers.

use column_selector::{
    Defaults, ExtraColumns, Incoming, Layout, Place, Plan, PlanBuf, Policy, Reason, Record,
    Refusal, Target,
};
use std::fs;
use std::path::{Path, PathBuf};

const OLDER: &[u8] = b"LAY\x01\x00\x01\x00\x01t\x03";
const OURS: &[u8] = b"LAY\x01\x00\x02\x00\x01t\x04\x01s\x0F";

fn incoming(bytes: &[u8]) -> Incoming<'_> {
    Incoming(Layout::new(bytes))
}

fn target(bytes: &[u8]) -> Target<'_> {
    Target(Layout::new(bytes))
}

fn by_name(policy: Policy, from: &[u8], to: &[u8]) -> Result<PlanBuf, Refusal> {
    PlanBuf::build_by_name(policy, incoming(from), target(to))
}

fn refused<T: std::fmt::Debug>(result: Result<T, Refusal>) -> (u32, u32) {
    let refusal = result.unwrap_err();
    (refusal.number(), refusal.place)
}

#[test]
fn sample_s1() {
    let built = by_name(Policy::ALL, OLDER, OURS).unwrap();
    let plan = built.plan();
    assert_eq!(
        plan.as_bytes(),
        b"PLN\x01\x00\x02\x00\x02\x00\x00\x00\x04\x02\x01\x01s\x0F\x00"
    );
    plan.check(incoming(OLDER), target(OURS)).unwrap();
    let record = Record::new(b"\x01\xFE\xFF");
    assert_eq!(
        plan.run(incoming(OLDER), target(OURS), record).unwrap(),
        b"\x01\xFE\xFF\xFF\xFF\x00"
    );
    assert_eq!(PlanBuf::from(plan).into_bytes(), plan.as_bytes());
}

#[test]
fn extra_columns() {
    let strict = Policy::ALL.with_extra_columns(ExtraColumns::Raise);
    let refusal = by_name(strict, OURS, OLDER).unwrap_err();
    assert_eq!((refusal.number(), refusal.place), (53, 1));
    assert_eq!(refusal.reason.place(), Place::Incoming);
    assert_eq!(refused(by_name(Policy::ALL, OURS, OLDER)), (17, 0));
    assert!(by_name(strict, OLDER, OURS).is_ok());
    let default = ExtraColumns::default();
    assert_eq!(strict.with_extra_columns(default), Policy::ALL);
}

#[test]
fn refusals_have_number_and_place() {
    assert_eq!(refused(Layout::read(b"LAY")), (1, 1));
    assert_eq!(Layout::read(OURS).unwrap().as_bytes(), OURS);
    let raise = Policy::ALL - Policy::INSERT_MISSING_COLUMNS;
    assert_eq!(refused(by_name(raise, OLDER, OURS)), (11, 1));
    assert_eq!(refused(by_name(Policy::ALL, OLDER, b"")), (1, 2));
    let plan = Plan::new(b"PLN\x01\x00\x01\x00\x00\x05\x00");
    assert_eq!(refused(plan.check(incoming(OLDER), target(OURS))), (31, 0));
    let built = by_name(Policy::ALL, OLDER, OURS).unwrap();
    let plan = built.plan();
    let short = Record::new(b"\x01\xFE");
    assert_eq!(
        refused(plan.run(incoming(OLDER), target(OURS), short)),
        (40, 0)
    );
    assert_eq!(refused(plan.check(incoming(OURS), target(OLDER))), (32, 0));
}

#[test]
fn a_refused_call_leaves_the_buffer() {
    let mut buffer = [7u8; 17];
    let built = Plan::build_by_name_into(Policy::ALL, incoming(OLDER), target(OURS), &mut buffer);
    assert_eq!(refused(built), (27, 0));
    assert_eq!(buffer, [7; 17]);
    let built = by_name(Policy::ALL, OLDER, OURS).unwrap();
    let mut output = [7u8; 8];
    let record = Record::new(b"\x01\xFE\xFF");
    let length = built
        .plan()
        .run_into(incoming(OLDER), target(OURS), record, &mut output)
        .map(|record| record.as_bytes().len());
    assert_eq!(length, Ok(6));
    assert_eq!(output, *b"\x01\xFE\xFF\xFF\xFF\x00\x07\x07");
}

#[test]
fn a_refusal_is_said_in_words() {
    let refusal = by_name(Policy::NONE, OLDER, OURS).unwrap_err();
    assert_eq!(refusal.reason, Reason::IntegerUpcast);
    assert_eq!(
        refusal.to_string(),
        "refused 16: a cast between integers is not allowed (column 0)"
    );
}

#[test]
fn reasons_have_numbers() {
    for reason in Reason::LISTED {
        assert_eq!(Reason::of_number(reason.number()), *reason);
        assert!(!reason.meaning().is_empty());
    }
    assert_eq!(Reason::Repeated.place(), Place::Input);
    let unlisted = Reason::of_number(999);
    assert_eq!((unlisted, unlisted.number()), (Reason::Unlisted(999), 999));
    assert_eq!(unlisted.place(), Place::None);
}

const NUMBERS: Policy = Policy::INTEGER_UPCAST
    .union(Policy::FLOAT_UPCAST)
    .intersection(Policy::ALL.difference(Policy::NULL_UPCAST));

#[test]
fn policies() {
    assert_eq!(Policy::from_word(u32::MAX), Policy::ALL);
    assert!(Policy::ALL.allows(Policy::NULL_UPCAST | Policy::FLOAT_UPCAST));
    assert!(!(Policy::ALL - Policy::NULL_UPCAST).allows(Policy::NULL_UPCAST));
    assert_eq!(Policy::default(), Policy::NONE);
    let mut policy = Policy::INTEGER_UPCAST;
    policy |= Policy::FLOAT_UPCAST;
    assert_eq!(policy, NUMBERS);
    assert_eq!(policy & Policy::FLOAT_UPCAST, Policy::FLOAT_UPCAST);
    policy &= Policy::FLOAT_UPCAST;
    policy -= Policy::FLOAT_UPCAST;
    assert_eq!(policy, Policy::NONE);
}

#[test]
fn policies_are_written_by_name() {
    assert_eq!(format!("{:?}", Policy::NONE), "Policy(NONE)");
    let text = format!("{NUMBERS:?}");
    assert_eq!(text, "Policy(INTEGER_UPCAST | FLOAT_UPCAST)");
    let all = Policy::FLAGS
        .iter()
        .fold(Policy::NONE, |all, (_, flag)| all | *flag);
    assert_eq!(all, Policy::ALL);
}

fn example(folder: &Path) {
    let file = |name: &str| fs::read(folder.join(name)).unwrap();
    let (from, to) = (file("incoming.lay"), file("target.lay"));
    let (from, to) = (incoming(&from), target(&to));
    let built = match fs::read(folder.join("defaults.def")) {
        Ok(table) => PlanBuf::build_by_number(Policy::ALL, from, to, Defaults::new(&table)),
        Err(_) => PlanBuf::build_by_name(Policy::ALL, from, to),
    };
    let built = built.unwrap();
    let plan = built.plan();
    assert_eq!(plan.as_bytes(), file("plan.pln"));
    plan.check(from, to).unwrap();
    let output = match plan.run(from, to, Record::new(&file("record.bin"))) {
        Ok(output) => output,
        Err(refusal) => format!("refused {}\n", refusal.number()).into_bytes(),
    };
    assert_eq!(output, file("output.bin"), "{}", folder.display());
}

#[test]
fn examples() {
    let folder = PathBuf::from(env!("CARGO_MANIFEST_DIR")).join("../examples");
    let mut count = 0;
    for entry in fs::read_dir(folder).unwrap() {
        let path = entry.unwrap().path();
        if path.is_dir() {
            example(&path);
            count += 1;
        }
    }
    assert!(count >= 3);
}

/// Of a partition's values the source index picks one; past the end there is none, and the column is null.
#[test]
fn sources() {
    let table = b"DEF\x01\x00\x01\x00\x07\x00\x00\x00\x01\x00\x02\x02\x00\x01\x05\x01\x06";
    let (none, to) = (
        b"LAY\x02\x00\x00\x00",
        b"LAY\x02\x00\x01\x00\x01t\x07\x00\x00\x00\x02",
    );
    let (from, to) = (incoming(none), target(to));
    let run = |defaults| {
        let built = PlanBuf::build_by_number(Policy::ALL, from, to, defaults).unwrap();
        built.plan().run(from, to, Record::new(b"")).unwrap()
    };
    let table = Defaults::new(table);
    assert_eq!(run(table), b"\x01\x05");
    assert_eq!(run(table.with_source(1)), b"\x01\x06");
    assert_eq!(run(table.with_source(2)), b"\x00");
    assert_eq!(run(Defaults::NONE), b"\x00");
    assert_eq!(table.with_source(2).source_index(), 2);
}

/// Of a table of version 2 the owner's entries count; one of version 1 is every owner's.
#[test]
fn owners() {
    let none = b"LAY\x02\x00\x00\x00";
    let to = b"LAY\x02\x00\x01\x00\x01t\x07\x00\x00\x00\x02";
    let (from, to) = (incoming(none), target(to));
    let run = |defaults| {
        let built = PlanBuf::build_by_number(Policy::ALL, from, to, defaults).unwrap();
        built.plan().run(from, to, Record::new(b"")).unwrap()
    };
    let one = Defaults::new(b"DEF\x01\x00\x01\x00\x07\x00\x00\x00\x00\x02\x01\x05");
    assert_eq!(run(one.with_owner(9)), b"\x01\x05");
    let two = b"DEF\x02\x00\x02\x00\x01\x00\x07\x00\x00\x00\x00\x02\x01\x05\x02\x00\x07\x00\x00\x00\x00\x02\x01\x06";
    let two = Defaults::new(two);
    assert_eq!(run(two), b"\x00");
    assert_eq!(run(two.with_owner(1)), b"\x01\x05");
    assert_eq!(run(two.with_owner(2)), b"\x01\x06");
    assert_eq!(two.with_owner(2).owner(), 2);
}

/// What examples/gates/about.txt says of a missing default, of a neighbour whose level is optional, and of a record
/// without a level.
#[test]
fn gates() {
    let folder = PathBuf::from(env!("CARGO_MANIFEST_DIR")).join("../examples/gates");
    let file = |name: &str| fs::read(folder.join(name)).unwrap();
    let (from, to, table) = (
        file("incoming.lay"),
        file("target.lay"),
        file("defaults.def"),
    );
    let build = |from: &[u8], defaults| {
        PlanBuf::build_by_number(Policy::ALL, incoming(from), target(&to), defaults)
    };
    assert_eq!(refused(build(&from, Defaults::NONE)), (54, 0));
    let mut optional = from.clone();
    // The mark after the name and the id of the level.
    optional[7 + 6 + 4] = 0;
    let defaults = Defaults::new(&table);
    let refusal = build(&optional, defaults).unwrap_err();
    assert_eq!(
        (refusal.reason, refusal.place),
        (Reason::OptionalToRequired, 0)
    );
    let built = build(&from, defaults).unwrap();
    let plan = built.plan();
    let checked = plan.check(incoming(&optional), target(&to));
    assert_eq!(refused(checked), (55, 0));
    let run = |record| plan.run(incoming(&from), target(&to), Record::new(record));
    assert_eq!(refused(run(b"\x00\x00")), (56, 0));
    assert_eq!(
        run(b"\x01\x02\x00\x00").unwrap(),
        b"\x01\x02\x00\x00\x00\x00\x01\x28\x00"
    );
}

/// What examples/salinometer/about.txt says of other policies and of the other way round, and the record that has too
/// many digits.
#[test]
fn salinometer() {
    let folder = PathBuf::from(env!("CARGO_MANIFEST_DIR")).join("../examples/salinometer");
    let file = |name: &str| fs::read(folder.join(name)).unwrap();
    let (narrow, wide) = (file("incoming.lay"), file("target.lay"));
    let off = Policy::ALL - Policy::DECIMAL_WIDENING;
    assert_eq!(refused(by_name(off, &narrow, &wide)), (51, 0));
    assert_eq!(refused(by_name(Policy::ALL, &wide, &narrow)), (24, 0));
    assert_eq!(refused(by_name(off, &wide, &narrow)), (24, 0));
    let built = by_name(Policy::DECIMAL_WIDENING, &narrow, &wide).unwrap();
    let mut record = file("record.bin");
    record[1..9].copy_from_slice(&1_000_000i64.to_le_bytes());
    let record = Record::new(&record);
    let run = built.plan().run(incoming(&narrow), target(&wide), record);
    assert_eq!(refused(run), (52, 0));
}
