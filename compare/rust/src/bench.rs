//! What the calls cost in the library and in plain Rust, measured side by side in one run and printed as ratios. The
//! plain Rust of a build is the original over its stand-ins, that of the other calls compare/plain; all go from bytes
//! to bytes, with their allocations. Names of up to 22 bytes stand in place, and keys have a fast hash, in the
//! stand-ins too.

mod records;
mod refused;
mod wide;

use crate::beside::Builder;
use crate::clock;
use crate::library::Library;
use crate::oracle::{self, Answer};
use column_selector::call as library;
use plain::call as plainly;
use plain::case::{Case, Number};
use plain::form::{
    self, Column, Default, Entry, LAYOUT_LIMIT, Layout, Leaf, PLAN_LIMIT, RECORD_LIMIT, Type,
};
use plain::generate::marks;
use plain::policy::{ALL, EXTRA_COLUMNS};
use plain::rules::CastOption;
use plain::validate;
use plain::write;
use std::hint::black_box;

/// A leaf of the incoming layout and what it becomes in the target.
const LEAVES: [(u8, u8); 8] = [
    (15, 15),
    (3, 5),
    (11, 12),
    (4, 4),
    (7, 9),
    (13, 13),
    (17, 15),
    (4, 12),
];

// Layouts.

/// One of the two layouts of a case.
#[derive(Clone, Copy, PartialEq, Eq)]
enum Role {
    Incoming,
    Target,
}

/// The order of the target's columns.
#[derive(Clone, Copy, PartialEq, Eq)]
enum Order {
    Same,
    Reversed,
}

/// Where the columns stand: at the top, as the fields of one struct, or of one inside three others.
#[derive(Clone, Copy, PartialEq, Eq)]
enum Place {
    Top,
    Struct,
    Deep,
}

impl Place {
    /// How many structs are around the columns.
    fn levels(self) -> u32 {
        match self {
            Place::Top => 0,
            Place::Struct => 1,
            Place::Deep => 4,
        }
    }
}

fn leaf(index: usize, role: Role) -> Type {
    if index % 9 == 8 {
        let (unit, zone) = match role {
            Role::Incoming => (2, Vec::new()),
            Role::Target => (0, b"UTC".to_vec()),
        };
        return Type::Leaf(Leaf::Datetime { unit, zone });
    }
    let (incoming, target) = LEAVES[index % 9];
    Type::Leaf(Leaf::Plain(match role {
        Role::Incoming => incoming,
        Role::Target => target,
    }))
}

/// Every fifth column is a struct of four fields, every seventh a list, each tenth a list of such structs.
fn type_of(index: usize, role: Role, order: Order) -> Type {
    let structure = || {
        let field = |field: usize| Column {
            id: (10_000 + 10 * index + field) as u32,
            ..Column::of(format!("part{field}").as_bytes(), leaf(index + field, role))
        };
        let mut fields: Vec<Column> = (0..4).map(field).collect();
        if role == Role::Target && order == Order::Reversed {
            fields.reverse();
        }
        Type::Struct(fields)
    };
    let list = |type_: Type| {
        Type::List(Box::new(Column {
            id: u32::MAX,
            ..Column::of(&[], type_)
        }))
    };
    match index {
        _ if index % 10 == 7 => list(structure()),
        _ if index % 5 == 4 => structure(),
        _ if index % 7 == 6 => list(leaf(index, role)),
        _ => leaf(index, role),
    }
}

/// Of `count` columns the incoming layout lacks a tenth. By number the original's comparison has no missing top
/// columns, so there the target does too. In version 3 every column, field and element is required.
fn layout(version: u8, count: usize, role: Role, order: Order, place: Place) -> Vec<u8> {
    let missing = role == Role::Incoming || version >= 2;
    let mut columns: Vec<Column> = (0..count)
        .filter(|index| !missing || index % 10 != 9)
        .map(|index| Column {
            id: if version >= 2 { 1 + index as u32 } else { 0 },
            ..Column::of(
                format!("reading_{index}").as_bytes(),
                type_of(index, role, order),
            )
        })
        .collect();
    if role == Role::Target && order == Order::Reversed {
        columns.reverse();
    }
    if version == 3 {
        marks::each(&mut columns, &mut |_| true);
    }
    for level in 0..place.levels() {
        columns = vec![Column {
            id: if version >= 2 {
                u32::MAX - 1 - level
            } else {
                0
            },
            ..Column::of(b"readings", Type::Struct(columns))
        }];
    }
    form::write_layout(&Layout { version, columns })
}

/// As many columns as a layout can have.
fn widest(version: u8) -> (usize, Vec<u8>) {
    let (name, bytes) = match version {
        1 => (2, 4),
        2 => (0, 6),
        _ => (0, 7),
    };
    let count = (LAYOUT_LIMIT - 7) / bytes;
    let column = |index: usize| Column {
        id: index as u32,
        ..Column::of(&index.to_le_bytes()[..name], Type::Leaf(Leaf::Plain(2)))
    };
    let columns = (0..count).map(column).collect();
    (count, form::write_layout(&Layout { version, columns }))
}

/// By name or by number, as the layouts' version asks.
fn of_layouts(version: u8, incoming: Vec<u8>, target: Vec<u8>) -> Case {
    let number = (version >= 2).then(|| Number {
        source_index: 0,
        owner: 0,
        defaults: form::write_defaults(&[]),
    });
    Case {
        policy: ALL,
        incoming,
        target,
        number,
    }
}

fn case(version: u8, count: usize, order: Order, place: Place) -> Case {
    let layout = |role: Role| layout(version, count, role, order, place);
    of_layouts(version, layout(Role::Incoming), layout(Role::Target))
}

/// Columns of one leaf type.
fn layout_of(version: u8, count: usize, leaf: &Leaf) -> Vec<u8> {
    let column = |index: usize| Column {
        id: 1 + index as u32,
        ..Column::of(
            format!("reading_{index}").as_bytes(),
            Type::Leaf(leaf.clone()),
        )
    };
    let columns = (0..count).map(column).collect();
    form::write_layout(&Layout { version, columns })
}

/// Of the scale 3.
fn decimal(precision: u8) -> Leaf {
    Leaf::Decimal {
        precision,
        scale: 3,
    }
}

/// Columns that each are made a wider decimal.
fn widened(version: u8, count: usize) -> Case {
    let layout = |precision: u8| layout_of(version, count, &decimal(precision));
    of_layouts(version, layout(6), layout(9))
}

/// Columns of the same names that each are made a wider float, by the same option.
fn floats(version: u8, count: usize) -> Case {
    let layout = |code: u8| layout_of(version, count, &Leaf::Plain(code));
    of_layouts(version, layout(11), layout(12))
}

// Records.

/// A present value, with texts of seven bytes and lists of two elements.
fn write_value(bytes: &mut Vec<u8>, type_: &Type) {
    bytes.push(1);
    match type_ {
        Type::Leaf(Leaf::Decimal { .. }) => bytes.extend(12_340u64.to_le_bytes()),
        Type::Leaf(leaf) => match form::fixed_width(leaf) {
            Some(width) => bytes.extend(&[5, 4, 3, 2, 1, 0, 0, 0][..width]),
            None => bytes.extend(b"\x07\x00reading"),
        },
        Type::Struct(columns) => columns
            .iter()
            .for_each(|column| write_value(bytes, &column.type_)),
        Type::List(element) => {
            bytes.extend([2, 0]);
            write_value(bytes, &element.type_);
            write_value(bytes, &element.type_);
        }
        Type::Array(width, element) => {
            (0..*width).for_each(|_| write_value(bytes, &element.type_));
        }
    }
}

/// None where the layout can't be read.
fn record(incoming: &[u8]) -> Option<Vec<u8>> {
    let layout = form::read_layout(incoming).ok()?;
    let mut bytes = Vec::new();
    for column in &layout.columns {
        write_value(&mut bytes, &column.type_);
    }
    Some(bytes)
}

// Measuring.

/// A round of one side takes about so many seconds, unless a call takes longer.
const ROUND: f64 = 0.003;
/// A line takes about so many seconds, if that gives a few rounds.
const LINE: f64 = 0.8;
const FEWEST_ROUNDS: usize = 5;
const MOST_ROUNDS: usize = 151;

fn time(calls: u32, mut call: impl FnMut()) -> f64 {
    let start = clock::now();
    for _ in 0..calls {
        call();
    }
    (clock::now() - start) / f64::from(calls)
}

/// How many calls make a round.
fn calls(call: impl FnMut()) -> u32 {
    let once = time(1, call).max(1e-9);
    (ROUND / once).clamp(1.0, 100_000.0) as u32
}

fn median(mut values: Vec<f64>) -> f64 {
    values.sort_by(f64::total_cmp);
    values[values.len() / 2]
}

/// One line: the sides in turn, the median of their ratios.
fn line(name: &str, count: usize, mut library: impl FnMut(), mut plain: impl FnMut()) {
    let (library_calls, plain_calls) = (calls(&mut library), calls(&mut plain));
    let mut ratios = Vec::new();
    let start = clock::now();
    while ratios.len() < FEWEST_ROUNDS
        || (ratios.len() < MOST_ROUNDS && clock::now() - start < LINE)
    {
        let (ours, theirs) = (
            time(library_calls, &mut library),
            time(plain_calls, &mut plain),
        );
        ratios.push(ours / theirs);
    }
    println!("{name:40} {count:>7} {:>13.2}", median(ratios));
}

fn differs(name: &str) -> String {
    format!("{name}: the answers differ, or the call is refused")
}

fn reading(name: &str, count: usize, layout: &[u8]) -> Result<(), String> {
    reading_beside(name, count, layout, form::read_layout)
}

/// Beside Rust that only says whether the layout can be read.
fn validating(name: &str, count: usize, layout: &[u8]) -> Result<(), String> {
    reading_beside(name, count, layout, validate::layout)
}

fn reading_beside<T, E>(
    name: &str,
    count: usize,
    layout: &[u8],
    theirs: impl Fn(&[u8]) -> Result<T, E>,
) -> Result<(), String> {
    if library::read_layout(layout) != Ok(0) || theirs(layout).is_err() {
        return Err(differs(name));
    }
    line(
        name,
        count,
        || {
            black_box(library::read_layout(black_box(layout))).ok();
        },
        || {
            black_box(theirs(black_box(layout))).ok();
        },
    );
    Ok(())
}

fn building(name: &str, count: usize, case: &Case) -> Result<(), String> {
    building_beside(name, count, case, case)
}

/// Both build the same plan.
fn building_beside(name: &str, count: usize, ours: &Case, theirs: &Case) -> Result<(), String> {
    let mut plan = vec![0u8; PLAN_LIMIT];
    let length = Library.build(ours, &mut plan) as usize;
    let built = plan.get(..length).map(|plan| Answer::Plan(plan.to_vec()));
    if built != oracle::original(theirs).ok() {
        return Err(differs(name));
    }
    line(
        name,
        count,
        || {
            black_box(Library.build(black_box(ours), &mut plan));
        },
        || {
            black_box(oracle::original(black_box(theirs))).ok();
        },
    );
    Ok(())
}

/// The plan of plain Rust, which has defaults and required fields where the original has not.
fn built_plainly(case: &Case) -> Result<Vec<u8>, plainly::Refusal> {
    let Case {
        policy,
        incoming,
        target,
        number,
    } = case;
    match number {
        None => plainly::build_by_name(*policy, incoming, target, PLAN_LIMIT),
        Some(number) => {
            let number = (
                number.source_index,
                number.owner,
                number.defaults.as_slice(),
            );
            plainly::build_by_number(*policy, number, incoming, target, PLAN_LIMIT)
        }
    }
}

/// Beside compare/plain.
fn building_plainly(name: &str, count: usize, case: &Case) -> Result<(), String> {
    let mut plan = vec![0u8; PLAN_LIMIT];
    let length = Library.build(case, &mut plan) as usize;
    if plan.get(..length) != built_plainly(case).ok().as_deref() {
        return Err(differs(name));
    }
    line(
        name,
        count,
        || {
            black_box(Library.build(black_box(case), &mut plan));
        },
        || {
            black_box(built_plainly(black_box(case))).ok();
        },
    );
    Ok(())
}

/// Extra top columns are refused, though none is there; the original ignores them.
fn building_strict(name: &str, version: u8, count: usize) -> Result<(), String> {
    let theirs = floats(version, count);
    let ours = Case {
        policy: ALL & !EXTRA_COLUMNS,
        ..floats(version, count)
    };
    building_beside(name, count, &ours, &theirs)
}

/// The plan of `widened`.
fn widening_plan(count: usize) -> Vec<u8> {
    let wider = Type::Leaf(decimal(9));
    let cast = |index: usize| {
        write::cast(
            &write::position(index as u16),
            &wider,
            CastOption::NonStrict,
        )
    };
    write::plan(&(0..count).map(cast).collect::<Vec<_>>())
}

/// The original has no cast between decimals: it builds floats in their place.
fn building_decimals(name: &str, version: u8, count: usize) -> Result<(), String> {
    let (ours, theirs) = (widened(version, count), floats(version, count));
    let mut plan = vec![0u8; PLAN_LIMIT];
    let length = Library.build(&ours, &mut plan) as usize;
    let built = matches!(oracle::original(&theirs), Ok(Answer::Plan(_)));
    if !built || plan.get(..length) != Some(widening_plan(count).as_slice()) {
        return Err(differs(name));
    }
    line(
        name,
        count,
        || {
            black_box(Library.build(black_box(&ours), &mut plan));
        },
        || {
            black_box(oracle::original(black_box(&theirs))).ok();
        },
    );
    Ok(())
}

/// A plan with a record for it, and what its run writes.
struct Planned {
    case: Case,
    plan: Vec<u8>,
    record: Vec<u8>,
    output: Vec<u8>,
}

impl Planned {
    /// A built plan; none where a limit is passed.
    fn new(count: usize, order: Order, place: Place) -> Option<Planned> {
        let case = case(1, count, order, place);
        match oracle::original(&case) {
            Ok(Answer::Plan(plan)) => Planned::of(case, plan),
            _ => None,
        }
    }

    /// A built plan between layouts of version 3, in which everything is required.
    fn required(count: usize) -> Option<Planned> {
        let case = case(3, count, Order::Reversed, Place::Top);
        let plan = built_plainly(&case).ok()?;
        Planned::of(case, plan)
    }

    /// A plan that no builder writes, but two built plans made into one would be such: each leaf is cast twice, each
    /// fifth column is a struct whose fields are turned round twice.
    fn twice(count: usize) -> Option<Planned> {
        let layout = |code: u8| {
            let named = |name: String, type_: Type| Column::of(name.as_bytes(), type_);
            let leaf = || Type::Leaf(Leaf::Plain(code));
            let structure =
                || Type::Struct((0..4).map(|k| named(format!("part{k}"), leaf())).collect());
            let column = |index: usize| {
                let type_ = if index % 5 == 4 { structure() } else { leaf() };
                named(format!("reading_{index}"), type_)
            };
            let columns = (0..count).map(column).collect();
            form::write_layout(&Layout {
                version: 1,
                columns,
            })
        };
        let cast = |input: &[u8], code: u8| {
            write::cast(
                input,
                &Type::Leaf(Leaf::Plain(code)),
                CastOption::Overflowing,
            )
        };
        let turned = |input: &[u8], code: u8| {
            let fields: Vec<_> = (0..4)
                .rev()
                .map(|k| cast(&write::position(k), code))
                .collect();
            write::struct_mapping(input, &fields)
        };
        let selector = |index: usize| {
            let transform = |input: &[u8], code| match index % 5 {
                4 => turned(input, code),
                _ => cast(input, code),
            };
            transform(&transform(&write::position(index as u16), 3), 4)
        };
        let plan = write::plan(&(0..count).map(selector).collect::<Vec<_>>());
        let case = Case {
            policy: ALL,
            incoming: layout(2),
            target: layout(4),
            number: None,
        };
        Planned::of(case, plan)
    }

    fn of(case: Case, plan: Vec<u8>) -> Option<Planned> {
        let record = record(&case.incoming)?;
        Planned::over(case, plan, record)
    }

    /// Over a record.
    fn over(case: Case, plan: Vec<u8>, record: Vec<u8>) -> Option<Planned> {
        let Case {
            incoming, target, ..
        } = &case;
        let output = plainly::run(incoming, target, &plan, &record, RECORD_LIMIT).ok()?;
        Some(Planned {
            case,
            plan,
            record,
            output,
        })
    }

    fn checking(&self, name: &str, count: usize) -> Result<(), String> {
        let (incoming, target, plan) = (&self.case.incoming, &self.case.target, &self.plan);
        let ours = library::check_plan(incoming, target, plan);
        if ours != Ok(0) || plainly::check_plan(incoming, target, plan).is_err() {
            return Err(differs(name));
        }
        let arguments = || black_box((incoming, target, plan));
        line(
            name,
            count,
            || {
                let (incoming, target, plan) = arguments();
                black_box(library::check_plan(incoming, target, plan)).ok();
            },
            || {
                let (incoming, target, plan) = arguments();
                black_box(plainly::check_plan(incoming, target, plan)).ok();
            },
        );
        Ok(())
    }

    fn running(&self, name: &str, count: usize) -> Result<(), String> {
        let (incoming, target, plan) = (&self.case.incoming, &self.case.target, &self.plan);
        let record = &self.record;
        let mut buffer = vec![0; RECORD_LIMIT];
        let length = library::run(incoming, target, plan, record, &mut buffer);
        if !length.is_ok_and(|length| buffer[..length] == self.output) {
            return Err(differs(name));
        }
        let arguments = || black_box((incoming, target, plan, record));
        line(
            name,
            count,
            || {
                let (incoming, target, plan, record) = arguments();
                black_box(library::run(incoming, target, plan, record, &mut buffer)).ok();
            },
            || {
                let (incoming, target, plan, record) = arguments();
                black_box(plainly::run(incoming, target, plan, record, RECORD_LIMIT)).ok();
            },
        );
        Ok(())
    }
}

const SMALL: usize = 12;
const MIDDLE: usize = 100;
/// Of the strict builds.
const WIDE: usize = 700;
/// The most columns of decimals that are measured; as many fit a layout of either version.
const MANY: usize = 860;

/// The largest count that is admitted, in steps of ten.
fn largest(admitted: impl Fn(usize) -> bool) -> usize {
    let counts = (MIDDLE..LAYOUT_LIMIT).step_by(10);
    counts.take_while(|count| admitted(*count)).last().unwrap()
}

/// Checking and running the plans of three sizes.
fn planned(name: &str, plan: impl Fn(usize) -> Option<Planned>) -> Result<(), String> {
    let most = largest(|count| plan(count).is_some());
    let planned = [SMALL, MIDDLE, most].map(|count| (count, plan(count).unwrap()));
    for (count, planned) in &planned {
        planned.checking(&format!("checking, {name}"), *count)?;
    }
    for (count, planned) in &planned {
        planned.running(&format!("running, {name}"), *count)?;
    }
    Ok(())
}

pub fn run() -> Result<(), String> {
    println!(
        "The library's time over plain Rust's, medians of one run (the builds' plain Rust is the original over stand-ins):"
    );
    println!("{:40} {:>7} {:>13}", "", "columns", "library/plain");
    let readable = |version: u8| {
        move |count: usize| {
            let target = layout(version, count, Role::Target, Order::Reversed, Place::Deep);
            target.len() <= LAYOUT_LIMIT
        }
    };
    for version in [1, 2] {
        let name = format!("reading, version {version}");
        for count in [SMALL, MIDDLE, largest(readable(version))] {
            let layout = layout(version, count, Role::Target, Order::Reversed, Place::Top);
            reading(&name, count, &layout)?;
            validating(&format!("{name}, no tree"), count, &layout)?;
        }
        let (count, layout) = widest(version);
        reading(&format!("{name}, leaves alone"), count, &layout)?;
        validating(&format!("{name}, leaves alone, no tree"), count, &layout)?;
    }
    for (version, name) in [(1, "building by name"), (2, "building by number")] {
        for count in [SMALL, MIDDLE, largest(readable(version))] {
            building(
                name,
                count,
                &case(version, count, Order::Reversed, Place::Top),
            )?;
        }
    }
    for (version, name) in [
        (1, "building by name, strict"),
        (2, "building by number, strict"),
    ] {
        for count in [SMALL, MIDDLE, WIDE] {
            building_strict(name, version, count)?;
        }
    }
    let built = |order: Order, place: Place| move |count| Planned::new(count, order, place);
    planned("same order", built(Order::Same, Place::Top))?;
    planned("reversed", built(Order::Reversed, Place::Top))?;
    // The same columns as the fields of a struct.
    for (place, way) in [(Place::Struct, "struct"), (Place::Deep, "deep struct")] {
        for (version, name) in [(1, "building by name"), (2, "building by number")] {
            let name = format!("{name}, {way}");
            for count in [SMALL, MIDDLE, largest(readable(version))] {
                building(&name, count, &case(version, count, Order::Reversed, place))?;
            }
        }
        planned(way, built(Order::Reversed, place))?;
    }
    planned("everything twice", Planned::twice)?;
    decimals()?;
    defaults()?;
    required()?;
    wide::run()?;
    records::run()?;
    refused::run()
}

/// How many columns are missing in a build with a full table of defaults.
const MISSING: usize = 600;

/// A table of as many entries as fit, with values of int8. In version 2 they are of four owners in turn. The ids are
/// those of the missing columns, or others.
fn full_table(version: u8, first: u32) -> Vec<u8> {
    let entry = |index: u32| Entry {
        id: first + if version == 1 { index } else { index / 4 },
        default: Default::Initial(Leaf::Plain(2), Some(vec![7])),
    };
    let count = |bytes: usize| ((LAYOUT_LIMIT - 7) / bytes) as u32;
    match version {
        1 => form::write_defaults(&(0..count(8)).map(entry).collect::<Vec<_>>()),
        _ => {
            let owned = |index: u32| ((index % 4) as u16, entry(index));
            form::write_owned(&(0..count(10)).map(owned).collect::<Vec<_>>())
        }
    }
}

/// Builds of missing columns with a full table of defaults: each column has an entry in it, or none has.
fn defaults() -> Result<(), String> {
    println!(
        "Missing columns and a full table of defaults (plain Rust is compare/plain, with a hash table of its entries):"
    );
    let column = |index: usize| Column {
        id: index as u32,
        ..Column::of(&[], Type::Leaf(Leaf::Plain(2)))
    };
    let columns = (0..MISSING).map(column).collect();
    let version = 2;
    let target = form::write_layout(&Layout { version, columns });
    let columns = Vec::new();
    let incoming = form::write_layout(&Layout { version, columns });
    for (version, first, found) in [
        (1, 0, "found"),
        (1, MISSING as u32, "not found"),
        (2, 0, "of four owners, found"),
        (2, MISSING as u32, "of four owners, not found"),
    ] {
        let number = Number {
            source_index: 0,
            owner: 3,
            defaults: full_table(version, first),
        };
        let case = Case {
            policy: ALL,
            incoming: incoming.clone(),
            target: target.clone(),
            number: Some(number),
        };
        building_plainly(&format!("defaults, {found}"), MISSING, &case)?;
    }
    Ok(())
}

/// Everything is required: reading, building, checking and running.
fn required() -> Result<(), String> {
    println!("Required fields, everywhere in both layouts (plain Rust is compare/plain):");
    let built = |count: usize| case(3, count, Order::Reversed, Place::Top);
    let most = largest(|count| built(count).target.len() <= LAYOUT_LIMIT);
    for count in [SMALL, MIDDLE, most] {
        reading("reading, version 3", count, &built(count).target)?;
    }
    let (count, layout) = widest(3);
    reading("reading, version 3, leaves alone", count, &layout)?;
    for count in [SMALL, MIDDLE, most] {
        building_plainly("building by number, required", count, &built(count))?;
    }
    planned("required", Planned::required)
}

/// Reading, building, checking and running columns of decimals, each made a wider one.
fn decimals() -> Result<(), String> {
    println!(
        "Decimals, each made a wider one (the original, which has no such cast, builds wider floats of the same names):"
    );
    let counts = [SMALL, MIDDLE, MANY];
    for version in [1, 2] {
        let name = format!("reading, version {version}, decimals");
        for count in counts {
            reading(&name, count, &layout_of(version, count, &decimal(9)))?;
        }
    }
    for (version, name) in [
        (1, "building by name, decimals"),
        (2, "building by number, decimals"),
    ] {
        for count in counts {
            building_decimals(name, version, count)?;
        }
    }
    let planned = |count: usize| Planned::of(widened(1, count), widening_plan(count)).unwrap();
    for count in counts {
        planned(count).checking("checking, decimals", count)?;
    }
    for count in counts {
        planned(count).running("running, decimals", count)?;
    }
    Ok(())
}
