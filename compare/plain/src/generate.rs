//! Pairs of related layouts: the target is the incoming layout reordered, renamed, retyped, with columns dropped,
//! added, given other ids or repeated names, at every level.

pub mod damage;
pub mod marks;
pub mod plans;
pub mod records;

use crate::case::{Case, Number};
use crate::form::{
    self, Column, DEPTH_LIMIT, Default, Entry, LAYOUT_LIMIT, Layout, Leaf, PRECISION_LIMIT, Type,
};
use crate::policy::{ALL, BITS, EXTRA_COLUMNS};
use crate::random::Random;

const ELEMENT: u32 = u32::MAX;
/// Each date-time unit apart.
const LEAF_KINDS: u64 = 21;
const NAMES: [&str; 10] = ["a", "b", "c", "d", "t", "s", "level", "gate", "é", ""];
/// The fewest columns of a wide row: so many that the library finds their counterparts by tables.
const WIDE: u64 = 17;
const ZONES: [&str; 6] = ["", "UTC", "Europe/Oslo", "Etc/UTC", "Z", "utc"];

/// What one case asks of its changes.
struct Style {
    by_number: bool,
    /// Only changes that are accepted where the policy allows everything.
    tame: bool,
    /// Layouts of version 3 have required marks.
    marks: bool,
}

/// A build without required marks; layouts of version 3 are among those by number.
pub fn case(random: &mut Random) -> Case {
    styled(random, false)
}

/// A build by number is mostly one with required marks.
pub fn marked_case(random: &mut Random) -> Case {
    styled(random, true)
}

fn styled(random: &mut Random, marks: bool) -> Case {
    loop {
        let style = Style {
            by_number: random.percent(50),
            tame: random.percent(45),
            marks,
        };
        let case = one(random, &style);
        if case.incoming.len() <= LAYOUT_LIMIT && case.target.len() <= LAYOUT_LIMIT {
            return case;
        }
    }
}

fn one(random: &mut Random, style: &Style) -> Case {
    let mut incoming = match random.below(100) {
        0 => Vec::new(),
        1 => wide_row(random, 1),
        _ => (0..=random.below(6)).map(|_| column(random, 1)).collect(),
    };
    if random.percent(2) {
        incoming.push(deep_column(random));
    }
    distinct(&mut incoming, style);
    if style.marks {
        marks::incoming(random, &mut incoming);
    }
    let mut target = related_columns(random, style, &incoming, 1);
    distinct(&mut target, style);
    if style.marks {
        marks::target(random, &mut target);
    }

    let number = style.by_number.then(|| {
        let source_index = if random.percent(1) {
            u32::MAX
        } else {
            random.below(4) as u32
        };
        Number {
            source_index,
            owner: random.pick(&OWNERS),
            defaults: table(random, &[&incoming, &target]),
        }
    });
    let mut write = |columns: Vec<Column>| {
        let version = version(random, style);
        form::write_layout(&Layout { version, columns })
    };
    let (incoming, target) = (write(incoming), write(target));
    Case {
        policy: policy(random, style),
        incoming,
        target,
        number,
    }
}

/// By number versions 2 and 3 are mixed; with marks, 2 is rare.
fn version(random: &mut Random, style: &Style) -> u8 {
    let older = if style.marks { 5 } else { 80 };
    match style.by_number {
        false => 1,
        true if random.percent(older) => 2,
        true => 3,
    }
}

fn policy(random: &mut Random, style: &Style) -> u32 {
    let bit = |random: &mut Random| 1 << random.below(BITS as u64);
    let policy = match (random.below(100), style.tame) {
        (0..50, true) | (0..40, false) => ALL,
        (50..80, true) | (40..60, false) => ALL & !bit(random),
        (80..90, true) | (60..75, false) => ALL & !bit(random) & !bit(random) & !bit(random),
        (_, true) | (75..90, _) => random.below(1 << BITS) as u32,
        (90..96, _) => bit(random),
        _ => 0,
    };
    // The bits above have no meaning yet. Extra top columns are ignored, as the original does.
    let above = if random.percent(25) {
        random.next() as u32 & !ALL
    } else {
        0
    };
    policy | above | EXTRA_COLUMNS
}

/// No two columns, and by number no two siblings at any level, may have one key: the later ones go.
fn distinct(columns: &mut Vec<Column>, style: &Style) {
    let mut kept: Vec<Column> = Vec::new();
    for column in columns.drain(..) {
        let repeats = |earlier: &Column| match style.by_number {
            true => earlier.id == column.id,
            false => earlier.name == column.name,
        };
        if !kept.iter().any(repeats) {
            kept.push(column);
        }
    }
    if style.by_number {
        kept.iter_mut()
            .for_each(|column| distinct_inside(&mut column.type_, style));
    }
    *columns = kept;
}

fn distinct_inside(type_: &mut Type, style: &Style) {
    match type_ {
        Type::Leaf(_) => (),
        Type::Struct(columns) => distinct(columns, style),
        Type::List(element) | Type::Array(_, element) => {
            distinct_inside(&mut element.type_, style);
        }
    }
}

// Columns from nothing.

fn name(random: &mut Random) -> Vec<u8> {
    match random.below(200) {
        0 => vec![b'x'; form::TEXT_LIMIT],
        _ => random.pick(&NAMES).as_bytes().to_vec(),
    }
}

fn id(random: &mut Random) -> u32 {
    match random.below(100) {
        0 => ELEMENT,
        1 => random.next() as u32,
        _ => random.below(30) as u32,
    }
}

fn element_id(random: &mut Random) -> u32 {
    if random.percent(20) {
        ELEMENT
    } else {
        id(random)
    }
}

fn column(random: &mut Random, depth: u32) -> Column {
    Column {
        name: name(random).into(),
        id: id(random),
        required: false,
        type_: type_(random, depth),
    }
}

fn element(random: &mut Random, depth: u32) -> Box<Column> {
    Box::new(Column {
        id: element_id(random),
        ..column(random, depth)
    })
}

/// Many columns, most of them leaves, of which few repeat a name or an id.
fn wide_row(random: &mut Random, depth: u32) -> Vec<Column> {
    let wide_column = |random: &mut Random| Column {
        name: format!("reading{}", random.below(20_000))
            .into_bytes()
            .into(),
        id: 100 + random.below(20_000) as u32,
        required: false,
        type_: match random.percent(95) {
            true => Type::Leaf(leaf(random)),
            false => type_(random, depth),
        },
    };
    (0..WIDE + random.below(50))
        .map(|_| wide_column(random))
        .collect()
}

fn type_(random: &mut Random, depth: u32) -> Type {
    let leaf_share = if depth > 4 { 90 } else { 50 };
    if depth >= DEPTH_LIMIT || random.percent(leaf_share) {
        return Type::Leaf(leaf(random));
    }
    nested_type(random, depth)
}

fn nested_type(random: &mut Random, depth: u32) -> Type {
    match random.below(4) {
        0 => Type::List(element(random, depth + 1)),
        1 => Type::Array(width(random), element(random, depth + 1)),
        _ if random.percent(2) => Type::Struct(wide_row(random, depth + 1)),
        _ => {
            let mut columns: Vec<Column> = Vec::new();
            for _ in 0..random.below(5) {
                let column = column(random, depth + 1);
                let repeats = |earlier: &Column| earlier.name == column.name;
                if !columns.iter().any(repeats) || random.percent(2) {
                    columns.push(column);
                }
            }
            Type::Struct(columns)
        }
    }
}

fn width(random: &mut Random) -> u32 {
    match random.below(50) {
        0 => u32::MAX,
        _ => random.below(4) as u32,
    }
}

/// One column of the greatest depth.
fn deep_column(random: &mut Random) -> Column {
    let mut type_ = Type::Leaf(leaf(random));
    for _ in 1..DEPTH_LIMIT {
        let column = Column {
            type_,
            ..column(random, DEPTH_LIMIT)
        };
        type_ = match random.below(3) {
            0 => Type::Struct(vec![column]),
            1 => Type::List(Box::new(column)),
            _ => Type::Array(width(random), Box::new(column)),
        };
    }
    Column {
        type_,
        ..column(random, DEPTH_LIMIT)
    }
}

fn leaf(random: &mut Random) -> Leaf {
    match random.below(LEAF_KINDS) {
        code @ 0..14 => Leaf::Plain(code as u8),
        code @ 14..17 => Leaf::Plain(code as u8 + 1),
        17..20 => datetime(random),
        _ => decimal(random),
    }
}

/// Often of the least or the greatest precision, or of the greatest scale.
fn decimal(random: &mut Random) -> Leaf {
    let any = 1 + random.below(PRECISION_LIMIT.into()) as u8;
    let precision = random.pick(&[1, any, any, any, PRECISION_LIMIT]);
    let any = random.below(u64::from(precision) + 1) as u8;
    let scale = random.pick(&[0, any, any, any, precision]);
    Leaf::Decimal { precision, scale }
}

/// Of the same scale and a precision that is no smaller.
fn wider_decimal(random: &mut Random, precision: u8, scale: u8) -> Leaf {
    let more = random.below(u64::from(PRECISION_LIMIT - precision) + 1) as u8;
    let precision = precision + more;
    Leaf::Decimal { precision, scale }
}

fn related_decimal(random: &mut Random, style: &Style, precision: u8, scale: u8) -> Leaf {
    let change = if style.tame { 0 } else { random.below(8) };
    match change {
        0..5 => wider_decimal(random, precision, scale),
        // A smaller precision, if there is one.
        5 => {
            let precision = scale.max(1).max(precision - 1);
            Leaf::Decimal { precision, scale }
        }
        // Another scale, with the same precision or a larger one.
        6 => {
            let scale = (scale + 1) % (precision + 1);
            let precision = random.pick(&[precision, PRECISION_LIMIT]);
            Leaf::Decimal { precision, scale }
        }
        _ => decimal(random),
    }
}

fn datetime(random: &mut Random) -> Leaf {
    Leaf::Datetime {
        unit: random.below(3) as u8,
        zone: random.pick(&ZONES).as_bytes().to_vec(),
    }
}

// Columns from other columns.

fn related_columns(
    random: &mut Random,
    style: &Style,
    columns: &[Column],
    depth: u32,
) -> Vec<Column> {
    let top = depth == 1;
    let mut related = Vec::new();
    for column in columns {
        if !random.percent(6) {
            related.push(related_column(random, style, column, depth));
        }
    }
    // By number a missing top column is no part of the comparison.
    let added = if top && style.by_number { 2 } else { 15 };
    if random.percent(added) {
        let at = random.below(related.len() as u64 + 1) as usize;
        related.insert(at, column(random, depth));
    }
    if random.percent(15) {
        for last in (1..related.len()).rev() {
            related.swap(last, random.below(last as u64 + 1) as usize);
        }
    }
    if !top && related.len() > 1 && !style.tame && random.percent(15) {
        related[0].name = related[1].name.clone();
    }
    related
}

fn related_column(random: &mut Random, style: &Style, from: &Column, depth: u32) -> Column {
    let (renamed, reidentified) = match (style.by_number, depth == 1) {
        (true, true) => (12, 1),
        (true, false) => (12, 4),
        (false, _) => (4, 12),
    };
    Column {
        name: if random.percent(renamed) {
            name(random).into()
        } else {
            from.name.clone()
        },
        id: if random.percent(reidentified) {
            id(random)
        } else {
            from.id
        },
        required: from.required,
        type_: related_type(random, style, &from.type_, depth),
    }
}

fn related_element(random: &mut Random, style: &Style, from: &Column, depth: u32) -> Box<Column> {
    let id = match (random.below(100), style.tame) {
        (0..10, _) => ELEMENT,
        (10..30, false) => element_id(random),
        _ => from.id,
    };
    Box::new(Column {
        id,
        ..related_column(random, style, from, depth)
    })
}

fn related_type(random: &mut Random, style: &Style, from: &Type, depth: u32) -> Type {
    if !style.tame && random.percent(4) {
        return type_(random, depth);
    }
    match from {
        Type::Leaf(Leaf::Plain(0)) if !style.by_number && depth < 5 && random.percent(20) => {
            nested_type(random, depth)
        }
        Type::Leaf(leaf) => Type::Leaf(related_leaf(random, style, leaf)),
        Type::Struct(columns) => Type::Struct(related_columns(random, style, columns, depth + 1)),
        Type::List(element) => Type::List(related_element(random, style, element, depth + 1)),
        Type::Array(width, element) => {
            let width = match !style.tame && random.percent(8) {
                true => width.wrapping_add(1),
                false => *width,
            };
            Type::Array(width, related_element(random, style, element, depth + 1))
        }
    }
}

fn related_leaf(random: &mut Random, style: &Style, from: &Leaf) -> Leaf {
    if random.percent(40) {
        return from.clone();
    }
    if !style.tame && random.percent(25) {
        return leaf(random);
    }
    match from {
        Leaf::Plain(0) => leaf(random),
        Leaf::Plain(code @ 2..=9) => {
            let targets: &[u8] = match code {
                2 => &[3, 4, 5, 10, 11, 12],
                3 => &[4, 5, 10, 11, 12],
                4 => &[5, 10, 11, 12],
                6 => &[3, 4, 5, 7, 8, 9, 10, 11, 12],
                7 => &[4, 5, 8, 9, 10, 11, 12],
                8 => &[5, 9, 10, 11, 12],
                _ => &[10, 11, 12],
            };
            match style.tame {
                true => Leaf::Plain(random.pick(targets)),
                false => Leaf::Plain(2 + random.below(11) as u8),
            }
        }
        Leaf::Plain(10..=12) => Leaf::Plain(10 + random.below(3) as u8),
        Leaf::Plain(17) => Leaf::Plain(15),
        Leaf::Plain(_) => from.clone(),
        Leaf::Datetime { .. } => datetime(random),
        Leaf::Decimal { precision, scale } => related_decimal(random, style, *precision, *scale),
    }
}

// Defaults.

/// Ids with the leaf type that a column of that id has, if it has one.
fn ids(columns: &[Column], found: &mut Vec<(u32, Option<Leaf>)>) {
    for column in columns {
        match &column.type_ {
            Type::Leaf(leaf) => found.push((column.id, Some(leaf.clone()))),
            Type::Struct(columns) => {
                found.push((column.id, None));
                ids(columns, found);
            }
            Type::List(element) | Type::Array(_, element) => {
                found.push((column.id, None));
                ids(std::slice::from_ref(element), found);
            }
        }
    }
}

/// The owners of entries: two of one low byte, and one that has none.
const OWNERS: [u16; 4] = [1, 2, 257, 65535];

/// A table of either version; in version 2 the entries of the owners stand among each other.
fn table(random: &mut Random, layouts: &[&[Column]]) -> Vec<u8> {
    if random.percent(50) {
        return form::write_defaults(&defaults(random, layouts));
    }
    let mut owned: Vec<(u16, Entry)> = Vec::new();
    for owner in &OWNERS[..3] {
        for entry in defaults(random, layouts) {
            let at = random.below(owned.len() as u64 + 1) as usize;
            owned.insert(at, (*owner, entry));
        }
    }
    form::write_owned(&owned)
}

fn defaults(random: &mut Random, layouts: &[&[Column]]) -> Vec<Entry> {
    let mut found = vec![(id(random), None)];
    layouts.iter().for_each(|columns| ids(columns, &mut found));
    // Most tables give no value, for the value of a struct's default is no part of the comparison.
    let (count, values) = match random.below(100) {
        0..30 => (0, false),
        30..65 => (random.below(6), false),
        _ => (random.below(6), true),
    };
    let mut entries: Vec<Entry> = Vec::new();
    for _ in 0..count {
        let (id, own) = &found[random.below(found.len() as u64) as usize];
        let leaf = match own {
            Some(own) if random.percent(90) => own.clone(),
            _ => leaf(random),
        };
        let default = default(random, leaf, values);
        let initial = |default: &Default| matches!(default, Default::Initial(..));
        let repeats =
            |entry: &Entry| entry.id == *id && initial(&entry.default) == initial(&default);
        if !entries.iter().any(repeats) {
            entries.push(Entry { id: *id, default });
        }
    }
    entries
}

fn default(random: &mut Random, leaf: Leaf, values: bool) -> Default {
    let value = |random: &mut Random| match values && random.percent(70) {
        true => leaf_value(random, &leaf),
        false => None,
    };
    match random.below(10) {
        0..5 => {
            let value = value(random);
            Default::Initial(leaf, value)
        }
        5 if values => Default::Failed,
        _ => {
            let column = (0..random.below(4)).map(|_| value(random)).collect();
            Default::Loaded(leaf, column)
        }
    }
}

fn leaf_value(random: &mut Random, leaf: &Leaf) -> Option<Vec<u8>> {
    match leaf {
        Leaf::Plain(0) => None,
        Leaf::Plain(1) => Some(vec![random.below(2) as u8]),
        Leaf::Decimal { .. } => {
            let mut bytes = Vec::new();
            records::leaf_bytes(random, &mut bytes, leaf);
            Some(bytes)
        }
        leaf => {
            let length = match form::fixed_width(leaf) {
                Some(width) => width,
                None => random.below(4) as usize,
            };
            let mut bytes = Vec::new();
            if form::fixed_width(leaf).is_none() {
                bytes.extend((length as u16).to_le_bytes());
            }
            bytes.extend(random.next().to_le_bytes().iter().cycle().take(length));
            Some(bytes)
        }
    }
}
