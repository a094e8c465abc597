//! The two builders: "Matching", "Leaf pairs" and "Defaults" in document 01, with document 02's L1, L2, L3, L5 and L7.
//! The plan is written as it is found; what was written of a mapping that is left out is taken back.

use crate::form::{
    Column, Default, Entry, Fault, Layout, Leaf, PLAN_LIMIT, Type, write_text, write_type,
};
use crate::hash::FastMap;
use crate::number::Kind;
use crate::policy;
use crate::reader::Siblings;
use crate::rules::{CastOption, cast_option};

/// Pairs an element with any other.
const ELEMENT: u32 = u32::MAX;

/// The refusal of a build, with the place of the column.
type Refused = (Fault, usize);

pub struct Build<'a> {
    policy: u32,
    matching: Matching<'a>,
    plan: Vec<u8>,
}

enum Matching<'a> {
    ByName,
    ByNumber(Defaults<'a>),
}

/// The entries of a table by id and kind, whether initial or not.
struct Defaults<'a> {
    entries: FastMap<(u32, bool), &'a Default>,
    source_index: u32,
}

/// What is put in for a missing field.
enum Inserted<'a> {
    Null,
    Leaf(&'a [u8]),
    Struct(Vec<Inserted<'a>>),
}

impl Inserted<'_> {
    fn write(&self, bytes: &mut Vec<u8>) {
        match self {
            Inserted::Null => bytes.push(0),
            Inserted::Leaf(value) => {
                bytes.push(1);
                bytes.extend(*value);
            }
            Inserted::Struct(fields) => {
                bytes.push(1);
                fields.iter().for_each(|field| field.write(bytes));
            }
        }
    }

    /// Whether a required field is null; below a null there is none.
    fn lacks(&self, target: &Column) -> bool {
        match (self, &target.type_) {
            (Inserted::Null, _) => target.required,
            (Inserted::Struct(fields), Type::Struct(columns)) => {
                let mut pairs = fields.iter().zip(columns);
                pairs.any(|(field, column)| field.lacks(column))
            }
            _ => false,
        }
    }
}

impl<'a> Defaults<'a> {
    fn new(entries: &'a [Entry], source_index: u32) -> Self {
        let initial = |default: &Default| matches!(default, Default::Initial(..));
        let entry = |entry: &'a Entry| ((entry.id, initial(&entry.default)), &entry.default);
        Defaults {
            entries: entries.iter().map(entry).collect(),
            source_index,
        }
    }

    /// The type and value of a leaf's default, if it has one. A partition entry wins.
    fn leaf(&self, id: u32) -> Result<Option<(&'a Leaf, &'a [u8])>, Fault> {
        let entry = |initial: bool| self.entries.get(&(id, initial)).copied();
        let (leaf, value) = match entry(false).or(entry(true)) {
            None => return Ok(None),
            Some(Default::Failed) => return Err(26),
            Some(Default::Initial(leaf, value)) => (leaf, value.as_deref()),
            Some(Default::Loaded(leaf, values)) => {
                let value = values.get(self.source_index as usize);
                (leaf, value.and_then(|value| value.as_deref()))
            }
        };
        Ok(value.map(|value| (leaf, value)))
    }

    /// 26 and 28 as they are met.
    fn of(&self, target: &Column) -> Result<Inserted<'a>, Fault> {
        match &target.type_ {
            Type::Leaf(own) => match self.leaf(target.id)? {
                None => Ok(Inserted::Null),
                Some((leaf, _)) if leaf != own => Err(28),
                Some((_, value)) => Ok(Inserted::Leaf(value)),
            },
            Type::Struct(columns) => {
                let fields: Result<Vec<_>, _> =
                    columns.iter().map(|column| self.of(column)).collect();
                let fields = fields?;
                let none = |field: &Inserted| matches!(field, Inserted::Null);
                Ok(match fields.iter().all(none) {
                    true => Inserted::Null,
                    false => Inserted::Struct(fields),
                })
            }
            Type::List(_) | Type::Array(..) => Ok(Inserted::Null),
        }
    }
}

/// Columns by their keys: a few are scanned, for that is faster than hashing them.
enum Index<'a> {
    Few(&'a [Column]),
    Names(FastMap<&'a [u8], usize>),
    Ids(FastMap<u32, usize>),
}

impl<'a> Index<'a> {
    const FEW: usize = 16;

    fn new(matching: &Matching, columns: &'a [Column]) -> Index<'a> {
        let each = columns.iter().enumerate();
        match matching {
            _ if columns.len() <= Index::FEW => Index::Few(columns),
            Matching::ByName => Index::Names(
                each.rev()
                    .map(|(at, column)| (column.name.as_slice(), at))
                    .collect(),
            ),
            Matching::ByNumber(_) => Index::Ids(each.map(|(at, column)| (column.id, at)).collect()),
        }
    }

    /// Where the counterpart of a column stands.
    fn of(&self, matching: &Matching, other: &Column) -> Option<usize> {
        let same = |column: &Column| match matching {
            Matching::ByName => column.name == other.name,
            Matching::ByNumber(_) => column.id == other.id,
        };
        match self {
            Index::Few(columns) => columns.iter().position(same),
            Index::Names(names) => names.get(other.name.as_slice()).copied(),
            Index::Ids(ids) => ids.get(&other.id).copied(),
        }
    }
}

/// No zone and three texts stand for one.
fn same_zone(one: &[u8], other: &[u8]) -> bool {
    let utc = |zone: &[u8]| matches!(zone, b"" | b"UTC" | b"Etc/UTC" | b"Z");
    one == other || utc(one) && utc(other)
}

fn is_integer(kind: Kind) -> bool {
    matches!(kind, Kind::Signed(_) | Kind::Unsigned(_))
}

fn unit_flag(from: u8, to: u8) -> u32 {
    match (from, to) {
        (0, _) => policy::DATETIME_NANOSECONDS_DOWNCAST,
        (1, 2) => policy::DATETIME_MICROSECONDS_DOWNCAST,
        (1, _) => policy::DATETIME_MICROSECONDS_UPCAST,
        _ => policy::DATETIME_MILLISECONDS_UPCAST,
    }
}

fn has_repeated_name(columns: &[Column]) -> bool {
    let mut names = Siblings::default();
    !columns
        .iter()
        .all(|column| names.insert(column.name.as_slice()))
}

impl<'a> Build<'a> {
    fn allows(&self, bit: u32) -> bool {
        self.policy & bit != 0
    }

    fn demand(&self, bit: u32, otherwise: Fault) -> Result<(), Fault> {
        match self.allows(bit) {
            true => Ok(()),
            false => Err(otherwise),
        }
    }

    fn position(&mut self, at: usize) {
        self.plan.push(0);
        self.plan.extend((at as u16).to_le_bytes());
    }

    fn cast(&mut self, at: usize, to: &Type, option: CastOption) {
        self.plan.push(2);
        self.position(at);
        write_type(&mut self.plan, 1, to);
        self.plan.push(match option {
            CastOption::NonStrict => 0,
            CastOption::Strict => 1,
            CastOption::Overflowing => 2,
        });
    }

    /// Whether what was written from there on is a bare position.
    fn is_position(&self, from: usize, at: usize) -> bool {
        let [low, high] = (at as u16).to_le_bytes();
        self.plan[from..] == [0, low, high]
    }

    /// The cast between leaves that differ.
    fn leaf_pair(&self, from: &Leaf, to: &Leaf) -> Result<CastOption, Fault> {
        match (from, to) {
            (Leaf::Plain(0), _) => self.demand(policy::NULL_UPCAST, 15)?,
            (Leaf::Plain(17), Leaf::Plain(15)) => self.demand(policy::CATEGORICAL_TO_STRING, 23)?,
            (
                Leaf::Datetime { unit, zone },
                Leaf::Datetime {
                    unit: to,
                    zone: other,
                },
            ) => {
                if !same_zone(zone, other) {
                    self.demand(policy::DATETIME_CONVERT_TIMEZONE, 21)?;
                }
                if unit != to {
                    self.demand(unit_flag(*unit, *to), 22)?;
                }
            }
            (Leaf::Decimal { .. }, Leaf::Decimal { .. }) => {
                let widened = cast_option(from, to).ok_or(24u32)?;
                self.demand(policy::DECIMAL_WIDENING, 51)?;
                return Ok(widened);
            }
            _ => match (Kind::of(from), Kind::of(to)) {
                (Some(one), Some(other)) if is_integer(one) && is_integer(other) => {
                    self.demand(policy::INTEGER_UPCAST, 16)?;
                    return cast_option(from, to).ok_or(17);
                }
                (Some(Kind::Float(from)), Some(Kind::Float(to))) if from < to => {
                    self.demand(policy::FLOAT_UPCAST, 18)?;
                }
                (Some(Kind::Float(_)), Some(Kind::Float(_))) => {
                    self.demand(policy::FLOAT_DOWNCAST, 19)?;
                }
                (Some(one), Some(Kind::Float(_))) if is_integer(one) => {
                    self.demand(policy::INTEGER_TO_FLOAT_CAST, 20)?;
                }
                _ => (),
            },
        }
        cast_option(from, to).ok_or(24)
    }

    /// The selector that takes position `at`, of one type, to another.
    fn types(&mut self, at: usize, from: &Type, to: &Type) -> Result<(), Fault> {
        let by_name = matches!(self.matching, Matching::ByName);
        match (from, to) {
            (Type::Leaf(from), Type::Leaf(other)) if from == other => self.position(at),
            (Type::Leaf(from), Type::Leaf(other)) => {
                let option = self.leaf_pair(from, other)?;
                self.cast(at, to, option);
            }
            (Type::Leaf(Leaf::Plain(0)), _) if by_name => {
                self.demand(policy::NULL_UPCAST, 15)?;
                self.cast(at, to, CastOption::NonStrict);
            }
            (Type::Struct(from), Type::Struct(to)) => self.structs(at, from, to)?,
            (Type::List(from), Type::List(to)) => self.elements(5, at, from, to)?,
            (Type::Array(width, from), Type::Array(other, to)) if width == other => {
                self.elements(6, at, from, to)?;
            }
            _ => return Err(24),
        }
        Ok(())
    }

    fn structs(&mut self, at: usize, from: &[Column], to: &[Column]) -> Result<(), Fault> {
        if let Matching::ByName = self.matching
            && (has_repeated_name(to) || has_repeated_name(from))
        {
            return Err(12);
        }
        let index = Index::new(&self.matching, from);
        if !self.allows(policy::EXTRA_STRUCT_FIELDS) && self.extra(from, to).is_some() {
            return Err(13);
        }
        let start = self.plan.len();
        self.plan.push(4);
        self.position(at);
        self.plan.extend((to.len() as u16).to_le_bytes());
        let mut untouched = from.len() == to.len();
        for (place, target) in to.iter().enumerate() {
            let field = self.plan.len();
            match index.of(&self.matching, target) {
                Some(at) => self.columns(at, &from[at], target)?,
                None => {
                    self.demand(policy::MISSING_STRUCT_FIELDS, 14)?;
                    self.insert(target)?;
                }
            }
            untouched &= self.is_position(field, place);
        }
        if untouched {
            self.plan.truncate(start);
            self.position(at);
        }
        Ok(())
    }

    /// The element of a list or array, whose mapping has that code. A field inside it has no default.
    fn elements(&mut self, code: u8, at: usize, from: &Column, to: &Column) -> Result<(), Fault> {
        let start = self.plan.len();
        self.plan.push(code);
        self.position(at);
        let element = self.plan.len();
        match self.matching {
            Matching::ByName => self.types(0, &from.type_, &to.type_)?,
            Matching::ByNumber(_) => {
                if from.id != to.id && from.id != ELEMENT && to.id != ELEMENT {
                    return Err(25);
                }
                let none = Matching::ByNumber(Defaults::new(&[], 0));
                let outside = std::mem::replace(&mut self.matching, none);
                let result = self.columns(0, from, to);
                self.matching = outside;
                result?;
            }
        }
        if self.is_position(element, 0) {
            self.plan.truncate(start);
            self.position(at);
        }
        Ok(())
    }

    /// A column that meets its counterpart: first the marks, then the types; by number with a rename outside where
    /// names differ.
    fn columns(&mut self, at: usize, from: &Column, to: &Column) -> Result<(), Fault> {
        let optional = !from.required || from.type_ == Type::Leaf(Leaf::Plain(0));
        if to.required && optional {
            return Err(55);
        }
        if from.name == to.name {
            return self.types(at, &from.type_, &to.type_);
        }
        self.plan.push(3);
        self.types(at, &from.type_, &to.type_)?;
        write_text(&mut self.plan, &to.name);
        Ok(())
    }

    /// A constant for a missing column or field.
    fn insert(&mut self, target: &Column) -> Result<(), Fault> {
        let inserted = match &self.matching {
            Matching::ByName => Inserted::Null,
            Matching::ByNumber(defaults) => defaults.of(target)?,
        };
        if inserted.lacks(target) {
            return Err(54);
        }
        self.plan.push(1);
        write_text(&mut self.plan, &target.name);
        write_type(&mut self.plan, 1, &target.type_);
        inserted.write(&mut self.plan);
        Ok(())
    }

    /// The first incoming column or field without a counterpart.
    fn extra(&self, from: &[Column], to: &[Column]) -> Option<usize> {
        let index = Index::new(&self.matching, to);
        let extra = |column| index.of(&self.matching, column).is_none();
        from.iter().position(extra)
    }

    fn all(&mut self, incoming: &Layout, target: &Layout) -> Result<(), Refused> {
        let (from, to) = (&incoming.columns, &target.columns);
        if !self.allows(policy::EXTRA_COLUMNS)
            && let Some(place) = self.extra(from, to)
        {
            return Err((53, place));
        }
        let index = Index::new(&self.matching, from);
        self.plan.extend((to.len() as u16).to_le_bytes());
        for (place, target) in to.iter().enumerate() {
            let built = match index.of(&self.matching, target) {
                Some(at) => self.columns(at, &from[at], target),
                None => self
                    .demand(policy::MISSING_COLUMNS, 11)
                    .and_then(|()| self.insert(target)),
            };
            built.map_err(|number| match number {
                51 | 54 | 55 => (number, 0),
                _ => (number, place),
            })?;
        }
        Ok(())
    }

    fn plan(
        policy: u32,
        matching: Matching,
        (incoming, target): (&Layout, &Layout),
        space: usize,
    ) -> Result<Vec<u8>, Refused> {
        let plan = b"PLN\x01\x00".to_vec();
        let mut build = Build {
            policy,
            matching,
            plan,
        };
        build.all(incoming, target)?;
        match build.plan.len() <= space.min(PLAN_LIMIT) {
            true => Ok(build.plan),
            false => Err((27, 0)),
        }
    }
}

/// Layouts of version 1.
pub fn by_name(policy: u32, layouts: (&Layout, &Layout), space: usize) -> Result<Vec<u8>, Refused> {
    Build::plan(policy, Matching::ByName, layouts, space)
}

/// Layouts of later versions, and what a table has for the owner.
pub fn by_number(
    policy: u32,
    source_index: u32,
    layouts: (&Layout, &Layout),
    entries: &[Entry],
    space: usize,
) -> Result<Vec<u8>, Refused> {
    let defaults = Defaults::new(entries, source_index);
    Build::plan(policy, Matching::ByNumber(defaults), layouts, space)
}
