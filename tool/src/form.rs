//! Layouts, tables of defaults, records and plans as trees. docs/FORMATS.md has their bytes.

/// The versions of layouts, tables of defaults and plans that are read and written here.
pub const LAYOUT_VERSIONS: &[u16] = &[1, 2, 3];
pub const TABLE_VERSIONS: &[u16] = &[1, 2];
pub const PLAN_VERSIONS: &[u16] = &[1];

/// A name, a zone or a text: any bytes.
pub type Bytes = Vec<u8>;

#[derive(Clone, Debug, PartialEq, Eq)]
pub struct Layout {
    pub version: u16,
    pub columns: Vec<Column>,
}

impl Layout {
    /// Whether columns have ids, and elements are columns.
    pub fn by_number(&self) -> bool {
        by_number(self.version)
    }
}

/// Whether columns of a layout's version have ids, and elements are columns.
pub fn by_number(version: u16) -> bool {
    version >= 2
}

/// Whether columns of a layout's version say if they are required.
pub fn marked(version: u16) -> bool {
    version >= 3
}

/// A column, a struct's field or an element. The id is 0 where the layout has none, an element's name empty, and none
/// is required where the layout can't say it.
#[derive(Clone, Debug, PartialEq, Eq)]
pub struct Column {
    pub name: Bytes,
    pub id: u32,
    pub required: bool,
    pub of: Type,
}

impl Column {
    /// A column of a layout by name.
    pub fn named(name: Bytes, of: Type) -> Column {
        let (id, required) = (0, false);
        Column {
            name,
            id,
            required,
            of,
        }
    }

    /// An element of a layout by name.
    pub fn bare(of: Type) -> Column {
        Column::named(Bytes::new(), of)
    }

    /// The same, required at none of its places.
    pub fn optional(&self) -> Column {
        let parts = || self.of.inside().iter().map(Column::optional);
        let of = match &self.of {
            Type::Leaf(leaf) => Type::Leaf(leaf.clone()),
            Type::Struct(_) => Type::Struct(parts().collect()),
            Type::List(element) => Type::List(Box::new(element.optional())),
            Type::Array(width, element) => Type::Array(*width, Box::new(element.optional())),
        };
        Column {
            required: false,
            of,
            ..self.clone()
        }
    }

    /// Whether it or something inside it is required.
    pub fn has_required(&self) -> bool {
        self.required || self.of.inside().iter().any(Column::has_required)
    }
}

#[derive(Clone, Debug, PartialEq, Eq)]
pub enum Type {
    Leaf(Leaf),
    Struct(Vec<Column>),
    List(Box<Column>),
    Array(u32, Box<Column>),
}

impl Type {
    /// Whether the two are equal, ids, marks and elements' names aside.
    pub fn equals(&self, other: &Type) -> bool {
        match (self, other) {
            (Type::Leaf(one), Type::Leaf(other)) => one == other,
            (Type::Struct(ones), Type::Struct(others)) => {
                ones.len() == others.len()
                    && ones
                        .iter()
                        .zip(others)
                        .all(|(one, other)| one.name == other.name && one.of.equals(&other.of))
            }
            (Type::List(one), Type::List(other)) => one.of.equals(&other.of),
            (Type::Array(width, one), Type::Array(other_width, other)) => {
                width == other_width && one.of.equals(&other.of)
            }
            _ => false,
        }
    }

    /// The columns inside: a struct's fields, or the element.
    pub fn inside(&self) -> &[Column] {
        match self {
            Type::Leaf(_) => &[],
            Type::Struct(fields) => fields,
            Type::List(element) | Type::Array(_, element) => std::slice::from_ref(element),
        }
    }
}

/// Widths are in bytes.
#[derive(Clone, Debug, PartialEq, Eq)]
pub enum Leaf {
    Null,
    Boolean,
    Int(u8),
    Uint(u8),
    Float(u8),
    Date,
    Datetime { unit: Unit, zone: Bytes },
    String,
    Binary,
    Category,
    Decimal { precision: u8, scale: u8 },
}

impl Leaf {
    pub fn code(&self) -> u8 {
        let log = |width: &u8| width.trailing_zeros() as u8;
        match self {
            Leaf::Null => 0,
            Leaf::Boolean => 1,
            Leaf::Int(width) => 2 + log(width),
            Leaf::Uint(width) => 6 + log(width),
            Leaf::Float(width) => 9 + log(width),
            Leaf::Date => 13,
            Leaf::Datetime { .. } => 14,
            Leaf::String => 15,
            Leaf::Binary => 16,
            Leaf::Category => 17,
            Leaf::Decimal { .. } => 21,
        }
    }

    /// The leaf of a code, where the code alone says it.
    pub fn plain(code: u8) -> Option<Leaf> {
        Some(match code {
            0 => Leaf::Null,
            1 => Leaf::Boolean,
            2..=5 => Leaf::Int(1 << (code - 2)),
            6..=9 => Leaf::Uint(1 << (code - 6)),
            10..=12 => Leaf::Float(1 << (code - 9)),
            13 => Leaf::Date,
            15 => Leaf::String,
            16 => Leaf::Binary,
            17 => Leaf::Category,
            _ => return None,
        })
    }

    /// How many bytes a present value has, unless it has a length of its own.
    pub fn width(&self) -> Option<usize> {
        Some(match self {
            Leaf::Null => 0,
            Leaf::Boolean => 1,
            Leaf::Int(width) | Leaf::Uint(width) | Leaf::Float(width) => usize::from(*width),
            Leaf::Date => 4,
            Leaf::Datetime { .. } | Leaf::Decimal { .. } => 8,
            Leaf::String | Leaf::Binary | Leaf::Category => return None,
        })
    }
}

pub const DATETIME: u8 = 14;
pub const STRUCT: u8 = 18;
pub const LIST: u8 = 19;
pub const ARRAY: u8 = 20;
pub const DECIMAL: u8 = 21;

#[derive(Clone, Copy, Debug, PartialEq, Eq)]
pub enum Unit {
    Nanoseconds,
    Microseconds,
    Milliseconds,
}

impl Unit {
    pub const ALL: [Unit; 3] = [Unit::Nanoseconds, Unit::Microseconds, Unit::Milliseconds];

    pub fn name(self) -> &'static str {
        ["ns", "us", "ms"][self as usize]
    }

    /// How many digits stand after a second's point.
    pub fn digits(self) -> usize {
        [9, 6, 3][self as usize]
    }

    /// How many of it are a second.
    pub fn a_second(self) -> i64 {
        10i64.pow(self.digits() as u32)
    }
}

/// A value, which its type says how to write.
#[derive(Clone, Debug, PartialEq, Eq)]
pub enum Value {
    Null,
    Boolean(bool),
    /// An integer, a date's days, a date-time's count, a decimal without its point.
    Number(i128),
    /// A float's bits.
    Bits(u64),
    Text(Bytes),
    /// A struct's fields, or the elements of a list or array.
    Row(Vec<Value>),
}

#[derive(Clone, Debug, PartialEq, Eq)]
pub struct Table {
    pub version: u16,
    pub entries: Vec<Entry>,
}

/// Whether entries of a table's version have owners.
pub fn owned(version: u16) -> bool {
    version >= 2
}

#[derive(Clone, Debug, PartialEq, Eq)]
pub struct Entry {
    /// Whose entry it is; none in version 1, where it is every owner's.
    pub owner: Option<u16>,
    pub id: u32,
    pub default: Default,
}

#[derive(Clone, Debug, PartialEq, Eq)]
pub enum Default {
    Initial(Leaf, Value),
    Loaded(Leaf, Vec<Value>),
    Failed,
}

#[derive(Clone, Debug, PartialEq, Eq)]
pub struct Plan {
    pub version: u16,
    pub selectors: Vec<Selector>,
}

#[derive(Clone, Debug, PartialEq, Eq)]
pub enum Selector {
    Position(u16),
    Constant(Bytes, Type, Value),
    Cast(Box<Selector>, Type, Cast),
    Rename(Box<Selector>, Bytes),
    Struct(Box<Selector>, Vec<Selector>),
    List(Box<Selector>, Box<Selector>),
    Array(Box<Selector>, Box<Selector>),
}

impl Selector {
    /// The selectors inside a mapping.
    pub fn members(&self) -> &[Selector] {
        match self {
            Selector::Struct(_, fields) => fields,
            Selector::List(_, element) | Selector::Array(_, element) => {
                std::slice::from_ref(element)
            }
            _ => &[],
        }
    }

    /// What a transform takes.
    pub fn input(&self) -> Option<&Selector> {
        match self {
            Selector::Position(_) | Selector::Constant(..) => None,
            Selector::Cast(input, ..)
            | Selector::Rename(input, _)
            | Selector::Struct(input, _)
            | Selector::List(input, _)
            | Selector::Array(input, _) => Some(input),
        }
    }
}

#[derive(Clone, Copy, Debug, PartialEq, Eq)]
pub enum Cast {
    NonStrict,
    Strict,
    Overflowing,
}

impl Cast {
    pub const ALL: [Cast; 3] = [Cast::NonStrict, Cast::Strict, Cast::Overflowing];

    pub fn name(self) -> &'static str {
        ["NonStrict", "Strict", "Overflowing"][self as usize]
    }

    pub fn meaning(self) -> &'static str {
        [
            "the value is converted, and no value is refused: floats go to the nearest, counts to a coarser unit are \
             rounded down, the rest keeps its value",
            "a count becomes one of a finer unit; where that leaves 64 bits the run is refused with 44",
            "an integer keeps its value in a type that holds it, or becomes the nearest float; no value is refused",
        ][self as usize]
    }
}
