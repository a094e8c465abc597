//! Plans that fit an incoming layout, with the target layout that they lead to: transforms over transforms, constants
//! and casts at every level.

use super::records::{self, Shares};
use super::{leaf, name, type_, wider_decimal};
use crate::form::{self, Column, DEPTH_LIMIT, Leaf, Type};
use crate::random::Random;
use crate::rules::{CastOption, cast_option};
use crate::selector::NESTING_LIMIT;
use crate::write;

/// A selector's bytes, and the column that it gives.
struct Made {
    bytes: Vec<u8>,
    column: Column,
}

/// A plan and its target's columns, whose ids are counted and whose top names differ.
pub fn plan(random: &mut Random, incoming: &[Column]) -> (Vec<u8>, Vec<Column>) {
    let room = match random.below(20) {
        0 => NESTING_LIMIT,
        _ => 2 + random.below(8) as u32,
    };
    let unfit = if random.percent(25) { 4 } else { 0 };
    let mut generator = Generator {
        random,
        unfit,
        selectors: 300,
    };
    let mut columns: Vec<Column> = Vec::new();
    let mut selectors = Vec::new();
    for at in 0..generator.random.below(5) {
        let mut made = generator.selector(incoming, room);
        let repeats = |earlier: &Column| earlier.name == made.column.name;
        if columns.iter().any(repeats) && room > 1 {
            let name = format!("other{at}").into_bytes();
            made.bytes = write::rename(&made.bytes, &name);
            made.column.name = name.into();
        }
        selectors.push(made.bytes);
        columns.push(made.column);
    }
    count_ids(&mut columns);
    (write::plan(&selectors), columns)
}

/// Gives siblings ids by their places.
pub fn count_ids(columns: &mut [Column]) {
    for (column, id) in columns.iter_mut().zip(0..) {
        column.id = id;
        match &mut column.type_ {
            Type::Leaf(_) => (),
            Type::Struct(columns) => count_ids(columns),
            Type::List(element) | Type::Array(_, element) => {
                count_ids(std::slice::from_mut(element));
            }
        }
    }
}

/// The bytes of a type in version 1 form.
fn length(type_: &Type) -> usize {
    let mut bytes = Vec::new();
    form::write_type(&mut bytes, 1, type_);
    bytes.len()
}

struct Generator<'r> {
    random: &'r mut Random,
    /// The share of transforms, in percent, that don't fit their input.
    unfit: u64,
    /// How many selectors more may have transforms.
    selectors: u32,
}

impl Generator<'_> {
    /// A selector that nests at most `room` deep, over columns.
    fn selector(&mut self, scope: &[Column], room: u32) -> Made {
        let most = if room > 20 {
            room - 1
        } else {
            (room - 1).min(4)
        };
        let transforms = match self.selectors {
            0 => 0,
            _ => self.random.below(u64::from(most) + 1) as u32,
        };
        self.selectors = self.selectors.saturating_sub(1 + transforms);
        let mut made = self.base(scope);
        for inside in (1..=transforms).rev() {
            if length(&made.column.type_) > 1_000 {
                break;
            }
            made = self.transformed(made, room - inside);
        }
        made
    }

    fn base(&mut self, scope: &[Column]) -> Made {
        if self.random.percent(self.unfit) {
            let at = self.random.below(scope.len() as u64 + 3) as u16;
            let column = scope.get(usize::from(at)).or(scope.first());
            let column = column.cloned().unwrap_or(self.column());
            let bytes = write::position(at);
            return Made { bytes, column };
        }
        if scope.is_empty() || self.random.percent(20) {
            let column = self.column();
            let mut value = Vec::new();
            let shares = Shares {
                nulls: self.random.pick(&[0, 5, 15, 40]),
                missing: 0,
                exceeding: if self.unfit > 0 { 10 } else { 0 },
            };
            records::value(self.random, &mut value, &column.type_, shares);
            let bytes = write::constant(&column.name, &column.type_, &value);
            return Made { bytes, column };
        }
        let at = self.random.below(scope.len() as u64) as usize;
        Made {
            bytes: write::position(at as u16),
            column: scope[at].clone(),
        }
    }

    /// A column for a constant: sometimes of nothing but nulls, which casts take to any type.
    fn column(&mut self) -> Column {
        let null = Type::Leaf(Leaf::Plain(0));
        let type_ = match self.random.below(20) {
            0 => null,
            1 => Type::List(Box::new(Column::of(&[], null))),
            _ => type_(self.random, 3),
        };
        Column::of(&name(self.random), type_)
    }

    /// One transform more; selectors inside it nest at most `room` deep.
    fn transformed(&mut self, made: Made, room: u32) -> Made {
        if self.random.percent(15) {
            let name = name(self.random);
            let bytes = write::rename(&made.bytes, &name);
            let column = Column {
                name: name.into(),
                ..made.column
            };
            return Made { bytes, column };
        }
        if self.random.percent(self.unfit) {
            return self.unfit(made);
        }
        let Made { bytes, column } = made;
        let (bytes, type_) = match column.type_ {
            Type::Leaf(leaf) => self.cast(bytes, leaf),
            Type::Struct(fields) => {
                let count = self.random.below(fields.len() as u64 + 3);
                let made: Vec<Made> = (0..count).map(|_| self.selector(&fields, room)).collect();
                let (selectors, columns): (Vec<_>, Vec<_>) =
                    made.into_iter().map(|one| (one.bytes, one.column)).unzip();
                let bytes = write::struct_mapping(&bytes, &selectors);
                (bytes, Type::Struct(columns))
            }
            Type::List(element) => {
                let made = self.selector(std::slice::from_ref(&element), room);
                let bytes = write::list_mapping(&bytes, &made.bytes);
                (bytes, Type::List(Box::new(made.column)))
            }
            Type::Array(width, element) => {
                let made = self.selector(std::slice::from_ref(&element), room);
                let bytes = write::array_mapping(&bytes, &made.bytes);
                (bytes, Type::Array(width, Box::new(made.column)))
            }
        };
        let column = Column { type_, ..column };
        Made { bytes, column }
    }

    /// A cast that fits; the leaf itself where none was found.
    fn cast(&mut self, bytes: Vec<u8>, from: Leaf) -> (Vec<u8>, Type) {
        if from == Leaf::Plain(0) && self.random.percent(30) {
            let type_ = super::nested_type(self.random, DEPTH_LIMIT - 3);
            let bytes = write::cast(&bytes, &type_, CastOption::NonStrict);
            return (bytes, type_);
        }
        for _ in 0..20 {
            let to = match from {
                Leaf::Decimal { precision, scale } => wider_decimal(self.random, precision, scale),
                _ => leaf(self.random),
            };
            if let Some(option) = cast_option(&from, &to) {
                let type_ = Type::Leaf(to);
                return (write::cast(&bytes, &type_, option), type_);
            }
        }
        (bytes, Type::Leaf(from))
    }

    /// A transform without a look at its input.
    fn unfit(&mut self, made: Made) -> Made {
        let Made { bytes, column } = made;
        let options = [
            CastOption::NonStrict,
            CastOption::Strict,
            CastOption::Overflowing,
        ];
        let (bytes, type_) = match self.random.below(6) {
            0 => (write::struct_mapping(&bytes, &[]), Type::Struct(Vec::new())),
            1 => (
                write::list_mapping(&bytes, &write::position(0)),
                column.type_,
            ),
            2 => (
                write::array_mapping(&bytes, &write::position(0)),
                column.type_,
            ),
            3 => {
                let option = self.random.pick(&options);
                (write::cast(&bytes, &column.type_, option), column.type_)
            }
            _ => {
                let type_ = Type::Leaf(leaf(self.random));
                let option = self.random.pick(&options);
                (write::cast(&bytes, &type_, option), type_)
            }
        };
        let column = Column { type_, ..column };
        Made { bytes, column }
    }
}
