//! What the tests share: the examples' files, and trees at random.
#![allow(dead_code)]

use selector_tool::form::{Column, Default, Entry, Layout, Leaf, Table, Type, Unit, Value};
use std::fs;
use std::path::{Path, PathBuf};

/// The folders of examples/.
pub fn examples() -> Vec<PathBuf> {
    let folder = PathBuf::from(env!("CARGO_MANIFEST_DIR")).join("../examples");
    let entries = fs::read_dir(folder)
        .unwrap()
        .map(|entry| entry.unwrap().path());
    let mut folders: Vec<PathBuf> = entries.filter(|path| path.is_dir()).collect();
    folders.sort();
    assert!(folders.len() >= 5);
    folders
}

pub fn file(folder: &Path, name: &str) -> Option<Vec<u8>> {
    fs::read(folder.join(name)).ok()
}

/// A generator of numbers (xorshift).
pub struct Random(pub u64);

impl Random {
    pub fn next(&mut self) -> u64 {
        self.0 ^= self.0 << 13;
        self.0 ^= self.0 >> 7;
        self.0 ^= self.0 << 17;
        self.0.wrapping_mul(0x2545_F491_4F6C_DD1D)
    }

    pub fn below(&mut self, most: usize) -> usize {
        ((self.next() >> 33) % most as u64) as usize
    }

    fn one<'a, T>(&mut self, of: &'a [T]) -> &'a T {
        &of[self.below(of.len())]
    }

    pub fn bytes(&mut self, most: usize) -> Vec<u8> {
        let odd: [&[u8]; 9] = [
            b"level",
            b"",
            b"a b",
            "Füllstand".as_bytes(),
            b"x\xff\xfe",
            b"\"\\\n#:",
            b"null",
            b"\0",
            "\u{202e}é".as_bytes(),
        ];
        match self.below(3) {
            0 => self.one(&odd).to_vec(),
            _ => (0..self.below(most)).map(|_| self.next() as u8).collect(),
        }
    }

    pub fn leaf(&mut self) -> Leaf {
        match self.below(22) {
            14 | 18 => {
                let zone = if self.below(2) == 0 {
                    Vec::new()
                } else {
                    self.bytes(20)
                };
                Leaf::Datetime {
                    unit: *self.one(&Unit::ALL),
                    zone,
                }
            }
            19..=21 => {
                let precision = 1 + self.below(18) as u8;
                Leaf::Decimal {
                    precision,
                    scale: self.below(usize::from(precision) + 1) as u8,
                }
            }
            code => Leaf::plain(code as u8).unwrap(),
        }
    }

    fn of(&mut self, depth: usize, by_number: bool) -> Type {
        let choice = if depth == 0 { 0 } else { self.below(8) };
        match choice {
            5 => Type::Struct(self.columns(depth - 1, by_number)),
            6 => Type::List(self.element(depth - 1, by_number)),
            7 => Type::Array(self.below(4) as u32, self.element(depth - 1, by_number)),
            _ => Type::Leaf(self.leaf()),
        }
    }

    /// A null can't be required, or no record fits.
    fn required(&mut self, of: &Type) -> bool {
        *of != Type::Leaf(Leaf::Null) && self.below(2) == 0
    }

    fn element(&mut self, depth: usize, by_number: bool) -> Box<Column> {
        let of = self.of(depth, by_number);
        Box::new(match by_number {
            true => Column {
                id: self.next() as u32,
                required: self.required(&of),
                ..Column::named(self.bytes(8), of)
            },
            false => Column::bare(of),
        })
    }

    /// Names or ids are all different, as the top columns need it.
    fn columns(&mut self, depth: usize, by_number: bool) -> Vec<Column> {
        (0..self.below(5))
            .map(|index| {
                let mut name = self.bytes(12);
                name.extend(format!("{index}").bytes());
                let id = if by_number {
                    self.next() as u32 & !7 | index as u32
                } else {
                    0
                };
                let of = self.of(depth, by_number);
                Column {
                    id,
                    required: self.required(&of),
                    ..Column::named(name, of)
                }
            })
            .collect()
    }

    pub fn layout(&mut self) -> Layout {
        let version = 1 + self.below(3) as u16;
        let depth = self.below(6);
        let columns = self.columns(depth, version >= 2);
        Layout {
            version,
            columns: match version {
                3 => columns,
                _ => columns.iter().map(Column::optional).collect(),
            },
        }
    }

    pub fn record(&mut self, layout: &Layout) -> Vec<Value> {
        layout
            .columns
            .iter()
            .map(|column| self.column_value(column))
            .collect()
    }

    /// Not null where one is required.
    fn column_value(&mut self, column: &Column) -> Value {
        loop {
            match self.value(&column.of) {
                Value::Null if column.required => {}
                value => return value,
            }
        }
    }

    pub fn value(&mut self, of: &Type) -> Value {
        if self.below(5) == 0 || *of == Type::Leaf(Leaf::Null) {
            return Value::Null;
        }
        match of {
            Type::Leaf(leaf) => self.leaf_value(leaf),
            Type::Struct(fields) => Value::Row(
                fields
                    .iter()
                    .map(|field| self.column_value(field))
                    .collect(),
            ),
            Type::List(element) => Value::Row(
                (0..self.below(4))
                    .map(|_| self.column_value(element))
                    .collect(),
            ),
            Type::Array(width, element) => {
                Value::Row((0..*width).map(|_| self.column_value(element)).collect())
            }
        }
    }

    fn leaf_value(&mut self, leaf: &Leaf) -> Value {
        let edge = [
            0,
            1,
            u64::MAX,
            1 << 63,
            1 << 31,
            1 << 15,
            0x7FF0 << 48,
            0x7F80 << 16,
            0x7C00,
        ];
        let bits = if self.below(4) == 0 {
            *self.one(&edge)
        } else {
            self.next()
        };
        let unused = 64 - 8 * leaf.width().unwrap_or(8) as u32;
        let cut = if unused == 64 {
            0
        } else {
            bits << unused >> unused
        };
        let signed = if unused == 64 {
            0
        } else {
            (bits << unused) as i64 >> unused
        };
        match leaf {
            Leaf::Null => Value::Null,
            Leaf::Boolean => Value::Boolean(bits % 2 == 1),
            Leaf::Uint(_) => Value::Number(i128::from(cut)),
            Leaf::Float(_) => Value::Bits(cut),
            Leaf::String | Leaf::Binary | Leaf::Category => Value::Text(self.bytes(30)),
            Leaf::Decimal { precision, .. } => {
                Value::Number(i128::from(signed) % 10i128.pow(u32::from(*precision)))
            }
            Leaf::Int(_) | Leaf::Date | Leaf::Datetime { .. } => Value::Number(i128::from(signed)),
        }
    }

    pub fn table(&mut self) -> Table {
        let version = 1 + self.below(2) as u16;
        let entries = (0..self.below(6))
            .map(|index| {
                let leaf = self.leaf();
                let of = Type::Leaf(leaf.clone());
                let default = match self.below(3) {
                    0 => Default::Failed,
                    1 => Default::Initial(leaf, self.value(&of)),
                    _ => {
                        Default::Loaded(leaf, (0..self.below(4)).map(|_| self.value(&of)).collect())
                    }
                };
                Entry {
                    owner: (version == 2).then(|| self.next() as u16),
                    id: self.next() as u32 & !7 | index as u32,
                    default,
                }
            })
            .collect();
        Table { version, entries }
    }
}
