//! A cursor over bytes, with what layouts, tables, plans and records have in common.

use crate::form::{Column, DEPTH_LIMIT, Fault, Leaf, PRECISION_LIMIT, TEXT_LIMIT, Type};
use crate::hash::FastSet;
use std::hash::Hash;

pub(crate) struct Reader<'a> {
    pub rest: &'a [u8],
    /// Of the layout; types in plans have the form of version 1.
    pub version: u8,
}

/// The label of a column: its name where it stands, its id, 0 in version 1, and its mark.
pub(crate) struct Label<'a> {
    pub name: &'a [u8],
    pub id: u32,
    pub required: bool,
}

impl<'a> Reader<'a> {
    pub fn new(rest: &'a [u8], version: u8) -> Self {
        Self { rest, version }
    }

    pub fn take(&mut self, count: usize) -> Result<&'a [u8], Fault> {
        let (taken, rest) = self.rest.split_at_checked(count).ok_or(2u32)?;
        self.rest = rest;
        Ok(taken)
    }

    pub fn u8(&mut self) -> Result<u8, Fault> {
        let (first, rest) = self.rest.split_first().ok_or(2u32)?;
        self.rest = rest;
        Ok(*first)
    }

    pub fn u16(&mut self) -> Result<u16, Fault> {
        Ok(u16::from_le_bytes(self.take(2)?.try_into().unwrap()))
    }

    pub fn u32(&mut self) -> Result<u32, Fault> {
        Ok(u32::from_le_bytes(self.take(4)?.try_into().unwrap()))
    }

    /// A name or a zone.
    pub fn text(&mut self) -> Result<&'a [u8], Fault> {
        let length = self.u8()? as usize;
        if length > TEXT_LIMIT {
            return Err(4);
        }
        self.take(length)
    }

    /// What follows a leaf's code.
    pub fn leaf(&mut self, code: u8) -> Result<Leaf, Fault> {
        match code {
            14 => {
                let unit = self.u8()?;
                if unit > 2 {
                    return Err(3);
                }
                let zone = self.text()?.to_vec();
                Ok(Leaf::Datetime { unit, zone })
            }
            21 => {
                let (precision, scale) = (self.u8()?, self.u8()?);
                match (1..=PRECISION_LIMIT).contains(&precision) && scale <= precision {
                    true => Ok(Leaf::Decimal { precision, scale }),
                    false => Err(50),
                }
            }
            code => Ok(Leaf::Plain(code)),
        }
    }

    pub fn type_(&mut self, depth: u32) -> Result<Type, Fault> {
        if depth > DEPTH_LIMIT {
            return Err(4);
        }
        Ok(match self.u8()? {
            code @ (0..=17 | 21) => Type::Leaf(self.leaf(code)?),
            18 => Type::Struct(self.columns(depth + 1, false)?),
            19 => Type::List(self.element(depth + 1)?),
            20 => {
                let width = self.u32()?;
                Type::Array(width, self.element(depth + 1)?)
            }
            _ => return Err(3),
        })
    }

    fn element(&mut self, depth: u32) -> Result<Box<Column>, Fault> {
        Ok(Box::new(match self.version {
            1 => Column::of(&[], self.type_(depth)?),
            _ => self.column(depth)?.1,
        }))
    }

    /// A column, and its name where it stands.
    fn column(&mut self, depth: u32) -> Result<(&'a [u8], Column), Fault> {
        let Label { name, id, required } = self.label()?;
        let type_ = self.type_(depth)?;
        let column = Column {
            name: name.into(),
            id,
            required,
            type_,
        };
        Ok((name, column))
    }

    /// What a column has before its type.
    pub fn label(&mut self) -> Result<Label<'a>, Fault> {
        let name = self.text()?;
        let id = if self.version >= 2 { self.u32()? } else { 0 };
        let required = self.version >= 3 && self.mark()?;
        Ok(Label { name, id, required })
    }

    /// Whether a column is required.
    fn mark(&mut self) -> Result<bool, Fault> {
        match self.u8()? {
            0 => Ok(false),
            1 => Ok(true),
            _ => Err(3),
        }
    }

    pub fn columns(&mut self, depth: u32, top: bool) -> Result<Vec<Column>, Fault> {
        let count = self.u16()? as usize;
        // A column has two bytes at least.
        let mut columns = Vec::with_capacity(count.min(self.rest.len() / 2));
        let (mut names, mut ids) = (Siblings::default(), Siblings::default());
        for _ in 0..count {
            let (name, column) = self.column(depth)?;
            let new = match self.version {
                1 => !top || names.insert(name),
                _ => ids.insert(column.id),
            };
            if !new {
                return Err(5);
            }
            columns.push(column);
        }
        Ok(columns)
    }

    pub fn end<T>(&self, result: T) -> Result<T, Fault> {
        if self.rest.is_empty() {
            Ok(result)
        } else {
            Err(6)
        }
    }
}

/// The keys of earlier siblings. A few are scanned, for that is faster than hashing them.
pub(crate) struct Siblings<K> {
    few: Vec<K>,
    many: FastSet<K>,
}

impl<K> Default for Siblings<K> {
    fn default() -> Self {
        Self {
            few: Vec::new(),
            many: FastSet::default(),
        }
    }
}

impl<K: Copy + Eq + Hash> Siblings<K> {
    const FEW: usize = 24;

    /// Whether the key is a new one.
    pub fn insert(&mut self, key: K) -> bool {
        if self.few.len() < Self::FEW {
            let new = !self.few.contains(&key);
            if new {
                self.few.push(key);
            }
            return new;
        }
        if self.many.is_empty() {
            self.many.extend(&self.few);
        }
        self.many.insert(key)
    }
}
