//! Values and records.

use crate::form::{Column, Fault, Leaf, RECORD_LIMIT, Type};
use crate::number::{Kind, Number};
use crate::reader::Reader;

#[derive(Clone, Debug, PartialEq, Eq)]
pub enum Value<'a> {
    Null,
    Number(Number),
    /// A string, binary or category.
    Text(&'a [u8]),
    Struct(Vec<Value<'a>>),
    List(Vec<Value<'a>>),
    Array(Vec<Value<'a>>),
}

impl<'a> Reader<'a> {
    /// Whether a value is present. A null type has none, a required field has one.
    fn presence(&mut self, nothing: bool, required: bool) -> Result<bool, Fault> {
        match self.u8()? {
            0 if required => Err(56),
            0 => Ok(false),
            1 if !nothing => Ok(true),
            _ => Err(3),
        }
    }

    /// Of a table of defaults, where no value is required.
    pub fn leaf_value(&mut self, leaf: &Leaf) -> Result<Value<'a>, Fault> {
        self.leaf_of(leaf, false)
    }

    fn leaf_of(&mut self, leaf: &Leaf, required: bool) -> Result<Value<'a>, Fault> {
        if !self.presence(*leaf == Leaf::Plain(0), required)? {
            return Ok(Value::Null);
        }
        let Some(kind) = Kind::of(leaf) else {
            let length = self.u16()?;
            return Ok(Value::Text(self.take(length.into())?));
        };
        let number = Number::from_bytes(kind, self.take(kind.width())?);
        match kind {
            Kind::Boolean if number.bits > 1 => Err(3),
            Kind::Decimal(precision) if !number.is_within(precision) => Err(52),
            _ => Ok(Value::Number(number)),
        }
    }

    /// Of a constant, whose type has no marks.
    pub fn value(&mut self, type_: &Type) -> Result<Value<'a>, Fault> {
        self.value_of(type_, false)
    }

    /// 2 where the bytes end, 3 where they are bad, 52 where a decimal is too large, 56 where a required value is null.
    fn value_of(&mut self, type_: &Type, required: bool) -> Result<Value<'a>, Fault> {
        if let Type::Leaf(leaf) = type_ {
            return self.leaf_of(leaf, required);
        }
        if !self.presence(false, required)? {
            return Ok(Value::Null);
        }
        Ok(match type_ {
            Type::Leaf(_) => unreachable!("a leaf is read above"),
            Type::Struct(columns) => Value::Struct(self.fields(columns)?),
            Type::List(element) => {
                let count = self.u16()?;
                Value::List(self.elements(element, count.into())?)
            }
            Type::Array(width, element) => Value::Array(self.elements(element, *width)?),
        })
    }

    fn fields(&mut self, columns: &[Column]) -> Result<Vec<Value<'a>>, Fault> {
        columns
            .iter()
            .map(|column| self.value_of(&column.type_, column.required))
            .collect()
    }

    fn elements(&mut self, element: &Column, count: u32) -> Result<Vec<Value<'a>>, Fault> {
        // A value has a byte at least.
        let mut values = Vec::with_capacity(self.rest.len().min(count as usize));
        for _ in 0..count {
            values.push(self.value_of(&element.type_, element.required)?);
        }
        Ok(values)
    }
}

/// One value a column: 43, then 40, 41, 52 and 56, then 42.
pub fn read_record<'a>(columns: &[Column], bytes: &'a [u8]) -> Result<Vec<Value<'a>>, Fault> {
    if bytes.len() > RECORD_LIMIT {
        return Err(43);
    }
    let mut reader = Reader::new(bytes, 1);
    let values = reader.fields(columns).map_err(|fault| match fault {
        2 => 40u32,
        52 | 56 => fault,
        _ => 41,
    })?;
    reader.end(values).map_err(|_| 42)
}
