//! Plans: selectors and their reader.

use crate::form::{Fault, PLAN_LIMIT, Type};
use crate::reader::Reader;
use crate::rules::CastOption;
use crate::value::Value;

/// Selectors nest at most so deep.
pub const NESTING_LIMIT: u32 = 64;

#[derive(Clone, Debug, PartialEq, Eq)]
pub enum Selector<'a> {
    Position(u16),
    Constant {
        name: &'a [u8],
        type_: Type,
        value: Value<'a>,
    },
    Cast {
        input: Box<Selector<'a>>,
        type_: Type,
        option: CastOption,
    },
    Rename {
        input: Box<Selector<'a>>,
        name: &'a [u8],
    },
    StructMapping {
        input: Box<Selector<'a>>,
        fields: Vec<Selector<'a>>,
    },
    ListMapping {
        input: Box<Selector<'a>>,
        element: Box<Selector<'a>>,
    },
    ArrayMapping {
        input: Box<Selector<'a>>,
        element: Box<Selector<'a>>,
    },
}

impl<'a> Reader<'a> {
    /// Any fault is 30.
    fn selector(&mut self, nesting: u32) -> Result<Selector<'a>, Fault> {
        if nesting > NESTING_LIMIT {
            return Err(30);
        }
        let code = self.u8()?;
        match code {
            0 => return Ok(Selector::Position(self.u16()?)),
            1 => {
                let name = self.text()?;
                let type_ = self.type_(1)?;
                let value = self.value(&type_)?;
                return Ok(Selector::Constant { name, type_, value });
            }
            2..=6 => (),
            _ => return Err(30),
        }
        let input = self.boxed(nesting + 1)?;
        Ok(match code {
            2 => {
                let type_ = self.type_(1)?;
                let option = match self.u8()? {
                    0 => CastOption::NonStrict,
                    1 => CastOption::Strict,
                    2 => CastOption::Overflowing,
                    _ => return Err(30),
                };
                Selector::Cast {
                    input,
                    type_,
                    option,
                }
            }
            3 => {
                let name = self.text()?;
                Selector::Rename { input, name }
            }
            4 => {
                let fields = self.selectors(nesting + 1)?;
                Selector::StructMapping { input, fields }
            }
            5 => {
                let element = self.boxed(nesting + 1)?;
                Selector::ListMapping { input, element }
            }
            _ => {
                let element = self.boxed(nesting + 1)?;
                Selector::ArrayMapping { input, element }
            }
        })
    }

    fn boxed(&mut self, nesting: u32) -> Result<Box<Selector<'a>>, Fault> {
        self.selector(nesting).map(Box::new)
    }

    fn selectors(&mut self, nesting: u32) -> Result<Vec<Selector<'a>>, Fault> {
        let count = self.u16()? as usize;
        // A selector has three bytes at least.
        let mut selectors = Vec::with_capacity(count.min(self.rest.len() / 3));
        for _ in 0..count {
            selectors.push(self.selector(nesting)?);
        }
        Ok(selectors)
    }
}

/// The top selectors, or 30.
pub fn read_plan(bytes: &[u8]) -> Result<Vec<Selector<'_>>, Fault> {
    let [b'P', b'L', b'N', 1, 0, rest @ ..] = bytes else {
        return Err(30);
    };
    if bytes.len() > PLAN_LIMIT {
        return Err(30);
    }
    let mut reader = Reader::new(rest, 1);
    let selectors = reader.selectors(1).map_err(|_| 30u32)?;
    reader.end(selectors).map_err(|_| 30)
}
