//! Plans.

use super::cursor::{Cause, Cursor, Fault, File, Read, Step};
use super::layout::Types;
use super::value::value;
use crate::form::{self, Cast, Plan, Selector};

const NEST_LIMIT: usize = 64;

pub fn read_plan(bytes: &[u8]) -> Result<Plan, Fault> {
    let mut cursor = Cursor::new(File::Plan, bytes);
    let version = cursor.start(form::PLAN_VERSIONS)?;
    let selectors = selectors(&mut cursor, 1)?;
    cursor.end("the last selector")?;
    Ok(Plan { version, selectors })
}

/// A count, and so many selectors.
fn selectors(cursor: &mut Cursor, nest: usize) -> Read<Vec<Selector>> {
    let count = cursor.u16("the count of selectors")?;
    (0..usize::from(count))
        .map(|index| cursor.within(Step::Selector(index), |cursor| selector(cursor, nest)))
        .collect()
}

fn selector(cursor: &mut Cursor, nest: usize) -> Read<Selector> {
    let from = cursor.at;
    if nest > NEST_LIMIT {
        let expected = format!("selectors inside each other at most {NEST_LIMIT} deep");
        return Err(cursor.fault_at(Cause::TooDeep, from, from, expected));
    }
    let code = cursor.u8("a selector")?;
    Ok(match code {
        0 => Selector::Position(cursor.u16("the position")?),
        1 => {
            let name = cursor.text("the constant's name")?;
            let of = Types::PLAIN.of(cursor, 1)?;
            let value = value(cursor, &of)?;
            Selector::Constant(name, of, value)
        }
        2..=6 => {
            let step = |cursor: &mut Cursor| selector(cursor, nest + 1);
            let input = Box::new(cursor.within(Step::Input, step)?);
            transform(cursor, code, input, nest)?
        }
        code => {
            let expected = format!("a selector's code, 0 to 6, not {code}");
            return Err(cursor.fault(Cause::Code, from, expected));
        }
    })
}

/// What follows a transform's input.
fn transform(cursor: &mut Cursor, code: u8, input: Box<Selector>, nest: usize) -> Read<Selector> {
    Ok(match code {
        2 => {
            let of = Types::PLAIN.of(cursor, 1)?;
            let from = cursor.at;
            let option = cursor.u8("the cast's option")?;
            let Some(cast) = Cast::ALL.get(usize::from(option)) else {
                let expected = format!("a cast's option, 0 to 2, not {option}");
                return Err(cursor.fault(Cause::Code, from, expected));
            };
            Selector::Cast(input, of, *cast)
        }
        3 => Selector::Rename(input, cursor.text("the new name")?),
        4 => Selector::Struct(input, selectors(cursor, nest + 1)?),
        code => {
            let step = |cursor: &mut Cursor| selector(cursor, nest + 1);
            let element = Box::new(cursor.within(Step::Mapped, step)?);
            match code {
                5 => Selector::List(input, element),
                _ => Selector::Array(input, element),
            }
        }
    })
}
