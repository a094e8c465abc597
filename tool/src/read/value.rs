//! Records, and values wherever they stand.

use super::cursor::{Cause, Cursor, Fault, File, Read, Step};
use crate::form::{Column, Layout, Leaf, Type, Value};

/// A record of a layout: a value for each column.
pub fn read_record(bytes: &[u8], layout: &Layout) -> Result<Vec<Value>, Fault> {
    let mut cursor = Cursor::new(File::Record, bytes);
    cursor.limit()?;
    let values = columns(&mut cursor, &layout.columns)?;
    cursor.end("the last column's value")?;
    Ok(values)
}

fn columns(cursor: &mut Cursor, columns: &[Column]) -> Read<Vec<Value>> {
    let row = columns.iter().enumerate();
    row.map(|(index, column)| {
        let step = Step::Column(index, Some(column.name.clone()));
        cursor.within(step, |cursor| marked(cursor, column))
    })
    .collect()
}

/// The value of a column or element, which may be required.
fn marked(cursor: &mut Cursor, column: &Column) -> Read<Value> {
    let from = cursor.at;
    match value(cursor, &column.of)? {
        Value::Null if column.required => {
            let expected = "a value, which is required, not null".to_string();
            Err(cursor.fault_at(Cause::Null, from, from + 1, expected))
        }
        value => Ok(value),
    }
}

pub fn value(cursor: &mut Cursor, of: &Type) -> Read<Value> {
    let from = cursor.at;
    let presence = cursor.u8("a presence byte")?;
    let null = matches!(of, Type::Leaf(Leaf::Null));
    match presence {
        0 => Ok(Value::Null),
        1 if !null => content(cursor, of),
        _ => {
            let expected = match null {
                true => format!("presence 0 of a null, not {presence}"),
                false => format!("a presence byte, 0 or 1, not {presence}"),
            };
            Err(cursor.fault(Cause::ValueByte, from, expected))
        }
    }
}

fn content(cursor: &mut Cursor, of: &Type) -> Read<Value> {
    match of {
        Type::Leaf(of) => leaf(cursor, of),
        Type::Struct(fields) => Ok(Value::Row(columns(cursor, fields)?)),
        Type::List(element) => {
            let count = cursor.u16("the count of elements")?;
            elements(cursor, u32::from(count), element)
        }
        Type::Array(width, element) => elements(cursor, *width, element),
    }
}

fn elements(cursor: &mut Cursor, count: u32, element: &Column) -> Read<Value> {
    let mut row = Vec::new();
    for index in 0..count as usize {
        let step = Step::Element(Some(index));
        row.push(cursor.within(step, |cursor| marked(cursor, element))?);
    }
    Ok(Value::Row(row))
}

fn leaf(cursor: &mut Cursor, of: &Leaf) -> Read<Value> {
    let from = cursor.at;
    let Some(width) = of.width() else {
        let length = cursor.u16("the text's length")?;
        return Ok(Value::Text(
            cursor.take(usize::from(length), "the text")?.to_vec(),
        ));
    };
    let bits = cursor.number(width, "the value")?;
    let unused = 64 - 8 * width as u32;
    let signed = (bits << unused) as i64 >> unused;
    match of {
        Leaf::Boolean if bits > 1 => {
            let expected = format!("a boolean, 0 or 1, not {bits}");
            Err(cursor.fault(Cause::ValueByte, from, expected))
        }
        Leaf::Boolean => Ok(Value::Boolean(bits == 1)),
        Leaf::Float(_) => Ok(Value::Bits(bits)),
        Leaf::Uint(_) => Ok(Value::Number(i128::from(bits))),
        Leaf::Decimal { precision, .. }
            if signed.unsigned_abs() >= 10u64.pow(u32::from(*precision)) =>
        {
            let expected = format!("a number of at most {precision} digits, not {signed}");
            Err(cursor.fault(Cause::DecimalTooLarge, from, expected))
        }
        _ => Ok(Value::Number(i128::from(signed))),
    }
}
