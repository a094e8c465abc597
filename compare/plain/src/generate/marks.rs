//! Required marks at random.

use crate::form::{Column, Type};
use crate::random::Random;

/// Changes the mark of every column, at all levels.
pub fn each(columns: &mut [Column], change: &mut impl FnMut(bool) -> bool) {
    for column in columns {
        column.required = change(column.required);
        match &mut column.type_ {
            Type::Leaf(_) => (),
            Type::Struct(columns) => each(columns, change),
            Type::List(element) | Type::Array(_, element) => {
                each(std::slice::from_mut(element), change);
            }
        }
    }
}

/// Of an incoming layout: none, a few, half or all of the columns are required.
pub fn incoming(random: &mut Random, columns: &mut [Column]) {
    let share = random.pick(&[0, 10, 50, 50, 90, 100]);
    each(columns, &mut |_| random.percent(share));
}

/// Of a target: some marks go, and a few are put where none was.
pub fn target(random: &mut Random, columns: &mut [Column]) {
    let (gone, put) = (
        random.pick(&[0, 0, 10, 50, 100]),
        random.pick(&[0, 0, 1, 4, 25]),
    );
    each(columns, &mut |required| match required {
        true => !random.percent(gone),
        false => random.percent(put),
    });
}
