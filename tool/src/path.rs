//! Paths of columns and fields in words.

use crate::follow::Way;
use crate::form::{Column, Type};
use crate::read::{Step, path_text};

/// The steps to a column by its indexes from the top.
pub fn steps(way: &Way, columns: &[Column]) -> Vec<Step> {
    let (mut steps, mut columns, mut element) = (Vec::new(), columns, false);
    for index in way {
        let Some(column) = columns.get(*index) else {
            return steps;
        };
        steps.push(match element {
            true => Step::Element(None),
            false => Step::Column(*index, Some(column.name.clone())),
        });
        element = matches!(column.of, Type::List(_) | Type::Array(..));
        columns = column.of.inside();
    }
    steps
}

/// A column by its indexes from the top.
pub fn column_at<'a>(way: &[usize], columns: &'a [Column]) -> Option<&'a Column> {
    let (first, rest) = way.split_first()?;
    let column = columns.get(*first)?;
    match rest.is_empty() {
        true => Some(column),
        false => column_at(rest, column.of.inside()),
    }
}

/// `gate.open`, `samples[]`.
pub fn way_text(way: &Way, columns: &[Column]) -> String {
    path_text(&steps(way, columns))
}
