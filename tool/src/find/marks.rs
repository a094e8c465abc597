//! The required column or field to which a plan may give null.

use super::first_refused;
use crate::follow::Way;
use crate::form::{Column, Layout, Type};
use crate::write::layout_bytes;
use column_selector::{Incoming, Plan, Refusal, Target};

/// The first required place of the target up to which, that place included, the check is refused as the whole check is.
pub fn optional_place(
    refusal: Refusal,
    incoming: &[u8],
    target: &Layout,
    plan: &[u8],
) -> Option<Way> {
    let refused = |count: usize| {
        let mut left = count;
        let columns = target.columns.iter();
        let columns = columns.map(|column| kept(column, &mut left)).collect();
        let target = layout_bytes(&Layout { columns, ..*target }).ok()?;
        let layout = |bytes| column_selector::Layout::new(bytes);
        let checked = Plan::new(plan).check(Incoming(layout(incoming)), Target(layout(&target)));
        Some(checked.is_err_and(|found| found.reason == refusal.reason))
    };
    let mut places = Vec::new();
    required(&target.columns, &mut Way::new(), &mut places);
    let first = first_refused(places.len(), refused)?;
    places.into_iter().nth(first)
}

/// The ways to what is required, the outer first.
fn required(columns: &[Column], way: &mut Way, found: &mut Vec<Way>) {
    for (index, column) in columns.iter().enumerate() {
        way.push(index);
        if column.required {
            found.push(way.clone());
        }
        required(column.of.inside(), way, found);
        way.pop();
    }
}

/// The column with only its first marks, so many as are left.
fn kept(column: &Column, left: &mut usize) -> Column {
    let required = column.required && *left > 0;
    *left -= usize::from(required);
    let of = match &column.of {
        Type::Leaf(leaf) => Type::Leaf(leaf.clone()),
        Type::Struct(fields) => {
            Type::Struct(fields.iter().map(|field| kept(field, left)).collect())
        }
        Type::List(element) => Type::List(Box::new(kept(element, left))),
        Type::Array(width, element) => Type::Array(*width, Box::new(kept(element, left))),
    };
    Column {
        required,
        of,
        ..column.clone()
    }
}
