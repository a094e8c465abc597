//! Which cases the comparison takes where decimals stand: those with the flag for their widening off, where a widening
//! is the original's plain mismatch.

use plain::case::Case;
use plain::form::{self, Column, Layout, Leaf, Type};
use plain::policy;

fn has_decimal(columns: &[Column]) -> bool {
    columns.iter().any(|column| match &column.type_ {
        Type::Leaf(leaf) => matches!(leaf, Leaf::Decimal { .. }),
        Type::Struct(columns) => has_decimal(columns),
        Type::List(element) | Type::Array(_, element) => has_decimal(std::slice::from_ref(element)),
    })
}

/// Whether the flag may decide.
pub fn in_both(incoming: &Layout, target: &Layout) -> bool {
    has_decimal(&incoming.columns) && has_decimal(&target.columns)
}

/// The case, with the flag off where it may decide.
pub fn flag_off(mut case: Case) -> Case {
    let layouts = [&case.incoming, &case.target].map(|bytes| form::read_layout(bytes));
    if let [Ok(incoming), Ok(target)] = layouts
        && in_both(&incoming, &target)
    {
        case.policy &= !policy::DECIMAL_WIDENING;
    }
    case
}
