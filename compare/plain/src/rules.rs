//! Leaf pairs: which cast takes one leaf type to another, every flag on.

use crate::form::Leaf;
use crate::number::Kind;

#[derive(Clone, Copy, Debug, PartialEq, Eq)]
pub enum CastOption {
    NonStrict,
    Strict,
    Overflowing,
}

/// None between equal types, and where no rule takes the one to the other.
pub fn cast_option(from: &Leaf, to: &Leaf) -> Option<CastOption> {
    if from == to {
        return None;
    }
    match (from, to) {
        (Leaf::Plain(0), _) | (Leaf::Plain(17), Leaf::Plain(15)) => Some(CastOption::NonStrict),
        (
            Leaf::Decimal { precision, scale },
            Leaf::Decimal {
                precision: wider,
                scale: same,
            },
        ) => (precision < wider && scale == same).then_some(CastOption::NonStrict),
        _ => number_option(Kind::of(from)?, Kind::of(to)?),
    }
}

fn number_option(from: Kind, to: Kind) -> Option<CastOption> {
    match (from, to) {
        (Kind::Signed(from), Kind::Signed(to)) | (Kind::Unsigned(from), Kind::Unsigned(to)) => {
            (from < to).then_some(CastOption::Overflowing)
        }
        (Kind::Unsigned(from), Kind::Signed(to)) => (from < to).then_some(CastOption::Overflowing),
        (Kind::Signed(_) | Kind::Unsigned(_), Kind::Float(_)) => Some(CastOption::Overflowing),
        (Kind::Float(_), Kind::Float(_)) => Some(CastOption::NonStrict),
        (Kind::Datetime(from), Kind::Datetime(to)) if to < from => Some(CastOption::Strict),
        (Kind::Datetime(_), Kind::Datetime(_)) => Some(CastOption::NonStrict),
        _ => None,
    }
}
