//! Where a refusal comes from, beyond its place: found by more calls of the library, over parts of the same input.

mod build;
mod check;
mod marks;
mod run;
mod selector;

pub use build::{Build, Spot};
pub use check::difference;
pub use marks::optional_place;
pub use run::Run;
pub use selector::refused_selector;

/// Of the parts of an input, each one longer, the first that is refused, counted from 0. None where the whole of
/// `count` parts is not.
fn first_refused(count: usize, refused: impl Fn(usize) -> Option<bool>) -> Option<usize> {
    let (mut passes, mut refuses) = (0, count);
    if !refused(refuses)? {
        return None;
    }
    while refuses - passes > 1 {
        let middle = (passes + refuses) / 2;
        match refused(middle)? {
            true => refuses = middle,
            false => passes = middle,
        }
    }
    refuses.checked_sub(1)
}
