//! Calls that are refused, at the last column.

use super::*;
use std::cell::RefCell;

/// A row of two calls that are refused with the same number and place.
fn refusing<T>(
    name: &str,
    count: usize,
    ours: impl Fn() -> Result<usize, column_selector::Refusal>,
    theirs: impl Fn() -> Result<T, plainly::Refusal>,
) -> Result<(), String> {
    match (ours(), theirs()) {
        (Err(one), Err(other)) if (one.number(), one.place) == (other.number, other.place) => (),
        _ => return Err(differs(name)),
    }
    line(
        name,
        count,
        || {
            black_box(ours()).ok();
        },
        || {
            black_box(theirs()).ok();
        },
    );
    Ok(())
}

/// Columns of date-times in milliseconds that become nanoseconds; the last one's count is too large.
fn clocks(count: usize) -> Option<(Case, Vec<u8>, Vec<u8>)> {
    let layout = |unit: u8| {
        let zone = Vec::new();
        layout_of(1, count, &Leaf::Datetime { unit, zone })
    };
    let case = of_layouts(1, layout(2), layout(0));
    let plan = built_plainly(&case).ok()?;
    let mut record = record(&case.incoming)?;
    *record.last_mut()? = 0x7F;
    Some((case, plan, record))
}

fn run_of(count: usize) -> Result<(), String> {
    let (case, plan, record) = clocks(count).ok_or("refused: no plan")?;
    let (incoming, target) = (&case.incoming, &case.target);
    let cut = &target[..target.len() - 1];
    refusing(
        "refused, 2, reading",
        count,
        || library::read_layout(black_box(cut)),
        || plainly::read_layout(black_box(cut)),
    )?;
    let mut other = target.clone();
    // The last column's type becomes a string.
    other.splice(other.len() - 3.., [15]);
    let buffer = RefCell::new(vec![0; PLAN_LIMIT]);
    refusing(
        "refused, 24, building by name",
        count,
        || library::build_by_name(ALL, incoming, black_box(&other), &mut buffer.borrow_mut()),
        || plainly::build_by_name(ALL, incoming, black_box(&other), PLAN_LIMIT),
    )?;
    refusing(
        "refused, 33, checking",
        count,
        || library::check_plan(incoming, &other, black_box(&plan)),
        || plainly::check_plan(incoming, &other, black_box(&plan)),
    )?;
    let output = RefCell::new(vec![0; RECORD_LIMIT]);
    for (name, record) in [
        ("refused, 40, running", &record[..record.len() - 1]),
        ("refused, 44, running", &record[..]),
    ] {
        refusing(
            name,
            count,
            || {
                library::run(
                    incoming,
                    target,
                    &plan,
                    black_box(record),
                    &mut output.borrow_mut(),
                )
            },
            || plainly::run(incoming, target, &plan, black_box(record), RECORD_LIMIT),
        )?;
    }
    Ok(())
}

pub fn run() -> Result<(), String> {
    println!("Refused at the last column:");
    [SMALL, MIDDLE, WIDE].into_iter().try_for_each(run_of)
}
