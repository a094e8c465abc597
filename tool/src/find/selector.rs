//! The selector inside a top selector that a check refuses.

use crate::follow::inner_scope;
use crate::form::{Column, Layout, Plan, Selector};
use crate::plan_text::described;
use crate::read::Step;
use crate::write::{layout_bytes, plan_bytes};
use column_selector::{Incoming, Refusal, Target};

/// The path to the selector that is refused, and what it is.
pub fn refused_selector(
    refusal: Refusal,
    plan: &Plan,
    incoming: &[Column],
) -> Option<(Vec<Step>, String)> {
    let index = refusal.place as usize;
    let mut path = vec![Step::Selector(index)];
    let what = descend(refusal, plan.selectors.get(index)?, incoming, &mut path);
    Some((path, what))
}

/// The check takes inputs first, then what is inside a mapping whose input is of its kind.
fn descend(
    refusal: Refusal,
    selector: &Selector,
    scope: &[Column],
    path: &mut Vec<Step>,
) -> String {
    if let Some(input) = selector
        .input()
        .filter(|input| refuses(refusal, input, scope))
    {
        path.push(Step::Input);
        return descend(refusal, input, scope, path);
    }
    let inner = inner_scope(selector, scope);
    let mut members = selector.members().iter().enumerate();
    let found = inner.and_then(|inner| {
        let refused = members.find(|(_, member)| refuses(refusal, member, &inner));
        refused.map(|(index, member)| (index, member, inner))
    });
    let Some((index, member, inner)) = found else {
        return described(selector, scope);
    };
    path.push(match selector {
        Selector::Struct(..) => Step::Selector(index),
        _ => Step::Mapped,
    });
    descend(refusal, member, &inner, path)
}

/// Whether a plan of this selector alone is refused so, the columns around it being the incoming ones. Their names have
/// no effect; they are made different, as those of a layout have to be.
fn refuses(refusal: Refusal, selector: &Selector, scope: &[Column]) -> bool {
    let named = |(index, column): (usize, &Column)| Column {
        name: index.to_string().into_bytes(),
        ..column.clone()
    };
    let columns = scope.iter().enumerate().map(named).collect();
    let plan = Plan {
        version: 1,
        selectors: vec![selector.clone()],
    };
    let bytes = (
        layout_bytes(&Layout {
            version: 1,
            columns,
        }),
        plan_bytes(&plan),
    );
    let (Ok(incoming), Ok(plan)) = bytes else {
        return false;
    };
    let incoming = Incoming(column_selector::Layout::new(&incoming));
    let target = Target(column_selector::Layout::new(b"LAY\x01\x00\x00\x00"));
    let checked = column_selector::Plan::new(&plan).check(incoming, target);
    checked.is_err_and(|found| found.reason == refusal.reason)
}
