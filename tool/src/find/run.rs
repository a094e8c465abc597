//! The column and field with which a run begins to be refused.

use super::first_refused;
use crate::follow::{Way, made};
use crate::form::{Column, Layout, Plan, Selector};
use crate::write::{layout_bytes, plan_bytes};
use column_selector::{Incoming, Record, Refusal, Target};

/// A run that is refused.
#[derive(Clone, Copy)]
pub struct Run<'a> {
    pub refusal: Refusal,
    pub incoming: &'a [u8],
    pub record: &'a [u8],
}

impl Run<'_> {
    /// Whether a run of other selectors, over the same record, is refused as this one.
    fn refused(&self, selectors: Vec<Selector>, target: &Layout) -> Option<bool> {
        let version = 1;
        let target = layout_bytes(target).ok()?;
        let plan = plan_bytes(&Plan { version, selectors }).ok()?;
        let incoming = Incoming(column_selector::Layout::new(self.incoming));
        let target = Target(column_selector::Layout::new(&target));
        let plan = column_selector::Plan::new(&plan);
        let run = plan.run(incoming, target, Record::new(self.record));
        Some(run.is_err_and(|found| found.reason == self.refusal.reason))
    }

    /// The first target column up to which, that column included, the run is refused as the whole run is.
    pub fn column(&self, plan: &Plan, target: &Layout) -> Option<usize> {
        let refused = |count: usize| {
            let columns = target.columns.get(..count)?.to_vec();
            let selectors = plan.selectors.get(..count)?.to_vec();
            self.refused(selectors, &Layout { columns, ..*target })
        };
        first_refused(target.columns.len(), refused)
    }

    /// The way on from a column to the field inside it that is refused by itself, as far as there is one.
    pub fn field(&self, selector: &Selector, incoming: &[Column]) -> Way {
        let mut way = Way::new();
        let alone = |selector: Selector| {
            let made = made(&selector, incoming)?;
            let (version, columns) = (1, vec![made]);
            self.refused(vec![selector], &Layout { version, columns })
        };
        narrow(selector, &|selector| selector, &alone, &mut way);
        way
    }
}

/// Goes on inside a selector: a mapping keeps one of its members, in what stands around it.
fn narrow(
    selector: &Selector,
    around: &dyn Fn(Selector) -> Selector,
    refused: &dyn Fn(Selector) -> Option<bool>,
    way: &mut Way,
) {
    let Some(input) = selector.input().cloned().map(Box::new) else {
        return;
    };
    let with = |member: Selector| {
        let (input, member) = (input.clone(), Box::new(member));
        around(match selector {
            Selector::Struct(..) => Selector::Struct(input, vec![*member]),
            Selector::List(..) => Selector::List(input, member),
            Selector::Array(..) => Selector::Array(input, member),
            Selector::Rename(_, name) => Selector::Rename(member, name.clone()),
            _ => *member,
        })
    };
    if let Selector::Rename(..) = selector {
        return narrow(&input, &with, refused, way);
    }
    let mut members = selector.members().iter().enumerate();
    let found = members.find(|(_, member)| refused(with((*member).clone())) == Some(true));
    if let Some((index, member)) = found {
        way.push(index);
        narrow(member, &with, refused, way);
    }
}
