//! The calls over any bytes: every test in the order of documents 01 and 02.

use crate::build;
use crate::check::check;
use crate::form::{Fault, Layout, read_defaults, read_layout as layout};
use crate::run::run as run_checked;
use crate::selector::{Selector, read_plan};
use crate::value::read_record;

#[derive(Clone, Copy, Debug, PartialEq, Eq)]
pub struct Refusal {
    pub number: u32,
    pub place: u32,
}

impl Refusal {
    /// One whose place is 0 whatever it is about.
    pub fn of(number: u32) -> Refusal {
        Refusal { number, place: 0 }
    }

    /// Of the layout or table at that place, which 50 does not tell.
    pub fn of_input(place: u32) -> impl Fn(Fault) -> Refusal {
        move |number| Refusal {
            number,
            place: if number == 50 { 0 } else { place },
        }
    }
}

pub fn read_layout(bytes: &[u8]) -> Result<(), Refusal> {
    layout(bytes).map(drop).map_err(Refusal::of_input(1))
}

/// The number of a refusal, and the place of a column or selector.
fn at_column((number, place): (Fault, usize)) -> Refusal {
    Refusal {
        number,
        place: place as u32,
    }
}

/// The layouts of a build, which takes these versions.
fn both_layouts(
    incoming: &[u8],
    target: &[u8],
    takes: impl Fn(u8) -> bool,
) -> Result<(Layout, Layout), Refusal> {
    let incoming = layout(incoming).map_err(Refusal::of_input(1))?;
    let target = layout(target).map_err(Refusal::of_input(2))?;
    if takes(incoming.version) && takes(target.version) {
        Ok((incoming, target))
    } else {
        Err(Refusal::of(10))
    }
}

/// The plan, for a buffer of `space` bytes.
pub fn build_by_name(
    policy: u32,
    incoming: &[u8],
    target: &[u8],
    space: usize,
) -> Result<Vec<u8>, Refusal> {
    let (incoming, target) = both_layouts(incoming, target, |version| version == 1)?;
    build::by_name(policy, (&incoming, &target), space).map_err(at_column)
}

/// The same, with source index, owner and table of defaults.
pub fn build_by_number(
    policy: u32,
    (source_index, owner, defaults): (u32, u16, &[u8]),
    incoming: &[u8],
    target: &[u8],
    space: usize,
) -> Result<Vec<u8>, Refusal> {
    let (incoming, target) = both_layouts(incoming, target, |version| version > 1)?;
    let entries = read_defaults(defaults, owner).map_err(Refusal::of_input(3))?;
    let layouts = (&incoming, &target);
    build::by_number(policy, source_index, layouts, &entries, space).map_err(at_column)
}

/// The layouts and the plan of a check or a run, read.
pub struct Read<'a> {
    incoming: Layout,
    target: Layout,
    plan: Vec<Selector<'a>>,
}

impl<'a> Read<'a> {
    pub fn new(incoming: &[u8], target: &[u8], plan: &'a [u8]) -> Result<Read<'a>, Refusal> {
        Ok(Read {
            incoming: layout(incoming).map_err(Refusal::of_input(1))?,
            target: layout(target).map_err(Refusal::of_input(2))?,
            plan: read_plan(plan).map_err(Refusal::of)?,
        })
    }

    pub fn check(&self) -> Result<(), Refusal> {
        check(&self.incoming, &self.target, &self.plan).map_err(at_column)
    }

    /// The output of a plan that passed the check.
    pub fn run(&self, record: &[u8], space: usize) -> Result<Vec<u8>, Refusal> {
        let record = read_record(&self.incoming.columns, record).map_err(Refusal::of)?;
        run_checked(&self.plan, &record, space).map_err(Refusal::of)
    }
}

pub fn check_plan(incoming: &[u8], target: &[u8], plan: &[u8]) -> Result<(), Refusal> {
    Read::new(incoming, target, plan)?.check()
}

/// The output, for a buffer of `space` bytes.
pub fn run(
    incoming: &[u8],
    target: &[u8],
    plan: &[u8],
    record: &[u8],
    space: usize,
) -> Result<Vec<u8>, Refusal> {
    let read = Read::new(incoming, target, plan)?;
    read.check()?;
    read.run(record, space)
}
