//! Trials made by hand, with what is due.

mod builds;
mod collisions;
mod decimals;
mod large;
mod limits;
mod transforms;
mod values;

use crate::judge::{Answer, Call, Difference, Trial, number};
use plain::check;
use plain::form::{self, Column, Layout, RECORD_LIMIT, Type};
use plain::generate::{plans, records};
use plain::random::Random;
use plain::selector::read_plan;
use plain::write::plan;
use values::structure;

/// What is known of an answer beforehand.
#[derive(Debug)]
pub enum Due {
    /// The number, 0 where the call is accepted.
    Number(u32),
    Output(Vec<u8>),
    /// The plan passes the check, the record fits.
    Run,
}

impl Due {
    pub fn met(&self, answer: &Answer) -> Result<(), Difference> {
        let number = number(answer);
        let met = match self {
            Due::Number(due) => number == *due,
            Due::Output(output) => answer.as_ref() == Ok(output),
            Due::Run => matches!(number, 0 | 44 | 45),
        };
        match met {
            true => Ok(()),
            false => Err(format!("{answer:?} given, {self:?} due")),
        }
    }
}

/// The trials with what is due, and random numbers for records.
struct Trials<'r> {
    random: &'r mut Random,
    made: Vec<(Trial, Due)>,
}

fn layout(version: u8, columns: Vec<Column>) -> Vec<u8> {
    form::write_layout(&Layout { version, columns })
}

/// A layout of the columns, of version 2 where names repeat; none where it would be too long.
fn target_layout(mut columns: Vec<Column>) -> Option<Vec<u8>> {
    plans::count_ids(&mut columns);
    let layouts = [1, 2].map(|version| layout(version, columns.clone()));
    layouts
        .into_iter()
        .find(|bytes| form::read_layout(bytes).is_ok())
}

/// One column of each type, named in order.
fn columns(types: &[Type]) -> Vec<Column> {
    match structure(types) {
        Type::Struct(columns) => columns,
        _ => unreachable!(),
    }
}

/// A plan of the selectors, to the layout that it leads to; where it leads to none, to the incoming one.
fn planned(types: &[Type], selectors: &[Vec<u8>]) -> Trial {
    let incoming = Layout {
        version: 1,
        columns: columns(types),
    };
    let plan = plan(selectors);
    let read = read_plan(&plan).ok();
    let target = read.and_then(|read| check::columns(&incoming.columns, &read).ok());
    let incoming = layout(1, incoming.columns);
    Trial {
        space: RECORD_LIMIT + 100,
        target: target.and_then(target_layout).unwrap_or(incoming.clone()),
        incoming,
        plan,
        ..Trial::new(Call::Run)
    }
}

impl<'r> Trials<'r> {
    fn add(&mut self, trial: Trial, number: u32) {
        self.made.push((trial, Due::Number(number)));
    }

    /// A plan over columns of these types, to be run.
    fn plan(&mut self, types: &[Type], selectors: &[Vec<u8>]) -> Planned<'_, 'r> {
        Planned {
            trial: planned(types, selectors),
            columns: columns(types),
            trials: self,
        }
    }

    /// A plan of one selector over one column.
    fn one(&mut self, type_: Type, selector: Vec<u8>) -> Planned<'_, 'r> {
        self.plan(&[type_], &[selector])
    }
}

/// A plan with its layouts.
struct Planned<'t, 'r> {
    trial: Trial,
    columns: Vec<Column>,
    trials: &'t mut Trials<'r>,
}

impl Planned<'_, '_> {
    fn with(&self, record: &[u8]) -> Trial {
        Trial {
            record: record.to_vec(),
            ..self.trial.clone()
        }
    }

    /// The check before a run that gives that number.
    fn check(&mut self, number: u32) {
        let check = Trial {
            call: Call::CheckPlan,
            space: 0,
            ..self.trial.clone()
        };
        self.trials.add(check, if number < 40 { number } else { 0 });
    }

    fn run(&mut self, record: &[u8], number: u32) -> &mut Self {
        self.check(number);
        let trial = self.with(record);
        // 44 comes before 45, whatever the space.
        if number == 44 || number == 45 {
            let none = Trial {
                space: 0,
                ..trial.clone()
            };
            self.trials.add(none, number);
        }
        self.trials.add(trial, number);
        self
    }

    /// A run that is accepted, with its output.
    fn gives(&mut self, record: &[u8], output: &[u8]) -> &mut Self {
        let due = Due::Output(output.to_vec());
        self.trials.made.push((self.with(record), due));
        self
    }

    /// Runs over records that fit.
    fn random(&mut self) {
        for _ in 0..8 {
            let record = records::record(self.trials.random, &self.columns);
            self.trials.made.push((self.with(&record), Due::Run));
        }
    }
}

/// All of them.
pub fn trials(random: &mut Random) -> Vec<(Trial, Due)> {
    let made = Vec::new();
    let mut trials = Trials { random, made };
    trials.many_elements();
    trials.last_element();
    trials.doubling();
    trials.turned();
    trials.number_casts();
    trials.null_casts();
    trials.time_casts();
    trials.constants();
    trials.field_overflows();
    trials.element_overflows();
    trials.nesting();
    trials.depths();
    trials.lengths();
    trials.unfit();
    trials.records();
    trials.limits();
    trials.layouts();
    trials.collisions();
    trials.long_plans();
    trials.decimal_limits();
    trials.decimal_layouts();
    trials.decimal_values();
    trials.decimal_order();
    trials.decimal_casts();
    trials.decimal_others();
    trials.decimal_builds();
    trials.decimal_defaults();
    trials.made
}
