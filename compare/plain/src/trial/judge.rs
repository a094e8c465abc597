//! One trial: a call of the library in guarded memory, and what must hold of its answer.

use crate::guard::{Buffer, Room, Side};
use crate::tally::Tally;
use column_selector::call as library;
use plain::call::{self as plain_call, Refusal};
use plain::due::{Pairing, due};
use plain::form::{self, Entry, Fault, Layout};
use plain::hex::hex;
use plain::value::{Value, read_record};
use std::fmt;

#[derive(Clone, Copy, Debug, PartialEq, Eq)]
pub enum Call {
    ReadLayout,
    BuildByName,
    BuildByNumber,
    CheckPlan,
    Run,
}

impl Call {
    pub const ALL: [Call; 5] = [
        Call::ReadLayout,
        Call::BuildByName,
        Call::BuildByNumber,
        Call::CheckPlan,
        Call::Run,
    ];

    pub fn name(self) -> &'static str {
        match self {
            Call::ReadLayout => "layout",
            Call::BuildByName => "build_name",
            Call::BuildByNumber => "build_number",
            Call::CheckPlan => "check",
            Call::Run => "run",
        }
    }

    /// Whether docs/refusals.txt has that refusal for the call.
    pub fn has(self, number: u32) -> bool {
        match self {
            Call::ReadLayout => matches!(number, 1..=6 | 50),
            Call::BuildByName => matches!(number, 1..=6 | 10..=24 | 27 | 50 | 51 | 53),
            Call::BuildByNumber => matches!(number, 1..=6 | 10 | 11 | 13..=28 | 50 | 51 | 53..=55),
            Call::CheckPlan => matches!(number, 1..=6 | 30..=33 | 50 | 55),
            Call::Run => matches!(number, 1..=6 | 30..=33 | 40..=45 | 50 | 52 | 55 | 56),
        }
    }
}

/// A call's arguments. Those that a call doesn't have are empty; the record of a build is for running its plan.
#[derive(Clone, Debug)]
pub struct Trial {
    pub call: Call,
    pub policy: u32,
    pub source_index: u32,
    pub owner: u16,
    /// The length of the buffer for the result.
    pub space: usize,
    pub incoming: Vec<u8>,
    pub target: Vec<u8>,
    pub defaults: Vec<u8>,
    pub plan: Vec<u8>,
    pub record: Vec<u8>,
}

impl Trial {
    pub fn new(call: Call) -> Trial {
        Trial {
            call,
            policy: 0,
            source_index: 0,
            owner: 0,
            space: 0,
            incoming: Vec::new(),
            target: Vec::new(),
            defaults: Vec::new(),
            plan: Vec::new(),
            record: Vec::new(),
        }
    }

    pub fn inputs_mut(&mut self) -> [&mut Vec<u8>; 5] {
        [
            &mut self.incoming,
            &mut self.target,
            &mut self.defaults,
            &mut self.plan,
            &mut self.record,
        ]
    }

    /// With a buffer of another length.
    fn resized(&self, space: usize) -> Trial {
        Trial {
            space,
            ..self.clone()
        }
    }

    pub fn length(&self) -> usize {
        let inputs = [
            &self.incoming,
            &self.target,
            &self.defaults,
            &self.plan,
            &self.record,
        ];
        inputs.into_iter().map(Vec::len).sum()
    }
}

/// As a line of crates/cases/stdin, without the answer; a build's record stands after it.
impl fmt::Display for Trial {
    fn fmt(&self, f: &mut fmt::Formatter<'_>) -> fmt::Result {
        let Trial {
            policy,
            source_index,
            owner,
            space,
            ..
        } = self;
        let (incoming, target) = (hex(&self.incoming), hex(&self.target));
        let (defaults, plan) = (hex(&self.defaults), hex(&self.plan));
        let record = hex(&self.record);
        write!(f, "{} ", self.call.name())?;
        match self.call {
            Call::ReadLayout => write!(f, "{incoming}"),
            Call::BuildByName => write!(f, "{policy} {space} {incoming} {target}, record {record}"),
            Call::BuildByNumber => write!(
                f,
                "{policy} {source_index} {owner} {space} {incoming} {target} {defaults}, record {record}"
            ),
            Call::CheckPlan => write!(f, "{incoming} {target} {plan}"),
            Call::Run => write!(f, "{space} {incoming} {target} {plan} {record}"),
        }
    }
}

pub type Answer = Result<Vec<u8>, Refusal>;

/// 0 where it is accepted.
pub fn number(answer: &Answer) -> u32 {
    answer.as_ref().err().map_or(0, |refusal| refusal.number)
}

/// What is wrong with an answer.
pub type Difference = String;

fn same(what: &str, given: &Answer, due: &Answer) -> Result<(), Difference> {
    let words = |answer: &Answer| match answer {
        Ok(bytes) => format!("0 {}", hex(bytes)),
        Err(refusal) => format!("{} {}", refusal.number, refusal.place),
    };
    match given == due {
        true => Ok(()),
        false => Err(format!(
            "{what}: the library answers {}, due is {}",
            words(given),
            words(due)
        )),
    }
}

/// The library in guarded memory.
pub struct Judge {
    rooms: [Room; 5],
    buffer: Buffer,
    pub tally: Tally,
}

impl Judge {
    pub fn new() -> Judge {
        Judge {
            rooms: std::array::from_fn(|_| Room::new()),
            buffer: Buffer::new(),
            tally: Tally::default(),
        }
    }

    /// Makes the call, inputs and buffer at that side of their rooms.
    fn library(&mut self, trial: &Trial, side: Side) -> Result<Answer, Difference> {
        let [a, b, c, d, e] = &mut self.rooms;
        let incoming = a.copy(&trial.incoming, side);
        let target = b.copy(&trial.target, side);
        let defaults = c.copy(&trial.defaults, side);
        let plan = d.copy(&trial.plan, side);
        let record = e.copy(&trial.record, side);
        let Trial {
            policy,
            source_index,
            owner,
            ..
        } = *trial;
        let given = self
            .buffer
            .lend(trial.space, side, |out| match trial.call {
                Call::ReadLayout => library::read_layout(incoming),
                Call::BuildByName => library::build_by_name(policy, incoming, target, out),
                Call::BuildByNumber => library::build_by_number(
                    policy,
                    source_index,
                    owner,
                    incoming,
                    target,
                    defaults,
                    out,
                ),
                Call::CheckPlan => library::check_plan(incoming, target, plan),
                Call::Run => library::run(incoming, target, plan, record, out),
            })?;
        let given = given.map_err(|refusal| Refusal {
            number: refusal.number(),
            place: refusal.place,
        });
        let number = number(&given);
        self.tally.add(trial.call, number);
        match number == 0 || trial.call.has(number) {
            true => Ok(given),
            false => Err(format!("{number} is no answer of this call")),
        }
    }

    /// The library's answer, if that is the one due, and a build keeps what it promises.
    pub fn judge(&mut self, trial: &Trial, side: Side) -> Result<Answer, Difference> {
        let nothing = |()| Vec::new();
        let Trial {
            incoming,
            target,
            plan,
            record,
            ..
        } = trial;
        let due = match trial.call {
            Call::ReadLayout => plain_call::read_layout(incoming).map(nothing),
            Call::CheckPlan => plain_call::check_plan(incoming, target, plan).map(nothing),
            Call::Run => plain_call::run(incoming, target, plan, record, trial.space),
            Call::BuildByName | Call::BuildByNumber => {
                let given = self.library(trial, side)?;
                self.judge_build(trial, &given, side)?;
                return Ok(given);
            }
        };
        let given = self.library(trial, side)?;
        same(trial.call.name(), &given, &due)?;
        Ok(given)
    }

    /// Space is the last test: without any, a refusal is the same.
    fn judge_build(&mut self, trial: &Trial, given: &Answer, side: Side) -> Result<(), Difference> {
        same("the plan", given, &plain_build(trial))?;
        let plan = match given {
            Ok(plan) => plan,
            Err(_) => return self.expect("without space", &trial.resized(0), given, side),
        };
        let arguments = Arguments::read(trial).expect("what was built can be read");
        let (exact, short) = (plan.len(), plan.len() - 1);
        let refused = Err(Refusal::of(27));
        self.expect("exact space", &trial.resized(exact), given, side)?;
        self.expect("a byte too short", &trial.resized(short), &refused, side)?;
        let check = Trial {
            call: Call::CheckPlan,
            plan: plan.clone(),
            ..trial.clone()
        };
        let passed = Ok(Vec::new());
        same("a built plan's check", &self.judge(&check, side)?, &passed)?;
        let run = Trial {
            call: Call::Run,
            space: form::RECORD_LIMIT,
            ..check
        };
        self.judge_run(&run, &arguments.due(trial, run.space), side)
    }

    /// The run of a built plan, with the answer due.
    fn judge_run(&mut self, run: &Trial, due: &Answer, side: Side) -> Result<(), Difference> {
        same("a built plan's run", &self.judge(run, side)?, due)?;
        let Ok(output) = due else {
            return Ok(());
        };
        self.expect("exact space", &run.resized(output.len()), due, side)?;
        match output.len().checked_sub(1) {
            None => Ok(()),
            Some(short) => {
                let refused = Err(Refusal::of(45));
                self.expect("a byte too short", &run.resized(short), &refused, side)
            }
        }
    }

    fn expect(
        &mut self,
        what: &str,
        trial: &Trial,
        due: &Answer,
        side: Side,
    ) -> Result<(), Difference> {
        same(what, &self.library(trial, side)?, due)
    }
}

/// The plan that plain Rust builds.
fn plain_build(trial: &Trial) -> Answer {
    let Trial {
        policy,
        source_index,
        owner,
        incoming,
        target,
        defaults,
        space,
        ..
    } = trial;
    match trial.call {
        Call::BuildByNumber => {
            let number = (*source_index, *owner, defaults.as_slice());
            plain_call::build_by_number(*policy, number, incoming, target, *space)
        }
        _ => plain_call::build_by_name(*policy, incoming, target, *space),
    }
}

/// A build's arguments, read.
struct Arguments {
    incoming: Layout,
    target: Layout,
    entries: Vec<Entry>,
}

impl Arguments {
    fn read(trial: &Trial) -> Result<Arguments, Fault> {
        Ok(Arguments {
            incoming: form::read_layout(&trial.incoming)?,
            target: form::read_layout(&trial.target)?,
            entries: match trial.call {
                Call::BuildByNumber => form::read_defaults(&trial.defaults, trial.owner)?,
                _ => Vec::new(),
            },
        })
    }

    /// The record due, for a buffer of that length; where the record doesn't fit, why.
    fn due(&self, trial: &Trial, space: usize) -> Answer {
        let pairing = match trial.call {
            Call::BuildByNumber => Pairing::ByNumber(&self.entries, trial.source_index),
            _ => Pairing::ByName,
        };
        let record = read_record(&self.incoming.columns, &trial.record);
        let due = |record: Vec<Value>| due(pairing, &self.incoming, &self.target, &record, space);
        record.and_then(due).map_err(Refusal::of)
    }
}
