//! Trials at random: related layouts, plans that fit, records that fit, and all of these damaged.

use crate::guard::SPACE;
use crate::judge::{Call, Trial};
use column_selector::call as library;
use plain::call as plain_call;
use plain::case::{Case, Number};
use plain::check;
use plain::form::{self, Column, Layout, PLAN_LIMIT, RECORD_LIMIT, Type};
use plain::generate::damage::{damage, marked};
use plain::generate::{self, marks, plans, records};
use plain::nullness;
use plain::policy;
use plain::random::Random;
use plain::selector::read_plan;

pub fn trial(random: &mut Random) -> Trial {
    let mut trial = match random.below(20) {
        0 | 1 => layout(random),
        2..9 => build(random),
        9..11 => built(random),
        11 => noise(random),
        _ => planned(random),
    };
    if random.percent(30) {
        for _ in 0..=random.below(3) {
            damage_one(random, &mut trial);
        }
    }
    for input in trial.inputs_mut() {
        input.truncate(SPACE);
    }
    trial
}

fn damage_one(random: &mut Random, trial: &mut Trial) {
    let inputs = trial.inputs_mut();
    let mut lent: Vec<&mut Vec<u8>> = inputs
        .into_iter()
        .filter(|input| !input.is_empty())
        .collect();
    if !lent.is_empty() {
        let at = random.below(lent.len() as u64) as usize;
        damage(random, lent[at]);
    }
}

/// Layouts of version 3 have required marks in most.
fn case(random: &mut Random) -> Case {
    match random.percent(60) {
        true => generate::marked_case(random),
        false => generate::case(random),
    }
}

/// A layout alone.
fn layout(random: &mut Random) -> Trial {
    let case = case(random);
    let mut incoming = case.incoming;
    if random.percent(50) {
        damage(random, &mut incoming);
    }
    Trial {
        incoming,
        ..Trial::new(Call::ReadLayout)
    }
}

/// Columns go at random, at every level.
fn thin(random: &mut Random, columns: &mut Vec<Column>) {
    columns.retain(|_| !random.percent(25));
    for column in columns {
        thin_inside(random, &mut column.type_);
    }
}

fn thin_inside(random: &mut Random, type_: &mut Type) {
    match type_ {
        Type::Leaf(_) => (),
        Type::Struct(columns) => thin(random, columns),
        Type::List(element) | Type::Array(_, element) => thin_inside(random, &mut element.type_),
    }
}

fn space(random: &mut Random) -> usize {
    match random.below(20) {
        0 => 66_000,
        1..4 => random.below(64) as usize,
        _ => 4_096,
    }
}

/// Mostly one that fits.
fn record(random: &mut Random, columns: &[Column]) -> Vec<u8> {
    match random.below(20) {
        0 => records::exceeding_record(random, columns),
        1 => records::lacking_record(random, columns),
        _ => records::record(random, columns),
    }
}

/// A build of related layouts, with a record for its plan.
fn build(random: &mut Random) -> Trial {
    let Case {
        policy,
        mut incoming,
        mut target,
        number,
    } = case(random);
    let call = match number {
        None => Call::BuildByName,
        Some(_) => Call::BuildByNumber,
    };
    let number = number.unwrap_or(Number {
        source_index: 0,
        owner: 0,
        defaults: Vec::new(),
    });
    let mut layout = form::read_layout(&incoming).unwrap();
    if random.percent(25) {
        thin(random, &mut layout.columns);
        incoming = form::write_layout(&layout);
    }
    if random.percent(2) {
        let other = if random.percent(50) {
            &mut incoming
        } else {
            &mut target
        };
        *other = case(random).target;
    }
    // The generator ignores extra top columns, as the original does.
    let raise = if random.percent(20) {
        policy::EXTRA_COLUMNS
    } else {
        0
    };
    Trial {
        policy: policy & !raise,
        source_index: number.source_index,
        owner: number.owner,
        space: space(random),
        incoming,
        target,
        defaults: number.defaults,
        record: record(random, &layout.columns),
        ..Trial::new(call)
    }
}

/// A check or run of a plan that the library built.
fn built(random: &mut Random) -> Trial {
    let mut trial = build(random);
    trial.policy = policy::ALL;
    let mut plan = vec![0; PLAN_LIMIT];
    let Trial {
        policy,
        source_index,
        owner,
        incoming,
        target,
        defaults,
        ..
    } = &trial;
    let length = match trial.call {
        Call::BuildByName => library::build_by_name(*policy, incoming, target, &mut plan),
        _ => library::build_by_number(
            *policy,
            *source_index,
            *owner,
            incoming,
            target,
            defaults,
            &mut plan,
        ),
    };
    plan.truncate(length.unwrap_or(0));
    trial.defaults.clear();
    trial.plan = plan;
    check_or_run(random, trial)
}

/// A check or run of a plan made for an incoming layout.
fn planned(random: &mut Random) -> Trial {
    let case = case(random);
    let incoming = form::read_layout(&case.incoming).unwrap();
    let (plan, mut columns) = plans::plan(random, &incoming.columns);
    let version = 1 + random.below(3) as u8;
    if version == 3 {
        mark(random, &incoming.columns, &plan, &mut columns);
    }
    if random.percent(4) {
        thin(random, &mut columns);
    }
    let trial = Trial {
        record: record(random, &incoming.columns),
        incoming: case.incoming,
        target: form::write_layout(&Layout { version, columns }),
        plan,
        ..Trial::new(Call::Run)
    };
    check_or_run(random, trial)
}

/// The marks of a plan's target: mostly some of those that the plan admits, with few others.
fn mark(random: &mut Random, incoming: &[Column], plan: &[u8], target: &mut [Column]) {
    if random.percent(80)
        && let Ok(plan) = read_plan(plan)
        && check::columns(incoming, &plan).is_ok()
    {
        nullness::mark(incoming, &plan, target);
    }
    marks::target(random, target);
}

/// A run's buffer is often just long enough, or a byte too short.
fn check_or_run(random: &mut Random, mut trial: Trial) -> Trial {
    if random.percent(30) {
        trial.record.clear();
        trial.call = Call::CheckPlan;
        return trial;
    }
    trial.call = Call::Run;
    trial.space = space(random);
    if random.percent(40) {
        let Trial {
            incoming,
            target,
            plan,
            record,
            ..
        } = &trial;
        if let Ok(output) = plain_call::run(incoming, target, plan, record, RECORD_LIMIT) {
            trial.space = output.len().saturating_sub(random.below(2) as usize);
        }
    }
    trial
}

/// Any bytes after a mark.
fn noise(random: &mut Random) -> Trial {
    Trial {
        policy: random.next() as u32,
        source_index: random.below(3) as u32,
        owner: random.below(3) as u16,
        space: random.below(300) as usize,
        incoming: marked(random, b"LAY"),
        target: marked(random, b"LAY"),
        defaults: marked(random, b"DEF"),
        plan: marked(random, b"PLN"),
        record: marked(random, b"\0\0\0"),
        ..Trial::new(random.pick(&Call::ALL))
    }
}
