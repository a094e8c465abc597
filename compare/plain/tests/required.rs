//! Required fields at random, on plain Rust alone: what a plan that passes the check writes fits its target, marks
//! included, and plans that are built pass it.

use plain::call;
use plain::case::Case;
use plain::check;
use plain::form::{self, Column, Layout, RECORD_LIMIT};
use plain::generate::{self, marks, plans, records};
use plain::nullness;
use plain::random::Random;
use plain::selector::read_plan;
use plain::value::read_record;
use std::collections::BTreeMap;

const ROUNDS: u32 = 40_000;

/// How often each number was answered, 0 for accepted.
#[derive(Default, Debug)]
struct Met(BTreeMap<u32, u32>);

impl Met {
    fn add<T>(&mut self, answer: &Result<T, call::Refusal>) {
        let number = answer.as_ref().err().map_or(0, |refusal| refusal.number);
        *self.0.entry(number).or_default() += 1;
    }

    fn at_least(&self, number: u32, count: u32) {
        let met = self.0.get(&number).copied().unwrap_or(0);
        assert!(met >= count, "{number} was met {met} times: {self:?}");
    }
}

/// Runs a plan over a record that fits, mostly: what it writes fits the target.
fn ran(random: &mut Random, layouts: (&[u8], &[u8]), plan: &[u8], met: &mut Met) {
    let (incoming, target) = layouts;
    let columns = form::read_layout(incoming).unwrap().columns;
    let record = match random.percent(15) {
        true => records::lacking_record(random, &columns),
        false => records::record(random, &columns),
    };
    let answer = call::run(incoming, target, plan, &record, RECORD_LIMIT);
    met.add(&answer);
    if let Ok(output) = answer {
        let target = form::read_layout(target).unwrap().columns;
        let fits = read_record(&target, &output);
        assert!(
            fits.is_ok(),
            "{incoming:x?} {target:x?} {plan:x?} {record:x?}"
        );
    }
}

#[test]
fn plans_that_pass() {
    let (mut random, mut met) = (Random::new(5), Met::default());
    for _ in 0..ROUNDS {
        let incoming = generate::marked_case(&mut random).incoming;
        let from: Vec<Column> = form::read_layout(&incoming).unwrap().columns;
        let (plan, mut columns) = plans::plan(&mut random, &from);
        let Ok(read) = read_plan(&plan) else {
            continue;
        };
        if check::columns(&from, &read).is_ok() && random.percent(80) {
            nullness::mark(&from, &read, &mut columns);
        }
        marks::target(&mut random, &mut columns);
        let version = 3;
        let target = form::write_layout(&Layout { version, columns });
        ran(&mut random, (&incoming, &target), &plan, &mut met);
    }
    for number in [0, 55, 56] {
        met.at_least(number, ROUNDS / 100);
    }
}

#[test]
fn built_plans_pass() {
    let (mut random, mut met) = (Random::new(6), Met::default());
    for _ in 0..ROUNDS {
        let Case {
            policy,
            incoming,
            target,
            number: Some(number),
        } = generate::marked_case(&mut random)
        else {
            continue;
        };
        let table = (
            number.source_index,
            number.owner,
            number.defaults.as_slice(),
        );
        let answer = call::build_by_number(policy, table, &incoming, &target, usize::MAX);
        met.add(&answer);
        if let Ok(plan) = answer {
            let passed = call::check_plan(&incoming, &target, &plan);
            assert_eq!(passed, Ok(()), "{incoming:x?} {target:x?} {plan:x?}");
            ran(&mut random, (&incoming, &target), &plan, &mut met);
        }
    }
    for number in [0, 54, 55, 56] {
        met.at_least(number, ROUNDS / 1000);
    }
}
