//! The stored list of cases (crates/cases/stdin) on plain's calls; plans that were built are checked, and run beside
//! the record due.

use plain::call;
use plain::due::{Pairing, due};
use plain::form;
use plain::generate::records;
use plain::random::Random;
use plain::replay::{Answer, Case};
use plain::value::read_record;
use std::fs;

fn list() -> String {
    let path = concat!(env!("CARGO_MANIFEST_DIR"), "/../../crates/cases/stdin");
    fs::read_to_string(path).unwrap()
}

/// How many cases there are of a call; each is passed on, with the answer due.
fn each(call: &str, mut one: impl FnMut(&Case, Answer)) -> usize {
    let text = list();
    let cases = text.lines().filter_map(|line| Case::read(line).unwrap());
    let cases = cases.filter(|(case, _)| case.call() == call);
    cases.map(|(case, due)| one(&case, due)).count()
}

/// How many there are, each with its answer.
fn agreeing(call: &str) -> usize {
    each(call, |case, due| {
        assert_eq!(case.answer(), due, "{case:?}");
    })
}

#[test]
fn layouts() {
    assert_eq!(agreeing("layout"), 2_448);
}

#[test]
fn checks() {
    assert_eq!(agreeing("check"), 580);
}

#[test]
fn runs() {
    assert_eq!(agreeing("run"), 554);
}

#[test]
fn builds() {
    let counts = (agreeing("build_name"), agreeing("build_number"));
    assert_eq!(counts, (867, 1_388));
}

/// A build's plan passes the check, and its run over records that fit gives what is due.
fn built(random: &mut Random, case: &Case, plan: &[u8]) {
    let (Case::BuildByName { layouts, .. } | Case::BuildByNumber { layouts, .. }) = case else {
        return;
    };
    let [incoming, target] = layouts;
    assert_eq!(call::check_plan(incoming, target, plan), Ok(()), "{case:?}");

    let (from, to) = (
        form::read_layout(incoming).unwrap(),
        form::read_layout(target).unwrap(),
    );
    let table = match case {
        Case::BuildByNumber {
            source_index,
            owner,
            defaults,
            ..
        } => Some((
            form::read_defaults(defaults, *owner).unwrap(),
            *source_index,
        )),
        _ => None,
    };
    let pairing = match &table {
        Some((entries, source_index)) => Pairing::ByNumber(entries, *source_index),
        None => Pairing::ByName,
    };
    for _ in 0..8 {
        let record = records::record(random, &from.columns);
        let Ok(values) = read_record(&from.columns, &record) else {
            continue;
        };
        let space = if random.percent(20) { 16 } else { 20_000 };
        let given = call::run(incoming, target, plan, &record, space);
        let given = given.map_err(|refusal| refusal.number);
        assert_eq!(given, due(pairing, &from, &to, &values, space), "{case:?}");
    }
}

#[test]
fn built_plans() {
    let mut random = Random::new(3);
    for call in ["build_name", "build_number"] {
        each(call, |case, answer| {
            if let Ok(plan) = answer {
                built(&mut random, case, &plan);
            }
        });
    }
}
