//! The original beside stored answers of a second implementation, one JSON object a line.

use crate::json::{self, Json};
use crate::list;
use crate::oracle::{self, Answer, Aside};
use plain::case::{Case, Number};
use plain::form::PLAN_LIMIT;
use plain::hex::from_hex;
use plain::policy::EXTRA_COLUMNS;
use std::collections::BTreeMap;

#[derive(Default)]
pub struct Outcome {
    pub agreed: BTreeMap<String, u64>,
    pub aside: BTreeMap<String, u64>,
    /// The lines that differ, with the original's answer.
    pub differed: Vec<String>,
}

/// The files whose policy words have no bit for extra top columns.
const BEFORE_EXTRA_COLUMNS: [&str; 3] = ["base.jsonl", "L01.jsonl", "L02.jsonl"];

/// Runs the builds of a file's text; other lines are passed over.
pub fn run(path: &str, text: &str) -> Outcome {
    let name = path.rsplit('/').next().unwrap_or(path);
    let on = match BEFORE_EXTRA_COLUMNS.contains(&name) {
        true => EXTRA_COLUMNS,
        false => 0,
    };
    let mut outcome = Outcome::default();
    for line in text.lines() {
        let json = json::read(line).unwrap_or_else(|| panic!("not a vector: {line}"));
        if !json.text("op").is_some_and(|op| op.starts_with("build_")) {
            continue;
        }
        let (mut case, buffer, stored) =
            vector(&json).unwrap_or_else(|| panic!("not a build: {line}"));
        case.policy |= on;
        one(&mut outcome, &case, buffer, &stored);
    }
    outcome
}

fn vector(json: &Json) -> Option<(Case, usize, Answer)> {
    let (arguments, out) = (json.get("in")?, json.get("out")?);
    let bytes = |key: &str| from_hex(arguments.text(key)?);
    let number = match json.text("op")? {
        "build_name" => None,
        _ => Some(Number {
            source_index: arguments.number("source_index")? as u32,
            owner: arguments.number("owner").unwrap_or(0) as u16,
            defaults: bytes("defaults")?,
        }),
    };
    let case = Case {
        policy: arguments.number("policy")? as u32,
        incoming: bytes("incoming")?,
        target: bytes("target")?,
        number,
    };
    let answer = match out.text("ok") {
        Some(plan) => Answer::Plan(from_hex(plan)?),
        None => Answer::Refused {
            number: out.number("refuse")? as u32,
            place: out.number("place")? as u32,
        },
    };
    Some((case, arguments.number("buffer")? as usize, answer))
}

fn one(outcome: &mut Outcome, case: &Case, buffer: usize, stored: &Answer) {
    let call = match case.number {
        None => "by name",
        Some(_) => "by number",
    };
    let answer = match oracle::answer(case) {
        Ok(Answer::Plan(plan)) if plan.len() > buffer.min(PLAN_LIMIT) => Err(Aside::Space),
        answer => answer,
    };
    match answer {
        Ok(answer) if answer == *stored => {
            let kind = match answer {
                Answer::Plan(_) => "accepted".to_owned(),
                Answer::Refused { number, .. } => number.to_string(),
            };
            *outcome.agreed.entry(format!("{call}: {kind}")).or_default() += 1;
        }
        Ok(answer) => {
            let line = list::line(case, buffer, stored);
            let answer = list::words(&answer);
            outcome
                .differed
                .push(format!("{line}\n  the original: {answer}"));
        }
        Err(aside) => {
            let agrees = match (aside, stored) {
                (Aside::Unreadable { number, place }, stored) => {
                    *stored == Answer::Refused { number, place }
                }
                (Aside::Version, Answer::Refused { number, .. }) => *number == 10,
                (Aside::Space, Answer::Refused { number, .. }) => *number == 27,
                (Aside::Version | Aside::Space, Answer::Plan(_)) => false,
                (
                    Aside::Text
                    | Aside::Required
                    | Aside::MissingTop
                    | Aside::StructDefault
                    | Aside::Widening
                    | Aside::ExtraColumns,
                    _,
                ) => true,
            };
            let reason = match aside {
                Aside::Unreadable { .. } => "a layout or the table can't be read".to_owned(),
                aside => format!("{aside:?}"),
            };
            let note = if agrees {
                ""
            } else {
                ", and the stored answer says otherwise"
            };
            *outcome
                .aside
                .entry(format!("{call}: {reason}{note}"))
                .or_default() += 1;
        }
    }
}
