//! The stored list: cases at the edges and a varied selection of short generated ones, with the original's answers.

use crate::decimals;
use crate::edges;
use crate::leaves;
use crate::list;
use crate::oracle::{self, Answer};
use plain::case::Case;
use plain::form::{self, Type};
use plain::generate;
use plain::random::Random;
use std::collections::BTreeMap;

const GENERATED: usize = 400_000;
const LINE_LIMIT: usize = 400;
/// How many lines each call gives: accepted ones, and ones refused with each number.
const ACCEPTED: usize = 120;
const REFUSED: usize = 10;

/// The lines that share a call and a number: the shortest of each kind.
type Group = BTreeMap<String, String>;

pub fn lines(seed: u64) -> Vec<String> {
    let mut random = Random::new(seed);
    let mut groups: BTreeMap<(bool, u32), Group> = BTreeMap::new();
    for case in leaves::cases(leaves::single_flags()) {
        candidate(&mut groups, &mut random, &case);
    }
    for _ in 0..GENERATED {
        let case = decimals::flag_off(generate::case(&mut random));
        candidate(&mut groups, &mut random, &case);
    }
    let selected = groups
        .into_iter()
        .flat_map(|((_, number), group)| select(group, number));
    edge_lines().into_iter().chain(selected).collect()
}

/// All cases at the edges, in their order.
fn edge_lines() -> Vec<String> {
    let line = |case: Case| {
        let answer = oracle::answer(&case).expect("an edge within the comparison");
        let buffer = match &answer {
            Answer::Plan(plan) => plan.len(),
            Answer::Refused { .. } => 0,
        };
        list::line(&case, buffer, &answer)
    };
    edges::cases().into_iter().map(line).collect()
}

fn candidate(groups: &mut BTreeMap<(bool, u32), Group>, random: &mut Random, case: &Case) {
    let Ok(answer) = oracle::answer(case) else {
        return;
    };
    let (number, kind, buffer) = match &answer {
        Answer::Plan(plan) => {
            let room = random.below(2) * random.below(20);
            (0, shape(plan), plan.len() + room as usize)
        }
        Answer::Refused { number, place } => {
            let buffer = random.below(2) * 100;
            (
                *number,
                format!("{place} {:?}", case.target),
                buffer as usize,
            )
        }
    };
    let line = list::line(case, buffer, &answer);
    if line.len() > LINE_LIMIT {
        return;
    }
    let group = groups.entry((case.number.is_some(), number)).or_default();
    let kept = group.entry(kind).or_insert_with(|| line.clone());
    if line.len() < kept.len() {
        *kept = line;
    }
}

/// Lines at equal steps through the shorter half, by length.
fn select(group: Group, number: u32) -> Vec<String> {
    let count = if number == 0 { ACCEPTED } else { REFUSED };
    let mut lines: Vec<String> = group.into_values().collect();
    lines.sort_by_key(|line| line.len());
    let half = lines.len().div_ceil(2).max(count.min(lines.len()));
    let count = count.min(half);
    (0..count)
        .map(|i| lines[i * half / count].clone())
        .collect()
}

/// A plan without positions, names and the inside of types.
fn shape(plan: &[u8]) -> String {
    let mut shape = String::new();
    selectors(&plan[5..], &mut shape);
    shape
}

fn selectors<'a>(bytes: &'a [u8], shape: &mut String) -> &'a [u8] {
    let count = u16::from_le_bytes([bytes[0], bytes[1]]);
    (0..count).fold(&bytes[2..], |rest, _| selector(rest, shape))
}

/// Goes past one selector.
fn selector<'a>(bytes: &'a [u8], shape: &mut String) -> &'a [u8] {
    let (code, rest) = (bytes[0], &bytes[1..]);
    shape.push_str(&format!("{code}("));
    let rest = match code {
        0 => &rest[2..],
        // Within the comparison a constant is null, a byte.
        1 => &type_code(text(rest), shape)[1..],
        _ => {
            let rest = selector(rest, shape);
            match code {
                2 => {
                    let rest = type_code(rest, shape);
                    shape.push_str(&format!("option {}", rest[0]));
                    &rest[1..]
                }
                3 => text(rest),
                4 => selectors(rest, shape),
                _ => selector(rest, shape),
            }
        }
    };
    shape.push(')');
    rest
}

fn text(bytes: &[u8]) -> &[u8] {
    &bytes[1 + bytes[0] as usize..]
}

fn type_code<'a>(bytes: &'a [u8], shape: &mut String) -> &'a [u8] {
    let (type_, rest) = form::read_type(bytes).expect("a type of a plan");
    let kind = match type_ {
        Type::Leaf(leaf) => format!("{leaf:?}"),
        Type::Struct(_) | Type::List(_) | Type::Array(..) => format!("nested {}", bytes[0]),
    };
    shape.push_str(&kind);
    rest
}
