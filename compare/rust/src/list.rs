//! Cases and answers as lines, in the form that the program `cases` replays.

use crate::oracle::Answer;
use plain::case::Case;
use plain::hex::hex;

/// The answer as two words, its number and the rest.
pub fn words(answer: &Answer) -> String {
    match answer {
        Answer::Plan(plan) => format!("0 {}", hex(plan)),
        Answer::Refused { number, place } => format!("{number} {place}"),
    }
}

pub fn line(case: &Case, buffer: usize, answer: &Answer) -> String {
    let Case { policy, .. } = case;
    let (incoming, target) = (hex(&case.incoming), hex(&case.target));
    let answer = words(answer);
    match &case.number {
        None => format!("build_name {policy} {buffer} {incoming} {target} {answer}"),
        Some(number) => {
            let (index, owner) = (number.source_index, number.owner);
            let defaults = hex(&number.defaults);
            format!(
                "build_number {policy} {index} {owner} {buffer} {incoming} {target} {defaults} {answer}"
            )
        }
    }
}
