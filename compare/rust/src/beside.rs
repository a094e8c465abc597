//! A builder beside the original: its answer and its buffer, with guard bytes around it.

use crate::list;
use crate::oracle::Answer;
use plain::case::Case;

/// The two build calls. The answer is number * 2^32 + rest.
pub trait Builder {
    fn build(&mut self, case: &Case, plan: &mut [u8]) -> u64;
}

const GUARD: usize = 64;

/// The cases are numbered, so that buffers of several lengths are lent in turn.
pub fn compare(
    builder: &mut impl Builder,
    index: u64,
    case: &Case,
    answer: &Answer,
) -> Result<(), String> {
    match answer {
        Answer::Plan(plan) => {
            let room = if index.is_multiple_of(2) {
                0
            } else {
                1 + (index % 100) as usize
            };
            call(builder, case, plan.len() + room, answer)?;
            // A buffer that is too short by a byte is the last refusal.
            if index.is_multiple_of(4) {
                let refused = Answer::Refused {
                    number: 27,
                    place: 0,
                };
                call(builder, case, plan.len() - 1, &refused)?;
            }
            Ok(())
        }
        // Space is the last test, so that any length will do.
        Answer::Refused { .. } => {
            let length = [0, 7, 300, 4_096][(index % 4) as usize];
            call(builder, case, length, answer)
        }
    }
}

/// Calls with a buffer of that length. Says what is wrong with the answer or the bytes left behind.
fn call(
    builder: &mut impl Builder,
    case: &Case,
    length: usize,
    answer: &Answer,
) -> Result<(), String> {
    let fill = |index: usize| (index as u8).wrapping_mul(167) ^ 0x5A;
    let entry: Vec<u8> = (0..GUARD + length + GUARD).map(fill).collect();
    let mut expected = entry.clone();
    let expected_answer = match answer {
        Answer::Plan(plan) => {
            expected[GUARD..GUARD + plan.len()].copy_from_slice(plan);
            plan.len() as u64
        }
        Answer::Refused { number, place } => (*number as u64) << 32 | *place as u64,
    };

    let mut bytes = entry;
    let given = builder.build(case, &mut bytes[GUARD..GUARD + length]);
    let line = || list::line(case, length, answer);
    if given != expected_answer {
        let (number, rest) = (given >> 32, given & 0xFFFF_FFFF);
        return Err(format!("{}\n  the library answers {number} {rest}", line()));
    }
    if let Some(at) = (0..bytes.len()).find(|at| bytes[*at] != expected[*at]) {
        let at = at as isize - GUARD as isize;
        return Err(format!("{}\n  the buffer differs at {at}", line()));
    }
    Ok(())
}
