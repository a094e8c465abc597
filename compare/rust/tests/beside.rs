//! The comparison sees wrong answers and bytes that should not have changed.

use compare::beside::{Builder, compare};
use compare::oracle::{Answer, answer};
use plain::case::Case;
use plain::generate;
use plain::random::Random;

/// Answers as the original does, given space, but for one fault.
struct Faulty {
    /// Changes the buffer and the answer after a call.
    fault: fn(&mut [u8], u64) -> u64,
}

impl Builder for Faulty {
    fn build(&mut self, case: &Case, plan: &mut [u8]) -> u64 {
        let given = match answer(case).unwrap() {
            Answer::Plan(bytes) if bytes.len() > plan.len() => 27 << 32,
            Answer::Plan(bytes) => {
                plan[..bytes.len()].copy_from_slice(&bytes);
                bytes.len() as u64
            }
            Answer::Refused { number, place } => (number as u64) << 32 | place as u64,
        };
        (self.fault)(plan, given)
    }
}

/// How many of the cases differ.
fn differences(fault: fn(&mut [u8], u64) -> u64) -> usize {
    let mut random = Random::new(7);
    let mut differences = 0;
    for index in 0..2_000 {
        let case = generate::case(&mut random);
        if let Ok(answer) = answer(&case) {
            differences += compare(&mut Faulty { fault }, index, &case, &answer).is_err() as usize;
        }
    }
    differences
}

#[test]
fn equal_answers_agree() {
    assert_eq!(differences(|_, given| given), 0);
}

#[test]
fn wrong_answers_are_seen() {
    let wrong_place = |_: &mut [u8], given: u64| if given >> 32 == 0 { given } else { given + 1 };
    assert!(differences(wrong_place) > 500);
    let wrong_number = |_: &mut [u8], given: u64| if given >> 32 == 24 { 25 << 32 } else { given };
    assert!(differences(wrong_number) > 100);
}

#[test]
fn a_refused_call_that_writes_is_seen() {
    let writes = |plan: &mut [u8], given: u64| {
        if given >> 32 != 0
            && let Some(last) = plan.last_mut()
        {
            *last ^= 1;
        }
        given
    };
    assert!(differences(writes) > 500);
}

#[test]
fn bytes_after_the_plan_are_seen() {
    let writes = |plan: &mut [u8], given: u64| {
        if let Some(after) = plan.get_mut(given as usize)
            && given >> 32 == 0
        {
            *after ^= 1;
        }
        given
    };
    assert!(differences(writes) > 200);
}
