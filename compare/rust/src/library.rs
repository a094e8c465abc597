//! The two builds of the library.

use crate::beside::Builder;
use column_selector::call;
use plain::case::Case;

pub struct Library;

impl Builder for Library {
    fn build(&mut self, case: &Case, plan: &mut [u8]) -> u64 {
        let Case {
            policy,
            incoming,
            target,
            number,
        } = case;
        let answer = match number {
            None => call::build_by_name(*policy, incoming, target, plan),
            Some(number) => call::build_by_number(
                *policy,
                number.source_index,
                number.owner,
                incoming,
                target,
                &number.defaults,
                plan,
            ),
        };
        match answer {
            Ok(length) => length as u64,
            Err(refusal) => u64::from(refusal.number()) << 32 | u64::from(refusal.place),
        }
    }
}
