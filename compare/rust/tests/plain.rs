//! The builders of compare/plain beside the original.

use compare::beside::{Builder, compare};
use compare::oracle::answer;
use compare::{decimals, edges, leaves};
use plain::call;
use plain::case::Case;
use plain::generate;
use plain::random::Random;

struct Plain;

impl Builder for Plain {
    fn build(&mut self, case: &Case, plan: &mut [u8]) -> u64 {
        let (incoming, target, space) = (&case.incoming, &case.target, plan.len());
        let answer = match &case.number {
            None => call::build_by_name(case.policy, incoming, target, space),
            Some(number) => {
                let number = (
                    number.source_index,
                    number.owner,
                    number.defaults.as_slice(),
                );
                call::build_by_number(case.policy, number, incoming, target, space)
            }
        };
        match answer {
            Ok(built) => {
                plan[..built.len()].copy_from_slice(&built);
                built.len() as u64
            }
            Err(refusal) => u64::from(refusal.number) << 32 | u64::from(refusal.place),
        }
    }
}

/// How many cases the comparison takes; none of them differs.
fn agreeing(cases: impl Iterator<Item = Case>) -> u64 {
    let answered = cases.filter_map(|case| Some((answer(&case).ok()?, case)));
    let mut count = 0;
    for (answer, case) in answered {
        if let Err(difference) = compare(&mut Plain, count, &case, &answer) {
            panic!("{difference}");
        }
        count += 1;
    }
    count
}

#[test]
fn edges_agree() {
    assert!(agreeing(edges::cases().into_iter()) > 50);
}

#[test]
fn pairs_of_leaf_kinds_agree() {
    assert!(agreeing(leaves::cases(leaves::single_flags())) > 10_000);
}

#[test]
fn related_layouts_agree() {
    let mut random = Random::new(11);
    let cases = (0..100_000).map(|_| decimals::flag_off(generate::case(&mut random)));
    assert!(agreeing(cases) > 50_000);
}
