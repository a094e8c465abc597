//! What was met: how often each call gave each answer.

use crate::judge::Call;
use std::collections::BTreeMap;
use std::fmt;

#[derive(Default)]
pub struct Tally {
    /// By number, 0 for accepted.
    counts: BTreeMap<u32, [u64; Call::ALL.len()]>,
}

impl Tally {
    pub fn add(&mut self, call: Call, number: u32) {
        self.counts.entry(number).or_default()[call as usize] += 1;
    }

    /// Accepted and refused.
    fn sums(&self, call: Call) -> (u64, u64) {
        let accepted = self
            .counts
            .get(&0)
            .map_or(0, |counts| counts[call as usize]);
        let all: u64 = self
            .counts
            .values()
            .map(|counts| counts[call as usize])
            .sum();
        (accepted, all - accepted)
    }

    /// Accepted/refused of each call, in a line.
    pub fn line(&self) -> String {
        let one = |call: Call| {
            let (accepted, refused) = self.sums(call);
            format!("{} {accepted}/{refused}", call.name())
        };
        Call::ALL.map(one).join(", ")
    }

    /// The numbers that some call has and none gave.
    pub fn unmet(&self) -> Vec<u32> {
        (1..=u8::MAX.into())
            .filter(|number| Call::ALL.iter().any(|call| call.has(*number)))
            .filter(|number| !self.counts.contains_key(number))
            .collect()
    }
}

impl fmt::Display for Tally {
    fn fmt(&self, f: &mut fmt::Formatter<'_>) -> fmt::Result {
        write!(f, "{:>9}", "number")?;
        for call in Call::ALL {
            write!(f, " {:>13}", call.name())?;
        }
        for (number, counts) in &self.counts {
            match number {
                0 => write!(f, "\n{:>9}", "accepted")?,
                number => write!(f, "\n{number:>9}")?,
            }
            for count in counts {
                write!(f, " {count:>13}")?;
            }
        }
        writeln!(f)
    }
}
