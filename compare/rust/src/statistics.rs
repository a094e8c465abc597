//! What a run met.

use crate::oracle::{Answer, Aside};
use std::collections::BTreeMap;
use std::fmt;

#[derive(Default)]
pub struct Statistics {
    pub compared: u64,
    pub accepted: u64,
    /// Each number of a refusal, by name and by number.
    refused: BTreeMap<u32, [u64; 2]>,
    aside: BTreeMap<Aside, u64>,
}

impl Statistics {
    pub fn add(&mut self, by_number: bool, answer: &Result<Answer, Aside>) {
        match answer {
            Err(aside) => {
                *self.aside.entry(*aside).or_default() += 1;
                return;
            }
            Ok(Answer::Plan(_)) => self.accepted += 1,
            Ok(Answer::Refused { number, .. }) => {
                self.refused.entry(*number).or_default()[by_number as usize] += 1;
            }
        }
        self.compared += 1;
    }
}

impl fmt::Display for Statistics {
    fn fmt(&self, f: &mut fmt::Formatter<'_>) -> fmt::Result {
        let share = 100.0 * self.accepted as f64 / self.compared.max(1) as f64;
        writeln!(
            f,
            "{} cases, {} accepted ({share:.1} %)",
            self.compared, self.accepted
        )?;
        for (number, [by_name, by_number]) in &self.refused {
            writeln!(
                f,
                "refused with {number}: {by_name} by name, {by_number} by number"
            )?;
        }
        for (aside, count) in &self.aside {
            writeln!(f, "set aside, {aside:?}: {count}")?;
        }
        Ok(())
    }
}
