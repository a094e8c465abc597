//! Building, checking and running plans.

use crate::{Defaults, Incoming, Plan, Policy, Record, Refusal, Target, call};

impl<'a> Plan<'a> {
    /// The plan that takes records of one layout to another, columns matched by name. Both layouts are of version 1.
    /// The plan stands at the buffer's start, and nothing changes after it; a refused build changes nothing.
    pub fn build_by_name_into(
        policy: Policy,
        incoming: Incoming,
        target: Target,
        buffer: &'a mut [u8],
    ) -> Result<Plan<'a>, Refusal> {
        let (incoming, target) = (incoming.0.as_bytes(), target.0.as_bytes());
        let length = call::build_by_name(policy.word(), incoming, target, buffer)?;
        Ok(Plan::new(&buffer[..length]))
    }

    /// The same by field id, with the defaults of a table for missing fields. Each layout is of version
    /// 2 or 3.
    pub fn build_by_number_into(
        policy: Policy,
        incoming: Incoming,
        target: Target,
        defaults: Defaults,
        buffer: &'a mut [u8],
    ) -> Result<Plan<'a>, Refusal> {
        let length = call::build_by_number(
            policy.word(),
            defaults.source_index(),
            defaults.owner(),
            incoming.0.as_bytes(),
            target.0.as_bytes(),
            defaults.as_bytes(),
            buffer,
        )?;
        Ok(Plan::new(&buffer[..length]))
    }

    /// Whether the plan takes records of the one layout to the other.
    pub fn check(self, incoming: Incoming, target: Target) -> Result<(), Refusal> {
        let (incoming, target) = (incoming.0.as_bytes(), target.0.as_bytes());
        call::check_plan(incoming, target, self.as_bytes()).map(drop)
    }

    /// Runs the plan over one record of the incoming layout: all of the check, then the record of the target layout,
    /// which stands at the buffer's start. Nothing changes after it, and nothing at all where the run is refused.
    pub fn run_into<'o>(
        self,
        incoming: Incoming,
        target: Target,
        record: Record,
        buffer: &'o mut [u8],
    ) -> Result<Record<'o>, Refusal> {
        let (incoming, target) = (incoming.0.as_bytes(), target.0.as_bytes());
        let length = call::run(incoming, target, self.as_bytes(), record.as_bytes(), buffer)?;
        Ok(Record::new(&buffer[..length]))
    }
}
