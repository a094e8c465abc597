//! Results in memory of their own.

use crate::{Defaults, Incoming, PLAN_MAX, Plan, Policy, RECORD_MAX, Record, Refusal, Target};
use alloc::vec;
use alloc::vec::Vec;

/// A plan that owns its bytes; [`PlanBuf::plan`] lends them.
#[derive(Clone, Debug, PartialEq, Eq, Hash)]
pub struct PlanBuf(Vec<u8>);

impl PlanBuf {
    /// As [`Plan::build_by_name_into`].
    pub fn build_by_name(
        policy: Policy,
        incoming: Incoming,
        target: Target,
    ) -> Result<PlanBuf, Refusal> {
        let mut buffer = vec![0; PLAN_MAX];
        let plan = Plan::build_by_name_into(policy, incoming, target, &mut buffer)?;
        Ok(plan.into())
    }

    /// As [`Plan::build_by_number_into`].
    pub fn build_by_number(
        policy: Policy,
        incoming: Incoming,
        target: Target,
        defaults: Defaults,
    ) -> Result<PlanBuf, Refusal> {
        let mut buffer = vec![0; PLAN_MAX];
        let plan = Plan::build_by_number_into(policy, incoming, target, defaults, &mut buffer)?;
        Ok(plan.into())
    }

    /// The plan.
    pub fn plan(&self) -> Plan<'_> {
        Plan::new(&self.0)
    }

    /// The plan's bytes.
    pub fn into_bytes(self) -> Vec<u8> {
        self.0
    }
}

impl From<Plan<'_>> for PlanBuf {
    fn from(plan: Plan<'_>) -> PlanBuf {
        PlanBuf(plan.as_bytes().to_vec())
    }
}

impl Plan<'_> {
    /// As [`Plan::run_into`]; the bytes of the record of the target layout.
    pub fn run(
        self,
        incoming: Incoming,
        target: Target,
        record: Record,
    ) -> Result<Vec<u8>, Refusal> {
        let mut buffer = vec![0; RECORD_MAX];
        let length = self
            .run_into(incoming, target, record, &mut buffer)?
            .as_bytes()
            .len();
        buffer.truncate(length);
        Ok(buffer)
    }
}
