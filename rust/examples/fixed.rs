//! As firmware calls it: nothing is allocated, the policy is a constant, and the buffers stand where the caller put
//! them.
//! `cargo run --no-default-features --example fixed`.

use column_selector::{Incoming, Layout, Plan, Policy, Record, Refusal, Target};

const POLICY: Policy = Policy::INTEGER_UPCAST.union(Policy::INSERT_MISSING_COLUMNS);
const INCOMING: Incoming = Incoming(Layout::new(b"LAY\x01\x00\x01\x00\x01t\x03"));
const TARGET: Target = Target(Layout::new(b"LAY\x01\x00\x02\x00\x01t\x04\x01s\x0F"));

fn convert<'o>(record: Record, output: &'o mut [u8]) -> Result<Record<'o>, Refusal> {
    let mut buffer = [0; 32];
    let plan = Plan::build_by_name_into(POLICY, INCOMING, TARGET, &mut buffer)?;
    plan.run_into(INCOMING, TARGET, record, output)
}

fn main() {
    let mut output = [0; 16];
    match convert(Record::new(b"\x01\xFE\xFF"), &mut output) {
        Ok(record) => println!("{:02X?}", record.as_bytes()),
        Err(refusal) => println!("{refusal}"),
    }
}
