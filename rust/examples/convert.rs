//! Builds the plan of a folder of examples/ by name or number, checks it and converts its record:
//! `cargo run --example convert ../examples/sluice`.

use column_selector::{Defaults, Incoming, Layout, PlanBuf, Policy, Reason, Record, Target};
use std::error::Error;
use std::path::PathBuf;
use std::{env, fs};

fn main() -> Result<(), Box<dyn Error>> {
    let folder = PathBuf::from(env::args_os().nth(1).ok_or("usage: convert FOLDER")?);
    let file = |name: &str| fs::read(folder.join(name));
    let (incoming, target) = (file("incoming.lay")?, file("target.lay")?);
    let incoming = Incoming(Layout::read(&incoming)?);
    let target = Target(Layout::read(&target)?);

    let defaults = file("defaults.def");
    let built = match &defaults {
        Ok(table) => PlanBuf::build_by_number(Policy::ALL, incoming, target, Defaults::new(table)),
        Err(_) => PlanBuf::build_by_name(Policy::ALL, incoming, target),
    }?;
    let plan = built.plan();
    plan.check(incoming, target)?;

    match plan.run(incoming, target, Record::new(&file("record.bin")?)) {
        Ok(bytes) => println!("{bytes:02X?}"),
        // A refusal is an error like any other; some are worth a case of their own.
        Err(refusal) if refusal.reason == Reason::Overflow => {
            println!("look at the clock: {refusal}")
        }
        Err(refusal) => return Err(refusal.into()),
    }
    Ok(())
}
