//! `check`: whether a plan takes records of one layout to another.

use crate::args::{Args, Command, JSON};
use crate::failure::Failure;
use crate::files::{self, Input};
use crate::json::Json;
use crate::text::Kind;
use crate::told::Case;
use column_selector::{Incoming, Layout, Plan, Target};
use std::ffi::OsStr;

pub const COMMAND: Command = Command {
    name: "check",
    operands: "INCOMING TARGET PLAN",
    about: "Checks that the PLAN takes records of the INCOMING layout to the TARGET layout.",
    detail: "Layouts are bytes or text; one of the files is `-` for standard input. A refused plan is said with the selector or\n\
             byte, and with the first column that it makes otherwise than the target has it.",
    choices: &[&[JSON]],
    least: 3,
    most: 3,
    run,
};

/// Two layouts and a plan.
pub struct Inputs {
    pub incoming: Input,
    pub target: Input,
    pub plan: Input,
}

impl Inputs {
    pub fn load(args: &Args) -> Result<Inputs, Failure> {
        let operand = |index| args.operand(index).unwrap_or(OsStr::new(""));
        Ok(Inputs {
            incoming: files::load(operand(0), Kind::Layout, None)?,
            target: files::load(operand(1), Kind::Layout, None)?,
            plan: files::read_file(operand(2))?,
        })
    }

    /// What the calls of the library take.
    pub fn lent(&self) -> (Incoming<'_>, Target<'_>, Plan<'_>) {
        let layout = |input| Layout::new(input);
        (
            Incoming(layout(&self.incoming.bytes)),
            Target(layout(&self.target.bytes)),
            Plan::new(&self.plan.bytes),
        )
    }

    pub fn case(&self) -> Case<'_> {
        let Inputs {
            incoming,
            target,
            plan,
        } = self;
        Case {
            incoming: Some(incoming),
            target: Some(target),
            plan: Some(plan),
            ..Case::default()
        }
    }

    pub fn check(&self) -> Result<(), Failure> {
        let (incoming, target, plan) = self.lent();
        plan.check(incoming, target)
            .map_err(|refusal| files::refused(refusal, self.case()))
    }
}

fn run(args: &Args) -> Result<(), Failure> {
    let inputs = Inputs::load(args)?;
    inputs.check()?;
    let answer = Json::Object(vec![
        ("kind", "check".into()),
        ("passes", Json::Truth(true)),
    ]);
    match args.json() {
        true => files::put_text(&format!("{answer}\n"), None),
        false => files::put_text(
            &format!(
                "{} passes the check from {} to {}\n",
                inputs.plan.name, inputs.incoming.name, inputs.target.name
            ),
            None,
        ),
    }
}
