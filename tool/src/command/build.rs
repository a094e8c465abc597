//! `build`: a plan from two layouts.

use crate::args::{Args, Choice, Command, JSON, OUTPUT, flag, valued};
use crate::failure::Failure;
use crate::files::{self, Input};
use crate::find::Build;
use crate::form;
use crate::json::{Json, hex_json};
use crate::lists;
use crate::text::Kind;
use crate::told::Case;
use column_selector::{Defaults, Policy};
use std::ffi::OsStr;

const BY_NAME: Choice = flag("--by-name", "match columns by name (layouts of version 1)");
const BY_NUMBER: Choice = flag(
    "--by-number",
    "match columns by field id (layouts of version 2 or 3)",
);
const POLICY: Choice = valued(
    "--policy",
    "FLAGS",
    "what is allowed; all by default; see `selector help policy`",
);
const DEFAULT_TABLE: Choice = valued(
    "--defaults",
    "FILE",
    "a table of defaults for missing fields, by number",
);
const SOURCE: Choice = valued(
    "--source",
    "N",
    "which of a partition's values is taken, from 0 (the default)",
);
const OWNER: Choice = valued(
    "--owner",
    "N",
    "whose entries of a table of version 2 count; 0 by default",
);

/// What a build takes beside its layouts.
pub const BUILD: &[Choice] = &[BY_NAME, BY_NUMBER, POLICY, DEFAULT_TABLE, SOURCE, OWNER];

pub const COMMAND: Command = Command {
    name: "build",
    operands: "INCOMING TARGET",
    about: "Builds the plan that takes records of the INCOMING layout to the TARGET layout.",
    detail: "Layouts and the table are bytes or text; one of them is `-` for standard input. Where neither --by-name nor\n\
             --by-number is given, the target layout's version decides. FLAGS are `all`, `none`, a number, and the flags' names,\n\
             between commas; `-NAME` takes one away: --policy all,-integer_upcast. A refused build says the target's column and\n\
             field, and writes nothing. With --json the plan is in the answer, in hexadecimal, unless -o has a file for it.",
    choices: &[BUILD, &[OUTPUT, JSON]],
    least: 2,
    most: 2,
    run,
};

/// The layouts and the table of a build, or of a diff, and its other arguments.
pub struct Inputs {
    pub incoming: Input,
    pub target: Input,
    pub defaults: Option<Input>,
    by_number: bool,
    policy: Policy,
    source: u32,
    owner: u16,
}

impl Inputs {
    pub fn load(args: &Args) -> Result<Inputs, Failure> {
        let operand = |index| args.operand(index).unwrap_or(OsStr::new(""));
        let policy = args
            .text(POLICY.name)
            .map_or(Ok(Policy::ALL), |text| lists::policy(&text));
        let policy = policy.map_err(Failure::Usage)?;
        let source = args.number(SOURCE.name, u32::MAX)?.unwrap_or(0);
        let owner = args.number(OWNER.name, u32::from(u16::MAX))?.unwrap_or(0) as u16;
        let table = args.value(DEFAULT_TABLE.name);
        let defaults = table
            .map(|path| files::load(path, Kind::Defaults, None))
            .transpose()?;
        let incoming = files::load(operand(0), Kind::Layout, None)?;
        let target = files::load(operand(1), Kind::Layout, None)?;
        let by_number = by_number(args, &target)?;
        Ok(Inputs {
            incoming,
            target,
            defaults,
            by_number,
            policy,
            source,
            owner,
        })
    }

    pub fn build(&self) -> Build<'_> {
        let table = self
            .defaults
            .as_ref()
            .map_or(Defaults::NONE, |table| Defaults::new(&table.bytes));
        Build {
            by_number: self.by_number,
            policy: self.policy,
            defaults: table.with_source(self.source).with_owner(self.owner),
        }
    }

    pub fn case(&self) -> Case<'_> {
        Case {
            incoming: Some(&self.incoming),
            target: Some(&self.target),
            defaults: self.defaults.as_ref(),
            build: Some(self.build()),
            ..Case::default()
        }
    }
}

/// Whether columns are matched by number: as the options say, else as the target's version does.
fn by_number(args: &Args, target: &Input) -> Result<bool, Failure> {
    let wrong = |message: &str| Err(Failure::Usage(message.to_string()));
    let by_number = match (args.has(BY_NAME.name), args.has(BY_NUMBER.name)) {
        (true, true) => return wrong("--by-name and --by-number exclude each other"),
        (false, false) => {
            let version = target.bytes.get(3);
            version.is_some_and(|version| form::by_number(u16::from(*version)))
        }
        (_, by_number) => by_number,
    };
    let others = [DEFAULT_TABLE, SOURCE, OWNER];
    match !by_number && others.iter().any(|choice| args.has(choice.name)) {
        true => wrong("--defaults, --source and --owner are for builds by number"),
        false => Ok(by_number),
    }
}

fn run(args: &Args) -> Result<(), Failure> {
    let inputs = Inputs::load(args)?;
    let plan = inputs
        .build()
        .call(&inputs.incoming.bytes, &inputs.target.bytes);
    let plan = plan
        .map_err(|refusal| files::refused(refusal, inputs.case()))?
        .into_bytes();
    if !args.json() {
        return files::put_bytes(&plan, args.output());
    }
    let mut fields = vec![("kind", "build".into()), ("bytes", plan.len().into())];
    match args.output() {
        Some(path) => {
            files::put_bytes(&plan, Some(path))?;
            fields.push(("file", path.to_string_lossy().into_owned().into()));
        }
        None => fields.push(("plan", hex_json(&plan))),
    }
    files::put_text(&format!("{}\n", Json::Object(fields)), None)
}
