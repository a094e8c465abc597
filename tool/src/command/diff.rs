//! `diff`: what becomes of each column.

use super::build::{BUILD, Inputs};
use super::check;
use crate::args::{Args, COLOR, Command, JSON, OUTPUT};
use crate::diff::{self, Change, Diff, Row};
use crate::failure::Failure;
use crate::files;
use crate::form::{Column, Layout};
use crate::read;
use crate::told::tell;
use column_selector::Refusal;

pub const COMMAND: Command = Command {
    name: "diff",
    operands: "INCOMING TARGET [PLAN]",
    about: "Says column by column what a plan keeps, converts, renames, fills and drops.",
    detail: "Signs: `=` kept, `~` converted, `>` renamed, `+` filled, `-` dropped, `!` refused.\n\
             Without a PLAN one is built, by the options that `selector build` has; where that is refused, each target column is\n\
             built alone, so that every column that is refused is named, and the exit status is 1. A PLAN is checked first.",
    choices: &[BUILD, &[OUTPUT, JSON, COLOR]],
    least: 2,
    most: 3,
    run,
};

fn run(args: &Args) -> Result<(), Failure> {
    let diff = match args.operand(2) {
        Some(_) if BUILD.iter().any(|choice| args.has(choice.name)) => {
            let message = "diff: a PLAN is given, so that the options of a build have no effect";
            return Err(Failure::Usage(message.to_string()));
        }
        Some(_) => checked(args)?,
        None => built(args)?,
    };
    match args.json() {
        true => files::put_text(&format!("{}\n", diff.json()), args.output())?,
        false => files::put_text(&diff.text(args.paint()?), args.output())?,
    }
    match diff.refused() {
        None => Ok(()),
        Some(told) => Err(Failure::refused(told.clone(), args.json())),
    }
}

fn checked(args: &Args) -> Result<Diff, Failure> {
    let inputs = check::Inputs::load(args)?;
    inputs.check()?;
    let (incoming, target) = (
        files::layout_tree(&inputs.incoming)?,
        files::layout_tree(&inputs.target)?,
    );
    let plan = read::read_plan(&inputs.plan.bytes).map_err(|_| files::unread(&inputs.plan))?;
    Ok(diff::of_plan(&plan, &incoming.columns, &target.columns))
}

fn built(args: &Args) -> Result<Diff, Failure> {
    let inputs = Inputs::load(args)?;
    let built = inputs
        .build()
        .call(&inputs.incoming.bytes, &inputs.target.bytes);
    let layouts = (
        read::read_layout(&inputs.incoming.bytes),
        read::read_layout(&inputs.target.bytes),
    );
    match (built, layouts) {
        (Ok(plan), (Ok(incoming), Ok(target))) => {
            let plan = read::read_plan(plan.plan().as_bytes())
                .map_err(|_| files::unread(&inputs.target))?;
            Ok(diff::of_plan(&plan, &incoming.columns, &target.columns))
        }
        (Ok(_), _) => Err(files::unread(&inputs.target)),
        (Err(refusal), (Ok(incoming), Ok(target))) => alone(refusal, &inputs, &incoming, &target),
        (Err(refusal), _) => Err(files::refused(refusal, inputs.case())),
    }
}

/// Each target column by a build of its own, where the refusal is about one of them.
fn alone(
    refusal: Refusal,
    inputs: &Inputs,
    incoming: &Layout,
    target: &Layout,
) -> Result<Diff, Failure> {
    let told = tell(refusal, inputs.case());
    if told.fault.is_some() || told.target.is_none() {
        return Err(Failure::refused(told, false));
    }
    let build = inputs.build();
    let mut diff = Diff::default();
    for (index, column) in target.columns.iter().enumerate() {
        match build.column(&incoming.columns, column) {
            Ok(selector) => {
                diff::of_column(index, &selector, column, &incoming.columns, &mut diff.rows)
            }
            Err(refusal) => diff.rows.push(refused(index, refusal, column, inputs)),
        }
    }
    Ok(diff)
}

/// A build of one column has place 0; in the whole it is the column's.
fn refused(index: usize, refusal: Refusal, column: &Column, inputs: &Inputs) -> Row {
    let place = if refusal.reason.place() == column_selector::Place::Column {
        index as u32
    } else {
        refusal.place
    };
    let told = tell(Refusal { place, ..refusal }, inputs.case());
    let path = told.target.as_ref().map(|about| about.path.clone());
    Row {
        target: path.unwrap_or_else(|| crate::text::name_text(&column.name)),
        to: column.of.clone(),
        change: Change::Refused(Box::new(told)),
        from: None,
        renamed: false,
    }
}
