//! `run`: a record of the one layout becomes one of the other.

use super::check::Inputs;
use crate::args::{Args, Command, JSON, OUTPUT, flag};
use crate::failure::Failure;
use crate::files;
use crate::json::record_json;
use crate::read;
use crate::text::{Kind, kind_of, record_text};
use crate::told::Case;
use column_selector::Record;
use std::ffi::OsStr;

pub const COMMAND: Command = Command {
    name: "run",
    operands: "INCOMING TARGET PLAN RECORD",
    about: "Runs the PLAN over one RECORD of the INCOMING layout and writes the record of the TARGET layout.",
    detail: "Layouts and the RECORD are bytes or text; one of the files is `-` for standard input. The record is written as bytes,\n\
             with --text or --json as text. A refused run says the byte of the record, or the column, and writes nothing.",
    choices: &[&[flag("--text", "write the record as text"), OUTPUT, JSON]],
    least: 4,
    most: 4,
    run,
};

fn run(args: &Args) -> Result<(), Failure> {
    let inputs = Inputs::load(args)?;
    let record = files::read_file(args.operand(3).unwrap_or(OsStr::new("")))?;
    let record = match kind_of(&record.bytes) {
        None => record,
        // A text can only be read by a layout, so that this is tested first.
        Some(_) => files::made(
            record,
            Kind::Record,
            Some(&files::layout_tree(&inputs.incoming)?),
        )?,
    };
    let (incoming, target, plan) = inputs.lent();
    let case = Case {
        record: Some(&record),
        ..inputs.case()
    };
    let output = plan.run(incoming, target, Record::new(&record.bytes));
    let output = output.map_err(|refusal| files::refused(refusal, case))?;
    if !args.json() && !args.has("--text") {
        return files::put_bytes(&output, args.output());
    }
    let layout =
        read::read_layout(&inputs.target.bytes).map_err(|_| files::unread(&inputs.target))?;
    let values = read::read_record(&output, &layout).map_err(|_| files::unread(&record))?;
    match args.json() {
        true => files::put_text(
            &format!("{}\n", record_json(&values, &layout)),
            args.output(),
        ),
        false => files::put_text(&record_text(&values, &layout), args.output()),
    }
}
