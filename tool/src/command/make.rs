//! Texts to bytes: `layout`, `defaults`, `record`.

use crate::args::{Args, Command, JSON, OUTPUT};
use crate::failure::Failure;
use crate::files::{self, Input};
use crate::text::{Kind, kind_of};
use std::ffi::OsStr;

pub const LAYOUT: Command = Command {
    name: "layout",
    operands: "FILE",
    about: "Writes the bytes of a layout that FILE has as text.",
    detail: "The text form is that of docs/TEXT.md, which `selector show` writes. The library reads the bytes before they are\n\
             written; where it refuses them, the place in the text is named. FILE is `-` for standard input.",
    choices: &[&[OUTPUT, JSON]],
    least: 1,
    most: 1,
    run: |args| made(args, Kind::Layout),
};

pub const DEFAULTS: Command = Command {
    name: "defaults",
    about: "Writes the bytes of a table of defaults that FILE has as text.",
    run: |args| made(args, Kind::Defaults),
    ..LAYOUT
};

pub const RECORD: Command = Command {
    name: "record",
    operands: "LAYOUT FILE",
    about: "Writes the bytes of a record that FILE has as text, by its LAYOUT.",
    detail: "LAYOUT is bytes or text, FILE is text; either is `-` for standard input. The library reads the record before it is\n\
             written; where it refuses it, the place in the text is named.",
    least: 2,
    most: 2,
    run: record,
    ..LAYOUT
};

fn made(args: &Args, kind: Kind) -> Result<(), Failure> {
    let input = files::read_file(args.operand(0).unwrap_or_default())?;
    is_text(&input, kind)?;
    let input = files::made(input, kind, None)?;
    match kind {
        Kind::Layout => files::layout_tree(&input).map(drop)?,
        _ => files::test_table(&input)?,
    }
    files::put_bytes(&input.bytes, args.output())
}

fn record(args: &Args) -> Result<(), Failure> {
    let operand = |index| args.operand(index).unwrap_or(OsStr::new(""));
    let layout = files::load(operand(0), Kind::Layout, None)?;
    let tree = files::layout_tree(&layout)?;
    let input = files::read_file(operand(1))?;
    is_text(&input, Kind::Record)?;
    let input = files::made(input, Kind::Record, Some(&tree))?;
    files::test_record(&input, &layout, &tree)?;
    files::put_bytes(&input.bytes, args.output())
}

fn is_text(input: &Input, kind: Kind) -> Result<(), Failure> {
    match kind_of(&input.bytes) {
        Some(_) => Ok(()),
        None => {
            let (name, word) = (&input.name, kind.word());
            Err(Failure::File(format!(
                "{name}:1:1: no text of this form, whose first word is `{word}`"
            )))
        }
    }
}
