//! `c-array`: bytes as an array for firmware in C.

use crate::args::{Args, Command, JSON, OUTPUT, flag, valued};
use crate::failure::Failure;
use crate::files::{self, Input};
use crate::json::Json;
use crate::text::kind_of;
use std::path::Path;

pub const COMMAND: Command = Command {
    name: "c-array",
    operands: "FILE",
    about: "Writes the bytes of FILE as an array in C.",
    detail: "The array is named after the file, plan.pln being plan_pln, unless --name says otherwise; NAME_length is its length. A\n\
             layout or table of defaults in text is written as its bytes. FILE is `-` for standard input.",
    choices: &[&[
        valued("--name", "NAME", "the array's name"),
        flag(
            "--extern",
            "let other files see the array: without `static`",
        ),
        OUTPUT,
        JSON,
    ]],
    least: 1,
    most: 1,
    run,
};

fn run(args: &Args) -> Result<(), Failure> {
    let path = args.operand(0).unwrap_or_default();
    let input = files::read_file(path)?;
    let name = match args.text("--name") {
        Some(name) if is_name(&name) => name,
        Some(name) => return Err(Failure::Usage(format!("`{name}` is no name in C"))),
        None if path == "-" => "bytes".to_string(),
        None => name_of(Path::new(path)),
    };
    let input = match kind_of(&input.bytes) {
        None => input,
        Some(kind) => files::made(input, kind, None)?,
    };
    if args.json() {
        let bytes = input
            .bytes
            .iter()
            .map(|byte| u32::from(*byte).into())
            .collect();
        let json = Json::Object(vec![("name", name.into()), ("bytes", Json::List(bytes))]);
        return files::put_text(&format!("{json}\n"), args.output());
    }
    let linkage = if args.has("--extern") { "" } else { "static " };
    files::put_text(&array(&input, &name, linkage), args.output())
}

/// An array in C has one element at least.
fn array(input: &Input, name: &str, linkage: &str) -> String {
    let length = input.bytes.len();
    let stored = if length == 0 { &[0][..] } else { &input.bytes };
    let line = |row: &[u8]| {
        let bytes: Vec<String> = row.iter().map(|byte| format!("0x{byte:02x},")).collect();
        format!("    {}\n", bytes.join(" "))
    };
    let rows: String = stored.chunks(16).map(line).collect();
    let file: String = input
        .name
        .replace("*/", "* /")
        .chars()
        .filter(|letter| !letter.is_control())
        .collect();
    format!(
        "/* {file}, {length} byte{}: written by `selector c-array`. */\n#include <stddef.h>\n#include <stdint.h>\n\n\
         {linkage}const uint8_t {name}[{}] = {{\n{rows}}};\n{linkage}const size_t {name}_length = {length};\n",
        if length == 1 { "" } else { "s" },
        stored.len(),
    )
}

fn is_name(name: &str) -> bool {
    let begins = name.starts_with(|letter: char| letter.is_ascii_alphabetic() || letter == '_');
    begins
        && name
            .chars()
            .all(|letter| letter.is_ascii_alphanumeric() || letter == '_')
}

/// A file's name, with `_` for what no name has.
fn name_of(path: &Path) -> String {
    let file = path
        .file_name()
        .unwrap_or_default()
        .to_string_lossy()
        .into_owned();
    let letter = |letter: char| {
        if letter.is_ascii_alphanumeric() {
            letter
        } else {
            '_'
        }
    };
    let name: String = file.chars().map(letter).collect();
    match is_name(&name) {
        true => name,
        false => format!("_{name}"),
    }
}
