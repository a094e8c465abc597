//! Files in and out.

use crate::failure::Failure;
use crate::form::{Column, Layout};
use crate::read;
use crate::text::{self, Kind, Places, TextError};
use crate::told::{Case, Told, tell};
use crate::write;
use column_selector::{Incoming, Plan, PlanBuf, Policy, Record, Refusal, Target};
use std::ffi::OsStr;
use std::fs::File;
use std::io::{self, ErrorKind, IsTerminal, Read, Write};

/// A file's bytes, and where their parts stand in the text that they were made of.
#[derive(Clone, Debug)]
pub struct Input {
    pub name: String,
    pub bytes: Vec<u8>,
    pub places: Option<Places>,
}

/// The most of a file that is read; a text has more letters than its bytes are.
const READ_LIMIT: u64 = 16 << 20;

/// The bytes of a file; `-` is standard input.
pub fn read_file(path: &OsStr) -> Result<Input, Failure> {
    let name = match path == "-" {
        true => "standard input".to_string(),
        false => path.to_string_lossy().into_owned(),
    };
    let fail = |error: io::Error| Failure::File(format!("{name}: {}", words(&error)));
    let mut bytes = Vec::new();
    let mut file: Box<dyn Read> = match path == "-" {
        true => Box::new(io::stdin()),
        false => Box::new(File::open(path).map_err(fail)?),
    };
    file.by_ref()
        .take(READ_LIMIT + 1)
        .read_to_end(&mut bytes)
        .map_err(fail)?;
    if bytes.len() as u64 > READ_LIMIT {
        return Err(Failure::File(format!(
            "{name}: more than {READ_LIMIT} bytes"
        )));
    }
    Ok(Input {
        name,
        bytes,
        places: None,
    })
}

fn words(error: &io::Error) -> String {
    match error.kind() {
        ErrorKind::NotFound => "there is no such file".to_string(),
        ErrorKind::PermissionDenied => "the file can't be read: no permission".to_string(),
        ErrorKind::IsADirectory => "the file can't be read: it is a folder".to_string(),
        _ => format!("the file can't be read: {error}"),
    }
}

/// Bytes of a kind: made of a text where the file has one.
pub fn load(path: &OsStr, kind: Kind, layout: Option<&Layout>) -> Result<Input, Failure> {
    made(read_file(path)?, kind, layout)
}

/// The same of a file that is read; bytes stay as they are, whatever they are.
pub fn made(input: Input, kind: Kind, layout: Option<&Layout>) -> Result<Input, Failure> {
    match text::kind_of(&input.bytes) {
        None => Ok(input),
        Some(found) if found == kind => of_text(input, kind, layout),
        Some(found) => {
            let (name, found, kind) = (&input.name, found.word(), kind.word());
            Err(Failure::File(format!(
                "{name}: a text of the kind `{found}`, where `{kind}` is asked for"
            )))
        }
    }
}

/// The bytes that a text says. A record's text needs its layout.
pub fn of_text(input: Input, kind: Kind, layout: Option<&Layout>) -> Result<Input, Failure> {
    let (name, text) = (&input.name, &input.bytes);
    let wrong = |error: TextError| Failure::File(shown(name, text, &error));
    let (bytes, places) = match (kind, layout) {
        (Kind::Layout, _) => {
            let (layout, places) = text::parse_layout(text).map_err(wrong)?;
            (write::layout_bytes(&layout), places)
        }
        (Kind::Defaults, _) => {
            let (table, places) = text::parse_table(text).map_err(wrong)?;
            (write::table_bytes(&table), places)
        }
        (Kind::Record, Some(layout)) => {
            let (values, places) = text::parse_record(text, layout).map_err(wrong)?;
            (write::record_bytes(&values, layout), places)
        }
        (Kind::Record, None) => {
            return Err(Failure::File(format!(
                "{name}: a record's text needs its layout"
            )));
        }
    };
    let bytes = bytes.map_err(|message| Failure::File(format!("{name}: {message}")))?;
    Ok(Input {
        bytes,
        places: Some(places),
        ..input
    })
}

/// An error with its place, and the line below it.
fn shown(name: &str, text: &[u8], error: &TextError) -> String {
    let line = text
        .split(|byte| *byte == b'\n')
        .nth(error.place.line - 1)
        .unwrap_or_default();
    let line = String::from_utf8_lossy(line).trim_end().replace('\t', " ");
    let mark = " ".repeat(error.place.column - 1);
    format!(
        "{name}:{}: {}\n    {line}\n    {mark}^",
        error.place, error.message
    )
}

/// The tree of a layout that the library takes.
pub fn layout_tree(input: &Input) -> Result<Layout, Failure> {
    let case = Case {
        incoming: Some(input),
        ..Case::default()
    };
    column_selector::Layout::read(&input.bytes).map_err(|refusal| refused(refusal, case))?;
    read::read_layout(&input.bytes).map_err(|_| unread(input))
}

/// Tests a table by a build between layouts without columns.
pub fn test_table(input: &Input) -> Result<(), Failure> {
    let none = column_selector::Layout::new(b"LAY\x02\x00\x00\x00");
    let defaults = column_selector::Defaults::new(&input.bytes);
    let case = Case {
        defaults: Some(input),
        ..Case::default()
    };
    let built = PlanBuf::build_by_number(Policy::ALL, Incoming(none), Target(none), defaults);
    built.map(drop).map_err(|refusal| refused(refusal, case))
}

/// Tests a record of a layout by a run that takes every column as it is, to a layout where nothing is required.
pub fn test_record(record: &Input, layout: &Input, tree: &Layout) -> Result<(), Failure> {
    let selectors = (0..tree.columns.len() as u16)
        .map(crate::form::Selector::Position)
        .collect();
    let plan = write::plan_bytes(&crate::form::Plan {
        version: 1,
        selectors,
    });
    let target = write::layout_bytes(&Layout {
        version: tree.version,
        columns: tree.columns.iter().map(Column::optional).collect(),
    });
    let fail = |message| Failure::File(format!("{}: {message}", layout.name));
    let (plan, target) = (plan.map_err(fail)?, target.map_err(fail)?);
    let [from, to] = [&layout.bytes, &target].map(|bytes| column_selector::Layout::new(bytes));
    let run = Plan::new(&plan).run(Incoming(from), Target(to), Record::new(&record.bytes));
    let case = Case {
        incoming: Some(layout),
        record: Some(record),
        ..Case::default()
    };
    run.map(drop).map_err(|refusal| refused(refusal, case))
}

pub fn refused(refusal: Refusal, case: Case) -> Failure {
    let told: Told = tell(refusal, case);
    Failure::Refused(Box::new(told))
}

/// The library takes a file that this program does not read.
pub fn unread(input: &Input) -> Failure {
    Failure::File(format!(
        "{}: the library takes the file, but this command is of an earlier edition",
        input.name
    ))
}

/// Writes bytes to a file, or to standard output: as they are, on a terminal in hexadecimal.
pub fn put_bytes(bytes: &[u8], output: Option<&OsStr>) -> Result<(), Failure> {
    match output.filter(|path| *path != "-") {
        Some(path) => {
            let fail = |error: io::Error| {
                Failure::File(format!(
                    "{}: can't be written: {error}",
                    path.to_string_lossy()
                ))
            };
            std::fs::write(path, bytes).map_err(fail)
        }
        None if io::stdout().is_terminal() => put(dump(bytes).as_bytes()),
        None => put(bytes),
    }
}

/// Writes text to a file, or to standard output.
pub fn put_text(text: &str, output: Option<&OsStr>) -> Result<(), Failure> {
    match output.filter(|path| *path != "-") {
        Some(path) => put_bytes(text.as_bytes(), Some(path)),
        None => put(text.as_bytes()),
    }
}

fn put(bytes: &[u8]) -> Result<(), Failure> {
    let mut out = io::stdout().lock();
    let written = out.write_all(bytes).and_then(|()| out.flush());
    written.map_err(|error| match error.kind() {
        ErrorKind::BrokenPipe => Failure::Pipe,
        _ => Failure::File(format!("the output can't be written: {error}")),
    })
}

/// Sixteen bytes a line.
fn dump(bytes: &[u8]) -> String {
    let line = |(index, row): (usize, &[u8])| {
        let hex: Vec<String> = row.iter().map(|byte| format!("{byte:02x}")).collect();
        let seen = |byte: &u8| {
            if byte.is_ascii_graphic() {
                char::from(*byte)
            } else {
                '.'
            }
        };
        let text: String = row.iter().map(seen).collect();
        format!("{:07}  {:47}  {text}\n", index * 16, hex.join(" "))
    };
    bytes.chunks(16).enumerate().map(line).collect()
}
