//! A place in bytes, and the path to what is read there.

use crate::text::name_text;
use crate::wrap::listed;
use std::fmt::Write;

/// What is read; the same fault has another number in each.
#[derive(Clone, Copy, Debug, PartialEq, Eq)]
pub enum File {
    Layout,
    Table,
    Plan,
    Record,
}

impl File {
    pub fn name(self) -> &'static str {
        ["layout", "table of defaults", "plan", "record"][self as usize]
    }

    /// The letters at the start; a record has none.
    pub fn mark(self) -> &'static [u8] {
        [b"LAY".as_slice(), b"DEF", b"PLN", b""][self as usize]
    }

    /// The most bytes.
    pub fn limit(self) -> usize {
        match self {
            File::Layout | File::Table => column_selector::LAYOUT_MAX,
            File::Plan => column_selector::PLAN_MAX,
            File::Record => column_selector::RECORD_MAX,
        }
    }
}

/// What is wrong with bytes.
#[derive(Clone, Copy, Debug, PartialEq, Eq)]
pub enum Cause {
    TooLarge,
    Mark,
    End,
    Code,
    TooLong,
    TooDeep,
    Repeated,
    Left,
    DecimalLimits,
    ValueByte,
    DecimalTooLarge,
    Null,
}

impl Cause {
    /// The refusal's number in a file of a kind.
    pub fn number(self, file: File) -> u32 {
        match (file, self) {
            (File::Plan, _) => 30,
            (File::Record, Cause::TooLarge) => 43,
            (File::Record, Cause::End) => 40,
            (File::Record, Cause::Left) => 42,
            (File::Record, Cause::DecimalTooLarge) => 52,
            (File::Record, Cause::Null) => 56,
            (File::Record, _) => 41,
            (_, Cause::Mark) => 1,
            (_, Cause::End) => 2,
            (_, Cause::TooLarge | Cause::TooLong | Cause::TooDeep) => 4,
            (_, Cause::Repeated) => 5,
            (_, Cause::Left) => 6,
            (File::Layout, Cause::DecimalLimits) => 50,
            _ => 3,
        }
    }
}

/// A step on the way to what is read.
#[derive(Clone, Debug, PartialEq, Eq)]
pub enum Step {
    /// A column of a layout or a field of a struct, with its name once that is read.
    Column(usize, Option<Vec<u8>>),
    /// The element of a list or array; in a record the one at a place.
    Element(Option<usize>),
    /// An entry of a table, with its id once that is read.
    Entry(usize, Option<u32>),
    /// A value of a partition.
    Value(usize),
    /// A selector at the top or in a struct mapping.
    Selector(usize),
    /// The selector of a list or array mapping.
    Mapped,
    /// The input of a transform.
    Input,
}

/// The path in words: `gate.open`, `samples[2]`, `entry 1 (id 7)`, `selector 2, field 0, input`.
pub fn path_text(path: &[Step]) -> String {
    let mut text = String::new();
    for step in path {
        let first = text.is_empty();
        let comma = if first { "" } else { ", " };
        let dot = if first { "" } else { "." };
        let written = match step {
            Step::Column(_, Some(name)) => write!(text, "{dot}{}", name_text(name)),
            Step::Column(index, None) => write!(text, "{comma}column {index}"),
            Step::Element(None) => write!(text, "[]"),
            Step::Element(Some(index)) => write!(text, "[{index}]"),
            Step::Entry(index, None) => write!(text, "entry {index}"),
            Step::Entry(index, Some(id)) => write!(text, "entry {index} (id {id})"),
            Step::Value(index) => write!(text, "{comma}value {index}"),
            Step::Selector(index) if first => write!(text, "selector {index}"),
            Step::Selector(index) => write!(text, ", field {index}"),
            Step::Mapped => write!(text, ", element"),
            Step::Input => write!(text, ", input"),
        };
        written.expect("a string takes any text");
    }
    text
}

/// Where bytes are broken: the bytes from one offset to before another, which stand at a path; and what was expected.
#[derive(Clone, Debug, PartialEq, Eq)]
pub struct Fault {
    pub file: File,
    pub cause: Cause,
    pub from: usize,
    pub to: usize,
    pub path: Vec<Step>,
    pub expected: String,
}

impl Fault {
    pub fn number(&self) -> u32 {
        self.cause.number(self.file)
    }

    /// `byte 12`, or `bytes 12 to 15`.
    pub fn offsets(&self) -> String {
        if self.to <= self.from + 1 {
            format!("byte {}", self.from)
        } else {
            format!("bytes {} to {}", self.from, self.to - 1)
        }
    }
}

pub type Read<T> = Result<T, Fault>;

pub struct Cursor<'a> {
    bytes: &'a [u8],
    pub at: usize,
    pub file: File,
    path: Vec<Step>,
}

impl<'a> Cursor<'a> {
    pub fn new(file: File, bytes: &'a [u8]) -> Self {
        let path = Vec::new();
        Cursor {
            bytes,
            at: 0,
            file,
            path,
        }
    }

    /// The length, the mark and the version; the version where it is one of these.
    pub fn start(&mut self, versions: &[u16]) -> Read<u16> {
        self.limit()?;
        let mark = self.file.mark();
        let version = match self.bytes {
            [one, two, three, low, high, ..] if [*one, *two, *three] == mark => {
                u16::from_le_bytes([*low, *high])
            }
            _ => 0,
        };
        if !versions.contains(&version) {
            let to = self.bytes.len().min(5);
            let expected = format!(
                "the mark {} and version {}",
                String::from_utf8_lossy(mark),
                listed(versions, "or")
            );
            return Err(self.fault_at(Cause::Mark, 0, to, expected));
        }
        self.at = 5;
        Ok(version)
    }

    /// Tests how many bytes there are.
    pub fn limit(&self) -> Read<()> {
        let limit = self.file.limit();
        if self.bytes.len() > limit {
            let expected = format!("a {} of at most {limit} bytes", self.file.name());
            return Err(self.fault_at(Cause::TooLarge, limit, self.bytes.len(), expected));
        }
        Ok(())
    }

    pub fn fault_at(&self, cause: Cause, from: usize, to: usize, expected: String) -> Fault {
        let (file, path) = (self.file, self.path.clone());
        Fault {
            file,
            cause,
            from,
            to,
            path,
            expected,
        }
    }

    /// A fault of the bytes from an offset to here.
    pub fn fault(&self, cause: Cause, from: usize, expected: impl Into<String>) -> Fault {
        self.fault_at(cause, from, self.at, expected.into())
    }

    /// Reads with a step more on the path.
    pub fn within<T>(&mut self, step: Step, read: impl FnOnce(&mut Self) -> Read<T>) -> Read<T> {
        self.path.push(step);
        let result = read(self);
        self.path.pop();
        result
    }

    /// The last step of the path becomes another, once more of it is known.
    pub fn know(&mut self, step: Step) {
        self.path.pop();
        self.path.push(step);
    }

    pub fn take(&mut self, count: usize, what: &str) -> Read<&'a [u8]> {
        let left = self.bytes.len() - self.at;
        if count > left {
            let expected = match (left, count - left) {
                (0, 1) => what.to_string(),
                (0, _) => format!("{what}, {count} bytes"),
                (_, 1) => format!("1 more byte of {what}"),
                (_, more) => format!("{more} more bytes of {what}"),
            };
            let end = self.bytes.len();
            return Err(self.fault_at(Cause::End, end, end, expected));
        }
        let taken = &self.bytes[self.at..self.at + count];
        self.at += count;
        Ok(taken)
    }

    pub fn u8(&mut self, what: &str) -> Read<u8> {
        Ok(self.take(1, what)?[0])
    }

    pub fn u16(&mut self, what: &str) -> Read<u16> {
        Ok(self.number(2, what)? as u16)
    }

    pub fn u32(&mut self, what: &str) -> Read<u32> {
        Ok(self.number(4, what)? as u32)
    }

    /// A number of at most eight bytes, without sign.
    pub fn number(&mut self, width: usize, what: &str) -> Read<u64> {
        let taken = self.take(width, what)?;
        Ok(taken
            .iter()
            .rev()
            .fold(0, |number, byte| number << 8 | u64::from(*byte)))
    }

    /// A name or a zone.
    pub fn text(&mut self, what: &str) -> Read<Vec<u8>> {
        let from = self.at;
        let length = self.u8(&format!("the length of {what}"))?;
        if usize::from(length) > TEXT_LIMIT {
            let expected = format!("a length of {what} of at most {TEXT_LIMIT}, not {length}");
            return Err(self.fault(Cause::TooLong, from, expected));
        }
        Ok(self.take(usize::from(length), what)?.to_vec())
    }

    /// Tests that nothing is left.
    pub fn end(&mut self, after: &str) -> Read<()> {
        let (from, left) = (self.at, self.bytes.len() - self.at);
        if left > 0 {
            let expected = format!("the end after {after}, not {left} more");
            return Err(self.fault_at(Cause::Left, from, self.bytes.len(), expected));
        }
        Ok(())
    }
}

const TEXT_LIMIT: usize = 63;
