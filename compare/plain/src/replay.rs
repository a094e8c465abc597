//! The lines of a list of cases (their form: the head of crates/cases/stdin) on plain's calls.

use crate::call::{self, Refusal};
use crate::hex::from_hex;

/// A line that a list can't have.
#[derive(Clone, Copy, Debug, PartialEq, Eq)]
pub struct NoCase;

/// A call's result, none of a reading or a check, or its refusal.
pub type Answer = Result<Vec<u8>, Refusal>;

/// The words of a line.
struct Words<'a>(std::str::SplitWhitespace<'a>);

impl<'a> Words<'a> {
    fn word(&mut self) -> Result<&'a str, NoCase> {
        self.0.next().ok_or(NoCase)
    }

    fn number<T: std::str::FromStr>(&mut self) -> Result<T, NoCase> {
        self.word()?.parse().map_err(|_| NoCase)
    }

    fn bytes(&mut self) -> Result<Vec<u8>, NoCase> {
        from_hex(self.word()?).ok_or(NoCase)
    }
}

/// A line, read.
#[derive(Clone, Debug)]
pub enum Case {
    Layout(Vec<u8>),
    BuildByName {
        policy: u32,
        space: usize,
        layouts: [Vec<u8>; 2],
    },
    BuildByNumber {
        policy: u32,
        source_index: u32,
        owner: u16,
        space: usize,
        layouts: [Vec<u8>; 2],
        defaults: Vec<u8>,
    },
    Check {
        layouts: [Vec<u8>; 2],
        plan: Vec<u8>,
    },
    Run {
        space: usize,
        layouts: [Vec<u8>; 2],
        plan: Vec<u8>,
        record: Vec<u8>,
    },
}

impl Case {
    /// A case and the answer that stands in its line; none for a comment or an empty line.
    pub fn read(line: &str) -> Result<Option<(Case, Answer)>, NoCase> {
        let line = line.split('#').next().unwrap_or("");
        let mut words = Words(line.split_whitespace());
        let Some(call) = words.0.next() else {
            return Ok(None);
        };
        let case = match call {
            "layout" => Case::Layout(words.bytes()?),
            "build_name" => Case::BuildByName {
                policy: words.number()?,
                space: words.number()?,
                layouts: [words.bytes()?, words.bytes()?],
            },
            "build_number" => Case::BuildByNumber {
                policy: words.number()?,
                source_index: words.number()?,
                owner: words.number()?,
                space: words.number()?,
                layouts: [words.bytes()?, words.bytes()?],
                defaults: words.bytes()?,
            },
            "check" => Case::Check {
                layouts: [words.bytes()?, words.bytes()?],
                plan: words.bytes()?,
            },
            "run" => Case::Run {
                space: words.number()?,
                layouts: [words.bytes()?, words.bytes()?],
                plan: words.bytes()?,
                record: words.bytes()?,
            },
            _ => return Err(NoCase),
        };
        let answer = match words.number()? {
            0 if matches!(case, Case::Layout(_) | Case::Check { .. }) => {
                words.word()?;
                Ok(Vec::new())
            }
            0 => Ok(words.bytes()?),
            number => Err(Refusal {
                number,
                place: words.number()?,
            }),
        };
        match words.0.next() {
            None => Ok(Some((case, answer))),
            Some(_) => Err(NoCase),
        }
    }

    /// The name of the call, as lines begin with it.
    pub fn call(&self) -> &'static str {
        match self {
            Case::Layout(_) => "layout",
            Case::BuildByName { .. } => "build_name",
            Case::BuildByNumber { .. } => "build_number",
            Case::Check { .. } => "check",
            Case::Run { .. } => "run",
        }
    }

    pub fn answer(&self) -> Answer {
        let nothing = |()| Vec::new();
        match self {
            Case::Layout(layout) => call::read_layout(layout).map(nothing),
            Case::BuildByName {
                policy,
                space,
                layouts: [incoming, target],
            } => call::build_by_name(*policy, incoming, target, *space),
            Case::BuildByNumber {
                policy,
                source_index,
                owner,
                space,
                layouts: [incoming, target],
                defaults,
            } => {
                let number = (*source_index, *owner, defaults.as_slice());
                call::build_by_number(*policy, number, incoming, target, *space)
            }
            Case::Check {
                layouts: [incoming, target],
                plan,
            } => call::check_plan(incoming, target, plan).map(nothing),
            Case::Run {
                space,
                layouts: [incoming, target],
                plan,
                record,
            } => call::run(incoming, target, plan, record, *space),
        }
    }
}
