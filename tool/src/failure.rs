//! Why a command ends without its result.

use crate::told::Told;

#[derive(Debug)]
pub enum Failure {
    /// The command was called wrongly.
    Usage(String),
    /// A file is missing, can't be read or written, or has a text that is not of the form.
    File(String),
    /// The library refused it.
    Refused(Box<Told>),
    /// The library refused it, and the answer for programs says so already.
    Said,
    /// Nobody reads the output any more.
    Pipe,
}

impl Failure {
    /// Of a refusal that stands in what was written, if that was for programs.
    pub fn refused(told: Told, said: bool) -> Failure {
        match said {
            true => Failure::Said,
            false => Failure::Refused(Box::new(told)),
        }
    }

    pub fn status(&self) -> u8 {
        match self {
            Failure::Refused(_) | Failure::Said => 1,
            Failure::Usage(_) | Failure::File(_) | Failure::Pipe => 2,
        }
    }

    /// What standard error gets.
    pub fn text(&self) -> String {
        match self {
            Failure::Usage(message) | Failure::File(message) => format!("selector: {message}\n"),
            Failure::Refused(told) => told.text(),
            Failure::Said | Failure::Pipe => String::new(),
        }
    }
}
