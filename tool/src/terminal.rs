//! Colours, where a terminal is to have them.

use std::env;
use std::io::{IsTerminal, stdout};

#[derive(Clone, Copy, Debug, PartialEq, Eq)]
pub enum Style {
    Plain,
    Same,
    Changed,
    Named,
    Filled,
    Gone,
    Bad,
}

/// Whether texts are coloured.
#[derive(Clone, Copy, Debug, PartialEq, Eq)]
pub struct Paint(pub bool);

impl Paint {
    /// `always`, `never`, or `auto`: on a terminal, unless NO_COLOR is set or TERM is dumb.
    pub fn of(when: &str) -> Option<Paint> {
        let set = |name: &str| env::var_os(name).is_some_and(|value| !value.is_empty());
        let dumb = env::var_os("TERM").is_some_and(|term| term == "dumb");
        match when {
            "always" => Some(Paint(true)),
            "never" => Some(Paint(false)),
            "auto" => Some(Paint(stdout().is_terminal() && !set("NO_COLOR") && !dumb)),
            _ => None,
        }
    }

    pub fn put(self, style: Style, text: &str) -> String {
        let code = match style {
            Style::Plain => return text.to_string(),
            Style::Same => "2",
            Style::Changed => "33",
            Style::Named => "36",
            Style::Filled => "32",
            Style::Gone => "31",
            Style::Bad => "1;31",
        };
        match self.0 {
            true => format!("\x1b[{code}m{text}\x1b[0m"),
            false => text.to_string(),
        }
    }
}
