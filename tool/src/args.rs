//! Arguments of a command by its description.

use crate::failure::Failure;
use crate::near::hint;
use std::ffi::{OsStr, OsString};

/// An option; one with a value says what that is.
#[derive(Clone, Copy, Debug)]
pub struct Choice {
    pub name: &'static str,
    pub short: Option<&'static str>,
    pub value: Option<&'static str>,
    pub about: &'static str,
}

/// What a command takes, and what `selector help` says of it.
#[derive(Clone, Copy, Debug)]
pub struct Command {
    pub name: &'static str,
    pub operands: &'static str,
    pub about: &'static str,
    pub detail: &'static str,
    pub choices: &'static [&'static [Choice]],
    pub least: usize,
    pub most: usize,
    pub run: fn(&Args) -> Result<(), Failure>,
}

pub const JSON: Choice = flag("--json", "write the answer for programs");
pub const COLOR: Choice = valued(
    "--color",
    "WHEN",
    "colour the text: always, never, or auto (the default)",
);
pub const OUTPUT: Choice = Choice {
    short: Some("-o"),
    ..valued(
        "--output",
        "FILE",
        "write to a file instead of standard output",
    )
};
const HELP: Choice = Choice {
    short: Some("-h"),
    ..flag("--help", "say how to use the command")
};

pub const fn flag(name: &'static str, about: &'static str) -> Choice {
    Choice {
        name,
        short: None,
        value: None,
        about,
    }
}

pub const fn valued(name: &'static str, value: &'static str, about: &'static str) -> Choice {
    Choice {
        name,
        short: None,
        value: Some(value),
        about,
    }
}

/// What a command was given.
#[derive(Clone, Debug, Default)]
pub struct Args {
    pub operands: Vec<OsString>,
    chosen: Vec<(&'static str, OsString)>,
}

impl Args {
    pub fn parse(command: &Command, given: &[OsString]) -> Result<Args, Failure> {
        let mut args = Args::default();
        let mut given = given.iter();
        let mut ended = false;
        while let Some(word) = given.next() {
            let text = word.to_string_lossy();
            if ended || text == "-" || !text.starts_with('-') {
                args.operands.push(word.clone());
            } else if text == "--" {
                ended = true;
            } else {
                let (name, value) = match text.split_once('=') {
                    Some((name, value)) => (name.to_string(), Some(OsString::from(value))),
                    None => (text.into_owned(), None),
                };
                args.choose(command, &name, value, &mut given)?;
            }
        }
        args.test(command)?;
        Ok(args)
    }

    fn choose<'a>(
        &mut self,
        command: &Command,
        name: &str,
        value: Option<OsString>,
        rest: &mut impl Iterator<Item = &'a OsString>,
    ) -> Result<(), Failure> {
        let choices = || command.choices();
        let named = |choice: &&Choice| choice.name == name || choice.short == Some(name);
        let Some(choice) = choices().find(named) else {
            let known: Vec<&str> = choices().map(|choice| choice.name).collect();
            return Err(usage(
                command,
                &format!("there is no option `{name}`{}", hint(name, &known)),
            ));
        };
        let value = match (choice.value, value) {
            (None, None) => OsString::new(),
            (None, Some(_)) => {
                return Err(usage(command, &format!("`{}` takes no value", choice.name)));
            }
            (Some(_), Some(value)) => value,
            (Some(what), None) => match rest.next() {
                Some(value) => value.clone(),
                None => {
                    return Err(usage(
                        command,
                        &format!("`{}` lacks its {what}", choice.name),
                    ));
                }
            },
        };
        if self.value(choice.name).is_some() {
            return Err(usage(command, &format!("`{}` stands twice", choice.name)));
        }
        self.chosen.push((choice.name, value));
        Ok(())
    }

    fn test(&self, command: &Command) -> Result<(), Failure> {
        let count = self.operands.len();
        if self.has(HELP.name) {
            return Ok(());
        }
        if count < command.least || count > command.most {
            let what = if count < command.least {
                "too few"
            } else {
                "too many"
            };
            return Err(usage(command, &format!("{what} arguments")));
        }
        let chosen = self.chosen.iter().filter(|(name, _)| *name != OUTPUT.name);
        let files = self.operands.iter().chain(chosen.map(|(_, value)| value));
        if files.filter(|word| *word == "-").count() > 1 {
            return Err(usage(command, "standard input, `-`, can be read once only"));
        }
        Ok(())
    }

    pub fn wants_help(&self) -> bool {
        self.has(HELP.name)
    }

    pub fn has(&self, name: &str) -> bool {
        self.value(name).is_some()
    }

    pub fn value(&self, name: &str) -> Option<&OsStr> {
        let chosen = self.chosen.iter().find(|(chosen, _)| *chosen == name)?;
        Some(&chosen.1)
    }

    /// A value that is text.
    pub fn text(&self, name: &str) -> Option<String> {
        self.value(name)
            .map(|value| value.to_string_lossy().into_owned())
    }

    /// A value that is a whole number up to a most.
    pub fn number(&self, name: &str, most: u32) -> Result<Option<u32>, Failure> {
        let Some(text) = self.text(name) else {
            return Ok(None);
        };
        let number = crate::number::whole(&text).and_then(|number| u32::try_from(number).ok());
        match number.filter(|number| *number <= most) {
            Some(number) => Ok(Some(number)),
            None => Err(Failure::Usage(format!(
                "{name} takes a number from 0 to {most}, not `{text}`"
            ))),
        }
    }

    pub fn json(&self) -> bool {
        self.has(JSON.name)
    }

    pub fn output(&self) -> Option<&OsStr> {
        self.value(OUTPUT.name)
    }

    pub fn operand(&self, index: usize) -> Option<&OsStr> {
        self.operands.get(index).map(OsString::as_os_str)
    }

    /// Colours as the option says.
    pub fn paint(&self) -> Result<crate::terminal::Paint, Failure> {
        let when = self.text(COLOR.name).unwrap_or_else(|| "auto".to_string());
        let wrong = || Failure::Usage(format!("--color takes always, never or auto, not `{when}`"));
        let paint = crate::terminal::Paint::of(&when).ok_or_else(wrong)?;
        let to_file = self.output().is_some_and(|path| path != "-");
        Ok(crate::terminal::Paint(
            paint.0 && (when == "always" || !to_file),
        ))
    }
}

fn usage(command: &Command, message: &str) -> Failure {
    let name = command.name;
    Failure::Usage(format!(
        "{name}: {message}\nusage: {}\n`selector help {name}` says more",
        command.usage()
    ))
}

impl Command {
    fn choices(&self) -> impl Iterator<Item = &'static Choice> {
        self.choices.iter().copied().flatten().chain([&HELP])
    }

    /// How the command is called, on one line.
    pub fn usage(&self) -> String {
        let options = if self.choices.is_empty() {
            ""
        } else {
            " [OPTION..]"
        };
        format!(
            "selector {}{options}{}{}",
            self.name,
            if self.operands.is_empty() { "" } else { " " },
            self.operands
        )
    }

    /// All that is said of the command.
    pub fn help(&self) -> String {
        let mut text = format!(
            "usage: {}\n\n{}\n\n{}\n\noptions:\n",
            self.usage(),
            self.about,
            self.detail
        );
        for choice in self.choices() {
            let short = choice
                .short
                .map_or(String::new(), |short| format!("{short}, "));
            let value = choice
                .value
                .map_or(String::new(), |value| format!(" {value}"));
            let head = format!("{short}{}{value}", choice.name);
            text.push_str(&format!("  {head:22} {}\n", choice.about));
        }
        text
    }
}

#[cfg(test)]
mod tests {
    use super::*;

    const COMMAND: Command = Command {
        name: "try",
        operands: "ONE [TWO]",
        about: "",
        detail: "",
        choices: &[&[OUTPUT, JSON], &[COLOR]],
        least: 1,
        most: 2,
        run: |_| Ok(()),
    };

    fn parse(words: &[&str]) -> Result<Args, String> {
        let words: Vec<OsString> = words.iter().map(OsString::from).collect();
        Args::parse(&COMMAND, &words).map_err(|failure| failure.text())
    }

    #[test]
    fn words() {
        let args = parse(&["one", "-o", "file", "--json", "-"]).unwrap();
        assert_eq!(args.operands, ["one", "-"]);
        assert_eq!(args.output(), Some(OsStr::new("file")));
        assert!(args.json() && !args.wants_help());
        let args = parse(&["--output=a=b", "--", "--json"]).unwrap();
        assert_eq!(args.operands, ["--json"]);
        assert_eq!(args.output(), Some(OsStr::new("a=b")));
        assert!(!args.json());
        assert!(parse(&["--help"]).unwrap().wants_help());
    }

    #[test]
    fn wrong_words() {
        for (words, part) in [
            (&[][..], "too few arguments"),
            (&["1", "2", "3"][..], "too many arguments"),
            (&["-", "-"][..], "can be read once only"),
            (&["1", "--jsno"][..], "did you mean `--json`"),
            (&["1", "--json=1"][..], "takes no value"),
            (&["1", "-o"][..], "lacks its FILE"),
            (&["1", "--json", "--json"][..], "stands twice"),
        ] {
            let error = parse(words).unwrap_err();
            assert!(error.contains(part), "{error}");
            assert!(error.contains("usage: selector try [OPTION..] ONE [TWO]"));
        }
    }

    #[test]
    fn help_names_every_option() {
        let help = COMMAND.help();
        for name in ["-o, --output FILE", "--json", "--color WHEN", "-h, --help"] {
            assert!(help.contains(name), "{help}");
        }
    }
}
