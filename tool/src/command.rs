//! The commands.

mod build;
mod c_array;
mod check;
mod diff;
mod explain;
mod help;
mod make;
mod run;
mod show;

use crate::args::{Args, Command};
use crate::failure::Failure;
use crate::near::hint;
use std::ffi::OsString;
use std::io::Write;

/// Every command, in the order in which `selector help` names them.
pub const COMMANDS: &[Command] = &[
    make::LAYOUT,
    make::DEFAULTS,
    make::RECORD,
    show::COMMAND,
    build::COMMAND,
    check::COMMAND,
    run::COMMAND,
    diff::COMMAND,
    explain::COMMAND,
    c_array::COMMAND,
    help::COMMAND,
];

/// Runs the program with its arguments; the exit status.
pub fn main(given: &[OsString]) -> u8 {
    let json = given.iter().any(|word| word == "--json");
    let Err(failure) = dispatch(given) else {
        return 0;
    };
    match &failure {
        Failure::Refused(told) if json => {
            let written = crate::files::put_text(&format!("{}\n", told.json()), None);
            written
                .err()
                .map_or(failure.status(), |other| other.status())
        }
        _ => {
            // Where standard error can't be written either, the status is all that is left to say it.
            std::io::stderr().write_all(failure.text().as_bytes()).ok();
            failure.status()
        }
    }
}

fn dispatch(given: &[OsString]) -> Result<(), Failure> {
    let Some((first, rest)) = given.split_first() else {
        return Err(Failure::Usage(format!("no command\n{}", help::overview())));
    };
    let name = first.to_string_lossy();
    let name = match &*name {
        "--help" | "-h" => "help",
        "--version" | "-V" => {
            return crate::files::put_text(
                &format!("selector {}\n", env!("CARGO_PKG_VERSION")),
                None,
            );
        }
        name => name,
    };
    let Some(command) = find(name) else {
        let known: Vec<&str> = COMMANDS.iter().map(|command| command.name).collect();
        let message = format!(
            "there is no command `{name}`{}\n`selector help` lists them",
            hint(name, &known)
        );
        return Err(Failure::Usage(message));
    };
    let args = Args::parse(command, rest)?;
    match args.wants_help() {
        true => crate::files::put_text(&command.help(), None),
        false => (command.run)(&args),
    }
}

pub fn find(name: &str) -> Option<&'static Command> {
    COMMANDS.iter().find(|command| command.name == name)
}
