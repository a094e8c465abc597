//! `help`: how to use the program, or a command of it.

use super::{COMMANDS, find};
use crate::args::{Args, Command};
use crate::failure::Failure;
use crate::files;
use crate::lists;
use crate::near::hint;

pub const COMMAND: Command = Command {
    name: "help",
    operands: "[COMMAND | policy]",
    about: "Says how to use a command, or lists the policy flags.",
    detail: "`selector COMMAND --help` says the same.",
    choices: &[],
    least: 0,
    most: 1,
    run,
};

fn run(args: &Args) -> Result<(), Failure> {
    let text = match args.operand(0).map(|word| word.to_string_lossy()) {
        None => overview(),
        Some(word) if word == "policy" => policy(),
        Some(word) => match find(&word) {
            Some(command) => command.help(),
            None => {
                let known: Vec<&str> = COMMANDS
                    .iter()
                    .map(|command| command.name)
                    .chain(["policy"])
                    .collect();
                return Err(Failure::Usage(format!(
                    "there is no command `{word}`{}",
                    hint(&word, &known)
                )));
            }
        },
    };
    files::put_text(&text, None)
}

pub fn overview() -> String {
    let mut text = String::from("usage: selector COMMAND [OPTION..] FILE..\n\ncommands:\n");
    for command in COMMANDS {
        text.push_str(&format!("  {:9} {}\n", command.name, command.about));
    }
    text.push_str(
        "\n`selector help COMMAND` says more, `selector help policy` lists the flags of a policy. Files that\n\
         hold layouts, tables or records are bytes or text (docs/TEXT.md); `-` is standard input. The exit\n\
         status is 0 where all is well, 1 where the library refused, 2 on wrong usage or where a file is\n\
         missing, can't be read or is no text of the form.\n",
    );
    text
}

fn policy() -> String {
    let mut text = String::from(
        "A policy is `all`, `none`, a number, and flags by name, between commas; `-NAME` takes one away,\n\
         at the start from all.\n\n",
    );
    for flag in lists::flags() {
        text.push_str(&format!(
            "{:>3}  {:31} {} (off: refusal {})\n",
            flag.bit, flag.name, flag.allows, flag.off
        ));
    }
    text
}
