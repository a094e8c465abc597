//! The command `selector`.

use std::process::ExitCode;

fn main() -> ExitCode {
    let given: Vec<_> = std::env::args_os().skip(1).collect();
    ExitCode::from(selector_tool::command::main(&given))
}
