//! Replays lists of cases (crates/cases/stdin, compare/plain/vectors) on plain Rust alone. The exit status is 1 where
//! an answer differs.

use plain::hex::hex;
use plain::replay::{Answer, Case};
use std::collections::BTreeMap;
use std::process::ExitCode;
use std::{env, fs};

fn words(answer: &Answer) -> String {
    match answer {
        Ok(bytes) => format!("0 {}", hex(bytes)),
        Err(refusal) => format!("{} {}", refusal.number, refusal.place),
    }
}

/// How many cases there are of each call; those that differ are printed.
fn replay(path: &str, counts: &mut BTreeMap<&'static str, u64>) -> u64 {
    let text = fs::read_to_string(path).unwrap_or_else(|error| panic!("{path}: {error}"));
    let mut differences = 0;
    for (line, number) in text.lines().zip(1..) {
        let read = Case::read(line).unwrap_or_else(|_| panic!("{path}:{number}: no case"));
        let Some((case, due)) = read else {
            continue;
        };
        *counts.entry(case.call()).or_default() += 1;
        let given = case.answer();
        if given != due {
            differences += 1;
            let (given, due) = (words(&given), words(&due));
            println!("{path}:{number}: {given} given, {due} due: {line}");
        }
    }
    differences
}

fn main() -> ExitCode {
    let mut counts = BTreeMap::new();
    let lists = env::args().skip(1);
    let differences: u64 = lists.map(|path| replay(&path, &mut counts)).sum();
    println!("{counts:?}, {differences} differ");
    match differences {
        0 => ExitCode::SUCCESS,
        _ => ExitCode::FAILURE,
    }
}
