use compare::leaves;
use compare::oracle::{self, Answer, Aside};
use compare::statistics::Statistics;
use compare::{decimals, list, sample, vectors};
use plain::case::Case;
use plain::generate;
use plain::random::Random;
use std::collections::BTreeMap;
use std::env;
use std::fs;
use std::io::{self, Write};
use std::process::ExitCode;

const USAGE: &str = "\
compare oracle [--cases N] [--seed N] [--quiet]   generated cases with the original's answers, as lines
compare leaves [--all-flags] [--quiet]            the same for every pair of leaf kinds
compare compare [--cases N] [--seed N] [--all-flags]
                                                  these and the edges beside the library; built with --features library
compare bench                                     what the calls cost beside plain Rust; built with --features library
compare sample FILE [--seed N]                    writes the stored list
compare vectors FILE                              the original beside stored answers, one JSON object a line";

struct Options {
    words: Vec<String>,
    cases: u64,
    seed: u64,
    quiet: bool,
    all_flags: bool,
}

fn options() -> Option<Options> {
    let mut options = Options {
        words: Vec::new(),
        cases: 1_000_000,
        seed: 1,
        quiet: false,
        all_flags: false,
    };
    let mut arguments = env::args().skip(1);
    while let Some(argument) = arguments.next() {
        match argument.as_str() {
            "--cases" => options.cases = arguments.next()?.parse().ok()?,
            "--seed" => options.seed = arguments.next()?.parse().ok()?,
            "--quiet" => options.quiet = true,
            "--all-flags" => options.all_flags = true,
            _ => options.words.push(argument),
        }
    }
    Some(options)
}

/// Passes each case and its answer on, until so many were part of the comparison.
fn run(
    cases: impl Iterator<Item = Case>,
    limit: u64,
    mut each: impl FnMut(u64, &Case, &Answer),
) -> Statistics {
    let mut statistics = Statistics::default();
    for case in cases {
        if statistics.compared == limit {
            break;
        }
        let answer: Result<Answer, Aside> = oracle::answer(&case);
        statistics.add(case.number.is_some(), &answer);
        if let Ok(answer) = &answer {
            each(statistics.compared, &case, answer);
            if statistics.compared.is_multiple_of(100_000) {
                eprintln!("{} cases ..", statistics.compared);
            }
        }
    }
    statistics
}

fn generated(options: &Options) -> impl Iterator<Item = Case> {
    let mut random = Random::new(options.seed);
    std::iter::from_fn(move || Some(decimals::flag_off(generate::case(&mut random))))
}

fn leaf_pairs(options: &Options) -> impl Iterator<Item = Case> {
    leaves::cases(match options.all_flags {
        true => leaves::all_flags(),
        false => leaves::single_flags(),
    })
}

fn print(options: &Options, cases: impl Iterator<Item = Case>, limit: u64) -> ExitCode {
    let mut out = io::BufWriter::new(io::stdout().lock());
    let statistics = run(cases, limit, |_, case, answer| {
        if !options.quiet {
            let buffer = match answer {
                Answer::Plan(plan) => plan.len(),
                Answer::Refused { .. } => 0,
            };
            writeln!(out, "{}", list::line(case, buffer, answer)).unwrap();
        }
    });
    eprint!("{statistics}");
    ExitCode::SUCCESS
}

#[cfg(feature = "library")]
fn compare(options: &Options) -> ExitCode {
    use compare::library::Library;
    use compare::{beside, edges};

    let mut differences = 0u64;
    let mut each = |index: u64, case: &Case, answer: &Answer| {
        if let Err(difference) = beside::compare(&mut Library, index, case, answer) {
            differences += 1;
            if differences <= 20 {
                println!("{difference}");
            }
        }
    };
    let edges = run(edges::cases().into_iter(), u64::MAX, &mut each);
    let pairs = run(leaf_pairs(options), u64::MAX, &mut each);
    let layouts = run(generated(options), options.cases, &mut each);
    println!("edges: {edges}");
    println!("pairs of leaf kinds: {pairs}");
    println!("related layouts: {layouts}");
    println!("{differences} differences");
    match differences {
        0 => ExitCode::SUCCESS,
        _ => ExitCode::FAILURE,
    }
}

#[cfg(not(feature = "library"))]
fn compare(_: &Options) -> ExitCode {
    eprintln!("build with --features library to compare with the library");
    ExitCode::FAILURE
}

#[cfg(feature = "library")]
fn bench() -> ExitCode {
    match compare::bench::run() {
        Ok(()) => ExitCode::SUCCESS,
        Err(error) => {
            eprintln!("{error}");
            ExitCode::FAILURE
        }
    }
}

#[cfg(not(feature = "library"))]
fn bench() -> ExitCode {
    eprintln!("build with --features library to measure the library");
    ExitCode::FAILURE
}

const SAMPLE_HEAD: &str = "\
# Builds beside the original source: its answers, compiled unchanged, to cases at the edges of its rules, to
# pairs of leaf kinds and to generated layouts.
# compare/rust makes this file (`sample`) and says how. The form is that of crates/cases/stdin.
";

fn sample(path: &str, seed: u64) -> ExitCode {
    let lines = sample::lines(seed);
    let mut text = SAMPLE_HEAD.to_owned();
    for line in &lines {
        text += line;
        text += "\n";
    }
    fs::write(path, text).unwrap_or_else(|error| panic!("{path}: {error}"));
    eprintln!("{} lines", lines.len());
    ExitCode::SUCCESS
}

fn vectors(path: &str) -> ExitCode {
    let text = fs::read_to_string(path).unwrap_or_else(|error| panic!("{path}: {error}"));
    let outcome = vectors::run(path, &text);
    for (kind, count) in &outcome.agreed {
        println!("agreed    {count:4} {kind}");
    }
    for (kind, count) in &outcome.aside {
        println!("set aside {count:4} {kind}");
    }
    for line in &outcome.differed {
        println!("differed  {line}");
    }
    let sum = |counts: &BTreeMap<String, u64>| counts.values().sum::<u64>();
    let (agreed, aside) = (sum(&outcome.agreed), sum(&outcome.aside));
    let differed = outcome.differed.len();
    println!("{agreed} agreed, {aside} set aside, {differed} differed");
    match differed {
        0 => ExitCode::SUCCESS,
        _ => ExitCode::FAILURE,
    }
}

fn main() -> ExitCode {
    let Some(options) = options() else {
        eprintln!("{USAGE}");
        return ExitCode::FAILURE;
    };
    let words: Vec<&str> = options.words.iter().map(String::as_str).collect();
    match words.as_slice() {
        ["oracle"] => print(&options, generated(&options), options.cases),
        ["leaves"] => print(&options, leaf_pairs(&options), u64::MAX),
        ["compare"] => compare(&options),
        ["bench"] => bench(),
        ["sample", path] => sample(path, options.seed),
        ["vectors", path] => vectors(path),
        _ => {
            eprintln!("{USAGE}");
            ExitCode::FAILURE
        }
    }
}
