//! Random, damaged and hand-made inputs to every call of the library, each answer held against plain Rust written from
//! document 01.
//!
//!     trial [--rounds N] [--seed S]
//!
//! Inputs end right before, or begin right after, a page that can't be read; so does the buffer, with guard bytes at
//! its other side. What must hold: the number and place, or the length and bytes, of a reading, check or run are those
//! of plain Rust; a refused call changes nothing of the buffer, an accepted one no byte after its result; a plan that
//! was built passes the check, and its run over a record gives the record due, which is worked out without the plan.
//!
//! A line tells of progress every few seconds; a table at the end has how often each call gave each answer. The exit
//! status is 1 where anything differed; the smallest such input is then printed, made smaller still by leaving out
//! bytes.

mod guard;
mod hard;
mod judge;
mod make;
mod tally;

use guard::Side;
use hard::Due;
use judge::{Answer, Difference, Judge, Trial};
use plain::random::Random;
use std::env;
use std::ffi::c_int;
use std::panic;
use std::process::{self, ExitCode};
use std::sync::Mutex;
use std::time::{Duration, Instant};

const USAGE: &str = "trial [--rounds N] [--seed S]";
const DEFAULT_ROUNDS: u64 = 80_000;
/// How many differences are told of at once.
const SHOWN: u64 = 20;
const PROGRESS: Duration = Duration::from_secs(10);

/// The trial under way, for the case that it ends the program.
static CURRENT: Mutex<Option<Trial>> = Mutex::new(None);

fn tell_current(what: &str) {
    if let Ok(current) = CURRENT.try_lock()
        && let Some(trial) = &*current
    {
        println!("{what}: {trial}");
    }
}

extern "C" fn fault(_: c_int) {
    tell_current("memory outside of the arguments was touched");
    process::exit(1);
}

/// Ends the program with the trial where memory is touched that can't be, and tells of it where plain Rust panics.
fn watch() {
    guard::on_fault(fault);
    let hook = panic::take_hook();
    panic::set_hook(Box::new(move |information| {
        tell_current("plain Rust panicked");
        hook(information);
    }));
}

fn options() -> Option<(u64, u64)> {
    let (mut rounds, mut seed) = (DEFAULT_ROUNDS, 1);
    let mut arguments = env::args().skip(1);
    while let Some(argument) = arguments.next() {
        let number = arguments.next()?.parse().ok()?;
        match argument.as_str() {
            "--rounds" => rounds = number,
            "--seed" => seed = number,
            _ => return None,
        }
    }
    Some((rounds, seed))
}

/// Trials that were judged, and the smallest of those that differ.
struct Session {
    judge: Judge,
    differences: u64,
    smallest: Option<(Trial, Difference)>,
}

impl Session {
    fn judged(&mut self, trial: &Trial, side: Side) -> Result<Answer, Difference> {
        *CURRENT.lock().unwrap() = Some(trial.clone());
        self.judge.judge(trial, side)
    }

    /// With what is known of its answer beforehand.
    fn one(&mut self, trial: Trial, due: Option<&Due>, side: Side) {
        let answer = self.judged(&trial, side);
        let Err(difference) = answer.and_then(|answer| due.map_or(Ok(()), |due| due.met(&answer)))
        else {
            return;
        };
        self.differences += 1;
        if self.differences <= SHOWN {
            println!(
                "{} of {} bytes: {difference}",
                trial.call.name(),
                trial.length()
            );
        }
        let smaller = |(smallest, _): &(Trial, Difference)| trial.length() < smallest.length();
        if self.smallest.as_ref().is_none_or(smaller) {
            self.smallest = Some((trial, difference));
        }
    }

    /// Leaves out bytes as long as the answers still differ.
    fn reduced(&mut self, trial: Trial, difference: Difference) -> (Trial, Difference) {
        let (mut trial, mut difference) = (trial, difference);
        let mut run = 1 << 12;
        while run > 0 {
            let mut changed = false;
            for input in 0..trial.inputs_mut().len() {
                let mut at = 0;
                while at < trial.inputs_mut()[input].len() {
                    let mut shorter = trial.clone();
                    let bytes = &mut *shorter.inputs_mut()[input];
                    bytes.drain(at..bytes.len().min(at + run));
                    match self.judged(&shorter, Side::End) {
                        Err(still) => {
                            (trial, difference) = (shorter, still);
                            changed = true;
                        }
                        Ok(_) => at += run,
                    }
                }
            }
            if !changed || run > 1 {
                run /= 2;
            }
        }
        (trial, difference)
    }
}

fn main() -> ExitCode {
    let Some((rounds, seed)) = options() else {
        eprintln!("{USAGE}");
        return ExitCode::from(2);
    };
    watch();
    let mut session = Session {
        judge: Judge::new(),
        differences: 0,
        smallest: None,
    };
    let start = Instant::now();

    let mut random = Random::new(seed);
    let hard = hard::trials(&mut random);
    let count = hard.len();
    for (trial, due) in hard {
        session.one(trial.clone(), Some(&due), Side::Start);
        session.one(trial, Some(&due), Side::End);
    }
    println!(
        "{count} trials made by hand, {:.1} s",
        start.elapsed().as_secs_f64()
    );

    let mut told = Instant::now();
    for round in 0..rounds {
        let side = if round % 2 == 0 {
            Side::End
        } else {
            Side::Start
        };
        session.one(make::trial(&mut random), None, side);
        if told.elapsed() > PROGRESS {
            told = Instant::now();
            let tally = session.judge.tally.line();
            println!(
                "{} rounds, accepted/refused: {tally}; {} differ",
                round + 1,
                session.differences
            );
        }
    }

    print!("{}", session.judge.tally);
    let unmet = session.judge.tally.unmet();
    if !unmet.is_empty() {
        println!("not met: {unmet:?}");
    }
    let (time, differences) = (start.elapsed().as_secs_f64(), session.differences);
    println!(
        "{count} trials made by hand and {rounds} rounds (seed {seed}) in {time:.0} s, {differences} differ"
    );
    match session.smallest.take() {
        None => ExitCode::SUCCESS,
        Some((trial, difference)) => {
            let (trial, difference) = session.reduced(trial, difference);
            println!("the smallest: {trial}\n  {difference}");
            ExitCode::FAILURE
        }
    }
}
