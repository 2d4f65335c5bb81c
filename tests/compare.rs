//! Compares the second implementation with the library, and with the program where its command is given.
//!
//!     compare [--wrong NAME] SEED COUNT [PROGRAM-COMMAND...]
//!     compare [--wrong NAME] --case CASE-SEED [PROGRAM-COMMAND...]

mod cases;
mod checks;
mod counts;
mod damage;
mod lent;
mod library;
mod paper;
mod program;
mod random;
mod second;

use counts::Counts;
use lent::Mismatch;
use program::Program;
use std::process::ExitCode;
use std::sync::atomic::{AtomicU64, Ordering};
use std::sync::Mutex;
use std::time::Instant;

const THREADS: u64 = 2;

/// The first case that differs.
struct Found {
    index: u64,
    seed: u64,
    mismatch: Mismatch,
}

fn main() -> ExitCode {
    let mut arguments: Vec<String> = std::env::args().skip(1).collect();
    let mut wrong = false;
    if arguments.first().is_some_and(|first| first == "--wrong") {
        let name = arguments.get(1).map_or("", |name| name);
        if !choose(name) {
            return ExitCode::from(2);
        }
        arguments.drain(..2);
        wrong = true;
    }
    let number = |place: usize| arguments.get(place).and_then(|text| text.parse().ok());
    if arguments.first().is_some_and(|first| first == "--case") {
        let Some(seed) = number(1) else {
            return usage();
        };
        return alone(seed, &arguments[2..]);
    }
    let (Some(seed), Some(count)) = (number(0), number(1)) else {
        return usage();
    };
    let command = &arguments[2..];
    // An error that was built in is to be found by the seeded cases, so the paper's are left out.
    if !wrong {
        if let Err(mismatch) = paper(command) {
            return report(&mismatch);
        }
    }
    run(seed, count, command)
}

fn usage() -> ExitCode {
    eprintln!("compare [--wrong NAME] SEED COUNT [PROGRAM-COMMAND...]");
    eprintln!("compare [--wrong NAME] --case CASE-SEED [PROGRAM-COMMAND...]");
    ExitCode::from(2)
}

#[cfg(wrong)]
fn choose(name: &str) -> bool {
    use second::wrong;
    let found = wrong::choose(name);
    if !found {
        let names: Vec<_> = wrong::names().collect();
        eprintln!("--wrong is one of {}", names.join(" "));
    }
    found
}

#[cfg(not(wrong))]
fn choose(_: &str) -> bool {
    eprintln!("--wrong needs a build with --cfg wrong");
    false
}

/// The program, where its command is given, with a folder for this thread.
fn program(command: &[String], thread: u64) -> Option<Program> {
    (!command.is_empty())
        .then(|| Program::new(command, thread).expect("a folder for temporary files"))
}

fn paper(command: &[String]) -> Result<(), Mismatch> {
    paper::check(&mut Counts::default(), program(command, 0).as_mut())
}

/// One case again, with no table.
fn alone(seed: u64, command: &[String]) -> ExitCode {
    match checks::case(seed, &mut Counts::default(), program(command, 0).as_mut()) {
        Ok(()) => {
            println!("the case agrees");
            ExitCode::SUCCESS
        }
        Err(mismatch) => report(&mismatch),
    }
}

fn report(mismatch: &Mismatch) -> ExitCode {
    println!("  {}", mismatch.what);
    println!("  second:  {}", mismatch.second);
    println!("  library: {}", mismatch.library);
    ExitCode::FAILURE
}

fn run(seed: u64, count: u64, command: &[String]) -> ExitCode {
    let begin = Instant::now();
    let total = Mutex::new(Counts::default());
    let found: Mutex<Option<Found>> = Mutex::new(None);
    // The lowest case that differs so far; none past it is of interest.
    let lowest = AtomicU64::new(u64::MAX);
    std::thread::scope(|scope| {
        for thread in 0..THREADS {
            let (total, found, lowest) = (&total, &found, &lowest);
            scope.spawn(move || {
                let mut counts = Counts::default();
                let mut program = program(command, thread);
                for index in (thread..count).step_by(THREADS as usize) {
                    if index > lowest.load(Ordering::Relaxed) {
                        break;
                    }
                    let seed = random::case_seed(seed, index);
                    if let Err(mismatch) = checks::case(seed, &mut counts, program.as_mut()) {
                        lowest.fetch_min(index, Ordering::Relaxed);
                        let mut found = found.lock().unwrap();
                        if found.as_ref().is_none_or(|other| index < other.index) {
                            *found = Some(Found {
                                index,
                                seed,
                                mismatch,
                            });
                        }
                        break;
                    }
                }
                total.lock().unwrap().add(&counts);
            });
        }
    });
    if let Some(found) = found.into_inner().unwrap() {
        let Found { index, seed, .. } = found;
        println!("case {index} differs; again alone: compare --case {seed}");
        return report(&found.mismatch);
    }
    let missing = total.into_inner().unwrap().table(!command.is_empty());
    if !missing.is_empty() {
        println!("never reached: {}", missing.join("; "));
        return ExitCode::FAILURE;
    }
    println!("{:.1} s", begin.elapsed().as_secs_f64());
    println!("{count} cases agree");
    ExitCode::SUCCESS
}
