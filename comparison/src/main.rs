//! Compares the proved library and its program with an independent one, written from document 01.
//!
//!     cargo run --release -- [SECONDS]
//!
//! SECONDS bounds the random inputs, 40 if not said; src/library.rs says how the library is found. The status
//! is 0 if all is the same, every number of refusal was met and the same inputs tell every wrong variant of the
//! reference from the library; otherwise it is 1 and the last line says why.

mod comparison;
mod inputs;
mod library;
mod paper;
mod reference;
mod schedules;
mod stages;
#[cfg(test)]
mod tests;
mod theory;
mod wrong {
    include!(concat!(env!("OUT_DIR"), "/wrong.rs"));
}

use comparison::Comparison;
use library::Library;
use std::process::{exit, ExitCode};
use std::sync::mpsc::{self, RecvTimeoutError};
use std::thread;
use std::time::{Duration, Instant};
use wrong::WRONG;

/// How long past the bound a run may be under way before a call is held to run on.
const GRACE: Duration = Duration::from_secs(300);

fn main() -> ExitCode {
    match bound().and_then(compare) {
        Ok(()) => ExitCode::SUCCESS,
        Err(words) => {
            println!("{words}");
            ExitCode::FAILURE
        }
    }
}

fn bound() -> Result<Duration, String> {
    let seconds = match std::env::args().nth(1) {
        Some(word) => word.parse().map_err(|_| format!("not seconds: {word}"))?,
        None => 40,
    };
    Ok(Duration::from_secs(seconds))
}

/// The whole comparison; an error if something differs, a number was never met or a wrong variant is not found.
fn compare(bound: Duration) -> Result<(), String> {
    let began = Instant::now();
    let comparison = compared(bound)?;
    report(&comparison);
    if let Some(words) = comparison.difference() {
        return Err(format!("DIFFERENT: {words}"));
    }
    if let Some((call, number)) = comparison.unmet() {
        return Err(format!("NEVER MET: refusal {number} of {call}"));
    }
    let unfound = comparison.unfound();
    if !unfound.is_empty() {
        return Err(format!("NOT FOUND: {}", unfound.join(", ")));
    }
    println!("wrong     {:9} variants, all found", WRONG.len());
    println!("the same in {:.1} seconds", began.elapsed().as_secs_f32());
    Ok(())
}

/// All inputs compared. A call that doesn't come back ends the whole run.
fn compared(bound: Duration) -> Result<Comparison, String> {
    let (finished, waiting) = mpsc::channel::<()>();
    thread::spawn(move || {
        if waiting.recv_timeout(bound + GRACE) == Err(RecvTimeoutError::Timeout) {
            println!("RUNS ON: a call did not come back");
            exit(1);
        }
    });
    let mut comparison = Comparison::new(Library::start()?, &reference::CALLS, WRONG, bound);
    comparison.run(stages::ALL);
    drop(finished);
    Ok(comparison)
}

/// How many calls of each kind were compared, and which refusals they met how often.
fn report(comparison: &Comparison) {
    for (call, tally) in comparison.tallies() {
        let compared: u64 = tally.values().sum();
        print!("{call:9} {compared:9} calls compared, refusals met:");
        for (number, count) in tally.iter().filter(|(&number, _)| number > 0) {
            print!(" {number} ({count})");
        }
        println!();
    }
    println!("program   {:9} runs compared", comparison.programs);
    println!("schedules {:9} to their end", comparison.schedules);
}
