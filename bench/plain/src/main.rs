//! Measures a manager, or answers calls by the plain one.

mod calls;
#[cfg(feature = "library")]
mod library;
mod measure;
mod measured;

use measured::Measured;
use plain::lists::{Linked, Vectors};
use plain::manager::Manager;
use std::env;
use std::process::ExitCode;

const USAGE: &str = "usage: plain manager|memory COUNT vector|linked-ahead|library
       plain calls vector|linked-ahead WORK INVALIDATE PEND
`library` is there if the program was built with --features library.";

fn measure<M: Measured>(what: &str, count: &str) -> Option<()> {
    let blocks = count.parse().ok()?;
    match what {
        "manager" => measure::calls::<M>(blocks),
        "memory" => measure::memory::<M>(blocks),
        _ => return None,
    }
    Some(())
}

fn run(words: &[&str]) -> Option<()> {
    match words {
        [what, count, "vector"] => measure::<Manager<Vectors>>(what, count)?,
        [what, count, "linked-ahead"] => measure::<Manager<Linked>>(what, count)?,
        #[cfg(feature = "library")]
        [what, count, "library"] => measure::<puljemrod::Manager>(what, count)?,
        ["calls", "vector", limits @ ..] => calls::answer::<Vectors>(limits)?,
        ["calls", "linked-ahead", limits @ ..] => calls::answer::<Linked>(limits)?,
        _ => return None,
    }
    Some(())
}

fn main() -> ExitCode {
    let words: Vec<String> = env::args().skip(1).collect();
    let words: Vec<&str> = words.iter().map(String::as_str).collect();
    match run(&words) {
        Some(()) => ExitCode::SUCCESS,
        None => {
            eprintln!("{USAGE}");
            ExitCode::from(2)
        }
    }
}
