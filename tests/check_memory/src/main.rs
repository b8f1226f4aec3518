//! Four checks of how the library uses memory. The first argument names one of them; without it all
//! four run, one after the other.
//!
//! - `refused [TURNS]`: each call of a manager and of a view that takes memory, with one of its
//!   allocations refused. Each of the first `TURNS` allocations is refused in turn (1 by default).
//!   A refused call has changed no answer, and is accepted when it is made again.
//! - `without`: every call that takes no memory, on tables of all sizes from 1 to 130 entries, so
//!   that each capacity is once filled to its last entry.
//! - `limits`: calls at their limits, with ample memory. None of them is refused. One more of each
//!   is refused, but for another reason than memory.
//! - `long`: the same calls 2,000 to 20,000 times each, so that a memory leak shows.
//!
//! Standard output has the number of answers that are those worked out by hand. Lines on standard
//! error mark where the watched calls begin and end. A script runs this program with a library that
//! refuses allocations there, or counts the bytes that are held. Without that library all calls are
//! accepted.
#![tactic(auto)]

mod answers;
mod arenas;
mod bags;
mod bench;
mod block_events;
mod calls_in_turn;
mod calls_without_memory;
mod cases;
mod choices;
mod clusters;
mod crews;
mod events;
mod limits;
mod lists;
mod long_runs;
mod managers;
mod marks;
mod publication;
mod questions;
mod refused_allocations;
mod reports;
mod short_calls;
mod slots;
mod tally;
mod topologies;
mod transfers;
mod views;

use bench::Bench;
use bm_base::Refusal;
use std::env;
use std::process::ExitCode;
use std::rt::Runtime;
use std::sync::Wait;
use std::thread::Threads;

/// A check.
#[derive(Clone, Copy)]
enum Check {
    Refused,
    Without,
    Limits,
    Long,
}

static CHECKS: [(&str, Check); 4] = [
    ("refused", Check::Refused),
    ("without", Check::Without),
    ("limits", Check::Limits),
    ("long", Check::Long),
];

/// Ends with status 1 for unknown arguments, and if memory is refused outside the watched calls.
fn main(rt: HostRuntime) -> ExitCode {
    match Bench::new(rt.alloc()) {
        Ok(mut bench) => {
            run_by_arguments(&rt, &mut bench);
            let failure = bench.tally.failure;
            drop(bench);
            end(&rt, failure)
        }
        Err(refusal) => end(&rt, Some(refusal)),
    }
}

fn end(rt: &impl Eprint, failure: Option<Refusal>) -> ExitCode {
    match failure {
        Some(refusal) => {
            let _ = eprintln!(rt; "refused: {refusal}");
            ExitCode::FAILURE
        }
        None => ExitCode::SUCCESS,
    }
}

fn run_by_arguments<R: Runtime + AllocGlobal + Print + Eprint + Threads + Wait + Sync>(
    rt: &R,
    bench: &mut Bench,
) {
    match (argument(rt, 1), turns(rt)) {
        (Some(word), Some(turns)) => run_named(rt, bench, word.as_str(), turns),
        (None, Some(turns)) => run_named(rt, bench, "", turns),
        _ => bench.tally.fail(Refusal::BadConfig),
    }
}

fn turns<R: Runtime + AllocGlobal>(rt: &R) -> Option<u32> {
    match argument(rt, 2) {
        Some(word) => word.as_str().parse::<u32>().ok(),
        None => Some(1),
    }
}

fn argument<R: Runtime + AllocGlobal>(rt: &R, number: usize) -> Option<String> {
    env::args(rt).ok()?.skip(number).next()
}

/// Runs the check of this name, or if the name is empty all checks under headings.
fn run_named<R: Print + Eprint + Threads + Wait + Sync>(
    rt: &R,
    bench: &mut Bench,
    word: &str,
    turns: u32,
) {
    let mut is_known = false;
    for (name, check) in &CHECKS {
        if word.is_empty() {
            let _ = println!(rt; "== {name}");
        }
        if word.is_empty() || word == *name {
            run(rt, bench, *check, turns);
            is_known = true;
        }
    }
    if !is_known {
        bench.tally.fail(Refusal::BadConfig);
    }
}

fn run<R: Print + Eprint + Threads + Wait + Sync>(
    rt: &R,
    bench: &mut Bench,
    check: Check,
    turns: u32,
) {
    match check {
        Check::Refused => refused_allocations::run(rt, bench, turns),
        Check::Without => calls_without_memory::run(rt, bench),
        Check::Limits => limits::run(rt, bench),
        Check::Long => long_runs::run(rt, bench),
    }
}
