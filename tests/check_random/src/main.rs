//! Compares managers by random calls.
//!
//! `check_random [CALLS [SEED]]` makes the same random calls on two managers, and compares each
//! answer. One has one shard and one worker; the other has random numbers of both. The calls come
//! in lists of 2,000, each on two new managers. Prints how many calls were answered alike.
//!
//! `check_random concurrent [TIMES [SEED]]` makes TIMES lists of 100 calls; the other manager has
//! five shards and four workers. It publishes after each call, and two threads read in parallel:
//! each read must be of a state that the manager with one shard and one worker had.
//!
//! The exit status is 1 in five cases:
//! - two answers differ;
//! - a read goes back, or is of no published version;
//! - memory is refused;
//! - an argument is no number;
//! - too little happened: too few accepted events of some kind, rounds with a command, lists that
//!   are not empty, or refusals. With readers, it is also too little if no reader went from one
//!   version to a later one, as when no thread can be started. This is not asked of fewer calls
//!   than a list has.
#![tactic(auto)]

mod concurrent_calls;
mod counts;
mod draws;
mod equality;
mod pair;
mod readers;

use bm_base::Refusal;
use std::alloc::Global;
use std::env::{self, Args};
use std::process::ExitCode;

const SEED: u64 = 20_260_123;

/// The standard number of lists with readers.
const TIMES: u32 = 200;

/// The command line: `count` calls, or `count` lists with readers, and the seed.
#[derive(Clone, Copy)]
struct Arguments {
    is_concurrent: bool,
    count: u32,
    seed: u64,
}

fn main(rt: HostRuntime) -> ExitCode {
    let Some(asked) = read_words(&rt) else {
        return ExitCode::FAILURE;
    };
    let Arguments { count, seed, .. } = asked;
    if asked.is_concurrent {
        let done = concurrent_calls::are_all_alike(&rt, &rt, count, seed);
        exit_code_of(&rt, done, count, "lists alike with concurrent readers")
    } else {
        let done = pair::are_all_alike(&rt, &rt, count, seed);
        exit_code_of(&rt, done, count, "calls alike")
    }
}

fn exit_code_of(rt: &HostRuntime, done: Result<bool, Refusal>, count: u32, what: &str) -> ExitCode {
    match done {
        Ok(true) => {
            let _ = println!(rt; "{count} {what}");
            ExitCode::SUCCESS
        }
        Ok(false) => ExitCode::FAILURE,
        Err(refusal) => {
            let _ = eprintln!(rt; "refused: {refusal}");
            ExitCode::FAILURE
        }
    }
}

/// Reads the command line. `None` if an argument is no number.
fn read_words(rt: &HostRuntime) -> Option<Arguments> {
    let mut words = env::args(rt).ok()?;
    let _program = words.next();
    read_all(&mut words)
}

fn read_all(words: &mut Args<Global>) -> Option<Arguments> {
    let first = words.next();
    let is_concurrent = is_concurrent(&first);
    let (word, otherwise) = if is_concurrent {
        (words.next(), TIMES)
    } else {
        (first, pair::LIST)
    };
    let count = parse_number(word, u64::from(otherwise))?;
    Some(Arguments {
        is_concurrent,
        count: u32::try_from(count).ok()?,
        seed: parse_number(words.next(), SEED)?,
    })
}

fn is_concurrent(word: &Option<String>) -> bool {
    matches!(word, Some(word) if word.as_str() == "concurrent")
}

/// The number that a word has; `otherwise` if there is no word.
fn parse_number(word: Option<String>, otherwise: u64) -> Option<u64> {
    match word {
        Some(word) => word.as_str().parse::<u64>().ok(),
        None => Some(otherwise),
    }
}
