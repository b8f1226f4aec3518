// Calls and their answers.

use crate::marks::{OPEN, Window, begin_turn, end_turn};
use crate::short_calls::{ShortCall, call_of};
use crate::tally::Tally;
use bm_base::{Answer, Call, Refusal};
use bm_crew::NoGate;
use bm_manager::Manager;
use std::alloc::{AllocError, Global};
use std::sync::Wait;
use std::thread::Threads;

/// The kind of an answer.
#[derive(Clone, Copy, PartialEq, Eq)]
pub enum Outcome {
    WantsMemory,
    AsExpected,
    Other,
}

/// Makes the call while the window refuses an allocation.
fn answer<R: Eprint + Threads + Wait + Sync>(
    rt: &R,
    alloc: Global,
    manager: &mut Manager,
    short: ShortCall,
    window: &Window,
) -> Result<Answer, AllocError> {
    let call = call_of(alloc, short)?;
    begin_turn(rt, window);
    let answer = manager.answer(rt, &NoGate, &call);
    end_turn(rt, window);
    drop(call);
    Ok(answer)
}

/// Makes the call, and appends its answer as a line.
pub fn ask<R: Eprint + Threads + Wait + Sync>(
    rt: &R,
    alloc: Global,
    manager: &mut Manager,
    short: ShortCall,
    text: &mut String,
) -> Result<(), AllocError> {
    match answer(rt, alloc, manager, short, &OPEN) {
        Ok(answer) => write_and_drop(answer, text),
        Err(error) => Err(error),
    }
}

/// As [`ask`], for a call in its full form.
pub fn ask_full<R: Threads + Wait + Sync>(
    rt: &R,
    manager: &mut Manager,
    call: &Call,
    text: &mut String,
) -> Result<(), AllocError> {
    write_and_drop(manager.answer(rt, &NoGate, call), text)
}

/// Makes calls that must all be accepted.
pub fn make_all<R: Eprint + Threads + Wait + Sync>(
    rt: &R,
    alloc: Global,
    manager: &mut Manager,
    calls: &[ShortCall],
    tally: &mut Tally,
) {
    for short in calls {
        match answer(rt, alloc, manager, *short, &OPEN) {
            Ok(answer) => tally.require(refusal_in(answer)),
            Err(error) => tally.fail(Refusal::from(error)),
        }
    }
}

/// Makes the call while the window refuses an allocation, writes its answer to `text`, and compares
/// it.
pub fn compare<R: Eprint + Threads + Wait + Sync>(
    rt: &R,
    alloc: Global,
    manager: &mut Manager,
    short: ShortCall,
    expected: &str,
    text: &mut String,
    window: &Window,
) -> Outcome {
    match answer(rt, alloc, manager, short, window) {
        Ok(answer) => compare_and_drop(answer, expected, text),
        Err(_) => Outcome::Other,
    }
}

fn refusal_in(answer: Answer) -> Result<(), Refusal> {
    let refusal = match &answer {
        Answer::Refused(refusal) => Err(*refusal),
        _ => Ok(()),
    };
    drop(answer);
    refusal
}

fn write_and_drop(answer: Answer, text: &mut String) -> Result<(), AllocError> {
    let written = write_line(&answer, text);
    drop(answer);
    written
}

/// Appends the answer as a line.
pub fn write_line(answer: &Answer, text: &mut String) -> Result<(), AllocError> {
    write!(text, "{answer:?}\n")
}

fn compare_and_drop(answer: Answer, expected: &str, text: &mut String) -> Outcome {
    text.clear();
    let is_written = write!(text, "{answer:?}").is_ok();
    let is_out_of_memory = answer.is_out_of_memory();
    drop(answer);
    if is_out_of_memory {
        Outcome::WantsMemory
    } else if is_written && text.as_str() == expected {
        Outcome::AsExpected
    } else {
        Outcome::Other
    }
}
