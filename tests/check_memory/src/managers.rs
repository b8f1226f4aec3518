// Events for managers.

use crate::tally::Tally;
use bm_base::{Config, Done, Event, Refusal};
use bm_crew::NoGate;
use bm_manager::Manager;
use std::alloc::AllocError;
use std::sync::Wait;
use std::thread::Threads;

pub fn config(shards: u32, workers: u32) -> Config {
    Config {
        shards,
        workers,
        ..Config::standard()
    }
}

/// Applies an event, and drops it.
pub fn apply<R: Threads + Wait + Sync>(
    rt: &R,
    manager: &mut Manager,
    event: Event,
) -> Result<Done, Refusal> {
    let done = manager.apply(rt, &NoGate, &event);
    drop(event);
    done
}

pub fn apply_made<R: Threads + Wait + Sync>(
    rt: &R,
    manager: &mut Manager,
    made: Result<Event, AllocError>,
) -> Result<Done, Refusal> {
    match made {
        Ok(event) => apply(rt, manager, event),
        Err(error) => Err(Refusal::from(error)),
    }
}

/// Notes a call that must be accepted, whatever it changed.
pub fn require(done: Result<Done, Refusal>, tally: &mut Tally) {
    if let Err(refusal) = done {
        tally.fail(refusal);
    }
}
