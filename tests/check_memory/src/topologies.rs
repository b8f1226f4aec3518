// Events for topologies.

use crate::events::register;
use crate::tally::Tally;
use bm_base::{Event, Refusal};
use bm_topo::Topology;
use std::alloc::{AllocError, Global};

/// Applies an event, from its check to its commit.
pub fn take(topology: &mut Topology, event: &Event) -> Result<(), Refusal> {
    topology.check(event)?;
    topology.prepare(event)?;
    topology.commit(event);
    Ok(())
}

pub fn take_owned(topology: &mut Topology, event: Event) -> Result<(), Refusal> {
    let taken = take(topology, &event);
    drop(event);
    taken
}

pub fn take_made(topology: &mut Topology, made: Result<Event, AllocError>, tally: &mut Tally) {
    match made {
        Ok(event) => tally.require(take_owned(topology, event)),
        Err(error) => tally.fail(Refusal::from(error)),
    }
}

/// Checks, prepares and aborts an event: the capacity stays.
pub fn prepare(topology: &mut Topology, event: &Event) -> Result<(), Refusal> {
    topology.check(event)?;
    topology.prepare(event)?;
    topology.abort();
    Ok(())
}

/// The nodes below `count` join, each on the rack and with the storage of its own number.
pub fn join_all(topology: &mut Topology, alloc: Global, count: u32, tally: &mut Tally) {
    for number in 0..count {
        let made = register(alloc, number, number, number, 1);
        take_made(topology, made, tally);
    }
}
