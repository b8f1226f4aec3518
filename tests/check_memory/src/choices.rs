// The choices of a round on clusters of all sizes, and the transfers that they count.

use crate::events::heartbeat;
use crate::marks::say;
use crate::tally::Tally;
use crate::topologies::{join_all, take_made};
use bm_base::{Level, Refusal, StorageId};
use bm_place::{Scheduled, Streams, least_source, least_target};
use bm_topo::Topology;
use std::alloc::{AllocError, Global};

const LENGTH: u64 = 10;

pub fn watch<R: Eprint>(
    rt: &R,
    alloc: Global,
    topology: &mut Topology,
    size: u32,
    tally: &mut Tally,
) -> Result<(), Refusal> {
    join_all(topology, alloc, size, tally);
    beat_all(topology, alloc, size, tally);
    let live = live_storages(alloc, size)?;
    let chosen = choose_with_streams(rt, alloc, live.as_slice(), topology, tally);
    tally.require(chosen);
    drop(live);
    say(rt, "begun", "control");
    tally.refuse_if(Streams::new(alloc, topology).is_err());
    say(rt, "ended", "control");
    Ok(())
}

fn live_storages(alloc: Global, size: u32) -> Result<Vec<StorageId>, AllocError> {
    let mut live = Vec::new(alloc);
    for number in 0..size {
        live.push(StorageId(number))?;
    }
    Ok(live)
}

/// A heartbeat of each node.
fn beat_all(topology: &mut Topology, alloc: Global, size: u32, tally: &mut Tally) {
    for number in 0..size {
        let made = heartbeat(alloc, number, number, 1);
        take_made(topology, made, tally);
    }
}

/// Makes the table of the sources.
fn choose_with_streams<R: Eprint>(
    rt: &R,
    alloc: Global,
    live: &[StorageId],
    topology: &Topology,
    tally: &mut Tally,
) -> Result<(), Refusal> {
    let mut streams = Streams::new(alloc, topology)?;
    choose(rt, alloc, live, topology, &mut streams, tally)
}

/// Makes the table of the targets, and chooses with both tables.
fn choose<R: Eprint>(
    rt: &R,
    alloc: Global,
    live: &[StorageId],
    topology: &Topology,
    streams: &mut Streams<'_>,
    tally: &mut Tally,
) -> Result<(), Refusal> {
    let mut scheduled = Scheduled::new(alloc, topology)?;
    say(rt, "begun", "choices");
    choose_sources(live, topology, streams, tally);
    choose_targets(live, topology, &mut scheduled, tally);
    say(rt, "ended", "choices");
    Ok(())
}

/// The first storage is the source, and then the next one, if there is one.
fn choose_sources(
    live: &[StorageId],
    topology: &Topology,
    streams: &mut Streams<'_>,
    tally: &mut Tally,
) {
    let first = least_source(live, Level::Highest, topology, streams);
    tally.note(first == Some(StorageId(0)));
    if let Some(source) = first {
        streams.add(source);
    }
    let second = least_source(live, Level::Highest, topology, streams);
    let expected = if live.len() > 1 { 1 } else { 0 };
    tally.note(second == Some(StorageId(expected)));
}

/// Copies of a block on storage 0 go to storage 1, and then to one with more free bytes, if there
/// is one.
fn choose_targets(
    live: &[StorageId],
    topology: &Topology,
    scheduled: &mut Scheduled<'_>,
    tally: &mut Tally,
) {
    let held = [StorageId(0)];
    let held = held.as_slice();
    let first = least_target(held, held, LENGTH, Level::Highest, topology, scheduled);
    tally.note(first == live.get(1).copied());
    if let Some(target) = first {
        scheduled.add(target, LENGTH);
    }
    let second = least_target(held, held, LENGTH, Level::Highest, topology, scheduled);
    let expected = if live.len() > 2 { 2 } else { 1 };
    tally.note(second == live.get(expected).copied());
}
