// Clusters of all sizes: each node is on the rack of its own number, and has the storage of that
// number.

use crate::events::{FREE, heartbeat, register};
use crate::marks::say;
use crate::tally::Tally;
use crate::topologies::{join_all, prepare, take, take_owned};
use bm_base::{Event, NodeId, Rack, Refusal, StorageId};
use bm_topo::Topology;
use std::alloc::{AllocError, Global};

/// Before the windows, the events with lists are made, and all nodes but the last one join.
pub fn watch<R: Eprint>(
    rt: &R,
    alloc: Global,
    topology: &mut Topology,
    size: u32,
    tally: &mut Tally,
) {
    join_all(topology, alloc, size.saturating_sub(1), tally);
    let mut events = Vec::new(alloc);
    make_events(alloc, &mut events, size, tally);
    if let (Some(last), Some(next), Some(beats)) = (events.get(0), events.get(1), events.get(2)) {
        open_windows(rt, topology, size, last, next, beats, tally);
    }
    drop(events);
}

/// The last node joins, one more node joins, and the last one sends a heartbeat.
fn make_events(alloc: Global, events: &mut Vec<Event>, size: u32, tally: &mut Tally) {
    let number = size.saturating_sub(1);
    tally.require(add(events, register(alloc, number, number, number, 1)));
    tally.require(add(events, register(alloc, size, size, size, 1)));
    tally.require(add(events, heartbeat(alloc, number, number, 1)));
}

fn add(events: &mut Vec<Event>, made: Result<Event, AllocError>) -> Result<(), Refusal> {
    match made {
        Ok(event) => Ok(events.push(event)?),
        Err(error) => Err(Refusal::from(error)),
    }
}

fn open_windows<R: Eprint>(
    rt: &R,
    topology: &mut Topology,
    size: u32,
    last: &Event,
    next: &Event,
    beats: &Event,
    tally: &mut Tally,
) {
    tally.require(prepare(topology, last));
    say(rt, "begun", "registration");
    tally.note(take(topology, last).is_ok());
    say(rt, "ended", "registration");
    tally.require(prepare_to_drain(topology, size.saturating_sub(1)));
    say(rt, "begun", "control");
    tally.refuse_if(prepare(topology, next).is_err());
    say(rt, "ended", "control");
    say(rt, "begun", "cluster");
    make_calls(topology, size, last, beats, tally);
    say(rt, "ended", "cluster");
}

fn make_calls(topology: &mut Topology, size: u32, last: &Event, beats: &Event, tally: &mut Tally) {
    let number = size.saturating_sub(1);
    tally.note(take(topology, last) == Err(Refusal::NodeKnown));
    look_up_all(topology, size, tally);
    drain_and_stay(topology, number, tally);
    tally.note(take(topology, beats).is_ok());
    tally.note(topology.remaining(StorageId(number)) == Some(FREE));
    lose_all(topology, size, tally);
}

fn prepare_to_drain(topology: &mut Topology, number: u32) -> Result<(), Refusal> {
    let drains = Event::Drain {
        node: NodeId(number),
    };
    let prepared = prepare(topology, &drains);
    drop(drains);
    prepared
}

fn look_up_all(topology: &Topology, size: u32, tally: &mut Tally) {
    tally.note(topology.alive_nodes() == size);
    tally.note(topology.storage_count() == size);
    tally.note(topology.multi_rack() == (size > 1));
    tally.note(is_multi_rack_after_death(topology) == (size > 2));
    for number in 0..size {
        look_up(topology, number, tally);
    }
}

fn is_multi_rack_after_death(topology: &Topology) -> bool {
    let dies = Event::Dead { node: NodeId(0) };
    let is_multi = topology.multi_after(&dies);
    drop(dies);
    is_multi
}

fn look_up(topology: &Topology, number: u32, tally: &mut Tally) {
    let storage = StorageId(number);
    tally.note(topology.node_of(storage) == Some(NodeId(number)));
    tally.note(topology.rack_of(storage) == Some(Rack(number)));
    tally.note(topology.remaining(storage) == Some(0));
    tally.note(topology.storage_at(number) == Some(storage));
    tally.note(topology.node_at(number) == Some(NodeId(number)));
    tally.note(topology.node_drains(NodeId(number)) == Some(topology.is_draining(storage)));
}

/// A node drains, with the capacity that was prepared, and then stops draining.
fn drain_and_stay(topology: &mut Topology, number: u32, tally: &mut Tally) {
    let node = NodeId(number);
    tally.note(take_owned(topology, Event::Drain { node }).is_ok());
    tally.note(topology.node_drains(node) == Some(true));
    tally.note(topology.is_draining(StorageId(number)));
    tally.note(take_owned(topology, Event::Undrain { node }).is_ok());
    tally.note(topology.node_drains(node) == Some(false));
}

/// Each storage fails, and its node dies.
fn lose_all(topology: &mut Topology, size: u32, tally: &mut Tally) {
    for number in 0..size {
        let storage = StorageId(number);
        tally.note(take_owned(topology, Event::StorageFailed { storage }).is_ok());
        let node = NodeId(number);
        tally.note(take_owned(topology, Event::Dead { node }).is_ok());
    }
    tally.note(topology.alive_nodes() == 0 && topology.storage_count() == 0);
}
