// Managers of all sizes: one node with a storage for each block, and a replica of each block on the
// storage of its number. They have one shard, so that all tables have one size, or five, so that an
// event on a block goes to one of them.

use crate::bench::Bench;
use crate::events::{block, heartbeat, register, stamp};
use crate::managers::{apply, apply_made, require};
use crate::marks::say;
use crate::tally::Tally;
use bm_base::{Done, Event, Level, NodeId, Refusal, StorageId};
use bm_manager::Manager;
use std::alloc::Global;
use std::sync::Wait;
use std::thread::Threads;

const NOTHING: Done = Done {
    added: 0,
    removed: 0,
};

const ONE_GONE: Done = Done {
    added: 0,
    removed: 1,
};

pub fn watch<R: Eprint + Threads + Wait + Sync>(rt: &R, bench: &mut Bench, size: u32) {
    bench.renew_manager(1, 1);
    watch_filled(rt, bench.alloc, &mut bench.manager, size, &mut bench.tally);
    bench.renew_manager(5, 4);
    watch_filled(rt, bench.alloc, &mut bench.manager, size, &mut bench.tally);
}

/// The node and all replicas are added before the windows.
fn watch_filled<R: Eprint + Threads + Wait + Sync>(
    rt: &R,
    alloc: Global,
    manager: &mut Manager,
    size: u32,
    tally: &mut Tally,
) {
    fill(rt, alloc, manager, size, tally);
    match heartbeat(alloc, 1, 0, size) {
        Ok(beats) => open_windows(rt, manager, size, beats, tally),
        Err(error) => tally.fail(Refusal::from(error)),
    }
}

fn open_windows<R: Eprint + Threads + Wait + Sync>(
    rt: &R,
    manager: &mut Manager,
    size: u32,
    beats: Event,
    tally: &mut Tally,
) {
    say(rt, "begun", "control");
    tally.refuse_if(apply(rt, manager, add_block(size)) == Err(Refusal::Memory));
    say(rt, "ended", "control");
    let before = manager.calls();
    say(rt, "begun", "manager");
    tally.note(apply(rt, manager, beats) == Ok(NOTHING));
    for number in 0..size {
        make_calls(rt, manager, number, tally);
    }
    tally.note(manager.calls().saturating_sub(before) == 1 + 5 * u64::from(size));
    tally.note(manager.rounds() == 0);
    say(rt, "ended", "manager");
}

fn fill<R: Threads + Wait + Sync>(
    rt: &R,
    alloc: Global,
    manager: &mut Manager,
    size: u32,
    tally: &mut Tally,
) {
    require(
        apply_made(rt, manager, register(alloc, 1, 1, 0, size)),
        tally,
    );
    for number in 0..size {
        require(apply(rt, manager, add_block(number)), tally);
        require(apply(rt, manager, received_event(number)), tally);
    }
}

/// The five events of a block that take no memory, and between them two questions: its level, and
/// whether its node is retired.
fn make_calls<R: Threads + Wait + Sync>(
    rt: &R,
    manager: &mut Manager,
    number: u32,
    tally: &mut Tally,
) {
    let id = block(number);
    let storage = StorageId(number);
    let stamp = stamp(2);
    let repl = 3;
    tally.note(apply(rt, manager, Event::SetReplication { id, repl }) == Ok(NOTHING));
    tally.note(apply(rt, manager, Event::Restamp { id, stamp }) == Ok(NOTHING));
    tally.note(manager.level(id) == Ok(Some(Level::NoUsableReplica)));
    tally.note(manager.retired(NodeId(1)) == Ok(false));
    tally.note(apply(rt, manager, Event::Corrupt { storage, id }) == Ok(NOTHING));
    tally.note(apply(rt, manager, Event::Deleted { storage, id }) == Ok(ONE_GONE));
    tally.note(apply(rt, manager, Event::DeleteBlock { id }) == Ok(NOTHING));
}

fn add_block(number: u32) -> Event {
    Event::AddBlock {
        id: block(number),
        stamp: stamp(1),
        repl: 2,
    }
}

fn received_event(number: u32) -> Event {
    Event::Received {
        storage: StorageId(number),
        id: block(number),
        stamp: stamp(1),
    }
}
