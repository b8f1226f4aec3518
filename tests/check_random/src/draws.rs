// Random calls of all kinds, on so few nodes, storages and blocks that most of them change
// something.

use bm_base::{BlockId, Call, Entry, Event, Gen, Items, NodeId, Rack, Remaining, Stamp, StorageId};
use rand::RngExt;
use rand_pcg::Pcg32;
use std::alloc::{AllocError, Global};

/// Nodes 1 to 6, on racks 0 to 2.
const NODES: u32 = 6;

const RACKS: u32 = 3;

/// Each node has up to two storages; those of node 3 are 31 and 32.
const STORAGES_OF_A_NODE: u32 = 2;

/// Blocks 0 to 29.
const BLOCKS: u32 = 30;

/// A round, a query or an event.
pub fn call(rng: &mut Pcg32, alloc: Global) -> Result<Call, AllocError> {
    match rng.random_range(0..10u32) {
        0 => Ok(Call::Round),
        1 => Ok(question(rng)),
        _ => Ok(Call::Apply(event(rng, alloc)?)),
    }
}

fn question(rng: &mut Pcg32) -> Call {
    match rng.random_range(0..10u32) {
        0 => Call::Replicas,
        1 => Call::Corrupt,
        2 => Call::Excess,
        3 => Call::Missing,
        4 => Call::BlocksOn(storage(rng)),
        5 => Call::Places(block(rng)),
        6 => Call::LevelOf(block(rng)),
        7 => Call::Retired(node(rng)),
        8 => Call::Calls,
        _ => Call::Rounds,
    }
}

/// An event. Those that add nodes, blocks and replicas are drawn more often than the others.
fn event(rng: &mut Pcg32, alloc: Global) -> Result<Event, AllocError> {
    match rng.random_range(0..40u32) {
        0..=5 => register(rng, alloc),
        6..=8 => heartbeat(rng, alloc),
        9..=10 => report(rng, alloc),
        11 => Ok(Event::Dead { node: node(rng) }),
        12 => Ok(Event::StorageFailed {
            storage: storage(rng),
        }),
        13 => Ok(Event::Drain { node: node(rng) }),
        14 => Ok(Event::Undrain { node: node(rng) }),
        _ => Ok(block_event(rng)),
    }
}

/// An event on one block.
fn block_event(rng: &mut Pcg32) -> Event {
    let id = block(rng);
    match rng.random_range(0..20u32) {
        0..=4 => Event::AddBlock {
            id,
            stamp: stamp(rng),
            repl: rng.random_range(0..5),
        },
        5 => Event::DeleteBlock { id },
        6..=7 => Event::SetReplication {
            id,
            repl: rng.random_range(0..5),
        },
        8..=9 => Event::Restamp {
            id,
            stamp: of_generation(rng.random_range(0..4)),
        },
        10..=11 => Event::Deleted {
            storage: storage(rng),
            id,
        },
        12 => Event::Corrupt {
            storage: storage(rng),
            id,
        },
        _ => Event::Received {
            storage: storage(rng),
            id,
            stamp: stamp(rng),
        },
    }
}

/// A node with its two storages and, once in four times, any other storage too.
fn register(rng: &mut Pcg32, alloc: Global) -> Result<Event, AllocError> {
    let node = node(rng);
    let mut storages = Vec::new(alloc);
    for place in 0..STORAGES_OF_A_NODE {
        storages.push(storage_of(node, place))?;
    }
    if rng.random_range(0..4u32) == 0 {
        storages.push(storage(rng))?;
    }
    Ok(Event::Register {
        node,
        rack: Rack(rng.random_range(0..RACKS)),
        storages: Items::from_vec(storages),
    })
}

/// The remaining bytes of a storage of the node or, once in four times, of any storage.
fn heartbeat(rng: &mut Pcg32, alloc: Global) -> Result<Event, AllocError> {
    let node = node(rng);
    let own = storage_of(node, rng.random_range(0..STORAGES_OF_A_NODE));
    let storage = if rng.random_range(0..4u32) == 0 {
        storage(rng)
    } else {
        own
    };
    let mut remaining = Vec::new(alloc);
    remaining.push(Remaining {
        storage,
        remaining: u64::from(rng.random_range(0..100u32)),
    })?;
    Ok(Event::Heartbeat {
        node,
        remaining: Items::from_vec(remaining),
    })
}

/// A report of up to four runs of up to eight blocks.
fn report(rng: &mut Pcg32, alloc: Global) -> Result<Event, AllocError> {
    let storage = storage(rng);
    let mut entries = Vec::new(alloc);
    for _ in 0..rng.random_range(0..5u32) {
        let from = block(rng);
        entries.push(Entry {
            from,
            to: BlockId(from.0.saturating_add(u64::from(rng.random_range(0..8u32)))),
            stamp: stamp(rng),
        })?;
    }
    Ok(Event::FullReport {
        storage,
        entries: Items::from_vec(entries),
    })
}

fn node(rng: &mut Pcg32) -> NodeId {
    NodeId(rng.random_range(0..NODES).wrapping_add(1))
}

fn storage(rng: &mut Pcg32) -> StorageId {
    let node = node(rng);
    storage_of(node, rng.random_range(0..STORAGES_OF_A_NODE))
}

fn storage_of(node: NodeId, place: u32) -> StorageId {
    StorageId(node.0.wrapping_mul(10).wrapping_add(place).wrapping_add(1))
}

/// Any of the blocks.
pub fn block(rng: &mut Pcg32) -> BlockId {
    BlockId(u64::from(rng.random_range(0..BLOCKS)))
}

/// A stamp, mostly of the first generation.
fn stamp(rng: &mut Pcg32) -> Stamp {
    of_generation(u32::from(rng.random_range(0..6u32) == 0))
}

/// The stamp `later` generations after the first.
fn of_generation(later: u32) -> Stamp {
    Stamp {
        generation: Gen(u64::from(later).saturating_add(1)),
        len: 10,
    }
}
