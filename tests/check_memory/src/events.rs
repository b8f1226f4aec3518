// Events with lists of consecutive numbers.

use bm_base::{BlockId, Entry, Event, Gen, Items, NodeId, Rack, Remaining, Stamp, StorageId};
use std::alloc::{AllocError, Global};

/// The free bytes of a storage after its heartbeat.
pub const FREE: u64 = 1000;

pub fn block(number: u32) -> BlockId {
    BlockId(u64::from(number))
}

pub fn stamp(generation: u64) -> Stamp {
    Stamp {
        generation: Gen(generation),
        len: 10,
    }
}

/// A node joins with `count` storages, of which `first` has the lowest number.
pub fn register(
    alloc: Global,
    node: u32,
    rack: u32,
    first: u32,
    count: u32,
) -> Result<Event, AllocError> {
    let mut storages = Vec::new(alloc);
    for place in 0..count {
        storages.push(StorageId(first.wrapping_add(place)))?;
    }
    Ok(Event::Register {
        node: NodeId(node),
        rack: Rack(rack),
        storages: Items::from_vec(storages),
    })
}

/// A heartbeat of a node for `count` of its storages.
pub fn heartbeat(alloc: Global, node: u32, first: u32, count: u32) -> Result<Event, AllocError> {
    let mut remaining = Vec::new(alloc);
    for place in 0..count {
        remaining.push(Remaining {
            storage: StorageId(first.wrapping_add(place)),
            remaining: FREE,
        })?;
    }
    Ok(Event::Heartbeat {
        node: NodeId(node),
        remaining: Items::from_vec(remaining),
    })
}

/// A report of runs: the first block, the last and the generation of each.
pub fn report(alloc: Global, storage: u32, runs: &[(u64, u64, u64)]) -> Result<Event, AllocError> {
    let mut entries = Vec::new(alloc);
    for (from, to, generation) in runs {
        entries.push(Entry {
            from: BlockId(*from),
            to: BlockId(*to),
            stamp: stamp(*generation),
        })?;
    }
    Ok(Event::FullReport {
        storage: StorageId(storage),
        entries: Items::from_vec(entries),
    })
}

/// A report with an entry for each of the blocks below `count`.
pub fn report_each(alloc: Global, storage: u32, count: u64) -> Result<Event, AllocError> {
    let mut entries = Vec::new(alloc);
    for number in 0..count {
        entries.push(Entry::one(BlockId(number), stamp(1)))?;
    }
    Ok(Event::FullReport {
        storage: StorageId(storage),
        entries: Items::from_vec(entries),
    })
}
