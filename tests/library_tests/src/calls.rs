// Calls as plain values, which tables of tests can hold.
use bm_base::{BlockId, Call, Entry, Event, Gen, Items, NodeId, Rack, Remaining, Stamp, StorageId};
use std::alloc::Global;
use std::process::Abort;

/// The generation and the length of a stamp.
pub(crate) const STAMP: (u64, u64) = (1, 10);

/// A call with the numbers of its fields, in the order of its line.
#[derive(Clone, Copy)]
pub(crate) enum Case<'a> {
    /// A node, its rack and its storages.
    Register(u32, u32, &'a [u32]),
    /// A node, and storages with their free bytes.
    Heartbeat(u32, &'a [(u32, u64)]),
    /// A storage, and runs of blocks: the first, the last and the stamp of each.
    Report(u32, &'a [(u64, u64, (u64, u64))]),
    Drain(u32),
    Undrain(u32),
    Dead(u32),
    Failed(u32),
    /// A block, its stamp, and the number of requested replicas.
    Add(u64, (u64, u64), u32),
    Delete(u64),
    SetReplication(u64, u32),
    Restamp(u64, (u64, u64)),
    /// A storage, a block and the stamp of its replica.
    Received(u32, u64, (u64, u64)),
    Deleted(u32, u64),
    Corrupt(u32, u64),
    Round,
    Replicas,
    AllCorrupt,
    Excess,
    Missing,
    BlocksOn(u32),
    Places(u64),
    LevelOf(u64),
    Retired(u32),
    Calls,
}

fn stamp_of((generation, len): (u64, u64)) -> Stamp {
    Stamp {
        generation: Gen(generation),
        len,
    }
}

/// An event on nodes or storages, without a list.
fn event_on_nodes(case: Case<'_>) -> Option<Event> {
    Some(match case {
        Case::Drain(node) => Event::Drain { node: NodeId(node) },
        Case::Undrain(node) => Event::Undrain { node: NodeId(node) },
        Case::Dead(node) => Event::Dead { node: NodeId(node) },
        Case::Failed(storage) => Event::StorageFailed {
            storage: StorageId(storage),
        },
        Case::Received(storage, block, stamp) => Event::Received {
            storage: StorageId(storage),
            id: BlockId(block),
            stamp: stamp_of(stamp),
        },
        Case::Deleted(storage, block) => Event::Deleted {
            storage: StorageId(storage),
            id: BlockId(block),
        },
        Case::Corrupt(storage, block) => Event::Corrupt {
            storage: StorageId(storage),
            id: BlockId(block),
        },
        _ => return None,
    })
}

fn event_on_block(case: Case<'_>) -> Option<Event> {
    Some(match case {
        Case::Add(block, stamp, repl) => Event::AddBlock {
            id: BlockId(block),
            stamp: stamp_of(stamp),
            repl,
        },
        Case::Delete(block) => Event::DeleteBlock { id: BlockId(block) },
        Case::SetReplication(block, repl) => Event::SetReplication {
            id: BlockId(block),
            repl,
        },
        Case::Restamp(block, stamp) => Event::Restamp {
            id: BlockId(block),
            stamp: stamp_of(stamp),
        },
        _ => return None,
    })
}

/// A call that is no event. Everything else becomes the question for the number of calls.
fn question(case: Case<'_>) -> Call {
    match case {
        Case::Round => Call::Round,
        Case::Replicas => Call::Replicas,
        Case::AllCorrupt => Call::Corrupt,
        Case::Excess => Call::Excess,
        Case::Missing => Call::Missing,
        Case::BlocksOn(storage) => Call::BlocksOn(StorageId(storage)),
        Case::Places(block) => Call::Places(BlockId(block)),
        Case::LevelOf(block) => Call::LevelOf(BlockId(block)),
        Case::Retired(node) => Call::Retired(NodeId(node)),
        _ => Call::Calls,
    }
}

fn register(rt: &impl Abort, alloc: Global, node: u32, rack: u32, numbers: &[u32]) -> Event {
    let mut storages = Vec::new(alloc);
    for number in numbers {
        storages.push(StorageId(*number)).expect(rt, "memory");
    }
    Event::Register {
        node: NodeId(node),
        rack: Rack(rack),
        storages: Items::from_vec(storages),
    }
}

fn heartbeat(rt: &impl Abort, alloc: Global, node: u32, case: &[(u32, u64)]) -> Event {
    let mut rows = Vec::new(alloc);
    for (storage, remaining) in case {
        let row = Remaining {
            storage: StorageId(*storage),
            remaining: *remaining,
        };
        rows.push(row).expect(rt, "memory");
    }
    Event::Heartbeat {
        node: NodeId(node),
        remaining: Items::from_vec(rows),
    }
}

fn report(rt: &impl Abort, alloc: Global, storage: u32, case: &[(u64, u64, (u64, u64))]) -> Event {
    let mut entries = Vec::new(alloc);
    for (from, to, stamp) in case {
        let entry = Entry {
            from: BlockId(*from),
            to: BlockId(*to),
            stamp: stamp_of(*stamp),
        };
        entries.push(entry).expect(rt, "memory");
    }
    Event::FullReport {
        storage: StorageId(storage),
        entries: Items::from_vec(entries),
    }
}

fn event_of(rt: &impl Abort, alloc: Global, case: Case<'_>) -> Option<Event> {
    match case {
        Case::Register(node, rack, storages) => Some(register(rt, alloc, node, rack, storages)),
        Case::Heartbeat(node, remaining) => Some(heartbeat(rt, alloc, node, remaining)),
        Case::Report(storage, runs) => Some(report(rt, alloc, storage, runs)),
        Case::Add(..) | Case::Delete(_) | Case::SetReplication(..) | Case::Restamp(..) => {
            event_on_block(case)
        }
        _ => event_on_nodes(case),
    }
}

pub(crate) fn call_of(rt: &impl Abort, alloc: Global, case: Case<'_>) -> Call {
    match event_of(rt, alloc, case) {
        Some(event) => Call::Apply(event),
        None => question(case),
    }
}
