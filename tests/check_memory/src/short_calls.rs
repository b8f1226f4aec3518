// Calls in a short form, by plain numbers, so that a table can hold them.

use crate::events::{heartbeat, register, report, stamp};
use bm_base::{BlockId, Call, Event, NodeId, StorageId};
use std::alloc::{AllocError, Global};

#[derive(Clone, Copy)]
pub enum ShortCall {
    /// A node, its rack, its first storage and the number of its storages.
    Register(u32, u32, u32, u32),
    /// A node, and a storage of it with 1,000 free bytes.
    Heartbeat(u32, u32),
    Drain(u32),
    Undrain(u32),
    Dead(u32),
    Failed(u32),
    /// A block, and the number of its requested replicas.
    Add(u64, u32),
    Delete(u64),
    /// A block, and the new number of its requested replicas.
    Replication(u64, u32),
    /// A block and its new generation.
    Restamp(u64, u64),
    /// A storage, a block and the generation of its replica.
    Received(u32, u64, u64),
    Deleted(u32, u64),
    Spoilt(u32, u64),
    /// A storage, and runs of blocks: the first, the last and the generation of each.
    Report(u32, &'static [(u64, u64, u64)]),
    Round,
    Replicas,
    Corrupt,
    Excess,
    Missing,
    BlocksOn(u32),
    Places(u64),
    Level(u64),
    Retired(u32),
    Calls,
    Rounds,
}

pub fn call_of(alloc: Global, short: ShortCall) -> Result<Call, AllocError> {
    let call = match short {
        ShortCall::Round => Call::Round,
        ShortCall::Replicas => Call::Replicas,
        ShortCall::Corrupt => Call::Corrupt,
        ShortCall::Excess => Call::Excess,
        ShortCall::Missing => Call::Missing,
        ShortCall::BlocksOn(storage) => Call::BlocksOn(StorageId(storage)),
        ShortCall::Places(block) => Call::Places(BlockId(block)),
        ShortCall::Level(block) => Call::LevelOf(BlockId(block)),
        ShortCall::Retired(node) => Call::Retired(NodeId(node)),
        ShortCall::Calls => Call::Calls,
        ShortCall::Rounds => Call::Rounds,
        _ => Call::Apply(event_of(alloc, short)?),
    };
    Ok(call)
}

fn event_of(alloc: Global, short: ShortCall) -> Result<Event, AllocError> {
    match short {
        ShortCall::Register(node, rack, first, count) => register(alloc, node, rack, first, count),
        ShortCall::Heartbeat(node, storage) => heartbeat(alloc, node, storage, 1),
        ShortCall::Report(storage, runs) => report(alloc, storage, runs),
        _ => Ok(plain_event(short)),
    }
}

/// An event without a list. Any other call becomes a notice that a nonexistent replica was deleted.
fn plain_event(short: ShortCall) -> Event {
    match short {
        ShortCall::Drain(node) => Event::Drain { node: NodeId(node) },
        ShortCall::Undrain(node) => Event::Undrain { node: NodeId(node) },
        ShortCall::Dead(node) => Event::Dead { node: NodeId(node) },
        ShortCall::Failed(storage) => Event::StorageFailed {
            storage: StorageId(storage),
        },
        ShortCall::Deleted(storage, block) => Event::Deleted {
            storage: StorageId(storage),
            id: BlockId(block),
        },
        ShortCall::Spoilt(storage, block) => Event::Corrupt {
            storage: StorageId(storage),
            id: BlockId(block),
        },
        ShortCall::Received(storage, block, generation) => Event::Received {
            storage: StorageId(storage),
            id: BlockId(block),
            stamp: stamp(generation),
        },
        _ => block_event(short),
    }
}

fn block_event(short: ShortCall) -> Event {
    match short {
        ShortCall::Add(block, repl) => Event::AddBlock {
            id: BlockId(block),
            stamp: stamp(1),
            repl,
        },
        ShortCall::Delete(block) => Event::DeleteBlock { id: BlockId(block) },
        ShortCall::Replication(block, repl) => Event::SetReplication {
            id: BlockId(block),
            repl,
        },
        ShortCall::Restamp(block, generation) => Event::Restamp {
            id: BlockId(block),
            stamp: stamp(generation),
        },
        _ => Event::Deleted {
            storage: StorageId(0),
            id: BlockId(0),
        },
    }
}
