// Calls that can run out of memory, made with ample memory.

use crate::support::STAMP;
use bm_base::{BlockId, BlockInfo, HashSecret, Items, Limits, Places, Refusal, StorageId};
use bm_levels::LeveledBlocks;
use bm_queries::{ReplicaFilter, blocks_on, list_replicas, missing_blocks, places, table_rows};
use bm_topo::Topology;
use std::alloc::Global;
use std::process::Abort;

/// Makes the block known.
fn know(topology: &Topology, blocks: &mut LeveledBlocks, id: BlockId) -> Result<(), Refusal> {
    blocks.ready_block(id)?;
    let info = BlockInfo {
        stamp: STAMP,
        repl: 3,
    };
    if let Some(slot) = blocks.slot_of(id) {
        blocks.set_info(topology, slot, Some(info));
    }
    Ok(())
}

fn is_empty<T: Drop>(listed: Result<Items<T>, Refusal>) -> bool {
    match listed {
        Ok(listed) => {
            let is_empty = listed.as_slice().is_empty();
            drop(listed);
            is_empty
        }
        Err(_) => false,
    }
}

/// Whether the list of the replicas of this kind is empty.
fn has_none(alloc: Global, blocks: &LeveledBlocks, wanted: ReplicaFilter) -> bool {
    match list_replicas(alloc, blocks, wanted) {
        Ok(replicas) => {
            let is_empty = replicas.is_empty();
            drop(replicas);
            is_empty
        }
        Err(_) => false,
    }
}

/// Whether no replica is listed.
fn are_empty(alloc: Global, blocks: &LeveledBlocks) -> bool {
    has_none(alloc, blocks, ReplicaFilter::All)
        && has_none(alloc, blocks, ReplicaFilter::Corrupt)
        && has_none(alloc, blocks, ReplicaFilter::Excess)
        && is_empty(blocks_on(alloc, blocks, StorageId(11)))
        && is_empty(places(alloc, blocks, BlockId(7)))
}

/// Blocks 9 and 7 became known in this order, and are listed in ascending order.
fn check_lists(rt: &impl Abort, alloc: Global, blocks: &LeveledBlocks) {
    let missing = missing_blocks(alloc, blocks).expect(rt, "memory");
    assert!(rt; missing.as_slice() == [BlockId(7), BlockId(9)].as_slice());
    let rows = table_rows(alloc, blocks).expect(rt, "memory");
    let none = Places::none();
    assert!(rt; rows.as_slice() == [(BlockId(7), none), (BlockId(9), none)].as_slice());
    drop(rows);
    drop(missing);
    assert!(rt; are_empty(alloc, blocks));
}

#[test]
fn missing_blocks_are_sorted(rt: HostRuntime) {
    let alloc = rt.alloc();
    let topology = Topology::new(alloc, Limits::standard()).expect(&rt, "memory");
    let mut blocks = LeveledBlocks::new(alloc, HashSecret::none()).expect(&rt, "memory");
    know(&topology, &mut blocks, BlockId(9)).expect(&rt, "memory");
    know(&topology, &mut blocks, BlockId(7)).expect(&rt, "memory");
    check_lists(&rt, alloc, &blocks);
    drop(blocks);
    drop(topology);
}
