// What a round finds in a small shard, worked out by hand.

use crate::support::{STAMP, four_nodes};
use bm_base::{BlockId, BlockInfo, HashSecret, Level, RoundPart, Stamp, StorageId, Wish};
use bm_levels::LeveledBlocks;
use bm_pending::PendingTransfers;
use bm_report::Report;
use bm_round_scan::{find_round, likely_bound};
use bm_topo::Topology;
use std::alloc::Global;
use std::process::Abort;

fn stamp() -> Stamp {
    STAMP
}

/// Block 7, with three requested replicas, of which one exists: a good one on storage 11.
fn block_with_one(rt: &impl Abort, alloc: Global, topology: &Topology) -> LeveledBlocks {
    let mut blocks = LeveledBlocks::new(alloc, HashSecret::none()).expect(rt, "memory");
    let id = BlockId(7);
    blocks.ready_block(id).expect(rt, "memory");
    let slot = blocks.slot_of(id).expect(rt, "its entry");
    let info = BlockInfo {
        stamp: stamp(),
        repl: 3,
    };
    blocks.set_info(topology, slot, Some(info));
    let mut report = Report::new(alloc);
    blocks
        .ready_notice(&mut report, StorageId(11), id, stamp())
        .expect(rt, "memory");
    blocks.receive(&report, topology, StorageId(11), id, stamp());
    drop(report);
    blocks
}

/// Four nodes on two racks, each with one storage.
fn nodes(rt: &impl Abort, alloc: Global) -> Topology {
    let topology = four_nodes(rt, alloc);
    assert!(rt; topology.node_of(StorageId(11)).is_some());
    topology
}

/// The numbers of requested copies, of pending transfers and of expired transfers. `None` unless
/// the part has just the expected wish of block 7, no excess replica and no delete.
fn counts_of(part: &RoundPart) -> Option<(u32, usize, usize)> {
    let wishes = part.wishes.as_slice();
    if wishes.len() != 1 || !is_as_it_should_be(&wishes[0]) {
        return None;
    }
    if !part.excess.as_slice().is_empty() || !part.deletes.as_slice().is_empty() {
        return None;
    }
    let expired = part.expired.as_slice().len();
    Some((wishes[0].count, wishes[0].pending.as_slice().len(), expired))
}

/// Whether it is the wish of block 7 with a live replica on storage 11.
fn is_as_it_should_be(wish: &Wish) -> bool {
    wish.level == Level::Highest
        && wish.block == BlockId(7)
        && is_one(wish.live.as_slice(), 11)
        && is_one(wish.pairs.as_slice(), 11)
        && wish.drained.as_slice().is_empty()
}

/// Whether the list has this storage alone.
fn is_one(storages: &[StorageId], storage: u32) -> bool {
    storages.len() == 1 && storages[0] == StorageId(storage)
}

/// Checks what a round finds if transfers expire after five rounds.
fn check_round(
    rt: &impl Abort,
    alloc: Global,
    topology: &Topology,
    blocks: &LeveledBlocks,
    pending: &PendingTransfers,
    round: u64,
    must: (u32, usize, usize),
) {
    let part = find_round(alloc, blocks, pending, topology, 5, round, None).expect(rt, "memory");
    assert!(rt; counts_of(&part) == Some(must));
    drop(part);
}

/// Checks the guessed bound before which about `most` blocks have wishes.
fn check_bound(
    rt: &impl Abort,
    alloc: Global,
    blocks: &LeveledBlocks,
    pending: &PendingTransfers,
    most: usize,
    must: Option<(u64, u64)>,
) {
    let bound = likely_bound(alloc, blocks, pending, most, 1_024).expect(rt, "memory");
    assert!(rt; bound == must);
}

/// One of three requested replicas exists, so the wish is for two copies. A pending transfer counts
/// as a replica until it expires. Block 7 alone has a wish, at level 0. So its key, (0, 7), is the
/// bound before which no block has a wish, and there is no bound before which one block has one.
/// With a pending transfer block 7 counts as a block without a wish, so there is no bound.
fn check_all(rt: &impl Abort, alloc: Global, topology: &Topology, blocks: &LeveledBlocks) {
    let mut pending = PendingTransfers::new(alloc, HashSecret::none());
    check_round(rt, alloc, topology, blocks, &pending, 1, (2, 0, 0));
    check_bound(rt, alloc, blocks, &pending, 0, Some((0, 7)));
    check_bound(rt, alloc, blocks, &pending, 1, None);
    // A transfer of the block to storage 31, commanded in round 1.
    pending.reserve(BlockId(7), 1).expect(rt, "memory");
    pending.insert_reserved(BlockId(7), StorageId(31), 1);
    check_round(rt, alloc, topology, blocks, &pending, 5, (1, 1, 0));
    check_round(rt, alloc, topology, blocks, &pending, 6, (2, 0, 1));
    check_bound(rt, alloc, blocks, &pending, 0, None);
    drop(pending);
}

#[test]
fn a_block_with_one_replica_is_found(rt: HostRuntime) {
    let topology = nodes(&rt, rt.alloc());
    let blocks = block_with_one(&rt, rt.alloc(), &topology);
    check_all(&rt, rt.alloc(), &topology, &blocks);
    drop(blocks);
    drop(topology);
}
