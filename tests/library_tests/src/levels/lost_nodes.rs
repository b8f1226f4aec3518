// The level of a block before and after a node drains, a storage fails and a node dies.

use crate::support::{STAMP, join};
use bm_base::{BlockId, BlockInfo, Event, HashSecret, Level, Limits, NodeId, StorageId};
use bm_levels::LeveledBlocks;
use bm_report::Report;
use bm_topo::Topology;
use std::alloc::Global;
use std::process::Abort;

const ID: BlockId = BlockId(7);

fn nowhere(rt: &impl Abort, alloc: Global) -> Topology {
    Topology::new(alloc, Limits::standard()).expect(rt, "memory")
}

/// Two nodes on two racks, 1 with storage 11 and 2 with storage 21.
fn two_nodes(rt: &impl Abort, alloc: Global) -> Topology {
    let mut topology = nowhere(rt, alloc);
    join(rt, alloc, &mut topology, 1, 1, [11].as_slice());
    join(rt, alloc, &mut topology, 2, 2, [21].as_slice());
    topology
}

/// Adds a replica of the block on a storage, by a notice on a cluster that knows no storage.
fn receive(rt: &impl Abort, alloc: Global, blocks: &mut LeveledBlocks, storage: StorageId) {
    let nowhere = nowhere(rt, alloc);
    let mut report = Report::new(alloc);
    let ready = blocks.ready_notice(&mut report, storage, ID, STAMP);
    assert!(rt; ready.is_ok());
    blocks.receive(&report, &nowhere, storage, ID, STAMP);
    drop(report);
    drop(nowhere);
}

/// A block with two requested replicas, which are on the storages 11 and 21.
fn on_both(rt: &impl Abort, alloc: Global, topology: &Topology) -> LeveledBlocks {
    let mut blocks = LeveledBlocks::new(alloc, HashSecret::none()).expect(rt, "memory");
    blocks.ready_block(ID).expect(rt, "memory");
    let slot = blocks.slot_of(ID).expect(rt, "an entry");
    let info = BlockInfo {
        stamp: STAMP,
        repl: 2,
    };
    blocks.set_info(topology, slot, Some(info));
    receive(rt, alloc, &mut blocks, StorageId(11));
    receive(rt, alloc, &mut blocks, StorageId(21));
    blocks
}

/// The level after node 1 began or stopped draining.
fn level_when_turned(
    topology: &Topology,
    blocks: &mut LeveledBlocks,
    drains: bool,
) -> Option<Level> {
    blocks.set_draining(topology, NodeId(1), drains);
    blocks.level(ID)
}

/// The number of replicas that leave when a node dies.
fn dead(topology: &Topology, blocks: &mut LeveledBlocks, node: NodeId) -> u128 {
    let multi = topology.multi_after(&Event::Dead { node });
    blocks.forget_node(topology, node, multi)
}

/// Whether the level is right after each change.
fn goes_rightly(topology: &Topology, blocks: &mut LeveledBlocks) -> bool {
    level_when_turned(topology, blocks, true) == Some(Level::Highest)
        && level_when_turned(topology, blocks, false).is_none()
        && blocks.forget_storage(topology, StorageId(21)) == 1
        && blocks.level(ID) == Some(Level::Highest)
        && dead(topology, blocks, NodeId(1)) == 1
        && blocks.level(ID) == Some(Level::NoUsableReplica)
}

#[test]
fn replicas_drain_and_leave(rt: HostRuntime) {
    let topology = two_nodes(&rt, rt.alloc());
    let mut blocks = on_both(&rt, rt.alloc(), &topology);
    assert!(rt; goes_rightly(&topology, &mut blocks));
    drop(blocks);
    drop(topology);
}
