// What the tests of several crates share: the check of a step, and clusters that grow by events.
use bm_base::{Event, Gen, Items, Limits, NodeId, Rack, Remaining, Stamp, StorageId};
use bm_topo::Topology;
use std::alloc::Global;
use std::process::Abort;

pub(crate) const STAMP: Stamp = Stamp {
    generation: Gen(1),
    len: 10,
};

/// Ends the test unless the answer to a step is the expected one.
pub(crate) fn check_step(rt: &impl Abort, scenario: &str, index: usize, is_correct: bool) {
    assert!(rt; is_correct, "{scenario}: step {index}");
}

pub(crate) fn storages_numbered(rt: &impl Abort, alloc: Global, numbers: &[u32]) -> Vec<StorageId> {
    let mut storages = Vec::new(alloc);
    for number in numbers {
        storages.push(StorageId(*number)).expect(rt, "memory");
    }
    storages
}

/// Checks, prepares and commits an event that nothing refuses.
pub(crate) fn take(rt: &impl Abort, topology: &mut Topology, event: &Event) {
    topology.check(event).expect(rt, "an event to be taken");
    topology.prepare(event).expect(rt, "memory");
    topology.commit(event);
}

/// A node joins on a rack with these storages.
pub(crate) fn join(
    rt: &impl Abort,
    alloc: Global,
    topology: &mut Topology,
    node: u32,
    rack: u32,
    storages: &[u32],
) {
    let event = Event::Register {
        node: NodeId(node),
        rack: Rack(rack),
        storages: Items::from_vec(storages_numbered(rt, alloc, storages)),
    };
    take(rt, topology, &event);
}

/// A node sends a heartbeat with `free` bytes for each of these storages.
pub(crate) fn beat(
    rt: &impl Abort,
    alloc: Global,
    topology: &mut Topology,
    node: u32,
    storages: &[u32],
    free: u64,
) {
    let mut remaining = Vec::new(alloc);
    for number in storages {
        let row = Remaining {
            storage: StorageId(*number),
            remaining: free,
        };
        remaining.push(row).expect(rt, "memory");
    }
    let event = Event::Heartbeat {
        node: NodeId(node),
        remaining: Items::from_vec(remaining),
    };
    take(rt, topology, &event);
}

/// Nodes 1 to 4 on racks 1, 1, 2 and 2, with the storages 11, 21, 31 and 41, each with 1,000 free
/// bytes.
pub(crate) fn four_nodes(rt: &impl Abort, alloc: Global) -> Topology {
    let mut topology = Topology::new(alloc, Limits::standard()).expect(rt, "memory");
    for (node, rack, storage) in [(1, 1, 11), (2, 1, 21), (3, 2, 31), (4, 2, 41)] {
        let storages = [storage];
        join(rt, alloc, &mut topology, node, rack, storages.as_slice());
        beat(rt, alloc, &mut topology, node, storages.as_slice(), 1000);
    }
    topology
}
