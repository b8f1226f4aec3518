// A manager takes the nodes and storages that its limits allow, and no more.
use bm_base::{
    BlockId, Commands, Config, Event, Gen, HashSecret, Items, Limits, NodeId, Rack, Refusal,
    Remaining, Stamp, StorageId,
};
use bm_manager::Manager;
use std::alloc::Global;
use std::process::Abort;

/// The number of `TooMany`.
const TOO_MANY: u32 = 10;

const STAMP: Stamp = Stamp {
    generation: Gen(1),
    len: 64,
};

fn manager_within(alloc: Global, nodes: u32, storages: u32) -> Result<Manager, Refusal> {
    let limits = Limits { nodes, storages };
    Manager::with_limits(alloc, Config::standard(), limits, HashSecret::none())
}

/// 0, or the number of the refusal.
fn take(manager: &mut Manager, event: &Event) -> u32 {
    match manager.apply_alone(event) {
        Ok(_) => 0,
        Err(refusal) => refusal.number(),
    }
}

/// A node joins on one of three racks, with the storages from `first` up to the one before `end`.
fn join(
    rt: &impl Abort,
    alloc: Global,
    manager: &mut Manager,
    node: u32,
    first: u32,
    end: u32,
) -> u32 {
    let mut storages = Vec::new(alloc);
    for storage in first..end {
        storages.push(StorageId(storage)).expect(rt, "memory");
    }
    let event = Event::Register {
        node: NodeId(node),
        rack: Rack(node % 3),
        storages: Items::from_vec(storages),
    };
    take(manager, &event)
}

/// Nodes without storages join, numbered from 1, and one more is refused.
fn check_nodes(rt: &impl Abort, alloc: Global, manager: &mut Manager, most: u32) {
    for node in 1..=most {
        assert!(rt; join(rt, alloc, manager, node, 0, 0) == 0, "node {node}");
    }
    assert!(rt;
        join(rt, alloc, manager, most + 1, 0, 0) == TOO_MANY,
        "past {most} nodes"
    );
}

/// Two nodes have all storages, and one more is refused. A node without storages is accepted.
fn check_storages(rt: &impl Abort, alloc: Global, manager: &mut Manager, most: u32) {
    assert!(rt;
        join(rt, alloc, manager, 1, 0, most + 1) == TOO_MANY,
        "{most} storages and one"
    );
    assert!(rt;
        join(rt, alloc, manager, 1, 0, most - 1) == 0,
        "all storages but one"
    );
    assert!(rt;
        join(rt, alloc, manager, 2, most, most + 2) == TOO_MANY,
        "past {most} storages"
    );
    assert!(rt;
        join(rt, alloc, manager, 2, most, most + 1) == 0,
        "the last storage"
    );
    assert!(rt;
        join(rt, alloc, manager, 3, most + 1, most + 2) == TOO_MANY,
        "one more storage"
    );
    assert!(rt;
        join(rt, alloc, manager, 3, 0, 0) == 0,
        "a node without storages"
    );
}

#[test]
fn standard_limits_are_256_nodes_and_4096_storages(rt: HostRuntime) {
    let alloc = rt.alloc();
    let mut manager = Manager::new(alloc, Config::standard()).expect(&rt, "memory");
    check_nodes(&rt, alloc, &mut manager, 256);
    let mut manager = Manager::new(alloc, Config::standard()).expect(&rt, "memory");
    check_storages(&rt, alloc, &mut manager, 4096);
}

#[test]
fn other_limits_are_kept(rt: HostRuntime) {
    let alloc = rt.alloc();
    for nodes in [1, 2, 255, 257, 300] {
        let mut manager = manager_within(alloc, nodes, 1).expect(&rt, "memory");
        check_nodes(&rt, alloc, &mut manager, nodes);
    }
    for storages in [1, 2, 4095, 4097, 40_000] {
        let mut manager = manager_within(alloc, 3, storages).expect(&rt, "memory");
        check_storages(&rt, alloc, &mut manager, storages);
    }
}

#[test]
fn what_has_left_no_longer_counts(rt: HostRuntime) {
    let alloc = rt.alloc();
    let mut manager = manager_within(alloc, 2, 3).expect(&rt, "memory");
    assert!(rt; join(&rt, alloc, &mut manager, 1, 11, 13) == 0);
    assert!(rt; join(&rt, alloc, &mut manager, 2, 21, 22) == 0);
    assert!(rt; join(&rt, alloc, &mut manager, 3, 0, 0) == TOO_MANY);
    let failed = Event::StorageFailed {
        storage: StorageId(12),
    };
    assert!(rt; take(&mut manager, &failed) == 0);
    assert!(rt; take(&mut manager, &Event::Dead { node: NodeId(2) }) == 0);
    assert!(rt; join(&rt, alloc, &mut manager, 3, 31, 34) == TOO_MANY);
    assert!(rt; join(&rt, alloc, &mut manager, 3, 31, 33) == 0);
    assert!(rt; join(&rt, alloc, &mut manager, 4, 0, 0) == TOO_MANY);
}

/// Node n has the storages 2 n and 2 n + 1.
fn large_cluster(rt: &impl Abort, alloc: Global) -> Manager {
    let mut manager = manager_within(alloc, 1000, 2000).expect(rt, "memory");
    for node in 0..1000 {
        let code = join(rt, alloc, &mut manager, node, 2 * node, 2 * node + 2);
        assert!(rt; code == 0, "node {node}");
    }
    manager
}

fn received(storage: u32) -> Event {
    Event::Received {
        storage: StorageId(storage),
        id: BlockId(7),
        stamp: STAMP,
    }
}

/// Whether the only command is a copy from a node's storage to another storage.
fn is_one_copy(commands: &Commands, node: u32, source: u32, target: u32) -> bool {
    for commanded in commands.nodes.as_slice() {
        for copy in commanded.transfers.as_slice() {
            if (commanded.node.0, copy.source.0, copy.target.0) != (node, source, target) {
                return false;
            }
        }
    }
    let nodes = commands.nodes.as_slice();
    nodes.len() == 1 && nodes[0].transfers.len() == 1 && nodes[0].deletes.is_empty()
}

/// Block 7 wants two replicas. One is on the last node, and the only free bytes are on another.
#[test]
fn a_manager_answers_with_1000_nodes(rt: HostRuntime) {
    let alloc = rt.alloc();
    let mut manager = large_cluster(&rt, alloc);
    assert!(rt; join(&rt, alloc, &mut manager, 1000, 0, 0) == TOO_MANY);
    let add = Event::AddBlock {
        id: BlockId(7),
        stamp: STAMP,
        repl: 2,
    };
    assert!(rt; take(&mut manager, &add) == 0);
    assert!(rt; take(&mut manager, &received(1999)) == 0);
    let mut remaining = Vec::new(alloc);
    let free = Remaining {
        storage: StorageId(1201),
        remaining: 64,
    };
    remaining.push(free).expect(&rt, "memory");
    let heartbeat = Event::Heartbeat {
        node: NodeId(600),
        remaining: Items::from_vec(remaining),
    };
    assert!(rt; take(&mut manager, &heartbeat) == 0);
    let commands = manager.round_alone().expect(&rt, "a round");
    assert!(rt; is_one_copy(&commands, 999, 1999, 1201));
    assert!(rt; take(&mut manager, &received(1201)) == 0);
    let places = manager.places(BlockId(7)).expect(&rt, "places");
    assert!(rt; places.as_slice() == [StorageId(1201), StorageId(1999)].as_slice());
    let dead = Event::Dead { node: NodeId(600) };
    assert!(rt; take(&mut manager, &dead) == 0);
    assert!(rt; join(&rt, alloc, &mut manager, 1000, 20_000, 20_002) == 0);
    assert!(rt; join(&rt, alloc, &mut manager, 1001, 0, 0) == TOO_MANY);
    assert!(rt; manager.retired(NodeId(1000)).is_ok());
    assert!(rt; matches!(manager.retired(NodeId(600)), Err(Refusal::UnknownNode)));
}
