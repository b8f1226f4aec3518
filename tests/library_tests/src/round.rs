// What a round chooses on a cluster of four nodes, two on each of two racks, worked out by hand.

use crate::support::{STAMP, four_nodes, storages_numbered, take};
use bm_base::{
    BlockId, Commands, Config, Delete, Event, Items, Level, NodeId, StorageId, StorageIds, Transfer,
};
use bm_round::{Chosen, RoundPart, Wish, choose, commands, merge_wishes};
use bm_topo::Topology;
use std::alloc::Global;
use std::process::Abort;

fn ids(rt: &impl Abort, alloc: Global, storages: &[u32]) -> StorageIds {
    let mut listed = StorageIds::new(alloc);
    for storage in storages {
        listed.push(StorageId(*storage)).expect(rt, "memory");
    }
    listed
}

/// The number of copies that a block needs, and the storages that hold it.
#[derive(Clone, Copy)]
struct Held<'a> {
    count: u32,
    live: &'a [u32],
    drained: &'a [u32],
    pairs: &'a [u32],
}

/// One copy of a block that no storage holds yet.
const HELD_NOWHERE: Held<'static> = Held {
    count: 1,
    live: &[],
    drained: &[],
    pairs: &[],
};

const TWO_COPIES: Held<'static> = Held {
    count: 2,
    live: &[11],
    drained: &[],
    pairs: &[11],
};

const DRAINED_SOURCE: Held<'static> = Held {
    count: 1,
    live: &[21],
    drained: &[11],
    pairs: &[11, 21],
};

fn wish(rt: &impl Abort, alloc: Global, level: Level, block: u64, held: Held<'_>) -> Wish {
    Wish {
        level,
        block: BlockId(block),
        stamp: STAMP,
        count: held.count,
        live: ids(rt, alloc, held.live),
        drained: ids(rt, alloc, held.drained),
        pairs: ids(rt, alloc, held.pairs),
        pending: StorageIds::new(alloc),
    }
}

fn part(alloc: Global, wishes: Vec<Wish>, deletes: Vec<Delete>) -> RoundPart {
    RoundPart {
        expired: Items::from_vec(Vec::new(alloc)),
        excess: Items::from_vec(Vec::new(alloc)),
        wishes: Items::from_vec(wishes),
        deletes: Items::from_vec(deletes),
    }
}

fn with_wishes(rt: &impl Abort, alloc: Global, low: Wish, high: Wish) -> RoundPart {
    let mut wishes = Vec::new(alloc);
    wishes.push(low).expect(rt, "memory");
    wishes.push(high).expect(rt, "memory");
    part(alloc, wishes, Vec::new(alloc))
}

/// Whether the wishes have these levels and blocks, in this order.
fn are_keys(wishes: &[&Wish], keys: &[(u32, u64)]) -> bool {
    for (index, key) in keys.iter().enumerate() {
        match wishes.get(index) {
            Some(wish) if (wish.level.number(), wish.block.0) == *key => {}
            _ => return false,
        }
    }
    wishes.len() == keys.len()
}

fn unheld(rt: &impl Abort, alloc: Global, level: Level, block: u64) -> Wish {
    wish(rt, alloc, level, block, HELD_NOWHERE)
}

#[test]
fn wishes_of_two_parts_in_one_order(rt: HostRuntime) {
    let alloc = rt.alloc();
    let low = unheld(&rt, alloc, Level::Highest, 4);
    let high = unheld(&rt, alloc, Level::UnderReplicated, 2);
    let first = with_wishes(&rt, alloc, low, high);
    let low = unheld(&rt, alloc, Level::Highest, 3);
    let high = unheld(&rt, alloc, Level::VeryUnderReplicated, 1);
    let second = with_wishes(&rt, alloc, low, high);
    let parts = [first, second];
    let merged = merge_wishes(alloc, parts.as_slice()).expect(&rt, "memory");
    let keys = [(0, 3), (0, 4), (1, 1), (2, 2)];
    assert!(rt; are_keys(merged.as_slice(), keys.as_slice()));
    drop(merged);
}

fn lists_each_storage(rt: &impl Abort, alloc: Global, numbers: &[u32]) -> bool {
    let listed = ids(rt, alloc, numbers);
    let wanted = storages_numbered(rt, alloc, numbers);
    listed.as_slice() == wanted.as_slice()
}

/// Lists of four storages, which a wish holds inline, and of six, which it does not.
#[test]
fn lists_of_more_than_four(rt: HostRuntime) {
    assert!(rt; lists_each_storage(&rt, rt.alloc(), [1, 2, 3, 4].as_slice()));
    assert!(rt; lists_each_storage(&rt, rt.alloc(), [9, 8, 7, 6, 5, 4].as_slice()));
}

/// Chooses from one part that has this wish alone.
fn choose_wish(rt: &impl Abort, alloc: Global, topology: &Topology, wish: Wish) -> Chosen {
    let mut wishes = Vec::new(alloc);
    wishes.push(wish).expect(rt, "memory");
    let parts = [part(alloc, wishes, Vec::new(alloc))];
    choose(alloc, parts.as_slice(), topology, &Config::standard()).expect(rt, "memory")
}

/// Chooses from one part that has this delete alone.
fn choose_delete(rt: &impl Abort, alloc: Global, topology: &Topology, delete: Delete) -> Chosen {
    let mut deletes = Vec::new(alloc);
    deletes.push(delete).expect(rt, "memory");
    let parts = [part(alloc, Vec::new(alloc), deletes)];
    choose(alloc, parts.as_slice(), topology, &Config::standard()).expect(rt, "memory")
}

fn choose_nothing(rt: &impl Abort, alloc: Global, topology: &Topology) -> Chosen {
    let parts = Vec::new(alloc);
    choose(alloc, parts.as_slice(), topology, &Config::standard()).expect(rt, "memory")
}

fn is_chosen(chosen: &Chosen, transfers: &[Transfer], deletes: &[Delete]) -> bool {
    chosen.transfers.as_slice() == transfers && chosen.deletes.as_slice() == deletes
}

/// Whether the commands are of round 1, for this node alone, and are just these.
fn are_issued(issued: &Commands, node: NodeId, transfers: &[Transfer], deletes: &[Delete]) -> bool {
    let nodes = issued.nodes.as_slice();
    for commands in nodes {
        if commands.node != node
            || commands.transfers.as_slice() != transfers
            || commands.deletes.as_slice() != deletes
        {
            return false;
        }
    }
    issued.round == 1 && nodes.len() == 1
}

const NO_TRANSFERS: [Transfer; 0] = [];

const NO_DELETES: [Delete; 0] = [];

fn copy_to(target: u32) -> Transfer {
    Transfer {
        block: BlockId(7),
        stamp: STAMP,
        source: StorageId(11),
        target: StorageId(target),
    }
}

/// Checks what is chosen, and that round 1 commands all of it to this node, or nothing if there is
/// no node.
fn check_chosen(
    rt: &impl Abort,
    alloc: Global,
    topology: &Topology,
    chosen: &Chosen,
    node: Option<NodeId>,
    transfers: &[Transfer],
    deletes: &[Delete],
) {
    assert!(rt; is_chosen(chosen, transfers, deletes));
    let issued = commands(alloc, 1, chosen, topology).expect(rt, "memory");
    match node {
        Some(node) => assert!(rt; are_issued(&issued, node, transfers, deletes)),
        None => assert!(rt; issued.nodes.as_slice().is_empty()),
    }
}

/// Checks what is chosen for a wish for copies of block 7, whose source is on node 1.
fn check_copies(
    rt: &impl Abort,
    alloc: Global,
    topology: &Topology,
    held: Held<'_>,
    transfers: &[Transfer],
) {
    let wish = wish(rt, alloc, Level::Highest, 7, held);
    let chosen = choose_wish(rt, alloc, topology, wish);
    let node = Some(NodeId(1));
    check_chosen(
        rt,
        alloc,
        topology,
        &chosen,
        node,
        transfers,
        NO_DELETES.as_slice(),
    );
}

fn check_one_delete(rt: &impl Abort, alloc: Global, topology: &Topology) {
    let deletes = [Delete {
        storage: StorageId(31),
        block: BlockId(7),
    }];
    let chosen = choose_delete(rt, alloc, topology, deletes[0]);
    let node = Some(NodeId(3));
    check_chosen(
        rt,
        alloc,
        topology,
        &chosen,
        node,
        NO_TRANSFERS.as_slice(),
        deletes.as_slice(),
    );
}

fn check_no_parts(rt: &impl Abort, alloc: Global, topology: &Topology) {
    let chosen = choose_nothing(rt, alloc, topology);
    check_chosen(
        rt,
        alloc,
        topology,
        &chosen,
        None,
        NO_TRANSFERS.as_slice(),
        NO_DELETES.as_slice(),
    );
}

#[test]
fn transfers_and_deletes_are_chosen(rt: HostRuntime) {
    let alloc = rt.alloc();
    let mut topology = four_nodes(&rt, alloc);
    let two = [copy_to(31), copy_to(21)];
    check_copies(&rt, alloc, &topology, TWO_COPIES, two.as_slice());
    check_one_delete(&rt, alloc, &topology);
    check_no_parts(&rt, alloc, &topology);
    take(&rt, &mut topology, &Event::Drain { node: NodeId(1) });
    check_copies(
        &rt,
        alloc,
        &topology,
        DRAINED_SOURCE,
        [copy_to(31)].as_slice(),
    );
    drop(topology);
}
