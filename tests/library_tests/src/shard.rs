// The answers of a shard on four nodes and two racks, worked out by hand, with ample memory.

use crate::support::STAMP;
use bm_base::{
    BlockId, Chosen, Config, Delete, Done, Event, Items, Level, Limits, NodeId, Places, Rack,
    Refusal, Remaining, Replica, ReplicaId, RoundPart, StorageId, Tag, Transfer, Wish,
};
use bm_shard::Shard;
use bm_topo::Topology;
use std::alloc::Global;
use std::process::Abort;

const SEVEN: BlockId = BlockId(7);

const NONE: [StorageId; 0] = [];

const NO_BLOCK: [BlockId; 0] = [];

const NO_REPLICA: [ReplicaId; 0] = [];

/// Checks, prepares and commits an event that nothing refuses.
fn apply(rt: &impl Abort, topology: &mut Topology, shard: &mut Shard, event: &Event) -> Done {
    topology.check(event).expect(rt, "a check on the cluster");
    shard.check(event).expect(rt, "a check on the blocks");
    topology.prepare(event).expect(rt, "memory");
    shard.prepare(event, topology).expect(rt, "memory");
    let multi = topology.multi_after(event);
    let done = shard.commit(event, topology, multi);
    topology.commit(event);
    done
}

/// Checks and prepares an event that nothing refuses, and aborts it.
fn give_up(rt: &impl Abort, topology: &Topology, shard: &mut Shard, event: &Event) {
    topology.check(event).expect(rt, "a check on the cluster");
    shard.check(event).expect(rt, "a check on the blocks");
    shard.prepare(event, topology).expect(rt, "memory");
    shard.abort();
}

/// A node joins with one storage, which has 1,000 free bytes.
fn join(
    rt: &impl Abort,
    alloc: Global,
    topology: &mut Topology,
    shard: &mut Shard,
    node: u32,
    rack: u32,
    storage: u32,
) {
    let storages = vec![in alloc; StorageId(storage)].expect(rt, "memory");
    let register = Event::Register {
        node: NodeId(node),
        rack: Rack(rack),
        storages: Items::from_vec(storages),
    };
    apply(rt, topology, shard, &register);
    let remaining = vec![in alloc;
        Remaining {
            storage: StorageId(storage),
            remaining: 1000
        },
    ]
    .expect(rt, "memory");
    let heartbeat = Event::Heartbeat {
        node: NodeId(node),
        remaining: Items::from_vec(remaining),
    };
    apply(rt, topology, shard, &heartbeat);
}

fn received_event(storage: u32, block: BlockId) -> Event {
    Event::Received {
        storage: StorageId(storage),
        id: block,
        stamp: STAMP,
    }
}

/// An empty shard for all block numbers, next to a cluster.
fn fresh(rt: &impl Abort, alloc: Global, topology: &Topology) -> Shard {
    let _ = topology;
    Shard::new(alloc, 0, &Config::standard()).expect(rt, "memory")
}

/// Four nodes with a storage each, two on each of two racks. Block 7 has one of three requested
/// replicas.
fn begin(rt: &impl Abort, alloc: Global, topology: &mut Topology, shard: &mut Shard) {
    join(rt, alloc, topology, shard, 1, 1, 11);
    join(rt, alloc, topology, shard, 2, 1, 21);
    join(rt, alloc, topology, shard, 3, 2, 31);
    join(rt, alloc, topology, shard, 4, 2, 41);
    let add = Event::AddBlock {
        id: SEVEN,
        stamp: STAMP,
        repl: 3,
    };
    apply(rt, topology, shard, &add);
    let done = apply(rt, topology, shard, &received_event(11, SEVEN));
    assert!(rt; done.added == 1 && done.removed == 0);
}

fn holds<T: PartialEq + Drop>(listed: Result<Items<T>, Refusal>, must: &[T]) -> bool {
    match listed {
        Ok(listed) => {
            let is_so = listed.as_slice() == must;
            drop(listed);
            is_so
        }
        Err(_) => false,
    }
}

/// Checks the shard's answers about block 7.
fn check_queries(rt: &impl Abort, shard: &Shard) {
    let replica = Replica {
        block: SEVEN,
        storage: StorageId(11),
        tag: Tag::Good,
    };
    assert!(rt; holds(shard.replicas(), [replica].as_slice()));
    assert!(rt; holds(shard.corrupt(), NO_REPLICA.as_slice()));
    assert!(rt; holds(shard.missing(), NO_BLOCK.as_slice()));
    assert!(rt; holds(shard.excess(), NO_REPLICA.as_slice()));
    check_more_queries(rt, shard);
}

fn check_more_queries(rt: &impl Abort, shard: &Shard) {
    assert!(rt; holds(shard.blocks_on(StorageId(11)), [SEVEN].as_slice()));
    assert!(rt; holds(shard.places(SEVEN), [StorageId(11)].as_slice()));
    assert!(rt; matches!(shard.places(BlockId(8)), Err(Refusal::UnknownBlock)));
    let row = (SEVEN, Places::first_of([StorageId(11)].as_slice()));
    assert!(rt; holds(shard.table_rows(), [row].as_slice()));
    assert!(rt; shard.level(SEVEN) == Ok(Some(Level::Highest)));
}

/// Whether a wish is for `count` copies of block 7, with these pending targets.
fn is_wish(wish: &Wish, count: u32, pending: &[StorageId]) -> bool {
    let source = [StorageId(11)];
    wish.level == Level::Highest
        && wish.block == SEVEN
        && wish.stamp == STAMP
        && wish.count == count
        && wish.live.as_slice() == source.as_slice()
        && wish.drained.as_slice() == NONE.as_slice()
        && wish.pairs.as_slice() == source.as_slice()
        && wish.pending.as_slice() == pending
}

/// Checks that the round found such a wish and nothing else.
fn wishes(rt: &impl Abort, part: &RoundPart, count: u32, pending: &[StorageId]) {
    assert!(rt; part.expired.as_slice().is_empty());
    assert!(rt; part.excess.as_slice().is_empty());
    assert!(rt; part.deletes.as_slice().is_empty());
    let wishes = part.wishes.as_slice();
    assert!(rt; wishes.len() == 1 && is_wish(&wishes[0], count, pending));
}

/// A copy of block 7 from storage 11 to storage 31, and nothing else.
fn one_copy(rt: &impl Abort, alloc: Global) -> Chosen {
    let copy = Transfer {
        block: SEVEN,
        stamp: STAMP,
        source: StorageId(11),
        target: StorageId(31),
    };
    Chosen {
        transfers: Items::from_vec(vec![in alloc; copy].expect(rt, "memory")),
        deletes: Items::from_vec(Vec::new(alloc)),
    }
}

/// Gives up the notice of a replica of an unknown block, and one of block 7 on the copy's target.
fn give_up_notices(rt: &impl Abort, topology: &Topology, shard: &mut Shard) {
    give_up(rt, topology, shard, &received_event(21, BlockId(8)));
    give_up(rt, topology, shard, &received_event(31, SEVEN));
}

/// The next round finds a wish for two copies. One is commanded, so the round after it finds a wish
/// for the other. Notices that are given up in between change nothing.
fn copy(rt: &impl Abort, alloc: Global, topology: &Topology, shard: &mut Shard) {
    let part = shard.round_part(1, topology).expect(rt, "memory");
    wishes(rt, &part, 2, NONE.as_slice());
    let chosen = one_copy(rt, alloc);
    shard
        .round_ready(&part, &chosen, topology)
        .expect(rt, "memory");
    shard.round_commit(&part, &chosen, topology);
    drop(part);
    check_queries(rt, shard);
    give_up_notices(rt, topology, shard);
    check_queries(rt, shard);
    let part = shard.round_part(2, topology).expect(rt, "memory");
    wishes(rt, &part, 1, [StorageId(31)].as_slice());
    drop(part);
}

#[test]
fn a_block_with_one_replica_is_copied_and_what_is_given_up_changes_nothing(rt: HostRuntime) {
    let alloc = rt.alloc();
    let mut topology = Topology::new(alloc, Limits::standard()).expect(&rt, "memory");
    let mut shard = fresh(&rt, alloc, &topology);
    begin(&rt, alloc, &mut topology, &mut shard);
    check_queries(&rt, &shard);
    give_up_notices(&rt, &topology, &mut shard);
    check_queries(&rt, &shard);
    copy(&rt, alloc, &topology, &mut shard);
    drop(shard);
    drop(topology);
}
