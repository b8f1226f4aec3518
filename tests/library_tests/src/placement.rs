// The choices on clusters of a few nodes, worked out by hand: a table of cases for each question.

use crate::support::{beat, join, storages_numbered, take};
use bm_base::{Event, Level, Limits, NodeId, StorageId};
use bm_place::{
    ExcessScratch, Scheduled, Streams, excess_of, fill_excess, least_source, least_target,
};
use bm_topo::Topology;
use std::alloc::Global;
use std::process::Abort;

/// A node, its rack and its storages.
#[derive(Clone, Copy)]
struct Node<'a> {
    number: u32,
    rack: u32,
    storages: &'a [u32],
}

const SEVENTEEN: [u32; 17] = [
    101, 102, 103, 104, 105, 106, 107, 108, 109, 110, 111, 112, 113, 114, 115, 116, 117,
];

/// Two racks with two nodes of one storage each, a third with a node of two storages, and a fourth
/// with a node of seventeen.
static NODES: [Node<'static>; 6] = [
    Node {
        number: 1,
        rack: 1,
        storages: &[11],
    },
    Node {
        number: 2,
        rack: 1,
        storages: &[21],
    },
    Node {
        number: 3,
        rack: 2,
        storages: &[31],
    },
    Node {
        number: 4,
        rack: 2,
        storages: &[41],
    },
    Node {
        number: 9,
        rack: 3,
        storages: &[5, 6],
    },
    Node {
        number: 10,
        rack: 4,
        storages: &SEVENTEEN,
    },
];

const NO_STORAGE: [StorageId; 0] = [];

/// The free bytes on each storage of each node. A node with 0 is not in the cluster.
const FOUR_NODES: [u64; 6] = [1000, 1000, 1000, 1000, 0, 0];

fn number_of(storage: Option<StorageId>) -> Option<u32> {
    match storage {
        Some(storage) => Some(storage.0),
        None => None,
    }
}

/// A node joins with its storages, each with `free` bytes.
fn join_node(rt: &impl Abort, alloc: Global, topology: &mut Topology, node: &Node<'_>, free: u64) {
    join(rt, alloc, topology, node.number, node.rack, node.storages);
    beat(rt, alloc, topology, node.number, node.storages, free);
}

fn drain(rt: &impl Abort, topology: &mut Topology, node: u32) {
    let drains = Event::Drain { node: NodeId(node) };
    take(rt, topology, &drains);
}

/// A cluster of nodes, some of which drain.
fn cluster(rt: &impl Abort, alloc: Global, free: &[u64; 6], draining: &[u32]) -> Topology {
    let mut topology = Topology::new(alloc, Limits::standard()).expect(rt, "memory");
    for index in 0..6 {
        if free[index] > 0 {
            join_node(rt, alloc, &mut topology, &NODES[index], free[index]);
        }
    }
    for node in draining {
        drain(rt, &mut topology, *node);
    }
    topology
}

/// The live replicas that are in excess if `repl` are requested.
#[derive(Clone, Copy)]
struct Choice<'a> {
    live: &'a [u32],
    repl: u32,
    chosen: &'a [u32],
}

/// The live replicas that are in excess, on a cluster with these free bytes on the storages of each
/// node.
#[derive(Clone, Copy)]
struct Excess<'a> {
    free: [u64; 6],
    choice: Choice<'a>,
}

static EXCESSES: [Excess<'static>; 6] = [
    // The greatest storage of a shared rack.
    Excess {
        free: FOUR_NODES,
        choice: Choice {
            live: &[11, 21, 31],
            repl: 2,
            chosen: &[21],
        },
    },
    Excess {
        free: FOUR_NODES,
        choice: Choice {
            live: &[11, 21, 31, 41],
            repl: 1,
            chosen: &[41, 21, 31],
        },
    },
    Excess {
        free: FOUR_NODES,
        choice: Choice {
            live: &[11, 31],
            repl: 2,
            chosen: &[],
        },
    },
    // One of seventeen replicas on one rack, if sixteen are requested.
    Excess {
        free: [0, 0, 0, 0, 0, 1000],
        choice: Choice {
            live: &SEVENTEEN,
            repl: 16,
            chosen: &[117],
        },
    },
    // The storage with fewer free bytes.
    Excess {
        free: [999, 1000, 1000, 1000, 0, 0],
        choice: Choice {
            live: &[11, 21, 31],
            repl: 2,
            chosen: &[11],
        },
    },
    Excess {
        free: [999, 1000, 5, 1000, 0, 0],
        choice: Choice {
            live: &[11, 21, 31],
            repl: 1,
            chosen: &[11, 31],
        },
    },
];

/// Storages with their racks and free bytes, each on the node of its own number. Six are on the
/// first rack, four on the second, two on the third. By ascending free bytes, and for equal ones by
/// descending number, they are 12, 4, 7, 8, 3, 2, 11, 6, 10, 1, 9 and 5.
static TWELVE: [(u32, u32, u64); 12] = [
    (1, 1, 700),
    (2, 1, 300),
    (3, 1, 300),
    (4, 1, 100),
    (5, 1, 900),
    (6, 1, 500),
    (7, 2, 200),
    (8, 2, 300),
    (9, 2, 800),
    (10, 2, 600),
    (11, 3, 400),
    (12, 3, 50),
];

static MANY: [Choice<'static>; 4] = [
    // 12 goes, which leaves 11 alone on the third rack. Then 4, 3 and 2 of the first rack and 7 and
    // 8 of the second go, in the order of their bytes.
    Choice {
        live: &[1, 2, 3, 4, 5, 6, 7, 8, 9, 10, 11, 12],
        repl: 6,
        chosen: &[12, 4, 7, 8, 3, 2],
    },
    // Then 11 is alone on its rack and has to wait. 6 and 1 of the first rack go, which leaves 5
    // alone, and 10 of the second, which leaves 9 alone. Of these three 11 has the fewest bytes,
    // then 9.
    Choice {
        live: &[12, 11, 10, 9, 8, 7, 6, 5, 4, 3, 2, 1],
        repl: 1,
        chosen: &[12, 4, 7, 8, 3, 2, 6, 10, 1, 11, 9],
    },
    // 5 is in the list twice and counts twice on the first rack. So it is not alone there and goes
    // before 11, with both its entries at once.
    Choice {
        live: &[5, 1, 2, 3, 4, 5, 6, 7, 8, 9, 10, 11, 12],
        repl: 1,
        chosen: &[12, 4, 7, 8, 3, 2, 6, 10, 1, 5, 11, 9],
    },
    // An unknown storage has no rack and no bytes: it goes first of those that are alone on their
    // rack.
    Choice {
        live: &[1, 2, 3, 4, 5, 6, 7, 8, 9, 10, 11, 12, 13],
        repl: 3,
        chosen: &[12, 4, 7, 8, 3, 2, 6, 10, 1, 13],
    },
];

fn cluster_of_singles(rt: &impl Abort, alloc: Global) -> Topology {
    let mut topology = Topology::new(alloc, Limits::standard()).expect(rt, "memory");
    for (number, rack, free) in &TWELVE {
        let storages = [*number];
        join(
            rt,
            alloc,
            &mut topology,
            *number,
            *rack,
            storages.as_slice(),
        );
        beat(
            rt,
            alloc,
            &mut topology,
            *number,
            storages.as_slice(),
            *free,
        );
    }
    topology
}

/// Chooses into a new list, and into a list and a scratch buffer that earlier cases have used.
fn check_excess(
    rt: &impl Abort,
    alloc: Global,
    topology: &Topology,
    case: &Choice<'_>,
    chosen: &mut Vec<StorageId>,
    scratch: &mut ExcessScratch,
) {
    let live = storages_numbered(rt, alloc, case.live);
    let wanted = storages_numbered(rt, alloc, case.chosen);
    let alone = excess_of(alloc, live.as_slice(), case.repl, topology).expect(rt, "memory");
    assert!(rt; alone.as_slice() == wanted.as_slice());
    fill_excess(chosen, scratch, live.as_slice(), case.repl, topology).expect(rt, "memory");
    assert!(rt; chosen.as_slice() == wanted.as_slice());
    drop(alone);
    drop(wanted);
    drop(live);
}

fn check_excess_on(
    rt: &impl Abort,
    alloc: Global,
    case: &Excess<'_>,
    chosen: &mut Vec<StorageId>,
    scratch: &mut ExcessScratch,
) {
    let topology = cluster(rt, alloc, &case.free, &[]);
    check_excess(rt, alloc, &topology, &case.choice, chosen, scratch);
    drop(topology);
}

#[test]
fn replicas_in_excess(rt: HostRuntime) {
    let alloc = rt.alloc();
    let mut chosen = Vec::new(alloc);
    let mut scratch = ExcessScratch::new(alloc);
    for case in &EXCESSES {
        check_excess_on(&rt, alloc, case, &mut chosen, &mut scratch);
    }
    drop(scratch);
    drop(chosen);
}

#[test]
fn many_replicas_in_excess(rt: HostRuntime) {
    let alloc = rt.alloc();
    let topology = cluster_of_singles(&rt, alloc);
    let mut chosen = Vec::new(alloc);
    let mut scratch = ExcessScratch::new(alloc);
    for case in &MANY {
        check_excess(&rt, alloc, &topology, case, &mut chosen, &mut scratch);
    }
    drop(scratch);
    drop(chosen);
    drop(topology);
}

/// The source of a copy, if these nodes drain, after one transfer from each storage of `sent`.
#[derive(Clone, Copy)]
struct Source<'a> {
    free: [u64; 6],
    draining: &'a [u32],
    sent: &'a [u32],
    usable: &'a [u32],
    level: Level,
    chosen: Option<u32>,
}

static SOURCES: [Source<'static>; 12] = [
    // The node that sends the fewest transfers.
    Source {
        free: FOUR_NODES,
        draining: &[],
        sent: &[],
        usable: &[11, 21],
        level: Level::UnderReplicated,
        chosen: Some(11),
    },
    Source {
        free: FOUR_NODES,
        draining: &[],
        sent: &[11, 11],
        usable: &[11, 21],
        level: Level::UnderReplicated,
        chosen: Some(21),
    },
    Source {
        free: FOUR_NODES,
        draining: &[],
        sent: &[11, 11, 21, 21],
        usable: &[11, 21],
        level: Level::UnderReplicated,
        chosen: None,
    },
    Source {
        free: FOUR_NODES,
        draining: &[],
        sent: &[11, 11, 21, 21],
        usable: &[11, 21],
        level: Level::Highest,
        chosen: Some(11),
    },
    // The transfers of all storages of a node count.
    Source {
        free: [1000, 1000, 1000, 1000, 1000, 0],
        draining: &[],
        sent: &[],
        usable: &[6, 5],
        level: Level::VeryUnderReplicated,
        chosen: Some(5),
    },
    Source {
        free: [1000, 1000, 1000, 1000, 1000, 0],
        draining: &[],
        sent: &[],
        usable: &[5, 41],
        level: Level::VeryUnderReplicated,
        chosen: Some(41),
    },
    Source {
        free: [1000, 1000, 1000, 1000, 1000, 0],
        draining: &[],
        sent: &[6, 6],
        usable: &[5],
        level: Level::VeryUnderReplicated,
        chosen: None,
    },
    // A node that drains goes first, even if it sends more.
    Source {
        free: FOUR_NODES,
        draining: &[2],
        sent: &[21],
        usable: &[11, 21],
        level: Level::UnderReplicated,
        chosen: Some(21),
    },
    // A node that drains may send four at each level, but not a fifth.
    Source {
        free: FOUR_NODES,
        draining: &[2],
        sent: &[21, 21, 21],
        usable: &[11, 21],
        level: Level::UnderReplicated,
        chosen: Some(21),
    },
    Source {
        free: FOUR_NODES,
        draining: &[2],
        sent: &[21, 21, 21, 21],
        usable: &[11, 21],
        level: Level::UnderReplicated,
        chosen: Some(11),
    },
    Source {
        free: FOUR_NODES,
        draining: &[2],
        sent: &[21, 21, 21, 21],
        usable: &[21],
        level: Level::Highest,
        chosen: None,
    },
    // Of two nodes that drain, the one that sends fewer.
    Source {
        free: FOUR_NODES,
        draining: &[2, 3],
        sent: &[21],
        usable: &[11, 21, 31],
        level: Level::UnderReplicated,
        chosen: Some(31),
    },
];

/// Adds a transfer from a storage, which may send it at the highest level.
fn send(rt: &impl Abort, topology: &Topology, streams: &mut Streams<'_>, source: StorageId) {
    let usable = [source];
    let found = least_source(usable.as_slice(), Level::Highest, topology, streams);
    assert!(rt; found == Some(source));
    if let Some(found) = found {
        streams.add(found);
    }
}

fn source_after(
    rt: &impl Abort,
    alloc: Global,
    topology: &Topology,
    case: &Source<'_>,
) -> Option<u32> {
    let usable = storages_numbered(rt, alloc, case.usable);
    let mut streams = Streams::new(alloc, topology).expect(rt, "memory");
    for source in case.sent {
        send(rt, topology, &mut streams, StorageId(*source));
    }
    let found = least_source(usable.as_slice(), case.level, topology, &streams);
    drop(streams);
    drop(usable);
    number_of(found)
}

fn check_source(rt: &impl Abort, alloc: Global, case: &Source<'_>) {
    let topology = cluster(rt, alloc, &case.free, case.draining);
    assert!(rt; source_after(rt, alloc, &topology, case) == case.chosen);
    drop(topology);
}

#[test]
fn source_of_a_copy(rt: HostRuntime) {
    for case in &SOURCES {
        check_source(&rt, rt.alloc(), case);
    }
}

/// The target of a copy of `len` bytes, if these nodes drain, after transfers of this many bytes to
/// each storage of `filled`.
#[derive(Clone, Copy)]
struct Target<'a> {
    free: [u64; 6],
    draining: &'a [u32],
    filled: &'a [(u32, u64)],
    held: &'a [u32],
    excluded: &'a [u32],
    len: u64,
    level: Level,
    chosen: Option<u32>,
}

static TARGETS: [Target<'static>; 18] = [
    // The most free bytes on another rack.
    Target {
        free: FOUR_NODES,
        draining: &[],
        filled: &[],
        held: &[11],
        excluded: &[11],
        len: 10,
        level: Level::Highest,
        chosen: Some(31),
    },
    Target {
        free: FOUR_NODES,
        draining: &[],
        filled: &[],
        held: &[11],
        excluded: &[11],
        len: 1001,
        level: Level::Highest,
        chosen: None,
    },
    Target {
        free: FOUR_NODES,
        draining: &[],
        filled: &[],
        held: &[11, 21, 31, 41],
        excluded: &[11, 21, 31, 41],
        len: 10,
        level: Level::Highest,
        chosen: None,
    },
    Target {
        free: FOUR_NODES,
        draining: &[],
        filled: &[(31, 10)],
        held: &[11],
        excluded: &[11],
        len: 10,
        level: Level::Highest,
        chosen: Some(41),
    },
    // A length that just fits.
    Target {
        free: FOUR_NODES,
        draining: &[],
        filled: &[],
        held: &[11],
        excluded: &[11],
        len: 1000,
        level: Level::Highest,
        chosen: Some(31),
    },
    Target {
        free: FOUR_NODES,
        draining: &[],
        filled: &[(31, 1), (41, 1)],
        held: &[11],
        excluded: &[11],
        len: 1000,
        level: Level::Highest,
        chosen: Some(21),
    },
    Target {
        free: FOUR_NODES,
        draining: &[],
        filled: &[(31, 1), (41, 1)],
        held: &[11],
        excluded: &[11],
        len: 999,
        level: Level::Highest,
        chosen: Some(31),
    },
    // The copy of a badly distributed block can only go to another rack.
    Target {
        free: FOUR_NODES,
        draining: &[],
        filled: &[],
        held: &[11],
        excluded: &[11, 31, 41],
        len: 10,
        level: Level::BadlyDistributed,
        chosen: None,
    },
    Target {
        free: FOUR_NODES,
        draining: &[],
        filled: &[],
        held: &[11],
        excluded: &[11, 31, 41],
        len: 10,
        level: Level::UnderReplicated,
        chosen: Some(21),
    },
    // The third copy goes to one of the two racks, and further ones to any rack.
    Target {
        free: [1000, 1000, 1000, 1000, 9000, 0],
        draining: &[],
        filled: &[],
        held: &[11, 31],
        excluded: &[11, 31],
        len: 10,
        level: Level::UnderReplicated,
        chosen: Some(21),
    },
    Target {
        free: [1000, 1000, 1000, 1000, 9000, 0],
        draining: &[],
        filled: &[],
        held: &[11, 21, 31],
        excluded: &[11, 21, 31],
        len: 10,
        level: Level::UnderReplicated,
        chosen: Some(5),
    },
    Target {
        free: [1000, 1000, 1000, 1000, 9000, 0],
        draining: &[],
        filled: &[],
        held: &[11, 21, 31],
        excluded: &[6],
        len: 10,
        level: Level::UnderReplicated,
        chosen: Some(11),
    },
    // The other storage of a node, if bytes are sent to one of them.
    Target {
        free: [1000, 1000, 1000, 1000, 9000, 0],
        draining: &[],
        filled: &[(5, 10)],
        held: &[11],
        excluded: &[11],
        len: 10,
        level: Level::Highest,
        chosen: Some(6),
    },
    // A storage of another node, if both storages of this one have fewer bytes left.
    Target {
        free: [1000, 1000, 1000, 1000, 9000, 0],
        draining: &[],
        filled: &[(5, 8500), (6, 8600)],
        held: &[11],
        excluded: &[11],
        len: 10,
        level: Level::Highest,
        chosen: Some(31),
    },
    // A third rack, if no storage on the first two has enough free bytes.
    Target {
        free: [1000, 1000, 1000, 1000, 9000, 0],
        draining: &[],
        filled: &[],
        held: &[11, 31],
        excluded: &[11, 31],
        len: 2000,
        level: Level::UnderReplicated,
        chosen: Some(5),
    },
    // A storage of a node that drains is no target.
    Target {
        free: FOUR_NODES,
        draining: &[3],
        filled: &[],
        held: &[11],
        excluded: &[11],
        len: 10,
        level: Level::Highest,
        chosen: Some(41),
    },
    Target {
        free: FOUR_NODES,
        draining: &[2, 3, 4],
        filled: &[],
        held: &[11],
        excluded: &[11],
        len: 10,
        level: Level::Highest,
        chosen: None,
    },
    Target {
        free: FOUR_NODES,
        draining: &[3, 4],
        filled: &[],
        held: &[11],
        excluded: &[11],
        len: 10,
        level: Level::BadlyDistributed,
        chosen: None,
    },
];

/// A storage on each of the nodes 1 to 4 except the node of this storage.
fn on_other_nodes(storage: u32) -> &'static [u32] {
    match storage {
        31 => &[11, 21, 41],
        41 => &[11, 21, 31],
        _ => &[11, 21, 31, 41],
    }
}

/// Adds a transfer of `len` bytes to a storage, which is the target if all other nodes are
/// excluded.
fn fill(
    rt: &impl Abort,
    alloc: Global,
    topology: &Topology,
    scheduled: &mut Scheduled<'_>,
    target: u32,
    len: u64,
) {
    let excluded = storages_numbered(rt, alloc, on_other_nodes(target));
    let found = least_target(
        NO_STORAGE.as_slice(),
        excluded.as_slice(),
        len,
        Level::Highest,
        topology,
        scheduled,
    );
    assert!(rt; found == Some(StorageId(target)));
    if let Some(found) = found {
        scheduled.add(found, len);
    }
    drop(excluded);
}

fn target_after(
    rt: &impl Abort,
    alloc: Global,
    topology: &Topology,
    case: &Target<'_>,
) -> Option<u32> {
    let held = storages_numbered(rt, alloc, case.held);
    let excluded = storages_numbered(rt, alloc, case.excluded);
    let mut scheduled = Scheduled::new(alloc, topology).expect(rt, "memory");
    for (target, len) in case.filled {
        fill(rt, alloc, topology, &mut scheduled, *target, *len);
    }
    let found = least_target(
        held.as_slice(),
        excluded.as_slice(),
        case.len,
        case.level,
        topology,
        &scheduled,
    );
    drop(scheduled);
    drop(excluded);
    drop(held);
    number_of(found)
}

fn check_target(rt: &impl Abort, alloc: Global, case: &Target<'_>) {
    let topology = cluster(rt, alloc, &case.free, case.draining);
    assert!(rt; target_after(rt, alloc, &topology, case) == case.chosen);
    drop(topology);
}

#[test]
fn target_of_a_copy(rt: HostRuntime) {
    for case in &TARGETS {
        check_target(&rt, rt.alloc(), case);
    }
}
