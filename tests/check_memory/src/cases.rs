// The calls that are tried, each with its answer and with the calls before it on a cluster of four
// nodes. The answers were worked out by hand from the rules.

use crate::short_calls::ShortCall;

#[derive(Clone, Copy)]
pub struct Case {
    pub name: &'static str,
    pub before: &'static [ShortCall],
    pub call: ShortCall,
    /// The answer of the call while there is memory.
    pub answer: &'static str,
    /// Whether the call can be refused because it is out of memory.
    pub takes_memory: bool,
}

/// Two racks with two nodes each, and a thousand free bytes on each node.
pub static CLUSTER: [ShortCall; 8] = [
    ShortCall::Register(1, 1, 11, 1),
    ShortCall::Register(2, 1, 21, 1),
    ShortCall::Register(3, 2, 31, 1),
    ShortCall::Register(4, 2, 41, 1),
    ShortCall::Heartbeat(1, 11),
    ShortCall::Heartbeat(2, 21),
    ShortCall::Heartbeat(3, 31),
    ShortCall::Heartbeat(4, 41),
];

pub const NOTHING: &[ShortCall] = &[];

/// Two blocks that get their first replicas by a report, which also lists two numbers of no block.
const TWO_BLOCKS: &[ShortCall] = &[ShortCall::Add(7, 3), ShortCall::Add(8, 3)];

const ONE_BLOCK: &[ShortCall] = &[ShortCall::Add(8, 3)];

const FOUR_NUMBERS: &[(u64, u64, u64)] = &[(7, 7, 1), (8, 8, 1), (9, 9, 1), (10, 10, 1)];

const THOUSAND_NUMBERS: &[(u64, u64, u64)] = &[(1001, 2000, 1)];

/// A report of a thousand new numbers.
pub const THOUSAND_REPORTED: ShortCall = ShortCall::Report(11, THOUSAND_NUMBERS);

/// Block 8 once more, after a run, with another stamp.
const RUNS: &[(u64, u64, u64)] = &[(7, 9, 1), (8, 8, 0)];

/// Three blocks, each with two replicas fewer than requested.
const TO_COPY: &[ShortCall] = &[
    ShortCall::Add(1, 4),
    ShortCall::Received(11, 1, 1),
    ShortCall::Received(21, 1, 1),
    ShortCall::Add(2, 4),
    ShortCall::Received(11, 2, 1),
    ShortCall::Received(21, 2, 1),
    ShortCall::Add(3, 4),
    ShortCall::Received(11, 3, 1),
    ShortCall::Received(21, 3, 1),
];

const ON_ONE_NODE: &[ShortCall] = &[ShortCall::Add(7, 1), ShortCall::Received(11, 7, 1)];

/// A block whose entry is full with three replicas: one more makes it grow.
const THREE_REPLICAS: &[ShortCall] = &[
    ShortCall::Add(5, 4),
    ShortCall::Received(11, 5, 1),
    ShortCall::Received(21, 5, 1),
    ShortCall::Received(31, 5, 1),
];

/// The replica on storage 11, as it is.
const A_KNOWN_NUMBER: &[(u64, u64, u64)] = &[(5, 5, 1)];

/// Three blocks of one of three shards, which fill its first capacity: one more makes it grow.
const THREE_OF_A_SHARD: &[ShortCall] = &[
    ShortCall::Add(3, 3),
    ShortCall::Add(6, 3),
    ShortCall::Add(9, 3),
];

/// Blocks with a replica that is in excess, stale, bad, pending or on a draining node, a block
/// without replicas, and a stray replica.
const OF_ALL_KINDS: &[ShortCall] = &[
    ShortCall::Add(1, 1),
    ShortCall::Received(11, 1, 1),
    ShortCall::Received(31, 1, 1),
    ShortCall::Add(2, 2),
    ShortCall::Received(11, 2, 1),
    ShortCall::Received(21, 2, 0),
    ShortCall::Add(3, 2),
    ShortCall::Received(21, 3, 1),
    ShortCall::Received(41, 3, 1),
    ShortCall::Spoilt(41, 3),
    ShortCall::Add(4, 3),
    ShortCall::Received(31, 4, 1),
    ShortCall::Add(5, 3),
    ShortCall::Received(41, 6, 1),
    ShortCall::Round,
    ShortCall::Drain(2),
];

const NONE_CHANGED: &str = "Done(Done { added: 0, removed: 0 })";

const ONE_ADDED: &str = "Done(Done { added: 1, removed: 0 })";

const THREE_ADDED: &str = "Done(Done { added: 3, removed: 0 })";

const FOUR_ADDED: &str = "Done(Done { added: 4, removed: 0 })";

const ONE_REMOVED: &str = "Done(Done { added: 0, removed: 1 })";

const TWO_REMOVED: &str = "Done(Done { added: 0, removed: 2 })";

/// The report removes the replicas of blocks 1 and 2, which it does not list.
const THOUSAND_FOR_TWO: &str = "Done(Done { added: 1000, removed: 2 })";

/// All three blocks are at level 2, where a node sends at most two copies. So blocks 1 and 2 are
/// copied, each from both of its nodes to both nodes of the other rack, and block 3 has to wait.
const TWO_COPIED_TWICE: &str = "Commanded(Commands { round: 1, nodes: Items { vec: [\
    NodeCommands { node: NodeId(1), transfers: Items { vec: [\
    Transfer { block: BlockId(1), stamp: Stamp { generation: Gen(1), len: 10 }, \
    source: StorageId(11), target: StorageId(31) }, \
    Transfer { block: BlockId(2), stamp: Stamp { generation: Gen(1), len: 10 }, \
    source: StorageId(11), target: StorageId(31) }] }, deletes: Items { vec: [] } }, \
    NodeCommands { node: NodeId(2), transfers: Items { vec: [\
    Transfer { block: BlockId(1), stamp: Stamp { generation: Gen(1), len: 10 }, \
    source: StorageId(21), target: StorageId(41) }, \
    Transfer { block: BlockId(2), stamp: Stamp { generation: Gen(1), len: 10 }, \
    source: StorageId(21), target: StorageId(41) }] }, deletes: Items { vec: [] } }] } })";

/// The round before commanded all deletes, and copies of blocks 2 and 3 to storage 31 and of block
/// 4 to storage 11. Its second copy of block 4 was for node 2, which began to drain after that. So
/// block 3 lacks one copy: the drained replica is sent to node 1, the only node without one. Block
/// 4 lacks one copy too, which only node 4 can take.
const TWO_COPIED_ONCE: &str = "Commanded(Commands { round: 2, nodes: Items { vec: [\
    NodeCommands { node: NodeId(2), transfers: Items { vec: [\
    Transfer { block: BlockId(3), stamp: Stamp { generation: Gen(1), len: 10 }, \
    source: StorageId(21), target: StorageId(11) }] }, deletes: Items { vec: [] } }, \
    NodeCommands { node: NodeId(3), transfers: Items { vec: [\
    Transfer { block: BlockId(4), stamp: Stamp { generation: Gen(1), len: 10 }, \
    source: StorageId(31), target: StorageId(41) }] }, deletes: Items { vec: [] } }] } })";

const EIGHT_REPLICAS: &str = "Replicas(Items { vec: [\
    Replica { block: BlockId(1), storage: StorageId(11), tag: Good }, \
    Replica { block: BlockId(1), storage: StorageId(31), tag: Good }, \
    Replica { block: BlockId(2), storage: StorageId(11), tag: Good }, \
    Replica { block: BlockId(2), storage: StorageId(21), tag: Stale }, \
    Replica { block: BlockId(3), storage: StorageId(21), tag: Good }, \
    Replica { block: BlockId(3), storage: StorageId(41), tag: Bad }, \
    Replica { block: BlockId(4), storage: StorageId(31), tag: Good }, \
    Replica { block: BlockId(6), storage: StorageId(41), tag: Stray }] })";

const STALE_AND_BAD: &str = "ReplicaIds(Items { vec: [\
    ReplicaId { block: BlockId(2), storage: StorageId(21) }, \
    ReplicaId { block: BlockId(3), storage: StorageId(41) }] })";

/// Of two replicas on two racks with the same free bytes, the one on the greater storage.
const ONE_TOO_MANY: &str =
    "ReplicaIds(Items { vec: [ReplicaId { block: BlockId(1), storage: StorageId(31) }] })";

const BLOCK_5: &str = "Blocks(Items { vec: [BlockId(5)] })";

const BLOCKS_1_AND_2: &str = "Blocks(Items { vec: [BlockId(1), BlockId(2)] })";

/// The places of a block, with that of the replica in excess.
const BOTH_PLACES: &str = "Storages(Items { vec: [StorageId(11), StorageId(31)] })";

macro_rules! taking {
    ($name:expr, $before:expr, $call:expr, $answer:expr) => {
        Case { name: $name, before: $before, call: $call, answer: $answer, takes_memory: true }
    };
}

macro_rules! takes_none {
    ($name:expr, $call:expr, $answer:expr) => {
        Case { name: $name, before: OF_ALL_KINDS, call: $call, answer: $answer, takes_memory: false }
    };
}

/// The calls that can be refused because they are out of memory, each with the calls before it; and
/// then those that take no memory, on blocks of all kinds.
pub static CASES: [Case; 35] = [
    taking!(
        "report_of_four",
        TWO_BLOCKS,
        ShortCall::Report(11, FOUR_NUMBERS),
        FOUR_ADDED
    ),
    taking!(
        "report_of_a_thousand",
        OF_ALL_KINDS,
        THOUSAND_REPORTED,
        THOUSAND_FOR_TWO
    ),
    taking!(
        "report_in_runs",
        ONE_BLOCK,
        ShortCall::Report(11, RUNS),
        THREE_ADDED
    ),
    taking!(
        "report_of_nothing",
        OF_ALL_KINDS,
        ShortCall::Report(11, &[]),
        TWO_REMOVED
    ),
    taking!(
        "report_of_known",
        THREE_REPLICAS,
        ShortCall::Report(11, A_KNOWN_NUMBER),
        NONE_CHANGED
    ),
    taking!(
        "register",
        NOTHING,
        ShortCall::Register(5, 1, 51, 1),
        NONE_CHANGED
    ),
    taking!("round", TO_COPY, ShortCall::Round, TWO_COPIED_TWICE),
    taking!(
        "round_of_all_kinds",
        OF_ALL_KINDS,
        ShortCall::Round,
        TWO_COPIED_ONCE
    ),
    taking!("drain", ON_ONE_NODE, ShortCall::Drain(1), NONE_CHANGED),
    taking!("undrain", OF_ALL_KINDS, ShortCall::Undrain(2), NONE_CHANGED),
    taking!("dead", OF_ALL_KINDS, ShortCall::Dead(1), TWO_REMOVED),
    taking!(
        "storage_failed",
        OF_ALL_KINDS,
        ShortCall::Failed(31),
        TWO_REMOVED
    ),
    taking!("add_first", NOTHING, ShortCall::Add(12, 3), NONE_CHANGED),
    taking!("add", THREE_OF_A_SHARD, ShortCall::Add(12, 3), NONE_CHANGED),
    taking!(
        "received",
        THREE_REPLICAS,
        ShortCall::Received(41, 5, 1),
        ONE_ADDED
    ),
    taking!(
        "received_stray",
        THREE_OF_A_SHARD,
        ShortCall::Received(11, 12, 1),
        ONE_ADDED
    ),
    taking!(
        "replicas",
        OF_ALL_KINDS,
        ShortCall::Replicas,
        EIGHT_REPLICAS
    ),
    taking!(
        "corrupt_replicas",
        OF_ALL_KINDS,
        ShortCall::Corrupt,
        STALE_AND_BAD
    ),
    taking!(
        "excess_replicas",
        OF_ALL_KINDS,
        ShortCall::Excess,
        ONE_TOO_MANY
    ),
    taking!("missing_blocks", OF_ALL_KINDS, ShortCall::Missing, BLOCK_5),
    taking!(
        "blocks_on",
        OF_ALL_KINDS,
        ShortCall::BlocksOn(11),
        BLOCKS_1_AND_2
    ),
    taking!("places", OF_ALL_KINDS, ShortCall::Places(1), BOTH_PLACES),
    takes_none!("heartbeat", ShortCall::Heartbeat(1, 11), NONE_CHANGED),
    takes_none!("delete", ShortCall::Delete(4), NONE_CHANGED),
    takes_none!(
        "set_replication",
        ShortCall::Replication(2, 5),
        NONE_CHANGED
    ),
    takes_none!("restamp", ShortCall::Restamp(1, 2), NONE_CHANGED),
    takes_none!("deleted", ShortCall::Deleted(31, 1), ONE_REMOVED),
    takes_none!("corrupt", ShortCall::Spoilt(11, 1), NONE_CHANGED),
    takes_none!("level", ShortCall::Level(2), "LevelIs(Some(Highest))"),
    takes_none!("retired", ShortCall::Retired(2), "IsRetired(false)"),
    takes_none!("calls", ShortCall::Calls, "Number(24)"),
    takes_none!("rounds", ShortCall::Rounds, "Number(1)"),
    takes_none!(
        "unknown_block",
        ShortCall::Places(99),
        "Refused(UnknownBlock)"
    ),
    takes_none!(
        "unknown_storage",
        ShortCall::BlocksOn(99),
        "Refused(UnknownStorage)"
    ),
    takes_none!(
        "known_node",
        ShortCall::Register(1, 1, 61, 1),
        "Refused(NodeKnown)"
    ),
];
