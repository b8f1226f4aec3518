// With ample memory each call that takes memory is accepted and has the answer that was worked out
// by hand, for any number of shards and workers. The shards of a call are processed in parallel.

use crate::calls::{Case, STAMP, call_of};
use bm_base::{
    Answer, Call, Commands, Config, Delete, HashSecret, Items, Limits, NodeCommands, Refusal,
    ReplicaId, StorageId, Transfer,
};
use bm_crew::{Gate, NoGate};
use bm_manager::{Manager, answers_alike, answers_alike_alone};
use std::alloc::Global;
use std::process::Abort;
use std::sync::Wait;
use std::sync::atomic::{AtomicU64, Ordering};
use std::thread::{self, Threads};

mod readers;

/// The copies and deletes that a node is to make.
#[derive(Clone, Copy)]
struct Orders<'a> {
    node: u32,
    /// Blocks, each with its source and its target.
    copies: &'a [(u64, u32, u32)],
    /// Storages, each with a block.
    deletes: &'a [(u32, u64)],
}

/// The expected answer to a call.
#[derive(Clone, Copy)]
enum Must<'a> {
    /// The numbers of replicas added and removed.
    Done(u128, u128),
    /// The number of a refusal.
    Refused(u32),
    Places(&'a [u32]),
    /// Storages, each with a block.
    Replicas(&'a [(u32, u64)]),
    Number(u64),
    /// The number of a round, and its commands, node by node.
    Round(u64, &'a [Orders<'a>]),
}

/// The answer to an accepted event that changes no replica.
const ACCEPTED: Must<'static> = Must::Done(0, 0);

fn are_places(storages: &[StorageId], must: &[u32]) -> bool {
    for (storage, number) in storages.iter().zip(must.iter()) {
        if storage.0 != *number {
            return false;
        }
    }
    storages.len() == must.len()
}

fn are_copies(transfers: &[Transfer], must: &[(u64, u32, u32)]) -> bool {
    for (transfer, copy) in transfers.iter().zip(must.iter()) {
        if (transfer.block.0, transfer.source.0, transfer.target.0) != *copy {
            return false;
        }
    }
    transfers.len() == must.len()
}

fn are_deletes(deletes: &[Delete], must: &[(u32, u64)]) -> bool {
    for (delete, expected) in deletes.iter().zip(must.iter()) {
        if (delete.storage.0, delete.block.0) != *expected {
            return false;
        }
    }
    deletes.len() == must.len()
}

fn are_replicas(replicas: &[ReplicaId], must: &[(u32, u64)]) -> bool {
    for (replica, expected) in replicas.iter().zip(must.iter()) {
        if (replica.storage.0, replica.block.0) != *expected {
            return false;
        }
    }
    replicas.len() == must.len()
}

fn is_ordered(commands: &NodeCommands, must: &Orders<'_>) -> bool {
    commands.node.0 == must.node
        && are_copies(commands.transfers.as_slice(), must.copies)
        && are_deletes(commands.deletes.as_slice(), must.deletes)
}

fn is_round(commands: &Commands, round: u64, must: &[Orders<'_>]) -> bool {
    let nodes = commands.nodes.as_slice();
    for (node, orders) in nodes.iter().zip(must.iter()) {
        if !is_ordered(node, orders) {
            return false;
        }
    }
    commands.round == round && nodes.len() == must.len()
}

fn is_as(answer: &Answer, must: &Must<'_>) -> bool {
    match (answer, must) {
        (Answer::Done(done), Must::Done(added, removed)) => {
            done.added == *added && done.removed == *removed
        }
        (Answer::Refused(refusal), Must::Refused(number)) => refusal.number() == *number,
        (Answer::Storages(storages), Must::Places(must)) => {
            are_places(storages.as_slice(), must)
        }
        (Answer::ReplicaIds(replicas), Must::Replicas(must)) => {
            are_replicas(replicas.as_slice(), must)
        }
        (Answer::Number(number), Must::Number(must)) => *number == *must,
        (Answer::Commanded(commands), Must::Round(round, nodes)) => {
            is_round(commands, *round, nodes)
        }
        _ => false,
    }
}

const OLD: (u64, u64) = (0, 10);

static CALL_BY_CALL: [(Case<'static>, Must<'static>); 13] = [
    (Case::Register(1, 1, &[11, 12]), ACCEPTED),
    (Case::Register(1, 1, &[13]), Must::Refused(2)),
    (Case::Register(2, 1, &[21]), ACCEPTED),
    (Case::Add(7, STAMP, 3), ACCEPTED),
    (Case::Received(11, 7, STAMP), Must::Done(1, 0)),
    (Case::Received(12, 7, STAMP), Must::Done(1, 1)),
    (Case::Received(21, 7, STAMP), Must::Done(1, 0)),
    (Case::Places(7), Must::Places(&[12, 21])),
    (Case::Received(12, 7, OLD), ACCEPTED),
    (Case::Received(99, 7, STAMP), Must::Refused(3)),
    (Case::Places(7), Must::Places(&[21])),
    (Case::Places(8), Must::Refused(5)),
    (Case::Calls, Must::Number(7)),
];

static ROUNDS: [(Case<'static>, Must<'static>); 15] = [
    (Case::Register(1, 1, &[11]), ACCEPTED),
    (Case::Register(2, 1, &[21]), ACCEPTED),
    (Case::Register(3, 2, &[31]), ACCEPTED),
    (Case::Heartbeat(1, &[(11, 1000)]), ACCEPTED),
    (Case::Heartbeat(2, &[(21, 1000)]), ACCEPTED),
    (Case::Heartbeat(3, &[(31, 1000)]), ACCEPTED),
    (Case::Add(7, STAMP, 2), ACCEPTED),
    (Case::Received(11, 7, STAMP), Must::Done(1, 0)),
    (
        Case::Round,
        Must::Round(
            1,
            &[Orders {
                node: 1,
                copies: &[(7, 11, 31)],
                deletes: &[],
            }],
        ),
    ),
    (Case::Round, Must::Round(2, &[])),
    (Case::Received(31, 7, STAMP), Must::Done(1, 0)),
    (Case::Received(21, 7, STAMP), Must::Done(1, 0)),
    (
        Case::Round,
        Must::Round(
            3,
            &[Orders {
                node: 2,
                copies: &[],
                deletes: &[(21, 7)],
            }],
        ),
    ),
    (Case::Round, Must::Round(4, &[])),
    (Case::Places(7), Must::Places(&[11, 21, 31])),
];

/// A block with three requested replicas has twelve, four on each of three racks. No storage has
/// reported its free bytes. So of the replicas that are not alone on their rack, the one on the
/// greatest storage goes first, and the one on the least storage of each rack stays.
static NINE_OF_TWELVE: [(Case<'static>, Must<'static>); 27] = [
    (Case::Register(0, 0, &[101]), ACCEPTED),
    (Case::Register(1, 0, &[102]), ACCEPTED),
    (Case::Register(2, 0, &[103]), ACCEPTED),
    (Case::Register(3, 0, &[104]), ACCEPTED),
    (Case::Register(4, 1, &[105]), ACCEPTED),
    (Case::Register(5, 1, &[106]), ACCEPTED),
    (Case::Register(6, 1, &[107]), ACCEPTED),
    (Case::Register(7, 1, &[108]), ACCEPTED),
    (Case::Register(8, 2, &[109]), ACCEPTED),
    (Case::Register(9, 2, &[110]), ACCEPTED),
    (Case::Register(10, 2, &[111]), ACCEPTED),
    (Case::Register(11, 2, &[112]), ACCEPTED),
    (Case::Add(7, STAMP, 3), ACCEPTED),
    (Case::Received(112, 7, STAMP), Must::Done(1, 0)),
    (Case::Received(111, 7, STAMP), Must::Done(1, 0)),
    (Case::Received(110, 7, STAMP), Must::Done(1, 0)),
    (Case::Received(109, 7, STAMP), Must::Done(1, 0)),
    (Case::Received(108, 7, STAMP), Must::Done(1, 0)),
    (Case::Received(107, 7, STAMP), Must::Done(1, 0)),
    (Case::Received(106, 7, STAMP), Must::Done(1, 0)),
    (Case::Received(105, 7, STAMP), Must::Done(1, 0)),
    (Case::Received(104, 7, STAMP), Must::Done(1, 0)),
    (Case::Received(103, 7, STAMP), Must::Done(1, 0)),
    (Case::Received(102, 7, STAMP), Must::Done(1, 0)),
    (Case::Received(101, 7, STAMP), Must::Done(1, 0)),
    (
        Case::Round,
        Must::Round(
            1,
            &[
                Orders {
                    node: 1,
                    copies: &[],
                    deletes: &[(102, 7)],
                },
                Orders {
                    node: 2,
                    copies: &[],
                    deletes: &[(103, 7)],
                },
                Orders {
                    node: 3,
                    copies: &[],
                    deletes: &[(104, 7)],
                },
                Orders {
                    node: 5,
                    copies: &[],
                    deletes: &[(106, 7)],
                },
                Orders {
                    node: 6,
                    copies: &[],
                    deletes: &[(107, 7)],
                },
                Orders {
                    node: 7,
                    copies: &[],
                    deletes: &[(108, 7)],
                },
                Orders {
                    node: 9,
                    copies: &[],
                    deletes: &[(110, 7)],
                },
                Orders {
                    node: 10,
                    copies: &[],
                    deletes: &[(111, 7)],
                },
                Orders {
                    node: 11,
                    copies: &[],
                    deletes: &[(112, 7)],
                },
            ],
        ),
    ),
    (
        Case::Excess,
        Must::Replicas(&[
            (102, 7),
            (103, 7),
            (104, 7),
            (106, 7),
            (107, 7),
            (108, 7),
            (110, 7),
            (111, 7),
            (112, 7),
        ]),
    ),
];

fn calls_of(rt: &impl Abort, alloc: Global, story: &[(Case<'_>, Must<'_>)]) -> Vec<Call> {
    let mut calls = Vec::new(alloc);
    for (case, _) in story {
        calls.push(call_of(rt, alloc, *case)).expect(rt, "memory");
    }
    calls
}

/// The standard configuration, with these numbers of shards and workers.
fn config(shards: u32, workers: u32) -> Config {
    Config {
        shards,
        workers,
        ..Config::standard()
    }
}

fn check_answers(rt: &impl Abort, answers: &[Answer], story: &[(Case<'_>, Must<'_>)]) {
    assert!(rt; answers.len() == story.len());
    for (index, (answer, (_, must))) in answers.iter().zip(story.iter()).enumerate() {
        assert!(rt; is_as(answer, must), "call {index}");
    }
}

fn check_both(
    rt: &impl Abort,
    answered: Result<(Items<Answer>, Items<Answer>), Refusal>,
    story: &[(Case<'_>, Must<'_>)],
) {
    let (answers, others) = answered.expect(rt, "memory");
    check_answers(rt, answers.as_slice(), story);
    check_answers(rt, others.as_slice(), story);
    drop(others);
    drop(answers);
}

fn check_story<R: Abort + Threads + Wait + Sync>(
    rt: &R,
    alloc: Global,
    shards: u32,
    workers: u32,
    story: &[(Case<'_>, Must<'_>)],
) {
    let calls = calls_of(rt, alloc, story);
    let mut manager = Manager::new(alloc, config(shards, workers)).expect(rt, "memory");
    let answers = manager
        .answer_all(rt, &NoGate, calls.as_slice())
        .expect(rt, "memory");
    check_answers(rt, answers.as_slice(), story);
    drop(answers);
    drop(manager);
    drop(calls);
}

/// Checks the answers with four numbers of shards and workers.
fn check_stories<R: Abort + Threads + Wait + Sync>(
    rt: &R,
    alloc: Global,
    story: &[(Case<'_>, Must<'_>)],
) {
    for (shards, workers) in &SETTINGS {
        check_story(rt, alloc, *shards, *workers, story);
    }
}

static SETTINGS: [(u32, u32); 4] = [(1, 1), (3, 2), (5, 4), (2, 16)];

#[test]
fn a_list_of_calls_is_answered_call_by_call(rt: HostRuntime) {
    check_stories(&rt, rt.alloc(), CALL_BY_CALL.as_slice());
}

#[test]
fn rounds_copy_mark_and_delete(rt: HostRuntime) {
    check_stories(&rt, rt.alloc(), ROUNDS.as_slice());
}

#[test]
fn nine_of_twelve_replicas_are_too_many(rt: HostRuntime) {
    check_stories(&rt, rt.alloc(), NINE_OF_TWELVE.as_slice());
}

#[test]
fn two_managers_answer_alike(rt: HostRuntime) {
    let alloc = rt.alloc();
    let calls = calls_of(&rt, alloc, ROUNDS.as_slice());
    let of_one = Config::standard();
    let limits = Limits::standard();
    let threaded = answers_alike(alloc, &rt, &NoGate, of_one, limits, 5, 4, calls.as_slice());
    check_both(&rt, threaded, ROUNDS.as_slice());
    let of_three = config(3, 2);
    let alone = answers_alike_alone(alloc, &rt, &NoGate, of_three, limits, 5, calls.as_slice());
    check_both(&rt, alone, ROUNDS.as_slice());
    drop(calls);
}

/// A gate at which the piece of a shard waits until the pieces of all other shards have entered
/// equally often.
#[derive(Drop)]
struct Meeting {
    shards: u32,
    /// The one shard whose piece waits. `None` if each piece does.
    only: Option<u32>,
    /// The number of times that the piece of each shard has entered.
    entered: [AtomicU64; 4],
    /// The number of times that a piece gave up waiting.
    gave_up: AtomicU64,
}

impl Meeting {
    fn new(shards: u32, only: Option<u32>) -> Meeting {
        Meeting {
            shards,
            only,
            entered: [
                AtomicU64::new(0),
                AtomicU64::new(0),
                AtomicU64::new(0),
                AtomicU64::new(0),
            ],
            gave_up: AtomicU64::new(0),
        }
    }

    /// Counts a piece of this shard, and gives the count.
    fn enter(&self, shard: u32) -> u64 {
        match self.entered.get(shard as usize) {
            Some(count) => count.fetch_add(1, Ordering::SeqCst).wrapping_add(1),
            None => 0,
        }
    }

    fn times_entered(&self, shard: u32) -> u64 {
        match self.entered.get(shard as usize) {
            Some(count) => count.load(Ordering::SeqCst),
            None => 0,
        }
    }

    /// Whether the pieces of all shards entered equally often, at least once, and none gave up.
    fn has_met(&self) -> bool {
        let times = self.times_entered(0);
        times > 0
            && (0..self.shards).all(|shard| self.times_entered(shard) == times)
            && self.gave_up.load(Ordering::SeqCst) == 0
    }
}

impl Gate for Meeting {
    /// Yields to other threads until the pieces of all shards have entered, and gives up after
    /// three million yields.
    fn at(&self, shard: u32) {
        let times = self.enter(shard);
        if self.only.unwrap_or(shard) != shard {
            return;
        }
        for _ in 0..3_000_000u32 {
            if (0..self.shards).all(|other| self.times_entered(other) >= times) {
                return;
            }
            thread::yield_now();
        }
        self.gave_up.fetch_add(1, Ordering::SeqCst);
    }
}

/// Calls with their answers, and whether the crew processes them: it does for calls on all shards.
static MET: [(Case<'static>, Must<'static>, bool); 17] = [
    (Case::Register(1, 1, &[11]), ACCEPTED, true),
    (Case::Register(2, 2, &[21]), ACCEPTED, true),
    (Case::Add(4, STAMP, 2), ACCEPTED, false),
    (Case::Add(5, STAMP, 2), ACCEPTED, false),
    (Case::Add(6, STAMP, 2), ACCEPTED, false),
    (Case::Add(7, STAMP, 2), ACCEPTED, false),
    (Case::Report(11, &[(4, 7, STAMP)]), Must::Done(4, 0), true),
    (Case::Received(21, 5, STAMP), Must::Done(1, 0), false),
    (Case::Received(21, 6, STAMP), Must::Done(1, 0), false),
    (Case::Received(21, 7, STAMP), Must::Done(1, 0), false),
    (Case::Drain(1), ACCEPTED, true),
    (Case::Undrain(1), ACCEPTED, true),
    (Case::Heartbeat(2, &[(21, 1000)]), ACCEPTED, false),
    (
        Case::Round,
        Must::Round(
            1,
            &[Orders {
                node: 1,
                copies: &[(4, 11, 21)],
                deletes: &[],
            }],
        ),
        true,
    ),
    (Case::Failed(21), Must::Done(0, 3), true),
    (Case::Dead(1), Must::Done(0, 4), true),
    (Case::Places(4), Must::Places(&[]), false),
];

/// Whether a call has the expected answer, and the shards' pieces met at the gate exactly if the
/// crew processes it.
fn is_met<R: Abort + Threads + Wait + Sync>(
    rt: &R,
    alloc: Global,
    manager: &mut Manager,
    gate: &Meeting,
    case: Case<'_>,
    must: Must<'_>,
    crewed: bool,
) -> bool {
    let call = call_of(rt, alloc, case);
    let answer = manager.answer(rt, gate, &call);
    let is_so = is_as(&answer, &must) && gate.has_met() == crewed;
    drop(answer);
    drop(call);
    is_so
}

fn check_meetings<R: Abort + Threads + Wait + Sync>(
    rt: &R,
    alloc: Global,
    shards: u32,
    workers: u32,
    only: Option<u32>,
) {
    let mut manager = Manager::new(alloc, config(shards, workers)).expect(rt, "memory");
    for (index, (case, must, crewed)) in MET.iter().enumerate() {
        let gate = Meeting::new(shards, only);
        let is_so = is_met(rt, alloc, &mut manager, &gate, *case, *must, *crewed);
        assert!(rt; is_so, "call {index}, waits {only:?}");
        drop(gate);
    }
    drop(manager);
}

/// Each piece waits for all others, so each shard needs a worker at the same time.
#[test]
fn the_shards_of_a_call_are_worked_at_once(rt: HostRuntime) {
    check_meetings(&rt, rt.alloc(), 2, 2, None);
    check_meetings(&rt, rt.alloc(), 4, 4, None);
}

/// Whichever shard's piece holds up its worker, the other worker processes the other three shards.
/// With fixed shares one of these would wait for a worker that waits for it.
#[test]
fn a_free_worker_takes_the_next_shard(rt: HostRuntime) {
    for shard in 0..4 {
        check_meetings(&rt, rt.alloc(), 4, 2, Some(shard));
    }
}

/// Shards, workers, work, invalidate and pend: one of them is outside its range.
static BAD: [(u32, u32, u32, u32, u32); 10] = [
    (0, 1, 2, 1000, 100),
    (65, 1, 2, 1000, 100),
    (1, 0, 2, 1000, 100),
    (1, 17, 2, 1000, 100),
    (1, 1, 0, 1000, 100),
    (1, 1, 1001, 1000, 100),
    (1, 1, 2, 0, 100),
    (1, 1, 2, 1_000_001, 100),
    (1, 1, 2, 1000, 0),
    (1, 1, 2, 1000, 1_000_001),
];

fn is_refused(alloc: Global, config: Config) -> bool {
    matches!(Manager::new(alloc, config), Err(Refusal::BadConfig))
}

#[test]
fn a_bad_configuration_is_refused(rt: HostRuntime) {
    for (shards, workers, work, invalidate, pend) in &BAD {
        let config = Config {
            shards: *shards,
            workers: *workers,
            work: *work,
            invalidate: *invalidate,
            pend: *pend,
            first_round: 0,
            first_call: 0,
        };
        assert!(rt; is_refused(rt.alloc(), config));
    }
}

#[test]
fn the_greatest_configuration_is_accepted(rt: HostRuntime) {
    let most = Config {
        shards: 64,
        workers: 16,
        work: 1000,
        invalidate: 1_000_000,
        pend: 1_000_000,
        first_round: u64::MAX,
        first_call: u64::MAX,
    };
    assert!(rt; Manager::new(rt.alloc(), most).is_ok());
}

fn within(alloc: Global, nodes: u32, storages: u32) -> Result<Manager, Refusal> {
    let limits = Limits { nodes, storages };
    Manager::with_limits(alloc, Config::standard(), limits, HashSecret::none())
}

#[test]
fn limits_outside_their_ranges_are_refused(rt: HostRuntime) {
    for (nodes, storages) in &[(0, 1), (1, 0), (65_537, 1), (1, 1_048_577)] {
        let made = within(rt.alloc(), *nodes, *storages);
        assert!(rt; matches!(made, Err(Refusal::BadConfig)));
    }
    assert!(rt; within(rt.alloc(), 65_536, 1_048_576).is_ok());
}
