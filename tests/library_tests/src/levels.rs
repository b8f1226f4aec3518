// Calls that can run out of memory, made with ample memory: lists of steps with their expected
// answers.
use crate::support::{STAMP, check_step};
use bm_base::{BlockId, BlockInfo, Entry, HashSecret, Level, Limits, Part, StorageId};
use bm_levels::LeveledBlocks;
use bm_report::Report;
use bm_topo::Topology;
use std::alloc::Global;
use std::process::Abort;

mod lost_nodes;

/// A change of blocks on a cluster without nodes, or a question to them.
#[derive(Clone, Copy)]
enum Step {
    /// Makes an entry for a block.
    Ready(u64),
    /// Makes the block of an entry known, with three requested replicas.
    Know(u64),
    /// Makes the block of an entry known through `add_block`, with three requested replicas.
    Add(u64),
    /// Makes the block of an entry unknown.
    Forget(u64),
    DropIfUnused(u64),
    Delete(u64),
    /// Removes a replica, and asks whether there was one.
    RemoveReplica(u32, u64),
    /// Makes a full report of a run of blocks ready, for the second of two parts.
    ReadyReport(u32, u64, u64),
    HasEntry(u64),
    Level(u64),
}

/// The answer to a step.
#[derive(Clone, Copy, PartialEq, Eq)]
enum Answer {
    Fine,
    Refused,
    NoEntry,
    Yes,
    No,
    Nothing,
    Level(Level),
}

fn yes(is_so: bool) -> Answer {
    if is_so { Answer::Yes } else { Answer::No }
}

const INFO: BlockInfo = BlockInfo {
    stamp: STAMP,
    repl: 3,
};

fn ready(blocks: &mut LeveledBlocks, block: u64) -> Answer {
    match blocks.ready_block(BlockId(block)) {
        Ok(()) => Answer::Fine,
        Err(_) => Answer::Refused,
    }
}

/// Changes the entry of a block.
fn change_entry(topology: &Topology, blocks: &mut LeveledBlocks, block: u64, step: Step) -> Answer {
    let id = BlockId(block);
    let Some(slot) = blocks.slot_of(id) else {
        return Answer::NoEntry;
    };
    match step {
        Step::Know(_) => blocks.set_info(topology, slot, Some(INFO)),
        Step::Forget(_) => blocks.set_info(topology, slot, None),
        Step::Add(_) => blocks.add_block(topology, id, INFO),
        _ => blocks.drop_if_unused(slot),
    }
    Answer::Fine
}

fn ready_report(
    alloc: Global,
    blocks: &mut LeveledBlocks,
    storage: u32,
    from: u64,
    to: u64,
) -> Answer {
    let mut report = Report::new(alloc);
    let entries = [Entry {
        from: BlockId(from),
        to: BlockId(to),
        stamp: STAMP,
    }];
    let part = Part {
        index: 1,
        shards: 2,
    };
    let is_ready = blocks.ready_report(&mut report, StorageId(storage), entries.as_slice(), part);
    drop(report);
    match is_ready {
        Ok(()) => Answer::Fine,
        Err(_) => Answer::Refused,
    }
}

fn level(blocks: &LeveledBlocks, block: u64) -> Answer {
    match blocks.level(BlockId(block)) {
        Some(level) => Answer::Level(level),
        None => Answer::Nothing,
    }
}

fn answer_of(alloc: Global, topology: &Topology, blocks: &mut LeveledBlocks, step: Step) -> Answer {
    match step {
        Step::Ready(block) => ready(blocks, block),
        Step::Know(block) | Step::Add(block) | Step::Forget(block) | Step::DropIfUnused(block) => {
            change_entry(topology, blocks, block, step)
        }
        Step::Delete(block) => {
            blocks.delete_block(topology, BlockId(block));
            Answer::Fine
        }
        Step::RemoveReplica(storage, block) => {
            yes(blocks.remove_replica(topology, StorageId(storage), BlockId(block)))
        }
        Step::ReadyReport(storage, from, to) => ready_report(alloc, blocks, storage, from, to),
        Step::HasEntry(block) => yes(blocks.slot_of(BlockId(block)).is_some()),
        Step::Level(block) => level(blocks, block),
    }
}

/// Runs the steps in order, and checks each answer.
fn run_steps(
    rt: &impl Abort,
    alloc: Global,
    topology: &Topology,
    blocks: &mut LeveledBlocks,
    name: &str,
    steps: &[(Step, Answer)],
) {
    for (index, (step, must)) in steps.iter().enumerate() {
        let is_correct = answer_of(alloc, topology, blocks, *step) == *must;
        check_step(rt, name, index, is_correct);
    }
}

/// Runs the steps on an empty set of blocks.
fn check(rt: &impl Abort, alloc: Global, name: &str, steps: &[(Step, Answer)]) {
    let topology = Topology::new(alloc, Limits::standard()).expect(rt, "memory");
    let mut blocks = LeveledBlocks::new(alloc, HashSecret::none()).expect(rt, "memory");
    run_steps(rt, alloc, &topology, &mut blocks, name, steps);
    drop(blocks);
    drop(topology);
}

static COMES_AND_GOES: [(Step, Answer); 10] = [
    (Step::Level(7), Answer::Nothing),
    (Step::Ready(7), Answer::Fine),
    (Step::Level(7), Answer::Nothing),
    (Step::Know(7), Answer::Fine),
    (Step::Level(7), Answer::Level(Level::NoUsableReplica)),
    (Step::Level(8), Answer::Nothing),
    (Step::Forget(7), Answer::Fine),
    (Step::Level(7), Answer::Nothing),
    (Step::DropIfUnused(7), Answer::Fine),
    (Step::HasEntry(7), Answer::No),
];

/// The number of a deleted block has no entry, and a block without replicas has none to remove.
static DELETED: [(Step, Answer); 7] = [
    (Step::Ready(7), Answer::Fine),
    (Step::Add(7), Answer::Fine),
    (Step::Level(7), Answer::Level(Level::NoUsableReplica)),
    (Step::RemoveReplica(11, 7), Answer::No),
    (Step::HasEntry(7), Answer::Yes),
    (Step::Delete(7), Answer::Fine),
    (Step::HasEntry(7), Answer::No),
];

/// A report of three blocks is made ready: both numbers of the part have an entry, and neither is a
/// known block.
static READY_REPORT: [(Step, Answer); 5] = [
    (Step::ReadyReport(11, 7, 9), Answer::Fine),
    (Step::HasEntry(7), Answer::Yes),
    (Step::HasEntry(8), Answer::No),
    (Step::HasEntry(9), Answer::Yes),
    (Step::Level(7), Answer::Nothing),
];

#[test]
fn blocks_answer_as_worked_out(rt: HostRuntime) {
    check(&rt, rt.alloc(), "comes and goes", COMES_AND_GOES.as_slice());
    check(&rt, rt.alloc(), "deleted", DELETED.as_slice());
    check(&rt, rt.alloc(), "ready report", READY_REPORT.as_slice());
}
