// Each call with ample memory: lists of steps with their expected answers.
use crate::support::check_step;
use bm_base::{BlockId, HashSecret, Refusal, ReplicaId, StorageId};
use bm_pending::PendingTransfers;
use std::alloc::Global;
use std::process::Abort;

/// A change of transfers, or a question to them: block, storage, round, as far as it has them.
/// `Expired` and `DropExpired` have the limit and then the round, `DropStorages` two storages.
#[derive(Clone, Copy)]
enum Step {
    /// Reserves memory for a transfer, and sets its round.
    Insert(u64, u32, u64),
    Remove(u64, u32),
    RemoveBlock(u64),
    DropExpired(u32, u64),
    DropStorages(u32, u32),
    Shed,
    Contains(u64, u32),
    CountOf(u64),
    PushTargets(u64),
    Expired(u32, u64),
}

/// The answer to a step.
#[derive(Clone, Copy, PartialEq, Eq)]
enum Answer {
    Fine,
    Refused,
    Yes,
    No,
    Nothing,
    Number(usize),
    /// The storages in order, and their number, which is at most four.
    Storages([u32; 4], usize),
    Replicas([(u64, u32); 4], usize),
    TooMany,
}

fn insert(pending: &mut PendingTransfers, block: u64, storage: u32, round: u64) -> Answer {
    match pending.reserve(BlockId(block), 1) {
        Ok(()) => {
            pending.insert_reserved(BlockId(block), StorageId(storage), round);
            Answer::Fine
        }
        Err(_) => Answer::Refused,
    }
}

/// The block's targets, appended to a list that already has a storage.
fn targets(pending: &PendingTransfers, alloc: Global, block: u64) -> Result<Answer, Refusal> {
    let mut storages = Vec::new(alloc);
    storages.push(StorageId(99))?;
    pending.push_targets(BlockId(block), &mut storages)?;
    let mut first = [0; 4];
    if storages.len() > 4 {
        return Ok(Answer::TooMany);
    }
    for (index, storage) in storages.iter().enumerate() {
        first[index] = storage.0;
    }
    Ok(Answer::Storages(first, storages.len()))
}

fn replicas(all: &[ReplicaId]) -> Answer {
    let mut first = [(0, 0); 4];
    if all.len() > 4 {
        return Answer::TooMany;
    }
    for (index, replica) in all.iter().enumerate() {
        first[index] = (replica.block.0, replica.storage.0);
    }
    Answer::Replicas(first, all.len())
}

fn yes(is_so: bool) -> Answer {
    if is_so { Answer::Yes } else { Answer::No }
}

fn drop_storages(pending: &mut PendingTransfers, one: u32, other: u32) {
    let storages = [StorageId(one), StorageId(other)];
    pending.drop_storages(storages.as_slice());
}

fn change(pending: &mut PendingTransfers, step: Step) -> Option<Answer> {
    match step {
        Step::Insert(block, storage, round) => return Some(insert(pending, block, storage, round)),
        Step::Remove(block, storage) => pending.remove(BlockId(block), StorageId(storage)),
        Step::RemoveBlock(block) => pending.remove_block(BlockId(block)),
        Step::DropExpired(pend, round) => pending.drop_expired(pend, round),
        Step::DropStorages(one, other) => drop_storages(pending, one, other),
        Step::Shed => pending.release_unused(),
        _ => return None,
    }
    Some(Answer::Fine)
}

fn ask(pending: &PendingTransfers, alloc: Global, step: Step) -> Result<Answer, Refusal> {
    match step {
        Step::Contains(block, storage) => {
            Ok(yes(pending.contains(BlockId(block), StorageId(storage))))
        }
        Step::CountOf(block) => Ok(Answer::Number(pending.count_of(BlockId(block)))),
        Step::PushTargets(block) => targets(pending, alloc, block),
        Step::Expired(pend, round) => {
            let all = pending.expired_transfers(alloc, pend, round)?;
            Ok(replicas(all.as_slice()))
        }
        _ => Ok(Answer::Nothing),
    }
}

/// Makes the change, or asks the question.
fn answer_of(rt: &impl Abort, alloc: Global, pending: &mut PendingTransfers, step: Step) -> Answer {
    match change(pending, step) {
        Some(answer) => answer,
        None => ask(pending, alloc, step).expect(rt, "memory"),
    }
}

/// Runs the steps in order, and checks each answer.
fn run_steps(
    rt: &impl Abort,
    alloc: Global,
    pending: &mut PendingTransfers,
    name: &str,
    steps: &[(Step, Answer)],
) {
    for (index, (step, must)) in steps.iter().enumerate() {
        let is_correct = answer_of(rt, alloc, pending, *step) == *must;
        check_step(rt, name, index, is_correct);
    }
}

/// Runs the steps on an empty set of transfers.
fn check(rt: &impl Abort, alloc: Global, name: &str, steps: &[(Step, Answer)]) {
    let mut pending = PendingTransfers::new(alloc, HashSecret::none());
    run_steps(rt, alloc, &mut pending, name, steps);
    drop(pending);
}

// With a limit of no rounds all transfers expire.
const SIX_TRANSFERS: [(Step, Answer); 29] = [
    (Step::Expired(0, 0), Answer::Replicas([(0, 0); 4], 0)),
    (Step::Insert(9, 31, 1), Answer::Fine),
    (Step::Insert(7, 21, 2), Answer::Fine),
    (Step::Insert(7, 11, 1), Answer::Fine),
    // A third target of the block, and then a new round for it.
    (Step::Insert(7, 31, 3), Answer::Fine),
    (Step::Insert(7, 31, 4), Answer::Fine),
    (Step::CountOf(7), Answer::Number(3)),
    (Step::CountOf(8), Answer::Number(0)),
    (Step::Contains(7, 31), Answer::Yes),
    (Step::Contains(7, 12), Answer::No),
    (Step::PushTargets(7), Answer::Storages([99, 11, 21, 31], 4)),
    (Step::PushTargets(8), Answer::Storages([99, 0, 0, 0], 1)),
    (
        Step::Expired(0, 4),
        Answer::Replicas([(7, 11), (7, 21), (7, 31), (9, 31)], 4),
    ),
    // The third target has its new round.
    (
        Step::Expired(1, 4),
        Answer::Replicas([(7, 11), (7, 21), (9, 31), (0, 0)], 3),
    ),
    // In round 3 a limit of two rounds expires a transfer of round 1, but none of round 2 or later.
    (
        Step::Expired(2, 3),
        Answer::Replicas([(7, 11), (9, 31), (0, 0), (0, 0)], 2),
    ),
    (Step::Expired(3, 3), Answer::Replicas([(0, 0); 4], 0)),
    (Step::DropExpired(2, 3), Answer::Fine),
    (Step::Contains(9, 31), Answer::No),
    (Step::Contains(7, 21), Answer::Yes),
    (Step::CountOf(7), Answer::Number(2)),
    (Step::DropStorages(21, 22), Answer::Fine),
    (Step::Shed, Answer::Fine),
    (
        Step::Expired(0, 4),
        Answer::Replicas([(7, 31), (0, 0), (0, 0), (0, 0)], 1),
    ),
    (Step::Insert(8, 31, 5), Answer::Fine),
    (Step::Remove(8, 30), Answer::Fine),
    (Step::Remove(7, 31), Answer::Fine),
    (Step::CountOf(7), Answer::Number(0)),
    (Step::RemoveBlock(8), Answer::Fine),
    (Step::Expired(0, 5), Answer::Replicas([(0, 0); 4], 0)),
];

// The greatest numbers, and a limit that no transfer exceeds.
const GREATEST_NUMBERS: [(Step, Answer); 7] = [
    (Step::Insert(u64::MAX, u32::MAX, u64::MAX), Answer::Fine),
    (Step::Insert(0, 0, 0), Answer::Fine),
    (Step::Contains(u64::MAX, u32::MAX), Answer::Yes),
    (
        Step::Expired(u32::MAX, u64::MAX),
        Answer::Replicas([(0, 0); 4], 1),
    ),
    (Step::DropExpired(u32::MAX, 4_294_967_294), Answer::Fine),
    (Step::CountOf(0), Answer::Number(1)),
    (Step::CountOf(u64::MAX), Answer::Number(1)),
];

#[test]
fn transfers_answer_as_worked_out(rt: HostRuntime) {
    check(&rt, rt.alloc(), "six transfers", SIX_TRANSFERS.as_slice());
    check(
        &rt,
        rt.alloc(),
        "greatest numbers",
        GREATEST_NUMBERS.as_slice(),
    );
}
