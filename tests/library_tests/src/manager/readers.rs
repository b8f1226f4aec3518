//! What locators answer from the versions that a manager publishes, in one thread and in two.

use super::config;
use crate::calls::{Case, STAMP, call_of};
use crate::locator_answers::is_found_on;
use bm_base::{Answer, BlockId};
use bm_crew::NoGate;
use bm_manager::Manager;
use bm_view::{Located, Locator, Publisher, Receipt, open_view};
use crossbeam_channel::{Receiver, Sender, unbounded};
use std::alloc::Global;
use std::process::Abort;
use std::sync::Wait;
use std::thread::{Threads, join};

const READS: u32 = 2_000;

/// Four nodes on two racks, and block 7 with three requested replicas.
static CLUSTER: [Case<'static>; 9] = [
    Case::Register(1, 1, &[11]),
    Case::Register(2, 1, &[21]),
    Case::Register(3, 2, &[31]),
    Case::Register(4, 2, &[41]),
    Case::Heartbeat(1, &[(11, 1000)]),
    Case::Heartbeat(2, &[(21, 1000)]),
    Case::Heartbeat(3, &[(31, 1000)]),
    Case::Heartbeat(4, &[(41, 1000)]),
    Case::Add(7, STAMP, 3),
];

fn make<R: Abort + Threads + Wait + Sync>(
    rt: &R,
    alloc: Global,
    manager: &mut Manager,
    case: Case<'_>,
) {
    let call = call_of(rt, alloc, case);
    let answer = manager.answer(rt, &NoGate, &call);
    assert!(rt; !matches!(answer, Answer::Refused(_)));
    drop(answer);
    drop(call);
}

fn make_cluster<R: Abort + Threads + Wait + Sync>(rt: &R, alloc: Global, manager: &mut Manager) {
    for case in &CLUSTER {
        make(rt, alloc, manager, *case);
    }
}

fn new_manager<R: Abort + Threads + Wait + Sync>(
    rt: &R,
    alloc: Global,
    shards: u32,
    workers: u32,
) -> Manager {
    Manager::new(alloc, config(shards, workers)).expect(rt, "memory")
}

fn publish<R: Abort + Threads + Wait + Sync>(
    rt: &R,
    manager: &mut Manager,
    publisher: &mut Publisher,
) -> Receipt {
    assert!(rt; publisher.calls() <= manager.calls());
    manager.publish(rt, publisher).expect(rt, "memory")
}

fn publish_and_learn<R: Abort + Threads + Wait + Sync>(
    rt: &R,
    manager: &mut Manager,
    publisher: &mut Publisher,
    locator: &mut Locator,
) -> u64 {
    let receipt = publish(rt, manager, publisher);
    let calls = receipt.calls();
    locator.learn(receipt);
    calls
}

/// A change of a manager, a publisher and two locators, or a question to them, with the expected
/// answer.
#[derive(Clone, Copy)]
enum Step<'a> {
    /// Makes the calls of the cluster.
    Cluster,
    Make(Case<'a>),
    /// Publishes, and the first locator learns the receipt, which has this number of calls.
    Publish(u64),
    /// The first locator finds a block on these storages, in the version with this number of calls.
    First(u64, u64, &'a [u32]),
    /// The second locator, which learns nothing, finds a block on these storages, in the version
    /// with this number of calls.
    Second(u64, u64, &'a [u32]),
}

static READERS_SEE_PUBLISHED_VERSIONS: [Step<'static>; 14] = [
    Step::First(7, 0, &[]),
    Step::Second(7, 0, &[]),
    Step::Cluster,
    Step::Make(Case::Received(11, 7, STAMP)),
    Step::Publish(10),
    Step::First(7, 10, &[11]),
    Step::First(8, 10, &[]),
    Step::Make(Case::Received(31, 7, STAMP)),
    Step::First(7, 10, &[11]),
    Step::Publish(11),
    Step::First(7, 11, &[11, 31]),
    Step::Second(7, 11, &[11, 31]),
    // A version may have the same number of calls as the one before.
    Step::Publish(11),
    Step::Second(7, 11, &[11, 31]),
];

/// Runs a step. Whether its answer is the expected one.
fn run_step<R: Abort + Threads + Wait + Sync>(
    rt: &R,
    alloc: Global,
    manager: &mut Manager,
    publisher: &mut Publisher,
    first: &mut Locator,
    second: &mut Locator,
    step: Step<'_>,
) -> bool {
    match step {
        Step::Cluster => {
            make_cluster(rt, alloc, manager);
            true
        }
        Step::Make(case) => {
            make(rt, alloc, manager, case);
            true
        }
        Step::Publish(calls) => publish_and_learn(rt, manager, publisher, first) == calls,
        Step::First(block, calls, numbers) => {
            is_found_on(rt, alloc, first.locate(BlockId(block)), calls, numbers)
        }
        Step::Second(block, calls, numbers) => {
            is_found_on(rt, alloc, second.locate(BlockId(block)), calls, numbers)
        }
    }
}

fn run_steps<R: Abort + Threads + Wait + Sync>(
    rt: &R,
    alloc: Global,
    manager: &mut Manager,
    publisher: &mut Publisher,
    mut first: Locator,
    mut second: Locator,
) {
    for (place, step) in READERS_SEE_PUBLISHED_VERSIONS.iter().enumerate() {
        assert!(rt;
            run_step(
                rt,
                alloc,
                manager,
                publisher,
                &mut first,
                &mut second,
                *step
            ),
            "step {place}"
        );
    }
}

fn check_readers<R: Abort + Threads + Wait + Sync>(
    rt: &R,
    alloc: Global,
    shards: u32,
    workers: u32,
) {
    let mut manager = new_manager(rt, alloc, shards, workers);
    let (mut publisher, mut locators) = open_view(rt, alloc, 2).expect(rt, "memory");
    match (locators.pop(), locators.pop()) {
        (Some(first), Some(second)) => {
            run_steps(rt, alloc, &mut manager, &mut publisher, first, second)
        }
        _ => assert!(rt; false),
    }
    publisher.end(rt);
    drop(manager);
}

#[test]
fn readers_see_published_versions(rt: HostRuntime) {
    check_readers(&rt, rt.alloc(), 3, 2);
    check_readers(&rt, rt.alloc(), 64, 4);
}

/// Calls after those of the cluster, with the storages of block 7 after each.
static CONCURRENT_CALLS: [(Case<'static>, &'static [u32]); 6] = [
    (Case::Received(11, 7, STAMP), &[11]),
    (Case::Received(31, 7, STAMP), &[11, 31]),
    (Case::Report(21, &[(1, 200, STAMP)]), &[11, 21, 31]),
    (Case::Round, &[11, 21, 31]),
    (Case::Failed(31), &[11, 21]),
    (Case::Dead(1), &[21]),
];

/// Whether a locator may answer this at some time: in the version with this number of calls block 7
/// is on these storages.
fn is_published(rt: &impl Abort, alloc: Global, seen: Located) -> bool {
    let calls = seen.calls;
    if calls <= CLUSTER.len() as u64 {
        return calls == 0 && is_found_on(rt, alloc, Some(seen), 0, &[]);
    }
    let made = (calls - CLUSTER.len() as u64) as usize;
    match CONCURRENT_CALLS.get(made - 1) {
        Some(one) => {
            let numbers = one.1;
            is_found_on(rt, alloc, Some(seen), calls, numbers)
        }
        None => false,
    }
}

/// Reads block 7 many times. Counts the missing answers, those of no version, and those that are
/// older than the one before or than `oldest`.
fn read_many(rt: &impl Abort, alloc: Global, locator: &mut Locator, oldest: u64) -> u32 {
    let (mut last, mut wrong) = (oldest, 0u32);
    for _ in 0..READS {
        match locator.locate(BlockId(7)) {
            Some(seen) => {
                let calls = seen.calls;
                let is_known = is_published(rt, alloc, seen);
                wrong = wrong.wrapping_add((calls < last || !is_known) as u32);
                last = calls;
            }
            None => wrong = wrong.wrapping_add(1),
        }
    }
    wrong
}

/// Makes the calls, and publishes after each.
fn publish_all<R: Abort + Threads + Wait + Sync>(
    rt: &R,
    alloc: Global,
    manager: &mut Manager,
    publisher: &mut Publisher,
    to: Sender<Receipt>,
) {
    for (case, _) in &CONCURRENT_CALLS {
        make(rt, alloc, manager, *case);
        let receipt = publish(rt, manager, publisher);
        let _ = to.send(rt, receipt);
    }
}

/// Reads, and reads again after each receipt. Counts the wrong answers. After a receipt an older
/// answer is wrong too.
fn read_what_is_published<R: Abort + Wait>(
    rt: &R,
    alloc: Global,
    mut locator: Locator,
    from: Receiver<Receipt>,
) -> u32 {
    let mut wrong = read_many(rt, alloc, &mut locator, 0);
    for receipt in from.iter(rt) {
        let case = receipt.calls();
        locator.learn(receipt);
        wrong = wrong.wrapping_add(read_many(rt, alloc, &mut locator, case));
    }
    wrong
}

/// Makes the calls and publishes in one thread, and reads in another. The number of wrong answers.
fn count_wrong_with_reader<R: Abort + Threads + Wait + Sync>(
    rt: &R,
    alloc: Global,
    manager: &mut Manager,
    publisher: &mut Publisher,
    locator: Locator,
) -> u32 {
    let (to, from) = unbounded(alloc).expect(rt, "memory");
    let (_, wrong) = join(
        rt,
        || { publish_all(rt, alloc, manager, publisher, to) },
        move || -> u32 { read_what_is_published(rt, alloc, locator, from) },
    );
    wrong
}

fn check_with_reader<R: Abort + Threads + Wait + Sync>(
    rt: &R,
    alloc: Global,
    shards: u32,
    workers: u32,
) {
    let mut manager = new_manager(rt, alloc, shards, workers);
    let (mut publisher, mut locators) = open_view(rt, alloc, 1).expect(rt, "memory");
    make_cluster(rt, alloc, &mut manager);
    match locators.pop() {
        Some(locator) => {
            assert_eq!(rt;
                count_wrong_with_reader(rt, alloc, &mut manager, &mut publisher, locator),
                0
            );
        }
        None => assert!(rt; false),
    }
    publisher.end(rt);
    drop(manager);
}

#[test]
fn concurrent_readers_never_go_back(rt: HostRuntime) {
    check_with_reader(&rt, rt.alloc(), 3, 2);
    check_with_reader(&rt, rt.alloc(), 64, 4);
}
