//! A publisher in one thread, and a locator in another.

use super::version;
use crate::locator_answers::found_on;
use bm_base::{BlockId, StorageId};
use bm_view::{Located, Locator, Publisher, Receipt, open_view};
use crossbeam_channel::{Receiver, Sender, unbounded};
use std::alloc::Global;
use std::process::Abort;
use std::sync::Wait;
use std::thread::{Threads, join};

const ROUNDS: u32 = 500;

const VERSIONS: u64 = 50;

const READS: u32 = 5_000;

// What a locator finds of block 7 in the version with this number of calls.
fn at(calls: u64) -> Option<Located> {
    match calls {
        0 => found_on(0, &[]),
        10 => found_on(10, &[StorageId(11)]),
        _ => found_on(calls, &[StorageId(11), StorageId(31)]),
    }
}

// 1 if there is no answer, and if the storages are not those of its version.
fn is_wrong(seen: Option<Located>) -> u32 {
    match seen {
        Some(located) => {
            let calls = located.calls;
            (Some(located) != at(calls)) as u32
        }
        None => 1,
    }
}

fn publish_two<R: Abort + Wait>(
    rt: &R,
    alloc: Global,
    publisher: &mut Publisher,
    to: Sender<Receipt>,
) {
    let early = version(rt, alloc, 10, &[StorageId(11)]);
    let receipt = publisher.publish(rt, early).expect(rt, "memory");
    let _ = to.send(rt, receipt);
    let late = version(rt, alloc, 11, &[StorageId(11), StorageId(31)]);
    let receipt = publisher.publish(rt, late).expect(rt, "memory");
    let _ = to.send(rt, receipt);
}

// Reads, and reads again after each receipt. Counts the missing and the wrong answers, and those
// that are older than the receipt.
fn read_what_is_published<R: Wait>(rt: &R, mut locator: Locator, from: Receiver<Receipt>) -> u32 {
    let mut wrong = is_wrong(locator.locate(BlockId(7)));
    for receipt in from.iter(rt) {
        let published = receipt.calls();
        locator.learn(receipt);
        let seen = locator.locate(BlockId(7));
        let is_older = matches!(&seen, Some(located) if located.calls < published);
        wrong = wrong.wrapping_add(is_wrong(seen) | is_older as u32);
    }
    wrong
}

fn count_wrong_with_reader<R: Abort + Threads + Wait + Sync>(
    rt: &R,
    alloc: Global,
    publisher: &mut Publisher,
    locator: Locator,
) -> u32 {
    let (to, from) = unbounded(alloc).expect(rt, "memory");
    let (_, wrong) = join(
        rt,
        || { publish_two(rt, alloc, publisher, to) },
        move || -> u32 { read_what_is_published(rt, locator, from) },
    );
    wrong
}

// The number of wrong answers, and the last answer of a locator that learned nothing.
fn one_round<R: Abort + Threads + Wait + Sync>(rt: &R, alloc: Global) -> (u32, Option<Located>) {
    let (mut publisher, mut locators) = open_view(rt, alloc, 2).expect(rt, "memory");
    let wrong = match locators.pop() {
        Some(locator) => count_wrong_with_reader(rt, alloc, &mut publisher, locator),
        None => 1,
    };
    let seen = match locators.pop() {
        Some(mut locator) => locator.locate(BlockId(7)),
        None => None,
    };
    publisher.end(rt);
    (wrong, seen)
}

#[test]
fn readers_see_published_versions_in_two_threads(rt: HostRuntime) {
    for _ in 0..ROUNDS {
        assert_eq!(rt; one_round(&rt, rt.alloc()), (0, at(11)));
    }
}

// Publishes the versions with 1 to `VERSIONS` calls, and gives the receipt of the last.
fn publish_all<R: Abort + Wait>(rt: &R, alloc: Global, publisher: &mut Publisher) -> Receipt {
    for calls in 1..VERSIONS {
        let table = version(rt, alloc, calls, &[StorageId(11)]);
        publisher.publish(rt, table).expect(rt, "memory");
    }
    let last = version(rt, alloc, VERSIONS, &[StorageId(11)]);
    publisher.publish(rt, last).expect(rt, "memory")
}

// Counts the answers that are missing or older than the one before.
fn read_all(mut locator: Locator) -> (Locator, u32) {
    let (mut last, mut wrong) = (0, 0u32);
    for _ in 0..READS {
        match locator.locate(BlockId(7)) {
            Some(seen) => {
                wrong = wrong.wrapping_add((seen.calls < last) as u32);
                last = seen.calls;
            }
            None => wrong = wrong.wrapping_add(1),
        }
    }
    (locator, wrong)
}

// Learns a receipt, and reads.
fn read_after(mut locator: Locator, receipt: Receipt) -> Option<Located> {
    locator.learn(receipt);
    locator.locate(BlockId(7))
}

// Publishes in one thread and reads in another. Then the reader learns the last receipt.
fn read_with_publisher<R: Abort + Threads + Wait + Sync>(
    rt: &R,
    alloc: Global,
    publisher: &mut Publisher,
    locator: Locator,
) -> (u32, Option<Located>) {
    let (receipt, (locator, wrong)) = join(
        rt,
        || -> Receipt { publish_all(rt, alloc, publisher) },
        move || -> (Locator, u32) { read_all(locator) },
    );
    (wrong, read_after(locator, receipt))
}

#[test]
fn concurrent_reads_never_go_back(rt: HostRuntime) {
    let (mut publisher, mut locators) = open_view(&rt, rt.alloc(), 1).expect(&rt, "memory");
    let seen = match locators.pop() {
        Some(locator) => read_with_publisher(&rt, rt.alloc(), &mut publisher, locator),
        None => (1, None),
    };
    publisher.end(&rt);
    assert_eq!(rt; seen, (0, found_on(VERSIONS, &[StorageId(11)])));
}
