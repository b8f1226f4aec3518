//! What no clause promises: a locator answers until the publisher has ended, and a locator that
//! learned nothing sees what was published.

use crate::locator_answers::{found_on, is_found_on, storages_numbered};
use bm_base::{BlockId, Places, Refusal, StorageId};
use bm_view::{Located, Locator, Publisher, Receipt, Table, open_view};
use std::alloc::Global;
use std::process::Abort;
use std::sync::{Arc, Wait};

mod two_threads;

// A version with one row, for block 7.
fn version(rt: &impl Abort, alloc: Global, calls: u64, storages: &[StorageId]) -> Arc<Table> {
    let mut rows = Vec::new(alloc);
    rows.push((BlockId(7), Places::first_of(storages)))
        .expect(rt, "memory");
    Arc::new(alloc, Table::new(calls, rows)).expect(rt, "memory")
}

/// A change of a publisher and two locators, or a question to them, with the expected answer.
#[derive(Clone, Copy)]
enum Step<'a> {
    /// Publishes a version with this number of calls, in which block 7 has these storages. The
    /// first locator learns the receipt, which has the same number of calls.
    Publish(u64, &'a [u32]),
    /// The number of calls of the version that was published last.
    Calls(u64),
    /// The first locator finds a block on these storages, in the version with this number of calls.
    First(u64, u64, &'a [u32]),
    /// The second locator, which learns nothing, finds a block on these storages, in the version
    /// with this number of calls.
    Second(u64, u64, &'a [u32]),
}

static READERS_SEE_PUBLISHED_VERSIONS: [Step<'static>; 11] = [
    Step::Calls(0),
    Step::First(7, 0, &[]),
    Step::Second(7, 0, &[]),
    Step::Publish(10, &[11]),
    Step::First(7, 10, &[11]),
    Step::First(8, 10, &[]),
    Step::First(7, 10, &[11]),
    Step::Publish(11, &[11, 31]),
    Step::First(7, 11, &[11, 31]),
    Step::Second(7, 11, &[11, 31]),
    Step::Calls(11),
];

fn publish<R: Abort + Wait>(
    rt: &R,
    alloc: Global,
    publisher: &mut Publisher,
    calls: u64,
    numbers: &[u32],
) -> Receipt {
    let storages = storages_numbered(rt, alloc, numbers);
    let table = version(rt, alloc, calls, storages.as_slice());
    assert!(rt; publisher.calls() <= calls);
    publisher.publish(rt, table).expect(rt, "memory")
}

fn publish_and_learn<R: Abort + Wait>(
    rt: &R,
    alloc: Global,
    publisher: &mut Publisher,
    locator: &mut Locator,
    calls: u64,
    numbers: &[u32],
) -> bool {
    let receipt = publish(rt, alloc, publisher, calls, numbers);
    let published = receipt.calls();
    locator.learn(receipt);
    published == calls
}

fn has_found(
    rt: &impl Abort,
    alloc: Global,
    locator: &mut Locator,
    block: u64,
    calls: u64,
    numbers: &[u32],
) -> bool {
    is_found_on(rt, alloc, locator.locate(BlockId(block)), calls, numbers)
}

/// Runs a step. Whether its answer is the expected one.
fn run_step<R: Abort + Wait>(
    rt: &R,
    alloc: Global,
    publisher: &mut Publisher,
    first: &mut Locator,
    second: &mut Locator,
    step: Step<'_>,
) -> bool {
    match step {
        Step::Publish(calls, storages) => {
            publish_and_learn(rt, alloc, publisher, first, calls, storages)
        }
        Step::Calls(calls) => publisher.calls() == calls,
        Step::First(block, calls, storages) => has_found(rt, alloc, first, block, calls, storages),
        Step::Second(block, calls, storages) => {
            has_found(rt, alloc, second, block, calls, storages)
        }
    }
}

fn run_steps<R: Abort + Wait>(
    rt: &R,
    alloc: Global,
    publisher: &mut Publisher,
    mut first: Locator,
    mut second: Locator,
) {
    for (place, step) in READERS_SEE_PUBLISHED_VERSIONS.iter().enumerate() {
        assert!(rt;
            run_step(rt, alloc, publisher, &mut first, &mut second, *step),
            "step {place}"
        );
    }
}

#[test]
fn readers_see_published_versions(rt: HostRuntime) {
    let (mut publisher, mut locators) = open_view(&rt, rt.alloc(), 2).expect(&rt, "memory");
    match (locators.pop(), locators.pop()) {
        (Some(first), Some(second)) => run_steps(&rt, rt.alloc(), &mut publisher, first, second),
        _ => assert!(rt; false),
    }
    publisher.end(&rt);
}

/// A view with this number of locators, which learn nothing. Each of them answers from the
/// published version, and not at all once the publisher has ended.
#[derive(Clone, Copy)]
struct View<'a> {
    readers: usize,
    /// The calls of the published version, and the storages of block 7 in it.
    published: Option<(u64, &'a [u32])>,
    /// The publisher's calls after that.
    calls: u64,
    /// The storages of block 7 that each locator sees after that. `None` if no locator is asked
    /// before the publisher has ended.
    seen: Option<&'a [u32]>,
}

static VIEWS: [View<'static>; 4] = [
    View {
        readers: 1,
        published: None,
        calls: 0,
        seen: None,
    },
    // The greatest number of readers.
    View {
        readers: 16,
        published: None,
        calls: 0,
        seen: Some(&[]),
    },
    View {
        readers: 0,
        published: Some((3, &[])),
        calls: 3,
        seen: Some(&[]),
    },
    // A version may have the same number of calls as the one before.
    View {
        readers: 1,
        published: Some((0, &[11])),
        calls: 0,
        seen: Some(&[11]),
    },
];

fn check_all(rt: &impl Abort, locators: &mut Vec<Locator>, must: Option<Located>) {
    for locator in locators.iter_mut() {
        assert_eq!(rt; locator.locate(BlockId(7)), must);
    }
}

fn check_seen(
    rt: &impl Abort,
    alloc: Global,
    locators: &mut Vec<Locator>,
    calls: u64,
    numbers: &[u32],
) {
    let storages = storages_numbered(rt, alloc, numbers);
    check_all(rt, locators, found_on(calls, storages.as_slice()));
}

fn check_view<R: Abort + Wait>(rt: &R, alloc: Global, view: &View<'_>) {
    let (mut publisher, mut locators) = open_view(rt, alloc, view.readers).expect(rt, "memory");
    if let Some((calls, storages)) = view.published {
        let _receipt = publish(rt, alloc, &mut publisher, calls, storages);
    }
    assert_eq!(rt;
        (locators.len(), publisher.calls()),
        (view.readers, view.calls)
    );
    if let Some(storages) = view.seen {
        check_seen(rt, alloc, &mut locators, view.calls, storages);
    }
    publisher.end(rt);
    check_all(rt, &mut locators, None);
}

#[test]
fn locators_answer_until_the_publisher_has_ended(rt: HostRuntime) {
    for view in &VIEWS {
        check_view(&rt, rt.alloc(), view);
    }
}

#[test]
fn seventeen_readers_are_too_many(rt: HostRuntime) {
    match open_view(&rt, rt.alloc(), 17) {
        Ok((publisher, _locators)) => {
            publisher.end(&rt);
            assert!(rt; false);
        }
        Err(refusal) => assert!(rt; refusal == Refusal::BadConfig),
    }
}
