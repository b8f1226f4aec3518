// New managers, new views with two locators, and versions for readers, each with an allocation
// refused.

use crate::bench::Bench;
use crate::calls_in_turn::{is_as_before, make, print_tally};
use crate::cases::CLUSTER;
use crate::lists::note_alike;
use crate::managers::config;
use crate::marks::{OPEN, Window, begin_turn, end_turn};
use crate::questions::ask_all;
use crate::short_calls::ShortCall;
use crate::tally::Tally;
use crate::views::found_on;
use bm_base::{BlockId, Refusal, StorageId};
use bm_manager::Manager;
use bm_view::{Located, Locator, Publisher, Receipt, open_view};
use std::alloc::Global;
use std::sync::Wait;
use std::thread::Threads;

/// The number of shards of a version. Each shard has a block.
const SHARDS: u32 = 4;

/// A block of each shard, with three requested replicas, and the first replica of block 7.
static FIRST_REPLICA: [ShortCall; 5] = [
    ShortCall::Add(4, 3),
    ShortCall::Add(5, 3),
    ShortCall::Add(6, 3),
    ShortCall::Add(7, 3),
    ShortCall::Received(11, 7, 1),
];

static SECOND_REPLICA: [ShortCall; 1] = [ShortCall::Received(31, 7, 1)];

const BLOCK: BlockId = BlockId(7);

const ONE: [StorageId; 1] = [StorageId(11)];

const TWO: [StorageId; 2] = [StorageId(11), StorageId(31)];

pub fn run<R: Print + Eprint + Threads + Wait + Sync>(rt: &R, bench: &mut Bench, most: u32) {
    for workers in 1..=2 {
        for turn in 1..=most {
            make_manager(rt, bench, workers, turn);
            bench.renew_other();
            note_alike(rt, bench);
        }
        print_tally(rt, bench, "new_manager", workers);
    }
    for turn in 1..=most {
        let opened = open(rt, bench.alloc, turn, &mut bench.tally);
        bench.tally.require(opened);
    }
    print_tally(rt, bench, "open_view", 1);
    for workers in 1..=2 {
        for turn in 1..=most {
            let published = publish_on_new(rt, bench, workers, turn);
            bench.tally.require(published);
        }
        print_tally(rt, bench, "publish", workers);
    }
}

/// Makes a manager with one allocation refused, and again if that refused it.
fn make_manager<R: Eprint>(rt: &R, bench: &mut Bench, workers: u32, turn: u32) {
    let window = Window {
        name: "new_manager",
        workers,
        turn,
    };
    begin_turn(rt, &window);
    let made = Manager::new(bench.alloc, config(3, workers));
    end_turn(rt, &window);
    match bench.replace_manager(made) {
        Err(Refusal::Memory) => {
            bench.tally.refuse_if(true);
            bench.renew_manager(3, workers);
        }
        replaced => bench.tally.require(replaced),
    }
}

/// Opens a view of two locators, which read the version without calls and rows.
fn open<R: Eprint + Wait>(
    rt: &R,
    alloc: Global,
    turn: u32,
    tally: &mut Tally,
) -> Result<(), Refusal> {
    let (publisher, mut locators) = open_with_refusal(rt, alloc, turn, tally)?;
    tally.note(publisher.calls() == 0);
    let readers = count_readers(&mut locators, found_on(0, &[]));
    tally.note(readers > 0);
    tally.note(readers == 2);
    drop(locators);
    publisher.end(rt);
    Ok(())
}

/// Opens a view with one allocation refused, and again if that refused it.
fn open_with_refusal<R: Eprint + Wait>(
    rt: &R,
    alloc: Global,
    turn: u32,
    tally: &mut Tally,
) -> Result<(Publisher, Vec<Locator>), Refusal> {
    let window = Window {
        name: "open_view",
        workers: 1,
        turn,
    };
    begin_turn(rt, &window);
    let opened = open_view(rt, alloc, 2);
    end_turn(rt, &window);
    match opened {
        Err(Refusal::Memory) => {
            tally.refuse_if(true);
            open_view(rt, alloc, 2)
        }
        opened => opened,
    }
}

/// Publishes a version, and then a second one with an allocation refused.
fn publish_on_new<R: Eprint + Threads + Wait + Sync>(
    rt: &R,
    bench: &mut Bench,
    workers: u32,
    turn: u32,
) -> Result<(), Refusal> {
    bench.renew_manager(SHARDS, workers);
    make(rt, bench, &CLUSTER);
    make(rt, bench, &FIRST_REPLICA);
    let (mut publisher, mut locators) = open_view(rt, bench.alloc, 2)?;
    let published = match locators.pop() {
        Some(mut first) => {
            let others = &mut locators;
            let published = publish_both(
                rt,
                bench,
                &mut publisher,
                &mut first,
                others,
                workers,
                turn,
            );
            drop(first);
            published
        }
        None => Err(Refusal::BadConfig),
    };
    drop(locators);
    publisher.end(rt);
    published
}

/// Publishes a version, and after one more call another one, of which an allocation is refused.
/// Then both locators still read the first. Publishing changes no answer of the manager.
fn publish_both<R: Eprint + Threads + Wait + Sync>(
    rt: &R,
    bench: &mut Bench,
    publisher: &mut Publisher,
    first: &mut Locator,
    others: &mut Vec<Locator>,
    workers: u32,
    turn: u32,
) -> Result<(), Refusal> {
    let receipt = publish(rt, &mut bench.manager, publisher, &OPEN)?;
    bench
        .tally
        .note(learn_and_read(first, others, receipt, &ONE));
    make(rt, bench, &SECOND_REPLICA);
    let is_asked = ask_all(rt, bench.alloc, &mut bench.manager, &mut bench.before);
    let receipt = publish_with_refusal(rt, bench, publisher, first, others, workers, turn)?;
    bench.tally.note(receipt.calls() == 14);
    bench
        .tally
        .note(learn_and_read(first, others, receipt, &TWO));
    let is_kept = is_as_before(rt, bench);
    bench.tally.note(is_asked && is_kept);
    Ok(())
}

/// Publishes with one allocation refused, and again if that refused it. The refused call must
/// change nothing.
fn publish_with_refusal<R: Eprint + Threads + Wait + Sync>(
    rt: &R,
    bench: &mut Bench,
    publisher: &mut Publisher,
    first: &mut Locator,
    others: &mut Vec<Locator>,
    workers: u32,
    turn: u32,
) -> Result<Receipt, Refusal> {
    let window = Window {
        name: "publish",
        workers,
        turn,
    };
    match publish(rt, &mut bench.manager, publisher, &window) {
        Ok(receipt) => {
            bench.tally.note(true);
            Ok(receipt)
        }
        Err(_) => {
            bench.tally.refuse_if(true);
            let is_read = publisher.calls() == 13 && all_read(first, others, found_on(13, &ONE));
            let is_kept = is_as_before(rt, bench);
            bench.tally.note(is_read && is_kept);
            publish(rt, &mut bench.manager, publisher, &OPEN)
        }
    }
}

/// Publishes while the window refuses an allocation.
fn publish<R: Eprint + Threads + Wait + Sync>(
    rt: &R,
    manager: &mut Manager,
    publisher: &mut Publisher,
    window: &Window,
) -> Result<Receipt, Refusal> {
    if publisher.calls() > manager.calls() {
        return Err(Refusal::BadConfig);
    }
    begin_turn(rt, window);
    let published = manager.publish(rt, publisher);
    end_turn(rt, window);
    published
}

/// Whether both locators have this answer.
fn all_read(first: &mut Locator, others: &mut Vec<Locator>, expected: Option<Located>) -> bool {
    let is_read = first.locate(BLOCK) == expected;
    is_read && count_readers(others, expected) == 1
}

fn count_readers(locators: &mut Vec<Locator>, expected: Option<Located>) -> u32 {
    let mut count = 0u32;
    for locator in locators.iter_mut() {
        count = count.saturating_add(u32::from(locator.locate(BLOCK) == expected));
    }
    count
}

/// Whether both locators read a version: the one that learns of it, and the other.
fn learn_and_read(
    first: &mut Locator,
    others: &mut Vec<Locator>,
    receipt: Receipt,
    storages: &[StorageId],
) -> bool {
    let expected = found_on(receipt.calls(), storages);
    first.learn(receipt);
    all_read(first, others, expected)
}
