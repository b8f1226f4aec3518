// Lists of random calls on a manager with five shards and four threads. The state is published
// after each call, and two threads read in parallel. Each answer, and each read, must be that of a
// manager with one shard and one thread, and no reader may go back. Reads that find a later version
// than the read before are counted: they show that reads come between calls, and not all after the
// last one.

use crate::draws;
use crate::pair::{Pair, Run};
use crate::readers::{List, Reads, read_both};
use bm_base::{BlockId, Config, Places, Refusal};
use bm_crew::NoGate;
use bm_manager::Manager;
use bm_view::{Located, Locator, Publisher, Receipt, open_view};
use crossbeam_channel::{Receiver, Sender, unbounded};
use rand_pcg::Pcg32;
use std::alloc::{AllocError, Global};
use std::sync::Wait;
use std::thread::{Threads, join};

/// The number of calls on one manager.
const LIST: u32 = 100;

const SHARDS: u32 = 5;

const WORKERS: u32 = 4;

/// The least number of reads, over all lists, that find a later version than the read before. If
/// all reads come after the last call, there are none.
const LEAST_LATER: u32 = 1;

/// Whether all answers and reads of `times` lists are right, and readers went from one version to a
/// later one.
pub fn are_all_alike<R: Threads + Wait + Sync>(
    rt: &R,
    host: &HostRuntime,
    times: u32,
    seed: u64,
) -> Result<bool, Refusal> {
    let mut run = Run::new(host, seed);
    let mut later = 0u32;
    for time in 0..times {
        let reads = read_list(rt, host.alloc(), &mut run)?;
        let wrong = reads.wrong;
        if wrong > 0 {
            print_wrong_answers(host, time, wrong);
            return Ok(false);
        }
        later = later.saturating_add(reads.later);
    }
    run.counts.print(host);
    print_late_reads(host, later);
    Ok(run.counts.are_enough() && later >= LEAST_LATER)
}

fn print_wrong_answers(rt: &HostRuntime, time: u32, wrong: u32) {
    let _ = eprintln!(rt; "list {time}: {wrong} answers or reads are wrong");
}

fn print_late_reads(rt: &HostRuntime, later: u32) {
    let _ = eprintln!(rt; "{later} times a reader found a later version than at its read before");
}

/// Draws a list and makes its calls, with two readers. A wrong answer counts as a wrong read.
fn read_list<R: Threads + Wait + Sync>(
    rt: &R,
    alloc: Global,
    run: &mut Run<'_>,
) -> Result<Reads, Refusal> {
    let block = draws::block(&mut run.rng);
    let located = locate_after_each(rt, alloc, run.rng.clone()?, block)?;
    let list = List { block, located };
    let mut pair = Pair::new(alloc, config(SHARDS, WORKERS))?;
    let reads = read_pair(rt, alloc, &mut pair, run, &list);
    drop(pair);
    reads
}

/// Rounds with few commands, and transfers that expire soon.
fn config(shards: u32, workers: u32) -> Config {
    Config {
        shards,
        workers,
        work: 2,
        invalidate: 3,
        pend: 3,
        ..Config::standard()
    }
}

/// The locations of the block at first, and after each of the next calls drawn, in a manager with
/// one shard and one worker.
fn locate_after_each<R: Threads + Wait + Sync>(
    rt: &R,
    alloc: Global,
    rng: Pcg32,
    block: BlockId,
) -> Result<Vec<Located>, Refusal> {
    let mut manager = Manager::new(alloc, config(1, 1))?;
    let mut located = Vec::new(alloc);
    let kept = locate_each(rt, alloc, &mut manager, rng, block, &mut located);
    drop(manager);
    kept?;
    Ok(located)
}

fn locate_each<R: Threads + Wait + Sync>(
    rt: &R,
    alloc: Global,
    manager: &mut Manager,
    rng: Pcg32,
    block: BlockId,
    located: &mut Vec<Located>,
) -> Result<(), AllocError> {
    let mut rng = rng;
    located.push(expected_location(manager, block))?;
    for _ in 0..LIST {
        make_next(rt, alloc, manager, &mut rng)?;
        located.push(expected_location(manager, block))?;
    }
    Ok(())
}

/// Draws a call and makes it. Its answer is compared when the two managers make it.
fn make_next<R: Threads + Wait + Sync>(
    rt: &R,
    alloc: Global,
    manager: &mut Manager,
    rng: &mut Pcg32,
) -> Result<(), AllocError> {
    let call = draws::call(rng, alloc)?;
    drop(manager.answer(rt, &NoGate, &call));
    drop(call);
    Ok(())
}

/// The locations of a block in a manager, as a locator must answer them: none of a block that was
/// not added.
fn expected_location(manager: &Manager, block: BlockId) -> Located {
    let calls = manager.calls();
    let places = match manager.places(block) {
        Ok(storages) => Places::first_of(storages.as_slice()),
        Err(_) => Places::first_of(&[]),
    };
    Located { calls, places }
}

/// Makes the calls of the list on two new managers, with two readers.
fn read_pair<R: Threads + Wait + Sync>(
    rt: &R,
    alloc: Global,
    pair: &mut Pair,
    run: &mut Run<'_>,
    list: &List,
) -> Result<Reads, Refusal> {
    let (mut publisher, mut locators) = open_view(rt, alloc, 2)?;
    let reads = read_with(rt, alloc, pair, run, list, &mut publisher, &mut locators);
    drop(locators);
    publisher.end(rt);
    reads
}

/// As `read_pair`, with two locators of the publisher.
fn read_with<R: Threads + Wait + Sync>(
    rt: &R,
    alloc: Global,
    pair: &mut Pair,
    run: &mut Run<'_>,
    list: &List,
    publisher: &mut Publisher,
    locators: &mut Vec<Locator>,
) -> Result<Reads, Refusal> {
    let Some(one) = locators.pop() else {
        return Err(Refusal::BadConfig);
    };
    match locators.pop() {
        Some(other) => open_channels(rt, alloc, pair, run, list, publisher, one, other),
        None => {
            drop(one);
            Err(Refusal::BadConfig)
        }
    }
}

fn open_channels<R: Threads + Wait + Sync>(
    rt: &R,
    alloc: Global,
    pair: &mut Pair,
    run: &mut Run<'_>,
    list: &List,
    publisher: &mut Publisher,
    one: Locator,
    other: Locator,
) -> Result<Reads, Refusal> {
    match new_channels(alloc) {
        Ok((to, from)) => {
            Ok(join_all(rt, alloc, pair, run, list, publisher, to, from, one, other))
        }
        Err(error) => {
            drop(one);
            drop(other);
            Err(Refusal::from(error))
        }
    }
}

/// The senders and the receivers of both readers.
fn new_channels(
    alloc: Global,
) -> Result<
    (
        (Sender<Receipt>, Sender<Receipt>),
        (Receiver<Receipt>, Receiver<Receipt>),
    ),
    AllocError,
> {
    let (to_one, from_one) = unbounded(alloc)?;
    let (to_other, from_other) = unbounded(alloc)?;
    Ok(((to_one, to_other), (from_one, from_other)))
}

/// Makes the calls while two threads read. The readers are the first closure: if no thread can be
/// started, that one is called last, and finds all receipts.
fn join_all<R: Threads + Wait + Sync>(
    rt: &R,
    alloc: Global,
    pair: &mut Pair,
    run: &mut Run<'_>,
    list: &List,
    publisher: &mut Publisher,
    to: (Sender<Receipt>, Sender<Receipt>),
    from: (Receiver<Receipt>, Receiver<Receipt>),
    one: Locator,
    other: Locator,
) -> Reads {
    let (to_one, to_other) = to;
    let (from_one, from_other) = from;
    let (mut reads, wrong) = join(
        rt,
        move || read_both(rt, list, one, from_one, other, from_other),
        || make_all(rt, alloc, pair, run, publisher, to_one, to_other),
    );
    reads.add_wrong(wrong);
    reads
}

/// Makes the calls, publishes after each, and sends each reader the receipt. Returns how many
/// answers differ or receipts cannot be sent.
fn make_all<R: Threads + Wait + Sync>(
    rt: &R,
    alloc: Global,
    pair: &mut Pair,
    run: &mut Run<'_>,
    publisher: &mut Publisher,
    to_one: Sender<Receipt>,
    to_other: Sender<Receipt>,
) -> u32 {
    let mut wrong = 0u32;
    for number in 0..LIST {
        let is_alike = matches!(pair.is_next_alike(rt, alloc, run, number), Ok(true));
        let is_sent = is_alike
            && publish_to(rt, &mut pair.other, publisher, &to_one)
            && publish_to(rt, &mut pair.other, publisher, &to_other);
        wrong = wrong.saturating_add(u32::from(!is_sent));
    }
    wrong
}

/// Publishes the state, and sends a reader the receipt. Returns whether both succeeded.
fn publish_to<R: Threads + Wait + Sync>(
    rt: &R,
    manager: &mut Manager,
    publisher: &mut Publisher,
    to: &Sender<Receipt>,
) -> bool {
    if publisher.calls() > manager.calls() {
        return false;
    }
    match manager.publish(rt, publisher) {
        Ok(receipt) => to.send(rt, receipt).is_ok(),
        Err(_) => false,
    }
}
