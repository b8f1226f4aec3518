//! A manager publishes a version after each event, while a reader in another thread looks a block
//! up. No answer of the reader is older than the one before.
ghost use Rattle.std.specs.Prelude.{◌≤◌};
ghost use Rattle.bm_view.specs.History.{last_of};

use bm_base::{BlockId, Config, Event, Gen, NodeId, Rack, Refusal, Stamp, StorageId};
use bm_crew::NoGate;
use bm_manager::Manager;
use bm_view::{Locator, Publisher, open_view};
use std::alloc::{AllocError, Global};
use std::sync::Wait;
use std::thread::{Threads, join_mut};

const BLOCK: BlockId = BlockId(7);

#[test]
fn main(rt: HostRuntime) -> anyhow::Result<()> {
    let events = events(rt.alloc())?;
    let mut manager = Manager::new(rt.alloc(), Config::standard())?;
    let (mut publisher, mut locators) = open_view(&rt, rt.alloc(), 1)?;
    let done = match locators.pop() {
        Some(mut locator) => {
            publish_next_to_reader(&rt, &mut manager, &mut publisher, &mut locator, &events)
        }
        None => Ok(()),
    };
    // A publisher is not `Drop`.
    publisher.end(&rt);
    done
}

/// A node comes with two storages, and one of them receives the block.
fn events(alloc: Global) -> Result<[Event; 3], AllocError> {
    let stamp = Stamp {
        generation: Gen(1),
        len: 64,
    };
    Ok([
        Event::register(alloc, NodeId(1), Rack(1), &[StorageId(11), StorageId(12)])?,
        Event::AddBlock {
            id: BLOCK,
            stamp,
            repl: 1,
        },
        Event::Received {
            storage: StorageId(12),
            id: BLOCK,
            stamp,
        },
    ])
}

/// The reader is the first of the two closures: if no thread can be started it runs last.
fn publish_next_to_reader<R: Print + Threads + Wait + Sync>(
    rt: &R,
    manager: &mut Manager,
    publisher: &mut Publisher,
    locator: &mut Locator,
    events: &[Event],
) -> anyhow::Result<()>
    requires { (last_of publisher.old.list).calls ≤ manager.old.calls }
{
    let (older, published) = join_mut(
        rt,
        &mut || count_older(locator),
        &mut || -> Result<(), Refusal>
            requires { (last_of publisher.now.list).calls ≤ manager.now.calls }
        { publish_each(rt, manager, publisher, events) },
    );
    published?;
    println!(rt; "older answers: {older}")?;
    if let Some(found) = locator.locate(BLOCK) {
        for storage in found.places.storages() {
            println!(rt;
                "after {} calls block 7 is on storage {}",
                found.calls, storage.0
            )?;
        }
    }
    Ok(())
}

/// How many answers of many are older than the one before.
fn count_older(locator: &mut Locator) -> u32 {
    let mut older = 0u32;
    let mut last = 0;
    for _ in 0..10_000 {
        if let Some(found) = locator.locate(BLOCK) {
            older = older.saturating_add((found.calls < last) as u32);
            last = found.calls;
        }
    }
    older
}

fn publish_each<R: Threads + Wait + Sync>(
    rt: &R,
    manager: &mut Manager,
    publisher: &mut Publisher,
    events: &[Event],
) -> Result<(), Refusal>
    requires { (last_of publisher.old.list).calls ≤ manager.old.calls }
{
    for event in events {
        manager.apply(rt, &NoGate, event)?;
        manager.publish(rt, publisher)?;
    }
    Ok(())
}
