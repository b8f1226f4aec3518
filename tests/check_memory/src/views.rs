// Views: a table with one row, which a locator reads. None of these calls depends on the length of
// the table.

use crate::events::block;
use crate::limits::print_one;
use crate::long_runs::{CYCLES, MARKS};
use crate::marks::say;
use crate::tally::Tally;
use bm_base::{Places, Refusal, StorageId};
use bm_view::{Located, Locator, Publisher, Receipt, Table, open_view};
use std::alloc::{AllocError, Global};
use std::sync::{Arc, Wait};

/// The block of the one row in each of many versions.
const BLOCK: u32 = 7;

/// The greatest number of readers.
const READERS: usize = 16;

pub fn watch<R: Eprint + Wait>(rt: &R, alloc: Global, size: u32, tally: &mut Tally) {
    let published = publish_on_new(rt, alloc, size, tally);
    tally.require(published);
    say(rt, "begun", "control");
    tally.refuse_if(refusal_of_view(rt, alloc, 1).is_some());
    say(rt, "ended", "control");
}

/// Opens a view, in which a locator learns one version with `size` calls, or many versions if
/// `size` is 0. Ends the view before it returns an error.
pub fn publish_on_new<R: Eprint + Wait>(
    rt: &R,
    alloc: Global,
    size: u32,
    tally: &mut Tally,
) -> Result<(), Refusal> {
    let (mut publisher, mut locators) = open_view(rt, alloc, 1)?;
    let published = match locators.pop() {
        Some(mut locator) => {
            let published = publish(rt, alloc, &mut publisher, &mut locator, size, tally);
            drop(locator);
            published
        }
        None => Err(Refusal::BadConfig),
    };
    drop(locators);
    say(rt, "begun", "end");
    publisher.end(rt);
    say(rt, "ended", "end");
    published
}

fn publish<R: Eprint + Wait>(
    rt: &R,
    alloc: Global,
    publisher: &mut Publisher,
    locator: &mut Locator,
    size: u32,
    tally: &mut Tally,
) -> Result<(), Refusal> {
    if size > 0 {
        publish_in_window(rt, alloc, publisher, locator, size, tally)
    } else {
        publish_all(rt, alloc, publisher, locator, tally)
    }
}

/// Opens a view with the greatest number of readers. One more is refused.
pub fn open_limits<R: Print + Wait>(rt: &R, alloc: Global) -> Result<(), Refusal> {
    let (publisher, mut locators) = open_view(rt, alloc, READERS)?;
    let mut answers = 0u64;
    for locator in locators.iter_mut() {
        answers = answers.saturating_add(u64::from(locator.locate(block(BLOCK)).is_some()));
    }
    drop(locators);
    publisher.end(rt);
    let is_limit = refusal_of_view(rt, alloc, READERS + 1) == Some(Refusal::BadConfig);
    print_one(
        rt,
        u128::from(answers),
        "readers answer; one more refused",
        is_limit,
    );
    Ok(())
}

/// Why a view with this number of readers is refused.
fn refusal_of_view<R: Wait>(rt: &R, alloc: Global, readers: usize) -> Option<Refusal> {
    match open_view(rt, alloc, readers) {
        Ok((publisher, locators)) => {
            drop(locators);
            publisher.end(rt);
            None
        }
        Err(refusal) => Some(refusal),
    }
}

fn publish_in_window<R: Eprint + Wait>(
    rt: &R,
    alloc: Global,
    publisher: &mut Publisher,
    locator: &mut Locator,
    size: u32,
    tally: &mut Tally,
) -> Result<(), Refusal> {
    let table = version(alloc, u64::from(size), size)?;
    let receipt = publisher.publish(rt, table)?;
    say(rt, "begun", "view");
    tally.note(receipt.calls() == u64::from(size));
    tally.note(publisher.calls() == u64::from(size));
    locate(locator, receipt, size, tally);
    say(rt, "ended", "view");
    Ok(())
}

fn locate(locator: &mut Locator, receipt: Receipt, size: u32, tally: &mut Tally) {
    locator.learn(receipt);
    tally.note(locator.locate(block(size)) == found_on(u64::from(size), &[StorageId(size)]));
    tally.note(locator.locate(block(0)) == found_on(u64::from(size), &[]));
}

fn publish_all<R: Eprint + Wait>(
    rt: &R,
    alloc: Global,
    publisher: &mut Publisher,
    locator: &mut Locator,
    tally: &mut Tally,
) -> Result<(), Refusal> {
    for calls in 0..MARKS * CYCLES {
        tally.note(publish_one(rt, alloc, publisher, locator, u64::from(calls))?);
        if calls % CYCLES == CYCLES - 1 {
            say(rt, "mark", "view");
        }
    }
    Ok(())
}

/// Whether the locator answers from the version, once it has learned it.
fn publish_one<R: Wait>(
    rt: &R,
    alloc: Global,
    publisher: &mut Publisher,
    locator: &mut Locator,
    calls: u64,
) -> Result<bool, Refusal> {
    let table = version(alloc, calls, BLOCK)?;
    let receipt = publisher.publish(rt, table)?;
    locator.learn(receipt);
    Ok(locator.locate(block(BLOCK)) == found_on(calls, &[StorageId(BLOCK)]))
}

/// The answer of a locator for a block with these storages.
pub fn found_on(calls: u64, storages: &[StorageId]) -> Option<Located> {
    Some(Located {
        calls,
        places: Places::first_of(storages),
    })
}

/// A version in which the block of this number is on the storage of this number.
fn version(alloc: Global, calls: u64, number: u32) -> Result<Arc<Table>, AllocError> {
    let mut rows = Vec::new(alloc);
    rows.push((block(number), Places::first_of(&[StorageId(number)])))?;
    Ok(Arc::new(alloc, Table::new(calls, rows))?)
}
