// Pending transfers, three of each block: to storage 0 since round 1, to storage 1 since round 4,
// to storage 2 since round 5.

use crate::events::block;
use crate::marks::say;
use crate::tally::Tally;
use bm_base::{HashSecret, Refusal, StorageId};
use bm_pending::PendingTransfers;
use std::alloc::Global;

pub fn watch<R: Eprint>(
    rt: &R,
    alloc: Global,
    size: u32,
    tally: &mut Tally,
) -> Result<(), Refusal> {
    let mut pending = PendingTransfers::new(alloc, HashSecret::none());
    let watched = watch_pending(rt, alloc, &mut pending, size, tally);
    drop(pending);
    watched
}

/// All memory is reserved before the first window.
fn watch_pending<R: Eprint>(
    rt: &R,
    alloc: Global,
    pending: &mut PendingTransfers,
    size: u32,
    tally: &mut Tally,
) -> Result<(), Refusal> {
    reserve_all(pending, size)?;
    let mut targets = Vec::with_capacity(alloc, 3)?;
    open_windows(rt, pending, &mut targets, size, tally);
    Ok(())
}

fn open_windows<R: Eprint>(
    rt: &R,
    pending: &mut PendingTransfers,
    targets: &mut Vec<StorageId>,
    size: u32,
    tally: &mut Tally,
) {
    say(rt, "begun", "control");
    tally.refuse_if(is_new_block_refused(pending, size));
    say(rt, "ended", "control");
    say(rt, "begun", "transfers");
    insert_all(pending, size);
    read_all(pending, targets, size, tally);
    pending.drop_expired(2, 5);
    counts_are(pending, size, 2, tally);
    pending.drop_storages([StorageId(1)].as_slice());
    counts_are(pending, size, 1, tally);
    insert_again(pending, size, tally);
    pending.release_unused();
    remove_all(pending, size, tally);
    pending.release_unused();
    say(rt, "ended", "transfers");
}

/// Reserves memory for three transfers of each block.
fn reserve_all(pending: &mut PendingTransfers, size: u32) -> Result<(), Refusal> {
    for number in 0..size {
        pending.reserve(block(number), 3)?;
    }
    Ok(())
}

/// Whether there is no memory for one more block. If there is, it is removed again.
fn is_new_block_refused(pending: &mut PendingTransfers, size: u32) -> bool {
    let is_refused = pending.reserve(block(size), 1).is_err();
    pending.remove_block(block(size));
    is_refused
}

fn insert_all(pending: &mut PendingTransfers, size: u32) {
    for number in 0..size {
        pending.insert_reserved(block(number), StorageId(2), 5);
        pending.insert_reserved(block(number), StorageId(0), 1);
        pending.insert_reserved(block(number), StorageId(1), 4);
    }
}

fn read_all(
    pending: &PendingTransfers,
    targets: &mut Vec<StorageId>,
    size: u32,
    tally: &mut Tally,
) {
    for number in 0..size {
        tally.note(pending.count_of(block(number)) == 3);
        tally.note(pending.contains(block(number), StorageId(1)));
        tally.note(pending.contains(block(number), StorageId(2)));
        targets.clear();
        let is_pushed = pending.push_targets(block(number), targets).is_ok();
        tally.note(is_pushed && targets.len() == 3);
    }
}

fn counts_are(pending: &PendingTransfers, size: u32, count: usize, tally: &mut Tally) {
    for number in 0..size {
        tally.note(pending.count_of(block(number)) == count);
    }
}

/// Uses the capacity of the dropped transfers, which is still there.
fn insert_again(pending: &mut PendingTransfers, size: u32, tally: &mut Tally) {
    for number in 0..size {
        match pending.reserve(block(number), 1) {
            Ok(()) => {
                pending.insert_reserved(block(number), StorageId(1), 6);
                tally.note(pending.count_of(block(number)) == 2);
            }
            Err(_) => tally.note(false),
        }
    }
}

fn remove_all(pending: &mut PendingTransfers, size: u32, tally: &mut Tally) {
    for number in 0..size {
        pending.remove(block(number), StorageId(2));
        tally.note(!pending.contains(block(number), StorageId(2)));
        pending.remove_block(block(number));
        tally.note(pending.count_of(block(number)) == 0);
    }
}
