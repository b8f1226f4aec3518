// Lists and sets of slots, filled to their capacity.

use crate::marks::say;
use crate::tally::Tally;
use bm_base::{Level, Refusal};
use bm_queues::{LevelLists, SlotSet, Walk};
use std::alloc::Global;

pub fn watch_levels<R: Eprint>(
    rt: &R,
    alloc: Global,
    size: usize,
    tally: &mut Tally,
) -> Result<(), Refusal> {
    let mut lists = LevelLists::new(alloc)?;
    tally.require(lists.grow_to(size));
    say(rt, "begun", "levels");
    spread(&mut lists, size, tally);
    gather(&mut lists, size, tally);
    take_levels(&mut lists, size, tally);
    say(rt, "ended", "levels");
    say(rt, "begun", "control");
    tally.refuse_if(lists.grow_to(size.saturating_add(1)).is_err());
    say(rt, "ended", "control");
    drop(lists);
    Ok(())
}

pub fn watch_set<R: Eprint>(
    rt: &R,
    alloc: Global,
    size: usize,
    tally: &mut Tally,
) -> Result<(), Refusal> {
    let mut slots = SlotSet::new(alloc)?;
    tally.require(slots.grow_to(size));
    say(rt, "begun", "set");
    insert_all(&mut slots, size, tally);
    remove_all(&mut slots, size, tally);
    say(rt, "ended", "set");
    say(rt, "begun", "control");
    tally.refuse_if(slots.grow_to(size.saturating_add(1)).is_err());
    say(rt, "ended", "control");
    drop(slots);
    Ok(())
}

fn level_of(slot: usize) -> Level {
    match slot % 5 {
        0 => Level::Highest,
        1 => Level::VeryUnderReplicated,
        2 => Level::UnderReplicated,
        3 => Level::BadlyDistributed,
        _ => Level::NoUsableReplica,
    }
}

/// Gives each slot a level, one after another. Each new one is at the front of its list.
fn spread(lists: &mut LevelLists, size: usize, tally: &mut Tally) {
    for slot in 0..size {
        if slot < lists.capacity() {
            lists.set(slot, Some(level_of(slot)));
            tally.note(lists.level(slot) == Some(level_of(slot)));
            tally.note(lists.first(level_of(slot)) == Some(slot));
        }
    }
}

/// Gives all slots one level.
fn gather(lists: &mut LevelLists, size: usize, tally: &mut Tally) {
    for slot in 0..size {
        if slot < lists.capacity() {
            lists.set(slot, Some(Level::Highest));
        }
    }
    tally.note(lists.slots(Level::Highest).len() == size);
    tally.note(lists.first(Level::UnderReplicated).is_none());
}

fn length_of(walk: Walk<'_>) -> usize {
    let mut length = 0usize;
    for _ in walk {
        length = length.saturating_add(1);
    }
    length
}

/// Removes the level of each slot in one list, from slot to slot.
fn take_levels(lists: &mut LevelLists, size: usize, tally: &mut Tally) {
    let mut count = 0usize;
    let mut at = lists.first(Level::Highest);
    while let Some(slot) = at {
        at = lists.next(slot);
        lists.set(slot, None);
        tally.note(lists.level(slot).is_none());
        count = count.saturating_add(1);
    }
    tally.note(count == size);
}

fn insert_all(slots: &mut SlotSet, size: usize, tally: &mut Tally) {
    for slot in 0..size {
        if slot < slots.capacity() {
            slots.insert(slot);
            tally.note(slots.contains(slot) && slots.first() == Some(slot));
        }
    }
    tally.note(slots.len() == size);
    tally.note(length_of(slots.walk()) == size);
}

/// Removes each slot, from slot to slot.
fn remove_all(slots: &mut SlotSet, size: usize, tally: &mut Tally) {
    let mut count = 0usize;
    let mut at = slots.first();
    while let Some(slot) = at {
        at = slots.next(slot);
        slots.remove(slot);
        tally.note(!slots.contains(slot));
        count = count.saturating_add(1);
    }
    tally.note(count == size && slots.len() == 0);
}
