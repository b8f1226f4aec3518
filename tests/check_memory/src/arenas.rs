// Arenas of all sizes, in which block 0 is on all storages, and each other block on the storage of
// its own number. Also one arena for many cycles, in which a block is linked on five storages, more
// than its entry holds inline, and leaves again.

use crate::events::block;
use crate::long_runs::{CYCLES, MARKS};
use crate::marks::say;
use crate::tally::Tally;
use bm_arena::{Arena, Slot};
use bm_base::{BlockId, BlockInfo, Gen, Marks, Refusal, Stamp, StorageId, Tag};
use std::alloc::Global;
use std::mem;

const GOOD: Marks = Marks {
    tag: Tag::Good,
    excess: false,
    ordered: false,
};

const BAD: Marks = Marks {
    tag: Tag::Bad,
    excess: false,
    ordered: true,
};

const INFO: BlockInfo = BlockInfo {
    stamp: Stamp {
        generation: Gen(1),
        len: 10,
    },
    repl: 3,
};

/// The number of storages on which each cycle links a block.
const STORAGES: u32 = 5;

/// Replaces the arena by an empty one.
pub fn renew(alloc: Global, arena: &mut Arena) -> Result<(), Refusal> {
    match Arena::new(alloc) {
        Ok(new) => {
            drop(mem::replace(arena, new));
            Ok(())
        }
        Err(refusal) => Err(refusal),
    }
}

pub fn watch<R: Eprint>(rt: &R, alloc: Global, arena: &mut Arena, size: u32, tally: &mut Tally) {
    tally.require(renew(alloc, arena));
    tally.require(fill(arena, size));
    say(rt, "begun", "control");
    tally.refuse_if(is_new_entry_refused(arena, size));
    say(rt, "ended", "control");
    say(rt, "begun", "arena");
    read_all(arena, size, tally);
    change_all(arena, size, tally);
    empty(arena, size, tally);
    say(rt, "ended", "arena");
}

/// Links and unlinks blocks over and over, with marks. Returns the number of steps.
pub fn repeat<R: Eprint>(rt: &R, alloc: Global, arena: &mut Arena, tally: &mut Tally) -> u64 {
    tally.require(renew(alloc, arena));
    for _ in 0..MARKS {
        for id in 0..CYCLES {
            tally.require(come_and_go(arena, block(id)));
        }
        say(rt, "mark", "arena");
    }
    arena.steps()
}

fn fill(arena: &mut Arena, size: u32) -> Result<(), Refusal> {
    for number in 0..size {
        let slot = arena.add_entry(block(number))?;
        hold(arena, slot, StorageId(number))?;
    }
    let widest = arena.add_entry(block(0))?;
    for number in 1..size {
        hold(arena, widest, StorageId(number))?;
    }
    Ok(())
}

fn come_and_go(arena: &mut Arena, id: BlockId) -> Result<(), Refusal> {
    let slot = arena.add_entry(id)?;
    for storage in 0..STORAGES {
        hold(arena, slot, StorageId(storage))?;
    }
    put_delimiter(arena, StorageId(0));
    take_delimiter(arena, StorageId(0));
    for storage in 0..STORAGES {
        unlink(arena, slot, StorageId(storage));
        drop_head(arena, StorageId(storage));
    }
    drop_entry(arena, slot);
    Ok(())
}

/// Reserves memory for a replica, and links it.
fn hold(arena: &mut Arena, slot: Slot, storage: StorageId) -> Result<(), Refusal> {
    arena.reserve_heads(&[storage])?;
    if arena.has_entry(slot) {
        arena.reserve_triplet(slot)?;
        link(arena, slot, storage);
    }
    Ok(())
}

/// Whether there is no memory for one more entry. If there is, the entry is dropped again.
fn is_new_entry_refused(arena: &mut Arena, size: u32) -> bool {
    match arena.add_entry(block(size)) {
        Ok(slot) => {
            drop_entry(arena, slot);
            false
        }
        Err(_) => true,
    }
}

fn read_all(arena: &Arena, size: u32, tally: &mut Tally) {
    tally.note(arena.count() == size as usize);
    for number in 0..size {
        match arena.find(block(number)) {
            Some(slot) => read(arena, number, slot, tally),
            None => tally.note(false),
        }
    }
}

fn read(arena: &Arena, number: u32, slot: Slot, tally: &mut Tally) {
    tally.note(arena.has_entry(slot) && arena.id_of(slot) == block(number));
    tally.note(arena.slot_at(number as usize) == Some(slot));
    tally.note(slot < arena.slot_bound());
    tally.note(arena.marks(slot, StorageId(number)) == Some(GOOD));
    tally.note(arena.triplet_at(slot, 0) == Some((StorageId(number), GOOD)));
}

fn change_all(arena: &mut Arena, size: u32, tally: &mut Tally) {
    let widest = arena.find(block(0));
    for number in 0..size {
        if let (Some(widest), Some(slot)) = (widest, arena.find(block(number))) {
            set(arena, slot, StorageId(number), tally);
            sweep(arena, widest, slot, StorageId(number), tally);
            relink(arena, widest, StorageId(number), tally);
        }
    }
}

fn set(arena: &mut Arena, slot: Slot, storage: StorageId, tally: &mut Tally) {
    arena.set_info(slot, Some(INFO));
    arena.set_marks(slot, storage, BAD);
    tally.note(arena.info(slot) == Some(INFO));
    tally.note(arena.marks(slot, storage) == Some(BAD));
}

/// The widest block moves before the delimiter, so that another block of the storage is after it.
fn sweep(arena: &mut Arena, widest: Slot, slot: Slot, storage: StorageId, tally: &mut Tally) {
    let before = arena.steps();
    put_delimiter(arena, storage);
    move_front(arena, widest, storage);
    let behind = if slot == widest { None } else { Some(slot) };
    tally.note(arena.has_delimiter(storage) && arena.next_after(storage, None) == behind);
    take_delimiter(arena, storage);
    tally.note(arena.steps().saturating_sub(before) == 3);
    let length = if slot == widest { 1 } else { 2 };
    tally.note(length_of(arena, storage) == length);
}

fn length_of(arena: &Arena, storage: StorageId) -> u64 {
    let mut length = 0u64;
    for _ in arena.walk(storage) {
        length = length.saturating_add(1);
    }
    length
}

fn relink(arena: &mut Arena, slot: Slot, storage: StorageId, tally: &mut Tally) {
    let before = arena.steps();
    unlink(arena, slot, storage);
    link(arena, slot, storage);
    tally.note(arena.steps().saturating_sub(before) == 2);
    tally.note(arena.marks(slot, storage) == Some(GOOD));
}

/// Unlinks all replicas, and drops all entries and heads.
fn empty(arena: &mut Arena, size: u32, tally: &mut Tally) {
    let before = arena.steps();
    for number in 0..size {
        if let (Some(widest), Some(slot)) = (arena.find(block(0)), arena.find(block(number))) {
            unlink(arena, slot, StorageId(number));
            unlink(arena, widest, StorageId(number));
        }
    }
    let steps = arena.steps().saturating_sub(before);
    tally.note(steps.saturating_add(1) == 2 * u64::from(size));
    for number in 0..size {
        drop_block(arena, number, tally);
    }
    tally.note(arena.count() == 0);
}

fn drop_block(arena: &mut Arena, number: u32, tally: &mut Tally) {
    if let Some(slot) = arena.find(block(number)) {
        drop_entry(arena, slot);
    }
    tally.note(arena.find(block(number)).is_none());
    drop_head(arena, StorageId(number));
    tally.note(!arena.has_head(StorageId(number)));
}

// Each list operation if its conditions hold. Otherwise it does nothing, which shows in the steps.

fn link(arena: &mut Arena, slot: Slot, storage: StorageId) {
    if arena.has_head(storage) && arena.has_capacity(slot) && arena.marks(slot, storage).is_none() {
        arena.link_front(slot, storage, GOOD);
    }
}

fn unlink(arena: &mut Arena, slot: Slot, storage: StorageId) {
    if arena.marks(slot, storage).is_some() {
        arena.unlink(slot, storage);
    }
}

fn move_front(arena: &mut Arena, slot: Slot, storage: StorageId) {
    if arena.marks(slot, storage).is_some() {
        arena.move_front(slot, storage);
    }
}

fn put_delimiter(arena: &mut Arena, storage: StorageId) {
    if arena.has_head(storage) && !arena.has_delimiter(storage) {
        arena.put_delimiter(storage);
    }
}

fn take_delimiter(arena: &mut Arena, storage: StorageId) {
    if arena.has_delimiter(storage) {
        arena.take_delimiter(storage);
    }
}

fn drop_entry(arena: &mut Arena, slot: Slot) {
    if arena.has_no_replicas(slot) && !arena.is_delimiter(slot) {
        arena.drop_entry(slot);
    }
}

fn drop_head(arena: &mut Arena, storage: StorageId) {
    if arena.is_list_empty(storage) {
        arena.drop_head(storage);
    }
}
