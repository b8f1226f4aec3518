// The lists of one set of slots with levels, and each call once with ample memory: each test is a
// list of steps with their expected answers.
use crate::support::check_step;
use bm_base::{Level, Refusal};
use bm_queues::{LevelLists, SlotSet, Walk};
use std::alloc::Global;
use std::process::Abort;

/// A change of level lists, or a question to them.
#[derive(Clone, Copy)]
enum LevelStep {
    GrowTo(usize),
    Set(usize, Option<Level>),
    Level(usize),
    First(Level),
    Next(usize),
    Capacity,
    Slots(Level),
}

/// A change of a set of slots, or a question to it.
#[derive(Clone, Copy)]
enum SetStep {
    GrowTo(usize),
    /// Inserts a slot, and asks whether it is a member.
    Insert(usize),
    /// Removes a slot, and asks whether it is a member.
    Remove(usize),
    Len,
    First,
    Next(usize),
    Capacity,
    Walk,
}

/// The answer to a step.
#[derive(Clone, Copy, PartialEq, Eq)]
enum Answer {
    Fine,
    Refused,
    /// The slot is not below the capacity.
    NoCapacity,
    Yes,
    No,
    Nothing,
    Number(usize),
    Slot(usize),
    Level(Level),
    /// Slots in order, and their number.
    Slots([usize; 2], usize),
    TooManySlots,
}

fn answer_of(grown: Result<(), Refusal>) -> Answer {
    match grown {
        Ok(()) => Answer::Fine,
        Err(_) => Answer::Refused,
    }
}

fn slot(slot: Option<usize>) -> Answer {
    match slot {
        Some(slot) => Answer::Slot(slot),
        None => Answer::Nothing,
    }
}

fn yes(is_so: bool) -> Answer {
    if is_so { Answer::Yes } else { Answer::No }
}

fn answer_walk(walk: Walk<'_>) -> Answer {
    let mut slots = [0; 2];
    let mut count = 0;
    for slot in walk {
        if count >= 2 {
            return Answer::TooManySlots;
        }
        slots[count] = slot;
        count += 1;
    }
    Answer::Slots(slots, count)
}

fn answer_slots(slots: &[u32]) -> Answer {
    let mut found = [0; 2];
    let mut count = 0;
    for slot in slots {
        if count >= 2 {
            return Answer::TooManySlots;
        }
        found[count] = *slot as usize;
        count += 1;
    }
    Answer::Slots(found, count)
}

fn set(lists: &mut LevelLists, slot: usize, level: Option<Level>) -> Answer {
    if slot >= lists.capacity() {
        return Answer::NoCapacity;
    }
    lists.set(slot, level);
    Answer::Fine
}

fn level(lists: &LevelLists, slot: usize) -> Answer {
    if slot >= lists.capacity() {
        return Answer::NoCapacity;
    }
    match lists.level(slot) {
        Some(level) => Answer::Level(level),
        None => Answer::Nothing,
    }
}

fn next(lists: &LevelLists, at: usize) -> Answer {
    if at >= lists.capacity() {
        return Answer::NoCapacity;
    }
    slot(lists.next(at))
}

fn of_levels(lists: &mut LevelLists, step: LevelStep) -> Answer {
    match step {
        LevelStep::GrowTo(capacity) => answer_of(lists.grow_to(capacity)),
        LevelStep::Set(slot, level) => set(lists, slot, level),
        LevelStep::Level(slot) => level(lists, slot),
        LevelStep::First(level) => slot(lists.first(level)),
        LevelStep::Next(slot) => next(lists, slot),
        LevelStep::Capacity => Answer::Number(lists.capacity()),
        LevelStep::Slots(level) => answer_slots(lists.slots(level)),
    }
}

/// Runs the steps in order on new lists, and checks each answer.
fn run_level_steps(rt: &impl Abort, alloc: Global, steps: &[(LevelStep, Answer)]) {
    let mut lists = LevelLists::new(alloc).expect(rt, "memory");
    for (index, (step, must)) in steps.iter().enumerate() {
        let is_correct = of_levels(&mut lists, *step) == *must;
        check_step(rt, "levels", index, is_correct);
    }
}

static LEVELS_OF_THREE_SLOTS: [(LevelStep, Answer); 22] = [
    (LevelStep::GrowTo(3), Answer::Fine),
    (
        LevelStep::Set(0, Some(Level::UnderReplicated)),
        Answer::Fine,
    ),
    (
        LevelStep::Set(2, Some(Level::UnderReplicated)),
        Answer::Fine,
    ),
    (LevelStep::Set(1, Some(Level::Highest)), Answer::Fine),
    (LevelStep::First(Level::UnderReplicated), Answer::Slot(2)),
    (LevelStep::Next(2), Answer::Slot(0)),
    (LevelStep::Next(0), Answer::Nothing),
    (LevelStep::First(Level::Highest), Answer::Slot(1)),
    (LevelStep::First(Level::NoUsableReplica), Answer::Nothing),
    // Setting the level that a slot already has changes nothing.
    (
        LevelStep::Set(0, Some(Level::UnderReplicated)),
        Answer::Fine,
    ),
    (LevelStep::First(Level::UnderReplicated), Answer::Slot(2)),
    (LevelStep::Set(2, None), Answer::Fine),
    (LevelStep::First(Level::UnderReplicated), Answer::Slot(0)),
    (LevelStep::Level(2), Answer::Nothing),
    (LevelStep::Next(2), Answer::Nothing),
    // A greater capacity keeps the lists, and a smaller one changes nothing.
    (LevelStep::GrowTo(5), Answer::Fine),
    (LevelStep::GrowTo(1), Answer::Fine),
    (LevelStep::Capacity, Answer::Number(5)),
    (LevelStep::GrowTo(1_000), Answer::Fine),
    (LevelStep::Capacity, Answer::Number(1_000)),
    (
        LevelStep::Set(4, Some(Level::UnderReplicated)),
        Answer::Fine,
    ),
    // The list from back to front.
    (
        LevelStep::Slots(Level::UnderReplicated),
        Answer::Slots([0, 4], 2),
    ),
];

static REFUSED_WHERE_NO_LINK_REACHES: [(LevelStep, Answer); 3] = [
    (LevelStep::GrowTo(1), Answer::Fine),
    (LevelStep::GrowTo(4_294_967_296), Answer::Refused),
    (LevelStep::Capacity, Answer::Number(1)),
];

/// The second table asks for a capacity that links cannot address, which is refused.
#[test]
fn levels_of_slots(rt: HostRuntime) {
    run_level_steps(&rt, rt.alloc(), LEVELS_OF_THREE_SLOTS.as_slice());
    run_level_steps(&rt, rt.alloc(), REFUSED_WHERE_NO_LINK_REACHES.as_slice());
}

fn insert(slots: &mut SlotSet, slot: usize) -> Answer {
    if slot >= slots.capacity() {
        return Answer::NoCapacity;
    }
    slots.insert(slot);
    contains(slots, slot)
}

fn remove(slots: &mut SlotSet, slot: usize) -> Answer {
    if slot >= slots.capacity() {
        return Answer::NoCapacity;
    }
    slots.remove(slot);
    contains(slots, slot)
}

fn contains(slots: &SlotSet, slot: usize) -> Answer {
    if slot >= slots.capacity() {
        return Answer::NoCapacity;
    }
    yes(slots.contains(slot))
}

fn next_in(slots: &SlotSet, at: usize) -> Answer {
    if at >= slots.capacity() {
        return Answer::NoCapacity;
    }
    slot(slots.next(at))
}

fn of_set(slots: &mut SlotSet, step: SetStep) -> Answer {
    match step {
        SetStep::GrowTo(capacity) => answer_of(slots.grow_to(capacity)),
        SetStep::Insert(slot) => insert(slots, slot),
        SetStep::Remove(slot) => remove(slots, slot),
        SetStep::Len => Answer::Number(slots.len()),
        SetStep::First => slot(slots.first()),
        SetStep::Next(slot) => next_in(slots, slot),
        SetStep::Capacity => Answer::Number(slots.capacity()),
        SetStep::Walk => answer_walk(slots.walk()),
    }
}

static SET_OF_THREE_SLOTS: [(SetStep, Answer); 14] = [
    (SetStep::GrowTo(0), Answer::Fine),
    (SetStep::GrowTo(3), Answer::Fine),
    (SetStep::Insert(0), Answer::Yes),
    (SetStep::Insert(2), Answer::Yes),
    (SetStep::Insert(2), Answer::Yes),
    (SetStep::Len, Answer::Number(2)),
    (SetStep::First, Answer::Slot(2)),
    (SetStep::Capacity, Answer::Number(3)),
    (SetStep::Next(2), Answer::Slot(0)),
    (SetStep::Remove(2), Answer::No),
    (SetStep::Remove(1), Answer::No),
    (SetStep::Len, Answer::Number(1)),
    (SetStep::First, Answer::Slot(0)),
    (SetStep::Walk, Answer::Slots([0, 0], 1)),
];

#[test]
fn set_of_three_slots(rt: HostRuntime) {
    let mut slots = SlotSet::new(rt.alloc()).expect(&rt, "memory");
    for (index, (step, must)) in SET_OF_THREE_SLOTS.iter().enumerate() {
        let is_correct = of_set(&mut slots, *step) == *must;
        check_step(&rt, "set", index, is_correct);
    }
}
