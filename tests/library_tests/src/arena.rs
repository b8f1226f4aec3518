// The lists of two storages and the delimiter, and each call once with ample memory: a table of
// scenarios, each a list of steps with their expected answers.
use crate::support::check_step;
use bm_arena::Arena;
use bm_base::{BlockId, BlockInfo, Gen, Marks, Stamp, StorageId, Tag};
use std::alloc::Global;
use std::process::Abort;

const GOOD: Marks = Marks {
    tag: Tag::Good,
    excess: false,
    ordered: false,
};

const BAD: Marks = Marks {
    tag: Tag::Bad,
    excess: false,
    ordered: true,
};

const INFO: BlockInfo = BlockInfo {
    stamp: Stamp {
        generation: Gen(1),
        len: 10,
    },
    repl: 3,
};

/// A change of an arena. Blocks and storages are named by their numbers.
#[derive(Clone, Copy)]
enum Deed {
    /// Makes heads: the first storage and the number of storages.
    Reserve(u32, u32),
    /// Adds a good replica of a block on a storage, after reserving memory for it.
    Link(u64, u32),
    Unlink(u64, u32),
    MoveFront(u64, u32),
    PutDelimiter(u32),
    TakeDelimiter(u32),
    SetInfo(u64),
    SetBad(u64, u32),
    DropEntry(u64),
    DropHead(u32),
}

/// A change that is repeated for many numbers.
#[derive(Clone, Copy)]
enum Many {
    /// Adds this number of blocks from 10,000 on, each with a replica on storage 11.
    Add(u32),
    /// Adds the same blocks, the first with a replica on storage 0, the next on storage 1 and so
    /// on.
    AddEach(u32),
    /// Adds a replica of a block on each of the storages below a number.
    Link(u64, u32),
    /// Puts the delimiter at the head of each of the lists below a number.
    PutDelimiter(u32),
    /// Takes the delimiter out of each of these lists.
    TakeDelimiter(u32),
}

/// A question that a slot answers.
#[derive(Clone, Copy)]
enum Seek {
    /// The slot of a block, which is added if it is new.
    Added(u64),
    Find(u64),
    SlotAt(usize),
    BehindDelimiter(u32),
    Behind(u32, u64),
    Before(u32, u64),
}

/// A question that a number answers.
#[derive(Clone, Copy)]
enum Count {
    Blocks,
    Steps,
    SlotBound,
    /// The number of slots in the list of a storage.
    Walked(u32),
}

/// A change of an arena, or a question to it.
#[derive(Clone, Copy)]
enum Step {
    /// Adds an entry for a block. Later steps know the slots of the blocks 7, 8 and 9 by these
    /// numbers.
    Add(u64),
    Do(Deed),
    DoMany(Many),
    Where(Seek),
    HowMany(Count),
    Walk(u32),
    /// Whether each of the lists below a number holds block 7, then its own block of `AddEach`, and
    /// no other.
    WalkEach(u32),
    TripletAt(u64, usize),
    IsDelimiter(u64),
    HasHead(u32),
    Info(u64),
    Marks(u64, u32),
}

/// The answer to a step.
#[derive(Clone, Copy, PartialEq, Eq)]
enum Answer {
    Fine,
    /// A condition of the call does not hold.
    NotAllowed,
    Yes,
    No,
    Nothing,
    Number(u64),
    /// The slot that block 7, 8 or 9 got.
    SlotOf(u64),
    OtherSlot,
    /// The numbers of the blocks in a list, in its order, and the length of the list.
    Blocks([u64; 3], usize),
    /// A good replica on a storage.
    Replica(u32),
    Good,
    Bad,
    Known,
    Other,
}

/// The slots that the blocks 7, 8 and 9 got when they were added.
#[derive(Clone, Copy)]
struct Slots {
    seven: usize,
    eight: usize,
    nine: usize,
}

fn slot_of(slots: &Slots, block: u64) -> usize {
    match block {
        7 => slots.seven,
        8 => slots.eight,
        _ => slots.nine,
    }
}

fn remember(slots: &mut Slots, block: u64, slot: usize) {
    match block {
        7 => slots.seven = slot,
        8 => slots.eight = slot,
        9 => slots.nine = slot,
        _ => {}
    }
}

fn name_of(slots: &Slots, slot: Option<usize>) -> Answer {
    match slot {
        None => Answer::Nothing,
        Some(slot) if slot == slots.seven => Answer::SlotOf(7),
        Some(slot) if slot == slots.eight => Answer::SlotOf(8),
        Some(slot) if slot == slots.nine => Answer::SlotOf(9),
        Some(_) => Answer::OtherSlot,
    }
}

fn yes(is_so: bool) -> Answer {
    if is_so { Answer::Yes } else { Answer::No }
}

fn reserve(rt: &impl Abort, alloc: Global, arena: &mut Arena, first: u32, count: u32) -> Answer {
    let mut storages = Vec::new(alloc);
    for index in 0..count {
        storages
            .push(StorageId(first.saturating_add(index)))
            .expect(rt, "memory");
    }
    match arena.reserve_heads(storages.as_slice()) {
        Ok(()) => Answer::Fine,
        Err(_) => Answer::Other,
    }
}

fn add(rt: &impl Abort, arena: &mut Arena, id: u64) -> usize {
    arena.add_entry(BlockId(id)).expect(rt, "memory")
}

fn link(arena: &mut Arena, slot: usize, storage: StorageId) -> Answer {
    if !arena.has_entry(slot) {
        return Answer::NotAllowed;
    }
    if arena.reserve_triplet(slot).is_err() {
        return Answer::Other;
    }
    link_with_capacity(arena, slot, storage)
}

fn link_with_capacity(arena: &mut Arena, slot: usize, storage: StorageId) -> Answer {
    if !arena.has_head(storage) {
        return Answer::NotAllowed;
    }
    if !arena.has_capacity(slot) {
        return Answer::NotAllowed;
    }
    if arena.marks(slot, storage).is_some() {
        return Answer::NotAllowed;
    }
    arena.link_front(slot, storage, GOOD);
    Answer::Fine
}

fn unlink(arena: &mut Arena, slot: usize, storage: StorageId) -> Answer {
    if arena.marks(slot, storage).is_none() {
        return Answer::NotAllowed;
    }
    arena.unlink(slot, storage);
    Answer::Fine
}

fn move_front(arena: &mut Arena, slot: usize, storage: StorageId) -> Answer {
    if arena.marks(slot, storage).is_none() {
        return Answer::NotAllowed;
    }
    arena.move_front(slot, storage);
    Answer::Fine
}

fn put_delimiter(arena: &mut Arena, storage: StorageId) -> Answer {
    if !arena.has_head(storage) {
        return Answer::NotAllowed;
    }
    if arena.has_delimiter(storage) {
        return Answer::NotAllowed;
    }
    arena.put_delimiter(storage);
    Answer::Fine
}

fn take_delimiter(arena: &mut Arena, storage: StorageId) -> Answer {
    if !arena.has_delimiter(storage) {
        return Answer::NotAllowed;
    }
    arena.take_delimiter(storage);
    Answer::Fine
}

fn drop_entry(arena: &mut Arena, slot: usize) -> Answer {
    if !arena.has_no_replicas(slot) {
        return Answer::NotAllowed;
    }
    if arena.is_delimiter(slot) {
        return Answer::NotAllowed;
    }
    arena.drop_entry(slot);
    Answer::Fine
}

fn drop_head(arena: &mut Arena, storage: StorageId) -> Answer {
    if !arena.is_list_empty(storage) {
        return Answer::NotAllowed;
    }
    arena.drop_head(storage);
    Answer::Fine
}

fn set_info(arena: &mut Arena, slot: usize) -> Answer {
    arena.set_info(slot, Some(INFO));
    Answer::Fine
}

fn set_bad(arena: &mut Arena, slot: usize, storage: StorageId) -> Answer {
    arena.set_marks(slot, storage, BAD);
    Answer::Fine
}

fn do_deed(rt: &impl Abort, alloc: Global, arena: &mut Arena, slots: &Slots, deed: Deed) -> Answer {
    match deed {
        Deed::Reserve(first, count) => reserve(rt, alloc, arena, first, count),
        Deed::Link(block, storage) => link(arena, slot_of(slots, block), StorageId(storage)),
        Deed::Unlink(block, storage) => unlink(arena, slot_of(slots, block), StorageId(storage)),
        Deed::MoveFront(block, storage) => {
            move_front(arena, slot_of(slots, block), StorageId(storage))
        }
        Deed::PutDelimiter(storage) => put_delimiter(arena, StorageId(storage)),
        Deed::TakeDelimiter(storage) => take_delimiter(arena, StorageId(storage)),
        Deed::SetInfo(block) => set_info(arena, slot_of(slots, block)),
        Deed::SetBad(block, storage) => set_bad(arena, slot_of(slots, block), StorageId(storage)),
        Deed::DropEntry(block) => drop_entry(arena, slot_of(slots, block)),
        Deed::DropHead(storage) => drop_head(arena, StorageId(storage)),
    }
}

fn new_block(number: u32) -> u64 {
    u64::from(number).saturating_add(10_000)
}

/// Makes the change for one number of a `Many`.
fn one_of_many(
    rt: &impl Abort,
    alloc: Global,
    arena: &mut Arena,
    slots: &Slots,
    many: Many,
    number: u32,
) -> Answer {
    let storage = match many {
        Many::Add(_) => 11,
        _ => number,
    };
    if reserve(rt, alloc, arena, storage, 1) != Answer::Fine {
        return Answer::Other;
    }
    match many {
        Many::Add(_) | Many::AddEach(_) => {
            let slot = add(rt, arena, new_block(number));
            link(arena, slot, StorageId(storage))
        }
        Many::Link(block, _) => link(arena, slot_of(slots, block), StorageId(storage)),
        Many::PutDelimiter(_) => put_delimiter(arena, StorageId(storage)),
        Many::TakeDelimiter(_) => take_delimiter(arena, StorageId(storage)),
    }
}

/// `Fine` if the change for each number is `Fine`.
fn done_often(
    rt: &impl Abort,
    alloc: Global,
    arena: &mut Arena,
    slots: &Slots,
    many: Many,
) -> Answer {
    let (Many::Add(count)
    | Many::AddEach(count)
    | Many::Link(_, count)
    | Many::PutDelimiter(count)
    | Many::TakeDelimiter(count)) = many;
    for number in 0..count {
        if one_of_many(rt, alloc, arena, slots, many, number) != Answer::Fine {
            return Answer::Other;
        }
    }
    Answer::Fine
}

fn behind_the_delimiter(arena: &Arena, storage: StorageId) -> Option<usize> {
    if arena.has_delimiter(storage) {
        arena.next_after(storage, None)
    } else {
        Some(usize::MAX)
    }
}

fn behind(arena: &Arena, storage: StorageId, slot: usize) -> Option<usize> {
    if arena.marks(slot, storage).is_some() {
        arena.next_after(storage, Some(slot))
    } else {
        Some(usize::MAX)
    }
}

fn before(arena: &Arena, storage: StorageId, slot: usize) -> Option<usize> {
    if arena.marks(slot, storage).is_some() {
        arena.previous_before(storage, slot)
    } else {
        Some(usize::MAX)
    }
}

/// `usize::MAX`, which is no slot, means a question that is not allowed.
fn slot_asked(rt: &impl Abort, arena: &mut Arena, slots: &Slots, question: Seek) -> Option<usize> {
    match question {
        Seek::Added(block) => Some(add(rt, arena, block)),
        Seek::Find(block) => arena.find(BlockId(block)),
        Seek::SlotAt(index) => arena.slot_at(index),
        Seek::BehindDelimiter(storage) => behind_the_delimiter(arena, StorageId(storage)),
        Seek::Behind(storage, block) => behind(arena, StorageId(storage), slot_of(slots, block)),
        Seek::Before(storage, block) => before(arena, StorageId(storage), slot_of(slots, block)),
    }
}

fn length_of(arena: &Arena, storage: StorageId) -> u64 {
    let mut length: u64 = 0;
    for _slot in arena.walk(storage) {
        length = length.wrapping_add(1);
    }
    length
}

fn count_of(arena: &Arena, count: Count) -> u64 {
    match count {
        Count::Blocks => arena.count() as u64,
        Count::Steps => arena.steps(),
        Count::SlotBound => arena.slot_bound() as u64,
        Count::Walked(storage) => length_of(arena, StorageId(storage)),
    }
}

/// The numbers of the blocks in a storage's list, and its length, for at most three blocks.
fn walk(arena: &Arena, storage: StorageId) -> Answer {
    let mut numbers = [0; 3];
    let mut count = 0;
    for slot in arena.walk(storage) {
        if count >= 3 {
            return Answer::Other;
        }
        if !arena.has_entry(slot) {
            return Answer::NotAllowed;
        }
        numbers[count] = arena.id_of(slot).0;
        count += 1;
    }
    Answer::Blocks(numbers, count)
}

fn walk_each(arena: &Arena, count: u32) -> bool {
    for number in 0..count {
        let blocks = [7, new_block(number), 0];
        if walk(arena, StorageId(number)) != Answer::Blocks(blocks, 2) {
            return false;
        }
    }
    true
}

fn replica(replica: Option<(StorageId, Marks)>) -> Answer {
    match replica {
        None => Answer::Nothing,
        Some((storage, marks)) => {
            if marks == GOOD {
                Answer::Replica(storage.0)
            } else {
                Answer::Other
            }
        }
    }
}

fn info(info: Option<BlockInfo>) -> Answer {
    match info {
        None => Answer::Nothing,
        Some(info) if info == INFO => Answer::Known,
        Some(_) => Answer::Other,
    }
}

fn answer_marks(marks: Option<Marks>) -> Answer {
    match marks {
        None => Answer::Nothing,
        Some(marks) if marks == GOOD => Answer::Good,
        Some(marks) if marks == BAD => Answer::Bad,
        Some(_) => Answer::Other,
    }
}

fn answer_of(
    rt: &impl Abort,
    alloc: Global,
    arena: &mut Arena,
    slots: &mut Slots,
    step: Step,
) -> Answer {
    match step {
        Step::Add(block) => {
            remember(slots, block, add(rt, arena, block));
            Answer::Fine
        }
        Step::Do(deed) => do_deed(rt, alloc, arena, slots, deed),
        Step::DoMany(many) => done_often(rt, alloc, arena, slots, many),
        Step::Where(question) => name_of(slots, slot_asked(rt, arena, slots, question)),
        Step::HowMany(count) => Answer::Number(count_of(arena, count)),
        _ => looked_up(arena, slots, step),
    }
}

fn looked_up(arena: &Arena, slots: &Slots, step: Step) -> Answer {
    match step {
        Step::Walk(storage) => walk(arena, StorageId(storage)),
        Step::WalkEach(count) => yes(walk_each(arena, count)),
        Step::TripletAt(block, index) => replica(arena.triplet_at(slot_of(slots, block), index)),
        Step::IsDelimiter(block) => yes(arena.is_delimiter(slot_of(slots, block))),
        Step::HasHead(storage) => yes(arena.has_head(StorageId(storage))),
        Step::Info(block) => info(arena.info(slot_of(slots, block))),
        Step::Marks(block, storage) => {
            answer_marks(arena.marks(slot_of(slots, block), StorageId(storage)))
        }
        _ => Answer::Other,
    }
}

/// Runs the steps in order, and checks each answer.
fn run_steps(
    rt: &impl Abort,
    alloc: Global,
    arena: &mut Arena,
    slots: &mut Slots,
    name: &str,
    steps: &[(Step, Answer)],
) {
    for (index, (step, must)) in steps.iter().enumerate() {
        let is_correct = answer_of(rt, alloc, arena, slots, *step) == *must;
        check_step(rt, name, index, is_correct);
    }
}

/// Steps on a new arena with their expected answers: first the setup, then the steps of the case.
#[derive(Clone, Copy)]
struct Scenario<'a> {
    name: &'a str,
    setup: &'a [(Step, Answer)],
    steps: &'a [(Step, Answer)],
}

/// Storage 11 with the blocks 9, 8 and 7, and a storage 12 with none.
const THREE_BLOCKS: [(Step, Answer); 7] = [
    (Step::Do(Deed::Reserve(11, 2)), Answer::Fine),
    (Step::Add(7), Answer::Fine),
    (Step::Add(8), Answer::Fine),
    (Step::Add(9), Answer::Fine),
    (Step::Do(Deed::Link(7, 11)), Answer::Fine),
    (Step::Do(Deed::Link(8, 11)), Answer::Fine),
    (Step::Do(Deed::Link(9, 11)), Answer::Fine),
];

static SCENARIOS: [Scenario<'static>; 8] = [
    Scenario {
        name: "walks and the delimiter",
        setup: &THREE_BLOCKS,
        steps: &[
            (Step::Walk(11), Answer::Blocks([9, 8, 7], 3)),
            (Step::Do(Deed::PutDelimiter(11)), Answer::Fine),
            (Step::Do(Deed::MoveFront(8, 11)), Answer::Fine),
            (Step::Where(Seek::BehindDelimiter(11)), Answer::SlotOf(9)),
            (Step::Where(Seek::Behind(11, 9)), Answer::SlotOf(7)),
            (Step::Where(Seek::Behind(11, 7)), Answer::Nothing),
            (Step::Where(Seek::Before(11, 7)), Answer::SlotOf(9)),
            (Step::Where(Seek::Before(11, 8)), Answer::Nothing),
            (Step::Do(Deed::TakeDelimiter(11)), Answer::Fine),
            (Step::Walk(11), Answer::Blocks([8, 9, 7], 3)),
            (Step::HowMany(Count::Steps), Answer::Number(6)),
            (Step::Walk(12), Answer::Blocks([0, 0, 0], 0)),
        ],
    },
    Scenario {
        name: "counts and places",
        setup: &THREE_BLOCKS,
        steps: &[
            (Step::Where(Seek::Added(7)), Answer::SlotOf(7)),
            (Step::HowMany(Count::Blocks), Answer::Number(3)),
            (Step::TripletAt(7, 0), Answer::Replica(11)),
            (Step::TripletAt(7, 1), Answer::Nothing),
        ],
    },
    Scenario {
        name: "look ups answer what up_to_date",
        setup: &THREE_BLOCKS,
        steps: &[
            (Step::Where(Seek::Find(7)), Answer::SlotOf(7)),
            (Step::Where(Seek::Find(6)), Answer::Nothing),
            (Step::Where(Seek::SlotAt(1)), Answer::SlotOf(8)),
            (Step::Where(Seek::SlotAt(3)), Answer::Nothing),
            (Step::HowMany(Count::SlotBound), Answer::Number(4)),
            (Step::IsDelimiter(7), Answer::No),
            (Step::Info(7), Answer::Nothing),
            (Step::Do(Deed::SetInfo(7)), Answer::Fine),
            (Step::Info(7), Answer::Known),
            (Step::Do(Deed::SetBad(7, 11)), Answer::Fine),
            (Step::Marks(7, 11), Answer::Bad),
            (Step::Marks(7, 12), Answer::Nothing),
        ],
    },
    Scenario {
        name: "last replica fills the freed index",
        setup: &THREE_BLOCKS,
        steps: &[
            // Three more replicas of a block, so that its triplets are no longer inline.
            (Step::Do(Deed::Reserve(12, 3)), Answer::Fine),
            (Step::Do(Deed::Link(8, 12)), Answer::Fine),
            (Step::Do(Deed::Link(8, 13)), Answer::Fine),
            (Step::Do(Deed::Link(8, 14)), Answer::Fine),
            (Step::Do(Deed::Unlink(8, 11)), Answer::Fine),
            (Step::TripletAt(8, 0), Answer::Replica(14)),
            (Step::TripletAt(8, 2), Answer::Replica(13)),
            (Step::Walk(11), Answer::Blocks([9, 7, 0], 2)),
            (Step::Walk(14), Answer::Blocks([8, 0, 0], 1)),
        ],
    },
    Scenario {
        name: "entries and heads are dropped",
        setup: &THREE_BLOCKS,
        steps: &[
            (Step::Do(Deed::Unlink(7, 11)), Answer::Fine),
            (Step::Do(Deed::DropEntry(7)), Answer::Fine),
            (Step::Where(Seek::Find(7)), Answer::Nothing),
            (Step::HowMany(Count::Blocks), Answer::Number(2)),
            (Step::Where(Seek::SlotAt(0)), Answer::SlotOf(9)),
            (Step::Where(Seek::Added(5)), Answer::SlotOf(7)),
            (Step::HowMany(Count::SlotBound), Answer::Number(4)),
            (Step::Do(Deed::DropHead(12)), Answer::Fine),
            (Step::HasHead(12), Answer::No),
        ],
    },
    Scenario {
        name: "a thousand blocks are taken",
        setup: &[],
        steps: &[
            (Step::DoMany(Many::Add(1000)), Answer::Fine),
            (Step::HowMany(Count::Blocks), Answer::Number(1000)),
            (Step::HowMany(Count::Walked(11)), Answer::Number(1000)),
            (Step::HowMany(Count::Steps), Answer::Number(1000)),
            (Step::HowMany(Count::SlotBound), Answer::Number(1001)),
        ],
    },
    Scenario {
        name: "seventeen replicas of a block are taken",
        setup: &[],
        steps: &[
            (Step::Add(7), Answer::Fine),
            (Step::DoMany(Many::Link(7, 17)), Answer::Fine),
            (Step::TripletAt(7, 16), Answer::Replica(16)),
            (Step::TripletAt(7, 17), Answer::Nothing),
        ],
    },
    Scenario {
        name: "delimiter is put into 4,096 lists and taken out of them",
        setup: &[
            (Step::Add(7), Answer::Fine),
            (Step::DoMany(Many::AddEach(4096)), Answer::Fine),
            (Step::DoMany(Many::Link(7, 4096)), Answer::Fine),
        ],
        steps: &[
            (Step::WalkEach(4096), Answer::Yes),
            (Step::HowMany(Count::Steps), Answer::Number(8192)),
            (Step::DoMany(Many::PutDelimiter(4096)), Answer::Fine),
            (Step::HowMany(Count::Walked(4095)), Answer::Number(3)),
            (Step::Where(Seek::BehindDelimiter(0)), Answer::SlotOf(7)),
            (Step::Where(Seek::BehindDelimiter(4095)), Answer::SlotOf(7)),
            (Step::DoMany(Many::TakeDelimiter(4096)), Answer::Fine),
            (Step::WalkEach(4096), Answer::Yes),
            (Step::HowMany(Count::Steps), Answer::Number(16384)),
        ],
    },
];

fn check(rt: &impl Abort, alloc: Global, scenario: &Scenario<'_>) {
    let mut arena = Arena::new(alloc).expect(rt, "memory");
    let mut slots = Slots {
        seven: usize::MAX,
        eight: usize::MAX,
        nine: usize::MAX,
    };
    run_steps(rt, alloc, &mut arena, &mut slots, "setup", scenario.setup);
    run_steps(
        rt,
        alloc,
        &mut arena,
        &mut slots,
        scenario.name,
        scenario.steps,
    );
    arena.show_invariant();
    drop(arena);
}

#[test]
fn arenas_answer_as_worked_out(rt: HostRuntime) {
    for scenario in &SCENARIOS {
        check(&rt, rt.alloc(), scenario);
    }
}
