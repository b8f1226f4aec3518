// Lists of calls in which an allocation is refused: `answer_all` on one manager, and
// `answers_alike` on two that it makes itself. A refused call of a list is skipped: the other
// answers, and the state after them, are those of a manager that makes only the accepted calls.

use crate::answers::{ask_full, make_all, write_line};
use crate::bench::Bench;
use crate::calls_in_turn::{is_as_before, print_tally, renew};
use crate::cases::{CLUSTER, NOTHING};
use crate::managers::config;
use crate::marks::{OPEN, Window, begin_turn, end_turn};
use crate::questions::ask_all;
use crate::short_calls::{ShortCall, call_of};
use bm_base::{Answer, Call, Items, Limits, Refusal};
use bm_crew::NoGate;
use bm_manager::{Manager, answers_alike};
use std::alloc::{AllocError, Global};
use std::sync::Wait;
use std::thread::Threads;

const FOUR_NUMBERS: &[(u64, u64, u64)] = &[(1, 4, 1)];

/// Events on blocks of all three shards, a round, a death, and questions about the state after
/// them.
static LIST: [ShortCall; 16] = [
    ShortCall::Add(1, 2),
    ShortCall::Received(11, 1, 1),
    ShortCall::Report(21, FOUR_NUMBERS),
    ShortCall::Add(5, 3),
    ShortCall::Received(31, 5, 1),
    ShortCall::Received(41, 5, 0),
    ShortCall::Add(6, 1),
    ShortCall::Round,
    ShortCall::Dead(2),
    ShortCall::Replicas,
    ShortCall::Corrupt,
    ShortCall::Missing,
    ShortCall::BlocksOn(11),
    ShortCall::Places(1),
    ShortCall::Level(5),
    ShortCall::Calls,
];

/// The answers to the calls of the cluster, one in each line.
const OF_CLUSTER: &str = "\
    Done(Done { added: 0, removed: 0 })\n\
    Done(Done { added: 0, removed: 0 })\n\
    Done(Done { added: 0, removed: 0 })\n\
    Done(Done { added: 0, removed: 0 })\n\
    Done(Done { added: 0, removed: 0 })\n\
    Done(Done { added: 0, removed: 0 })\n\
    Done(Done { added: 0, removed: 0 })\n\
    Done(Done { added: 0, removed: 0 })\n";

/// The answers to the list after them, one in each line, worked out by hand from the rules. The
/// round first copies block 5, which has one live replica, to the other rack and then to the last
/// node without one. Then it copies block 1 to a second rack, and it deletes the three replicas of
/// no block.
const OF_LIST: &str = "\
    Done(Done { added: 0, removed: 0 })\n\
    Done(Done { added: 1, removed: 0 })\n\
    Done(Done { added: 4, removed: 0 })\n\
    Done(Done { added: 0, removed: 0 })\n\
    Done(Done { added: 1, removed: 0 })\n\
    Done(Done { added: 1, removed: 0 })\n\
    Done(Done { added: 0, removed: 0 })\n\
    Commanded(Commands { round: 1, nodes: Items { vec: [\
    NodeCommands { node: NodeId(1), transfers: Items { vec: [\
    Transfer { block: BlockId(1), stamp: Stamp { generation: Gen(1), len: 10 }, \
    source: StorageId(11), target: StorageId(31) }] }, deletes: Items { vec: [] } }, \
    NodeCommands { node: NodeId(2), transfers: Items { vec: [] }, deletes: Items { vec: [\
    Delete { storage: StorageId(21), block: BlockId(2) }, \
    Delete { storage: StorageId(21), block: BlockId(3) }, \
    Delete { storage: StorageId(21), block: BlockId(4) }] } }, \
    NodeCommands { node: NodeId(3), transfers: Items { vec: [\
    Transfer { block: BlockId(5), stamp: Stamp { generation: Gen(1), len: 10 }, \
    source: StorageId(31), target: StorageId(11) }, \
    Transfer { block: BlockId(5), stamp: Stamp { generation: Gen(1), len: 10 }, \
    source: StorageId(31), target: StorageId(21) }] }, deletes: Items { vec: [] } }] } })\n\
    Done(Done { added: 0, removed: 4 })\n\
    Replicas(Items { vec: [\
    Replica { block: BlockId(1), storage: StorageId(11), tag: Good }, \
    Replica { block: BlockId(5), storage: StorageId(31), tag: Good }, \
    Replica { block: BlockId(5), storage: StorageId(41), tag: Stale }] })\n\
    ReplicaIds(Items { vec: [ReplicaId { block: BlockId(5), storage: StorageId(41) }] })\n\
    Blocks(Items { vec: [BlockId(6)] })\n\
    Blocks(Items { vec: [BlockId(1)] })\n\
    Storages(Items { vec: [StorageId(11)] })\n\
    LevelIs(Some(Highest))\n\
    Number(17)\n";

/// Calls that are made together.
#[derive(Drop)]
struct List {
    name: &'static str,
    /// Whether `answers_alike` makes them, on managers of its own.
    is_of_two: bool,
    /// Calls that are made before, one by one.
    before: &'static [ShortCall],
    calls: Vec<Call>,
    /// The answers to `calls` while there is memory, one in each line.
    answers: String,
}

pub fn run<R: Print + Eprint + Threads + Wait + Sync>(rt: &R, bench: &mut Bench, most: u32) {
    run_list(rt, bench, false, most);
    run_list(rt, bench, true, most);
}

/// Tries the list after the calls of the cluster. `answers_alike` makes those as part of its list.
fn run_list<R: Print + Eprint + Threads + Wait + Sync>(
    rt: &R,
    bench: &mut Bench,
    is_of_two: bool,
    most: u32,
) {
    let mut list = List {
        name: if is_of_two {
            "answers_alike"
        } else {
            "answer_all"
        },
        is_of_two,
        before: if is_of_two { NOTHING } else { &CLUSTER },
        calls: Vec::new(bench.alloc),
        answers: String::new(bench.alloc),
    };
    let filled = list.fill(bench.alloc);
    bench.tally.require(filled);
    try_turns(rt, bench, &list, most);
    drop(list);
}

impl List {
    fn fill(&mut self, alloc: Global) -> Result<(), Refusal> {
        if self.is_of_two {
            self.add(alloc, &CLUSTER, OF_CLUSTER)?;
        }
        Ok(self.add(alloc, &LIST, OF_LIST)?)
    }

    fn add(&mut self, alloc: Global, calls: &[ShortCall], answers: &str) -> Result<(), AllocError> {
        for short in calls {
            let call = call_of(alloc, *short)?;
            self.calls.push(call)?;
        }
        write!(self.answers, "{answers}")
    }
}

fn try_turns<R: Print + Eprint + Threads + Wait + Sync>(
    rt: &R,
    bench: &mut Bench,
    list: &List,
    most: u32,
) {
    for workers in 1..=2 {
        for turn in 1..=most {
            let window = Window {
                name: list.name,
                workers,
                turn,
            };
            if list.is_of_two {
                try_on_two(rt, bench, list, &window);
            } else {
                try_on_one(rt, bench, list, &window);
            }
        }
        print_tally(rt, bench, list.name, workers);
    }
}

/// Makes the calls on a new manager.
fn try_on_one<R: Eprint + Threads + Wait + Sync>(
    rt: &R,
    bench: &mut Bench,
    list: &List,
    window: &Window,
) {
    renew(rt, bench, window.workers);
    let is_asked = ask_all(rt, bench.alloc, &mut bench.manager, &mut bench.before);
    match answer_with_refusal(rt, bench, list, window) {
        Ok(answers) => {
            note_left(rt, bench, list, answers.as_slice());
            drop(answers);
        }
        Err(error) => bench.tally.fail(Refusal::from(error)),
    }
    if !is_asked {
        bench.tally.fail(Refusal::Memory);
    }
}

/// Makes the calls with one allocation refused, and again if there was no memory for the answers.
/// That try must change nothing.
fn answer_with_refusal<R: Eprint + Threads + Wait + Sync>(
    rt: &R,
    bench: &mut Bench,
    list: &List,
    window: &Window,
) -> Result<Items<Answer>, AllocError> {
    match answer_all(rt, &mut bench.manager, list, window) {
        Ok(answers) => {
            bench.tally.note(true);
            Ok(answers)
        }
        Err(_) => {
            bench.tally.refuse_if(true);
            let is_kept = is_as_before(rt, bench);
            bench.tally.note(is_kept);
            answer_all(rt, &mut bench.manager, list, &OPEN)
        }
    }
}

fn answer_all<R: Eprint + Threads + Wait + Sync>(
    rt: &R,
    manager: &mut Manager,
    list: &List,
    window: &Window,
) -> Result<Items<Answer>, AllocError> {
    begin_turn(rt, window);
    let answers = manager.answer_all(rt, &NoGate, list.calls.as_slice());
    end_turn(rt, window);
    answers
}

/// Notes the answers, and whether the state is that of a new manager after the accepted calls.
fn note_left<R: Eprint + Threads + Wait + Sync>(
    rt: &R,
    bench: &mut Bench,
    list: &List,
    answers: &[Answer],
) {
    bench.renew_other();
    let other = &mut bench.other;
    make_all(rt, bench.alloc, other, list.before, &mut bench.tally);
    note_answers(rt, bench, list, answers);
    note_alike(rt, bench);
}

/// Notes whether the two managers answer all questions in the same way.
pub fn note_alike<R: Eprint + Threads + Wait + Sync>(rt: &R, bench: &mut Bench) {
    let alloc = bench.alloc;
    let is_asked = ask_all(rt, alloc, &mut bench.other, &mut bench.before);
    let is_alike = is_as_before(rt, bench);
    bench.tally.note(is_asked && is_alike);
}

/// Makes the calls on two managers of `answers_alike`, one with three shards and one with one.
fn try_on_two<R: Eprint + Threads + Wait + Sync>(
    rt: &R,
    bench: &mut Bench,
    list: &List,
    window: &Window,
) {
    match answer_by_two_with_refusal(rt, bench, list, window) {
        Ok((answers, others)) => {
            bench.renew_other();
            note_answers(rt, bench, list, answers.as_slice());
            bench.renew_other();
            note_answers(rt, bench, list, others.as_slice());
            drop(answers);
            drop(others);
        }
        Err(refusal) => bench.tally.fail(refusal),
    }
}

/// Makes the calls with one allocation refused, and again if that refused them.
fn answer_by_two_with_refusal<R: Eprint + Threads + Wait + Sync>(
    rt: &R,
    bench: &mut Bench,
    list: &List,
    window: &Window,
) -> Result<(Items<Answer>, Items<Answer>), Refusal> {
    match answer_by_two(rt, bench.alloc, list, window.workers, window) {
        Err(Refusal::Memory) => {
            bench.tally.refuse_if(true);
            answer_by_two(rt, bench.alloc, list, window.workers, &OPEN)
        }
        answered => answered,
    }
}

fn answer_by_two<R: Eprint + Threads + Wait + Sync>(
    rt: &R,
    alloc: Global,
    list: &List,
    workers: u32,
    window: &Window,
) -> Result<(Items<Answer>, Items<Answer>), Refusal> {
    let of_three = config(3, workers);
    let limits = Limits::standard();
    begin_turn(rt, window);
    let answered = answers_alike(
        alloc,
        rt,
        &NoGate,
        of_three,
        limits,
        1,
        1,
        list.calls.as_slice(),
    );
    end_turn(rt, window);
    answered
}

/// Notes whether the other manager gives the same answers to the accepted calls alone. Notes also
/// whether just one call was refused, or whether all were accepted and have the expected answers.
fn note_answers<R: Threads + Wait + Sync>(
    rt: &R,
    bench: &mut Bench,
    list: &List,
    answers: &[Answer],
) {
    let refused = write_accepted(answers, &mut bench.after);
    let answered = answer_accepted(rt, &mut bench.other, list, answers, &mut bench.now);
    let is_alike = bench.now.as_str() == bench.after.as_str();
    bench.tally.note(answered.is_ok() && is_alike);
    match refused {
        Ok(0) => {
            let is_expected = bench.after.as_str() == list.answers.as_str();
            bench.tally.note(is_expected);
        }
        Ok(count) => {
            bench.tally.refuse_if(true);
            bench.tally.note(count == 1);
        }
        Err(error) => bench.tally.fail(Refusal::from(error)),
    }
}

/// Replaces `text` by the answers to the accepted calls, one in each line. The number of refused
/// calls.
fn write_accepted(answers: &[Answer], text: &mut String) -> Result<u32, AllocError> {
    let mut refused = 0u32;
    text.clear();
    for answer in answers {
        if answer.is_out_of_memory() {
            refused = refused.saturating_add(1);
        } else {
            write_line(answer, text)?;
        }
    }
    Ok(refused)
}

/// Makes the accepted calls, and replaces `text` by their answers.
fn answer_accepted<R: Threads + Wait + Sync>(
    rt: &R,
    other: &mut Manager,
    list: &List,
    answers: &[Answer],
    text: &mut String,
) -> Result<(), AllocError> {
    text.clear();
    for (call, answer) in list.calls.iter().zip(answers.iter()) {
        if !answer.is_out_of_memory() {
            ask_full(rt, other, call, text)?;
        }
    }
    Ok(())
}
