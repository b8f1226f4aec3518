// Reports and notices on small arenas, worked out by hand: a table of scenarios, each a list of
// steps with their expected answers. Each scenario runs with a `Report`, and again with the free
// functions.

use crate::support::{check_step, join};
use bm_arena::{Arena, Slot};
use bm_base::{BlockId, BlockInfo, Entry, Gen, Limits, Marks, Part, Stamp, StorageId, Tag};
use bm_report::{Applied, Report, abort, apply_deleted, apply_full, apply_received, ready};
use bm_topo::Topology;
use std::alloc::Global;
use std::process::Abort;

const WHOLE: Part = Part {
    index: 0,
    shards: 1,
};

/// A run of numbers in a report, with the generation of its stamp; its length is 10.
#[derive(Clone, Copy)]
struct Run(u64, u64, u64);

/// Contains no number.
const NO_RUN: Run = Run(1, 0, 0);

/// How a report is made.
#[derive(Clone, Copy)]
enum Way {
    Whole,
    /// To one of several parts: its index, and the number of parts.
    ToPart(u32, u32),
    /// The report is made ready, but not applied.
    Ready,
}

/// Which functions take the reports and the notices of received replicas.
#[derive(Clone, Copy)]
enum Form {
    /// The methods of `Report`.
    Kept,
    /// The free functions, which keep and list no slots.
    ByNumber,
}

/// A change of an arena, or a question to it.
#[derive(Clone, Copy)]
enum Step<'a> {
    /// Makes a block known, with generation 1 and length 10.
    Known(u64),
    /// Adds a good replica of a block on a storage, in excess or not.
    Linked(u64, u32, bool),
    /// A storage makes a full report, in one of the ways.
    Reports(u32, &'a [Run; 3], Way),
    /// Aborts the last prepared report.
    GivesUp,
    /// Aborts all prepared reports.
    GivesUpAll,
    /// Storage 11 makes this number of reports, each of a hundred new numbers. Each is prepared
    /// and aborted.
    GivesUpHundreds(u64),
    /// A storage has received a replica, of this generation.
    Receives(u32, u64, u64),
    /// A storage has deleted a replica.
    Deletes(u32, u64),
    /// The blocks of a storage's list.
    Walk(u32),
    /// The marks of a block's replica on a storage.
    MarksOf(u64, u32),
    /// The number of entries.
    Entries,
    /// The number of slots that the last report lists as changed.
    Changed,
}

/// The answer to a step.
#[derive(Clone, Copy, PartialEq, Eq)]
enum Answer {
    Fine,
    /// The numbers of added replicas, of removed replicas and of steps.
    Did(u128, u128, u128),
    /// The first four blocks, and the length of the list.
    Blocks([u64; 4], usize),
    /// A tag, and whether the replica is in excess.
    Tagged(Tag, bool),
    Number(usize),
    Nothing,
}

#[derive(Drop)]
struct World {
    form: Form,
    topology: Topology,
    arena: Arena,
    report: Report,
}

fn stamp(generation: u64) -> Stamp {
    Stamp {
        generation: Gen(generation),
        len: 10,
    }
}

fn entry(run: Run) -> Entry {
    let Run(from, to, generation) = run;
    Entry {
        from: BlockId(from),
        to: BlockId(to),
        stamp: stamp(generation),
    }
}

fn did(applied: Applied) -> Answer {
    Answer::Did(applied.added, applied.removed, applied.steps)
}

/// Whether each block has at most one replica, and every replica in excess is good.
fn is_simple(arena: &Arena) -> bool {
    arena.show_invariant();
    for slot in 0..arena.slot_bound() {
        if !is_single(arena, slot) {
            return false;
        }
    }
    true
}

/// Whether the block in a slot has at most one replica, which is good if it is in excess.
fn is_single(arena: &Arena, slot: Slot) -> bool {
    if arena.triplet_count(slot) > 1 {
        return false;
    }
    match arena.triplet_at(slot, 0) {
        Some((_, marks)) => is_excess_good(marks),
        None => true,
    }
}

/// Whether a replica is good if it is in excess.
fn is_excess_good(marks: Marks) -> bool {
    !marks.excess || marks.tag.is_good()
}

fn add_known(rt: &impl Abort, arena: &mut Arena, id: u64) -> Answer {
    let slot = arena.add_entry(BlockId(id)).expect(rt, "memory");
    let info = BlockInfo {
        stamp: stamp(1),
        repl: 3,
    };
    arena.set_info(slot, Some(info));
    Answer::Fine
}

fn link(
    rt: &impl Abort,
    arena: &mut Arena,
    id: u64,
    storage: StorageId,
    is_excess: bool,
) -> Answer {
    let slot = arena.add_entry(BlockId(id)).expect(rt, "memory");
    arena
        .reserve_heads([storage].as_slice())
        .expect(rt, "memory");
    assert!(rt; arena.has_entry(slot));
    arena.reserve_triplet(slot).expect(rt, "memory");
    assert!(rt; arena.has_head(storage));
    assert!(rt; arena.has_capacity(slot));
    assert!(rt; arena.marks(slot, storage).is_none());
    let marks = Marks {
        tag: Tag::Good,
        excess: is_excess,
        ordered: false,
    };
    arena.link_front(slot, storage, marks);
    Answer::Fine
}

fn apply_full_report(
    rt: &impl Abort,
    world: &mut World,
    storage: StorageId,
    entries: &[Entry],
    part: Part,
) -> Answer {
    match world.form {
        Form::Kept => apply_report(rt, world, storage, entries, part),
        Form::ByNumber => reported_by_number(rt, world, storage, entries, part),
    }
}

fn apply_report(
    rt: &impl Abort,
    world: &mut World,
    storage: StorageId,
    entries: &[Entry],
    part: Part,
) -> Answer {
    assert!(rt; part.index < part.shards);
    let is_ready = world.report.ready(&mut world.arena, storage, entries, part);
    assert!(rt; is_ready.is_ok());
    assert!(rt; is_simple(&world.arena));
    assert!(rt; !world.arena.has_delimiter(storage));
    did(
        world
            .report
            .apply_full(&mut world.arena, &world.topology, storage),
    )
}

fn reported_by_number(
    rt: &impl Abort,
    world: &mut World,
    storage: StorageId,
    entries: &[Entry],
    part: Part,
) -> Answer {
    assert!(rt; part.index < part.shards);
    let is_ready = ready(&mut world.arena, storage, entries, part);
    assert!(rt; is_ready.is_ok());
    assert!(rt; is_simple(&world.arena));
    assert!(rt; !world.arena.has_delimiter(storage));
    assert!(rt; names_few(entries));
    did(apply_full(&mut world.arena, &world.topology, storage, entries, part))
}

fn names_low(entry: &Entry) -> bool {
    entry.to.0 < 1000
}

/// Whether there are at most 100 entries, each with a last number below 1000.
fn names_few(entries: &[Entry]) -> bool {
    if entries.len() > 100 {
        return false;
    }
    for entry in entries {
        if !names_low(entry) {
            return false;
        }
    }
    true
}

fn make_ready(world: &mut World, storage: StorageId, entries: &[Entry]) -> Answer {
    let arena = &mut world.arena;
    let made = match world.form {
        Form::Kept => world.report.ready(arena, storage, entries, WHOLE),
        Form::ByNumber => ready(arena, storage, entries, WHOLE),
    };
    match made {
        Ok(()) => Answer::Fine,
        Err(_) => Answer::Nothing,
    }
}

fn receive(
    rt: &impl Abort,
    world: &mut World,
    storage: StorageId,
    id: u64,
    generation: u64,
) -> Answer {
    match world.form {
        Form::Kept => apply_notice(rt, world, storage, id, generation),
        Form::ByNumber => received_by_number(rt, world, storage, id, generation),
    }
}

fn apply_notice(
    rt: &impl Abort,
    world: &mut World,
    storage: StorageId,
    id: u64,
    generation: u64,
) -> Answer {
    let is_ready = world
        .report
        .prepare_notice(&mut world.arena, storage, BlockId(id), stamp(generation));
    assert!(rt; is_ready.is_ok());
    assert!(rt; is_simple(&world.arena));
    let stamp = stamp(generation);
    did(
        world.report.apply_received(
            &mut world.arena,
            &world.topology,
            storage,
            BlockId(id),
            stamp,
        ),
    )
}

fn received_by_number(
    rt: &impl Abort,
    world: &mut World,
    storage: StorageId,
    id: u64,
    generation: u64,
) -> Answer {
    let entries = [Entry::one(BlockId(id), stamp(generation))];
    let is_ready = ready(&mut world.arena, storage, entries.as_slice(), WHOLE);
    assert!(rt; is_ready.is_ok());
    assert!(rt; is_simple(&world.arena));
    did(apply_received(
        &mut world.arena,
        &world.topology,
        storage,
        BlockId(id),
        stamp(generation),
    ))
}

fn walk(rt: &impl Abort, arena: &Arena, storage: StorageId) -> Answer {
    let mut blocks = [0; 4];
    let mut count = 0;
    for slot in arena.walk(storage) {
        assert!(rt; count < 4);
        assert!(rt; arena.has_entry(slot));
        blocks[count] = arena.id_of(slot).0;
        count += 1;
    }
    Answer::Blocks(blocks, count)
}

fn marks_of(arena: &Arena, id: u64, storage: StorageId) -> Answer {
    let Some(slot) = arena.find(BlockId(id)) else {
        return Answer::Nothing;
    };
    match arena.marks(slot, storage) {
        Some(marks) => Answer::Tagged(marks.tag, marks.excess),
        None => Answer::Nothing,
    }
}

/// Makes ready a report of a hundred new numbers, of which `from` is the first, and gives it up.
fn give_up_hundred(rt: &impl Abort, world: &mut World, from: u64) {
    let entries = [entry(Run(from, from.saturating_add(99), 1))];
    assert!(rt; make_ready(world, StorageId(11), entries.as_slice()) == Answer::Fine);
    assert!(rt; world.arena.count() == 101);
    give_up(world);
}

/// Gives up `count` reports of a hundred numbers, one after another.
fn give_up_hundreds(rt: &impl Abort, world: &mut World, count: u64) -> Answer {
    for index in 0..count {
        give_up_hundred(rt, world, 100u64.saturating_mul(index.saturating_add(1)));
    }
    Answer::Fine
}

fn give_up(world: &mut World) {
    match world.form {
        Form::Kept => world.report.abort(&mut world.arena),
        Form::ByNumber => abort(&mut world.arena),
    }
}

/// A storage makes a full report, in one of the ways.
fn report(
    rt: &impl Abort,
    world: &mut World,
    storage: StorageId,
    runs: &[Run; 3],
    way: Way,
) -> Answer {
    let entries = [entry(runs[0]), entry(runs[1]), entry(runs[2])];
    let entries = entries.as_slice();
    match way {
        Way::Whole => apply_full_report(rt, world, storage, entries, WHOLE),
        Way::ToPart(index, shards) => {
            let part = Part { index, shards };
            apply_full_report(rt, world, storage, entries, part)
        }
        Way::Ready => make_ready(world, storage, entries),
    }
}

fn run_step(rt: &impl Abort, world: &mut World, step: Step<'_>) -> Answer {
    match step {
        Step::Known(id) => add_known(rt, &mut world.arena, id),
        Step::Linked(id, storage, is_excess) => {
            link(rt, &mut world.arena, id, StorageId(storage), is_excess)
        }
        Step::Reports(storage, runs, way) => { report(rt, world, StorageId(storage), runs, way) }
        Step::GivesUp => {
            give_up(world);
            Answer::Fine
        }
        Step::GivesUpAll => {
            abort(&mut world.arena);
            Answer::Fine
        }
        Step::GivesUpHundreds(count) => give_up_hundreds(rt, world, count),
        Step::Receives(storage, id, generation) => {
            receive(rt, world, StorageId(storage), id, generation)
        }
        Step::Deletes(storage, id) => {
            did(apply_deleted(&mut world.arena, StorageId(storage), BlockId(id)))
        }
        _ => ask(rt, world, step),
    }
}

fn ask(rt: &impl Abort, world: &World, step: Step<'_>) -> Answer {
    match step {
        Step::Walk(storage) => walk(rt, &world.arena, StorageId(storage)),
        Step::MarksOf(id, storage) => marks_of(&world.arena, id, StorageId(storage)),
        Step::Entries => Answer::Number(world.arena.count()),
        Step::Changed => Answer::Number(world.report.changed_slots().len()),
        _ => Answer::Nothing,
    }
}

/// One node with the storages 11 and 12, no block, and no report.
fn one_node(rt: &impl Abort, alloc: Global, form: Form) -> World {
    let mut topology = Topology::new(alloc, Limits::standard()).expect(rt, "memory");
    join(rt, alloc, &mut topology, 1, 1, [11, 12].as_slice());
    World {
        form,
        topology,
        arena: Arena::new(alloc).expect(rt, "memory"),
        report: Report::new(alloc),
    }
}

fn can_be_asked(form: Form, step: Step<'_>) -> bool {
    !matches!((form, step), (Form::ByNumber, Step::Changed))
}

/// Runs the steps in order, and checks each answer.
fn run_steps(rt: &impl Abort, world: &mut World, name: &str, steps: &[(Step<'_>, Answer)]) {
    for (index, (step, must)) in steps.iter().enumerate() {
        let is_correct = !can_be_asked(world.form, *step) || run_step(rt, world, *step) == *must;
        check_step(rt, name, index, is_correct);
    }
}

/// Steps on a node without blocks, with their expected answers.
#[derive(Clone, Copy)]
struct Scenario<'a> {
    name: &'a str,
    steps: &'a [(Step<'a>, Answer)],
}

static SCENARIOS: [Scenario<'static>; 10] = [
    Scenario {
        name: "last entry of a block counts and what is not named leaves",
        steps: &[
            (Step::Known(7), Answer::Fine),
            (Step::Known(9), Answer::Fine),
            (Step::Linked(7, 11, false), Answer::Fine),
            (Step::Linked(9, 11, false), Answer::Fine),
            (
                Step::Reports(11, &[Run(7, 7, 1), Run(8, 8, 1), Run(7, 7, 0)], Way::Whole),
                Answer::Did(1, 1, 6),
            ),
            (Step::Walk(11), Answer::Blocks([7, 8, 0, 0], 2)),
            (Step::MarksOf(7, 11), Answer::Tagged(Tag::Stale, false)),
            (Step::MarksOf(8, 11), Answer::Tagged(Tag::Stray, false)),
        ],
    },
    Scenario {
        name: "replica leaves the other storage of its node",
        steps: &[
            (Step::Known(7), Answer::Fine),
            (Step::Linked(7, 12, false), Answer::Fine),
            (
                Step::Reports(11, &[Run(7, 7, 1), NO_RUN, NO_RUN], Way::Whole),
                Answer::Did(1, 1, 4),
            ),
            (Step::Walk(12), Answer::Blocks([0, 0, 0, 0], 0)),
            (Step::Walk(11), Answer::Blocks([7, 0, 0, 0], 1)),
            (Step::Changed, Answer::Number(1)),
        ],
    },
    Scenario {
        name: "empty report of nothing takes two steps",
        steps: &[
            (
                Step::Reports(11, &[NO_RUN, NO_RUN, NO_RUN], Way::Whole),
                Answer::Did(0, 0, 2),
            ),
            (Step::Changed, Answer::Number(0)),
        ],
    },
    Scenario {
        name: "report that is given up leaves all as it was",
        steps: &[
            (Step::Known(7), Answer::Fine),
            (Step::Linked(7, 11, true), Answer::Fine),
            (Step::Linked(8, 12, false), Answer::Fine),
            (
                Step::Reports(11, &[Run(5, 9, 0), NO_RUN, NO_RUN], Way::Ready),
                Answer::Fine,
            ),
            (Step::Entries, Answer::Number(5)),
            (Step::GivesUp, Answer::Fine),
            (Step::Entries, Answer::Number(2)),
            (Step::Walk(11), Answer::Blocks([7, 0, 0, 0], 1)),
            (Step::Walk(12), Answer::Blocks([8, 0, 0, 0], 1)),
            (Step::MarksOf(7, 11), Answer::Tagged(Tag::Good, true)),
        ],
    },
    Scenario {
        name: "run names each of its numbers",
        steps: &[
            (Step::Known(8), Answer::Fine),
            (
                Step::Reports(11, &[Run(7, 9, 1), Run(8, 8, 0), NO_RUN], Way::Whole),
                Answer::Did(3, 0, 6),
            ),
            (Step::MarksOf(7, 11), Answer::Tagged(Tag::Stray, false)),
            (Step::MarksOf(8, 11), Answer::Tagged(Tag::Stale, false)),
            (Step::MarksOf(9, 11), Answer::Tagged(Tag::Stray, false)),
            (Step::Walk(11), Answer::Blocks([8, 9, 7, 0], 3)),
        ],
    },
    Scenario {
        name: "excess is that before the report",
        steps: &[
            (Step::Known(7), Answer::Fine),
            (Step::Linked(7, 11, true), Answer::Fine),
            (
                Step::Reports(11, &[Run(7, 7, 0), Run(7, 7, 1), NO_RUN], Way::Whole),
                Answer::Did(0, 0, 4),
            ),
            (Step::MarksOf(7, 11), Answer::Tagged(Tag::Good, true)),
            (
                Step::Reports(11, &[Run(7, 7, 1), Run(7, 7, 0), NO_RUN], Way::Whole),
                Answer::Did(0, 0, 4),
            ),
            (Step::MarksOf(7, 11), Answer::Tagged(Tag::Stale, false)),
        ],
    },
    Scenario {
        name: "unchanged report lists no slot",
        steps: &[
            (
                Step::Reports(11, &[Run(1, 200, 1), NO_RUN, NO_RUN], Way::Whole),
                Answer::Did(200, 0, 202),
            ),
            (Step::Changed, Answer::Number(200)),
            (
                Step::Reports(11, &[Run(1, 200, 1), NO_RUN, NO_RUN], Way::Whole),
                Answer::Did(0, 0, 202),
            ),
            (Step::Changed, Answer::Number(0)),
            (
                Step::Reports(11, &[Run(5, 8, 1), NO_RUN, NO_RUN], Way::Whole),
                Answer::Did(0, 196, 202),
            ),
            (Step::Changed, Answer::Number(196)),
            (Step::Walk(11), Answer::Blocks([8, 7, 6, 5], 4)),
        ],
    },
    Scenario {
        name: "part takes its own numbers of each run",
        steps: &[
            (Step::Known(12), Answer::Fine),
            (
                Step::Reports(
                    11,
                    &[Run(4, 13, 1), Run(3, 6, 1), Run(16, 17, 0)],
                    Way::ToPart(2, 5),
                ),
                Answer::Did(3, 0, 5),
            ),
            (Step::Walk(11), Answer::Blocks([17, 12, 7, 0], 3)),
            (Step::Entries, Answer::Number(3)),
            (Step::MarksOf(12, 11), Answer::Tagged(Tag::Good, false)),
            (
                Step::Reports(11, &[Run(8, 14, 0), NO_RUN, NO_RUN], Way::ToPart(2, 5)),
                Answer::Did(0, 2, 5),
            ),
            (Step::Walk(11), Answer::Blocks([12, 0, 0, 0], 1)),
            (Step::MarksOf(12, 11), Answer::Tagged(Tag::Stale, false)),
        ],
    },
    Scenario {
        name: "notices of one replica",
        steps: &[
            (Step::Known(7), Answer::Fine),
            (Step::Linked(7, 12, false), Answer::Fine),
            (Step::Receives(11, 7, 1), Answer::Did(1, 1, 2)),
            (Step::Receives(11, 7, 0), Answer::Did(0, 0, 0)),
            (Step::MarksOf(7, 11), Answer::Tagged(Tag::Stale, false)),
            (Step::Deletes(11, 7), Answer::Did(0, 1, 1)),
            (Step::Deletes(11, 7), Answer::Did(0, 0, 0)),
        ],
    },
    Scenario {
        name: "entries of a block that moves and of one in excess",
        steps: &[
            (Step::Known(7), Answer::Fine),
            (Step::Known(9), Answer::Fine),
            (Step::Linked(7, 11, true), Answer::Fine),
            (Step::Linked(9, 12, false), Answer::Fine),
            (
                Step::Reports(11, &[Run(7, 7, 0), Run(7, 9, 1), NO_RUN], Way::Whole),
                Answer::Did(2, 1, 7),
            ),
            (Step::Walk(11), Answer::Blocks([9, 8, 7, 0], 3)),
            (Step::Walk(12), Answer::Blocks([0, 0, 0, 0], 0)),
            (Step::MarksOf(7, 11), Answer::Tagged(Tag::Good, true)),
            (
                Step::Reports(11, &[Run(7, 7, 1), Run(7, 7, 0), NO_RUN], Way::Whole),
                Answer::Did(0, 2, 6),
            ),
            (Step::MarksOf(7, 11), Answer::Tagged(Tag::Stale, false)),
            (Step::Receives(12, 7, 1), Answer::Did(1, 1, 2)),
            (
                Step::Reports(11, &[Run(1, 5, 1), NO_RUN, NO_RUN], Way::Ready),
                Answer::Fine,
            ),
            (Step::GivesUpAll, Answer::Fine),
            (Step::Entries, Answer::Number(2)),
            (Step::Walk(12), Answer::Blocks([7, 0, 0, 0], 1)),
        ],
    },
];

fn check(rt: &impl Abort, alloc: Global, form: Form, scenario: &Scenario<'_>) {
    let mut world = one_node(rt, alloc, form);
    run_steps(rt, &mut world, scenario.name, scenario.steps);
    drop(world);
}

#[test]
fn reports_and_notices_change_an_arena_as_worked_out(rt: HostRuntime) {
    for scenario in &SCENARIOS {
        check(&rt, rt.alloc(), Form::Kept, scenario);
        check(&rt, rt.alloc(), Form::ByNumber, scenario);
    }
}

/// Takes longer than the other scenarios, so it runs in a test of its own.
static HUNDREDS: Scenario<'static> = Scenario {
    name: "thousand reports given up leave nothing",
    steps: &[
        (Step::Linked(7, 12, true), Answer::Fine),
        (Step::GivesUpHundreds(1000), Answer::Fine),
        (Step::Entries, Answer::Number(1)),
        (Step::Walk(12), Answer::Blocks([7, 0, 0, 0], 1)),
        (Step::Walk(11), Answer::Blocks([0, 0, 0, 0], 0)),
        (Step::MarksOf(7, 12), Answer::Tagged(Tag::Good, true)),
    ],
};

#[test]
fn thousand_reports_given_up_leave_nothing(rt: HostRuntime) {
    check(&rt, rt.alloc(), Form::Kept, &HUNDREDS);
}
