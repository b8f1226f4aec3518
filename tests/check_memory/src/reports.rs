// Full reports: the first report of a storage lists a run of blocks, and is applied with the
// entries and the capacity that were prepared.

use crate::arenas;
use crate::marks::say;
use crate::tally::Tally;
use crate::topologies::join_all;
use bm_arena::{Arena, Marks};
use bm_base::{BlockId, Entry, Gen, Part, Refusal, Stamp, StorageId, Tag};
use bm_report::Report;
use bm_topo::Topology;
use std::alloc::Global;

const WHOLE: Part = Part {
    index: 0,
    shards: 1,
};

const STAMP: Stamp = Stamp {
    generation: Gen(1),
    len: 10,
};

const STRAY: Marks = Marks {
    tag: Tag::Stray,
    excess: false,
    ordered: false,
};

/// The topology has one node.
pub fn watch<R: Eprint>(
    rt: &R,
    alloc: Global,
    topology: &mut Topology,
    arena: &mut Arena,
    size: u32,
    tally: &mut Tally,
) {
    join_all(topology, alloc, 1, tally);
    let mut report = Report::new(alloc);
    let watched = watch_report(rt, alloc, &mut report, arena, topology, size, tally);
    tally.require(watched);
    drop(report);
}

fn watch_report<R: Eprint>(
    rt: &R,
    alloc: Global,
    report: &mut Report,
    arena: &mut Arena,
    topology: &Topology,
    size: u32,
    tally: &mut Tally,
) -> Result<(), Refusal> {
    arenas::renew(alloc, arena)?;
    name(report, arena, 1, size)?;
    say(rt, "begun", "report");
    apply(report, arena, topology, size, tally);
    say(rt, "ended", "report");
    say(rt, "begun", "control");
    let last = size.saturating_mul(3);
    tally.refuse_if(name(report, arena, size.saturating_add(1), last).is_err());
    say(rt, "ended", "control");
    say(rt, "begun", "abort");
    report.abort(arena);
    tally.note(arena.count() == size as usize);
    say(rt, "ended", "abort");
    Ok(())
}

fn apply(
    report: &mut Report,
    arena: &mut Arena,
    topology: &Topology,
    size: u32,
    tally: &mut Tally,
) {
    let applied = report.apply_full(arena, topology, StorageId(0));
    tally.note(applied.added == u128::from(size) && applied.removed == 0);
    tally.note(applied.steps == u128::from(size) + 2);
    tally.note(arena.count() == size as usize);
    read_all(arena, size, tally);
}

/// Makes a report of the blocks with these numbers ready.
fn name(report: &mut Report, arena: &mut Arena, from: u32, to: u32) -> Result<(), Refusal> {
    let run = Entry {
        from: BlockId(u64::from(from)),
        to: BlockId(u64::from(to)),
        stamp: STAMP,
    };
    let entries = [run];
    report.ready(arena, StorageId(0), entries.as_slice(), WHOLE)
}

/// Notes whether each block has a stray replica.
fn read_all(arena: &Arena, last: u32, tally: &mut Tally) {
    for number in 1..=last {
        match arena.find(BlockId(u64::from(number))) {
            Some(slot) => tally.note(arena.marks(slot, StorageId(0)) == Some(STRAY)),
            None => tally.note(false),
        }
    }
}
