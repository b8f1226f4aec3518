// Every call that takes no memory. The windows named `control` make calls that do take memory: if
// all allocations are refused, some of these must be refused.

use crate::bench::Bench;
use crate::tally::Tally;
use crate::{
    arenas, bags, block_events, choices, clusters, crews, reports, slots, transfers, views,
};
use bm_base::Refusal;
use bm_topo::Topology;
use std::alloc::Global;
use std::sync::Wait;
use std::thread::Threads;

/// The number of entries of the greatest tables.
const MOST: u32 = 130;

/// A group of calls: the kind of value on which they are made.
#[derive(Clone, Copy)]
enum Group {
    Arenas,
    Levels,
    Sets,
    Transfers,
    Reports,
    Clusters,
    Choices,
    Managers,
    Bags,
    Runs,
    Views,
}

static GROUPS: [(&str, Group); 11] = [
    ("arenas", Group::Arenas),
    ("levels", Group::Levels),
    ("sets", Group::Sets),
    ("transfers", Group::Transfers),
    ("reports", Group::Reports),
    ("clusters", Group::Clusters),
    ("choices", Group::Choices),
    ("managers", Group::Managers),
    ("bags", Group::Bags),
    ("runs", Group::Runs),
    ("views", Group::Views),
];

pub fn run<R: Print + Eprint + Threads + Wait + Sync>(rt: &R, bench: &mut Bench) {
    for (name, group) in &GROUPS {
        for size in 1..=MOST {
            bench.renew_topology();
            watch(rt, bench, *group, size);
        }
        let _ = print!(rt; "{name}");
        bench.tally.print(rt, "control: ");
    }
}

/// Makes the calls on a table of one size.
fn watch<R: Eprint + Threads + Wait + Sync>(rt: &R, bench: &mut Bench, group: Group, size: u32) {
    let alloc = bench.alloc;
    let topology = &mut bench.topology;
    let arena = &mut bench.arena;
    let tally = &mut bench.tally;
    match group {
        Group::Arenas => arenas::watch(rt, alloc, arena, size, tally),
        Group::Reports => reports::watch(rt, alloc, topology, arena, size, tally),
        Group::Clusters => clusters::watch(rt, alloc, topology, size, tally),
        Group::Views => views::watch(rt, alloc, size, tally),
        Group::Managers => block_events::watch(rt, bench, size),
        _ => {
            let watched = watch_owned(rt, alloc, topology, group, size, tally);
            tally.require(watched);
        }
    }
}

/// As `watch`, for groups that make their own tables.
fn watch_owned<R: Eprint + Threads + Wait + Sync>(
    rt: &R,
    alloc: Global,
    topology: &mut Topology,
    group: Group,
    size: u32,
    tally: &mut Tally,
) -> Result<(), Refusal> {
    match group {
        Group::Levels => slots::watch_levels(rt, alloc, size as usize, tally),
        Group::Sets => slots::watch_set(rt, alloc, size as usize, tally),
        Group::Transfers => transfers::watch(rt, alloc, size, tally),
        Group::Choices => choices::watch(rt, alloc, topology, size, tally),
        Group::Bags => bags::watch(rt, alloc, size, tally),
        Group::Runs => crews::watch(rt, alloc, size, tally),
        _ => Err(Refusal::BadConfig),
    }
}
