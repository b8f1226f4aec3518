// The greatest numbers of nodes, storages and report entries, and more replicas than a block can
// request.

use crate::bench::Bench;
use crate::events::{register, report, report_each};
use crate::managers::{apply, apply_made};
use crate::tally::Tally;
use crate::topologies::take_made;
use crate::{crews, views};
use bm_base::{Commands, Done, Event, NodeId, Refusal, StorageId};
use bm_crew::NoGate;
use bm_manager::Manager;
use bm_place::excess_of;
use bm_topo::Topology;
use std::alloc::Global;
use std::sync::Wait;
use std::thread::Threads;

pub const SHARDS: u32 = 64;

pub const WORKERS: u32 = 16;

const NODES: u32 = 256;

const STORAGES_OF_A_NODE: u32 = 16;

/// The greatest number of entries of a report.
const ENTRIES: u64 = 65536;

/// The greatest number of replicas that a report can list.
const NUMBERS: u64 = 1_048_576;

pub fn run<R: Print + Eprint + Threads + Wait + Sync>(rt: &R, bench: &mut Bench) {
    bench.renew_manager(SHARDS, WORKERS);
    let filled = fill_cluster(rt, bench.alloc, &mut bench.manager);
    bench.tally.require(filled);
    bench.renew_topology();
    let found = find_excess(rt, bench.alloc, &mut bench.topology, &mut bench.tally);
    bench.tally.require(found);
    bench.renew_manager(SHARDS, WORKERS);
    let reported = report_blocks(rt, bench.alloc, &mut bench.manager);
    bench.tally.require(reported);
    let ran = crews::run_limits(rt, bench);
    bench.tally.require(ran);
    let opened = views::open_limits(rt, bench.alloc);
    bench.tally.require(opened);
    if bench.tally.failure.is_none() {
        let _ = rt.println("nothing was refused below the limits");
    }
}

/// 256 nodes join with sixteen storages each. Then a node without storages is refused, and so is
/// one with seventeen storages in place of a dead one.
fn fill_cluster<R: Print + Threads + Wait + Sync>(
    rt: &R,
    alloc: Global,
    manager: &mut Manager,
) -> Result<(), Refusal> {
    for node in 0..NODES {
        join(rt, alloc, manager, node, STORAGES_OF_A_NODE)?;
    }
    let nodes = manager.calls();
    let late_node = join(rt, alloc, manager, NODES, 0);
    apply(rt, manager, Event::Dead { node: NodeId(0) })?;
    let late_storages = join(rt, alloc, manager, NODES, STORAGES_OF_A_NODE + 1);
    join(rt, alloc, manager, NODES, STORAGES_OF_A_NODE)?;
    let is_limit = late_node == Err(Refusal::TooMany) && late_storages == Err(Refusal::TooMany);
    print_one(rt, u128::from(nodes), "nodes; others refused", is_limit);
    Ok(())
}

/// A node joins with storages that no other node has.
fn join<R: Threads + Wait + Sync>(
    rt: &R,
    alloc: Global,
    manager: &mut Manager,
    node: u32,
    count: u32,
) -> Result<Done, Refusal> {
    let first = node.wrapping_mul(32);
    apply_made(rt, manager, register(alloc, node, node % 2, first, count))
}

/// 17 live replicas of a block with one requested replica.
fn find_excess<R: Print>(
    rt: &R,
    alloc: Global,
    topology: &mut Topology,
    tally: &mut Tally,
) -> Result<(), Refusal> {
    let mut live = Vec::new(alloc);
    for node in 0..17 {
        take_made(
            topology,
            register(alloc, node, node % 2, node * 32, 1),
            tally,
        );
        live.push(StorageId(node * 32))?;
    }
    let excess = excess_of(alloc, live.as_slice(), 1, topology)?;
    print_excess(rt, excess.as_slice());
    Ok(())
}

fn print_excess<R: Print>(rt: &R, excess: &[StorageId]) {
    let count = excess.len() as u128;
    let first = excess.get(0).copied() == Some(StorageId(512));
    let last = excess.get(15).copied() == Some(StorageId(32));
    print_two(
        rt,
        count,
        "of 17 replicas in excess; first and last",
        first,
        ", ",
        last,
    );
}

/// The longest report with an entry for each block, a round, an empty report, and the longest
/// report of one run.
fn report_blocks<R: Print + Threads + Wait + Sync>(
    rt: &R,
    alloc: Global,
    manager: &mut Manager,
) -> Result<(), Refusal> {
    apply_made(rt, manager, register(alloc, 1, 1, 11, 1))?;
    let done = apply_made(rt, manager, report_each(alloc, 11, ENTRIES))?;
    let longer = apply_made(rt, manager, report_each(alloc, 11, ENTRIES + 1));
    let is_limit = longer == Err(Refusal::TooMany);
    print_one(
        rt,
        done.added,
        "replicas by a report; a longer one refused",
        is_limit,
    );
    let deletes = count_deletes(rt, manager)?;
    print(
        rt,
        u128::from(deletes),
        "of them to be deleted after a round",
    );
    let done = apply_made(rt, manager, report_each(alloc, 11, 0))?;
    print(rt, done.removed, "replicas gone by an empty report");
    report_run(rt, alloc, manager)
}

/// The number of deletes that a round commands.
fn count_deletes<R: Threads + Wait + Sync>(rt: &R, manager: &mut Manager) -> Result<u64, Refusal> {
    match manager.round(rt, &NoGate) {
        Ok(commands) => {
            let deletes = deletes_of(&commands);
            drop(commands);
            Ok(deletes)
        }
        Err(refusal) => Err(refusal),
    }
}

fn deletes_of(commands: &Commands) -> u64 {
    let mut count = 0u64;
    for node in commands.nodes.as_slice() {
        count = count.saturating_add(node.deletes.as_slice().len() as u64);
    }
    count
}

/// A report of one run, with the greatest number of replicas.
fn report_run<R: Print + Threads + Wait + Sync>(
    rt: &R,
    alloc: Global,
    manager: &mut Manager,
) -> Result<(), Refusal> {
    let done = apply_made(rt, manager, report(alloc, 11, &[(0, NUMBERS - 1, 1)]))?;
    let longer = apply_made(rt, manager, report(alloc, 11, &[(0, NUMBERS, 1)]));
    let is_limit = longer == Err(Refusal::TooMany);
    print_one(
        rt,
        done.added,
        "replicas by a run; a longer one refused",
        is_limit,
    );
    Ok(())
}

// A line that can't be printed is left out.

fn print(rt: &impl Print, count: u128, what: &str) {
    let _ = println!(rt; "{count} {what}");
}

pub fn print_one(rt: &impl Print, count: u128, what: &str, is_so: bool) {
    let _ = println!(rt; "{count} {what}: {is_so}");
}

pub fn print_two(
    rt: &impl Print,
    count: u128,
    what: &str,
    first: bool,
    between: &str,
    second: bool,
) {
    let _ = println!(rt; "{count} {what}: {first}{between}{second}");
}
