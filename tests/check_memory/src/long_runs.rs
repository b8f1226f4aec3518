// Makes the same calls over and over, with a mark after each tenth of them.

use crate::answers::make_all;
use crate::bench::Bench;
use crate::marks::say;
use crate::short_calls::ShortCall;
use crate::{arenas, crews, views};
use std::sync::Wait;
use std::thread::Threads;

/// The number of cycles before each mark.
pub const CYCLES: u32 = 2000;

/// The number of marks of each kind.
pub const MARKS: u32 = 10;

/// A call on all shards starts threads twice, so a manager with a crew makes fewer cycles.
const CREWED_CYCLES: u32 = CYCLES / 10;

/// Two nodes join. A block gets a replica on each: one by a notice, the other, with a stray
/// replica, by a report. Then all lists are read, and a round is made. After that everything is
/// removed again: the stray replica, the block, a storage, and the nodes with the rest.
static CYCLE: [ShortCall; 16] = [
    ShortCall::Register(1, 1, 11, 2),
    ShortCall::Register(2, 2, 21, 2),
    ShortCall::Add(7, 3),
    ShortCall::Received(11, 7, 1),
    ShortCall::Report(21, &[(7, 7, 1), (8, 8, 1)]),
    ShortCall::Replicas,
    ShortCall::Corrupt,
    ShortCall::Missing,
    ShortCall::BlocksOn(21),
    ShortCall::Places(7),
    ShortCall::Round,
    ShortCall::Deleted(21, 8),
    ShortCall::Delete(7),
    ShortCall::Failed(21),
    ShortCall::Dead(1),
    ShortCall::Dead(2),
];

/// One manager has three shards and one worker, and another five shards and a crew.
pub fn run<R: Print + Eprint + Threads + Wait + Sync>(rt: &R, bench: &mut Bench) {
    bench.renew_manager(3, 1);
    repeat(rt, bench, CYCLES, "manager");
    print(rt, "calls of the manager", bench.manager.calls());
    bench.renew_manager(5, 4);
    repeat(rt, bench, CREWED_CYCLES, "crewed");
    print(rt, "calls of the crewed manager", bench.manager.calls());
    let steps = arenas::repeat(rt, bench.alloc, &mut bench.arena, &mut bench.tally);
    print(rt, "steps of the arena", steps);
    let before = bench.tally.right;
    let published = views::publish_on_new(rt, bench.alloc, 0, &mut bench.tally);
    bench.tally.require(published);
    print(
        rt,
        "answers of the locator",
        bench.tally.right.saturating_sub(before),
    );
    let worked = crews::repeat(rt, bench.alloc, &mut bench.tally);
    print(rt, "pieces of runs", worked);
}

fn repeat<R: Eprint + Threads + Wait + Sync>(rt: &R, bench: &mut Bench, cycles: u32, name: &str) {
    for _ in 0..MARKS {
        for _ in 0..cycles {
            make_all(
                rt,
                bench.alloc,
                &mut bench.manager,
                &CYCLE,
                &mut bench.tally,
            );
        }
        say(rt, "mark", name);
    }
}

/// A line that can't be printed is left out.
fn print(rt: &impl Print, what: &str, count: u64) {
    let _ = println!(rt; "{what}: {count}");
}
