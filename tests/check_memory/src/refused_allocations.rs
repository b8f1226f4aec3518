// Each call of a manager and of a view that takes memory, with one of its allocations refused. A
// refused call has changed no answer, and is accepted when it is made again. An accepted call has
// the answer that was worked out by hand, and leads to the same state as on a manager of one shard
// and one worker. In a list of calls the refused one is skipped.

use crate::bench::Bench;
use crate::{calls_in_turn, lists, publication};
use std::sync::Wait;
use std::thread::Threads;

/// Each call is made `turns` times, with the allocation of the turn's number refused.
pub fn run<R: Print + Eprint + Threads + Wait + Sync>(rt: &R, bench: &mut Bench, turns: u32) {
    calls_in_turn::run(rt, bench, turns);
    lists::run(rt, bench, turns);
    publication::run(rt, bench, turns);
}
