// Runs of a crew that fill its capacity of pieces.

use crate::bench::Bench;
use crate::limits::{SHARDS, WORKERS, print_two};
use crate::long_runs::{CYCLES, MARKS};
use crate::managers::config;
use crate::marks::say;
use crate::tally::Tally;
use bm_base::Refusal;
use bm_crew::{Crew, NoGate};
use bm_manager::Manager;
use std::alloc::{AllocError, Global};
use std::sync::Wait;
use std::thread::Threads;

/// The number of pieces of each of the many runs.
const PIECES: u32 = 8;

/// A crew of the calling thread alone.
pub fn watch<R: Eprint + Threads + Wait + Sync>(
    rt: &R,
    alloc: Global,
    size: u32,
    tally: &mut Tally,
) -> Result<(), Refusal> {
    let squares = squares(rt, alloc, size, 1, true)?;
    note_all(squares.as_slice(), size, tally);
    say(rt, "ended", "run");
    drop(squares);
    say(rt, "begun", "control");
    tally.refuse_if(Crew::ready::<u64, u64>(alloc, size as usize, 1).is_err());
    say(rt, "ended", "control");
    Ok(())
}

/// Runs crews of two workers over and over, with marks. Returns the number of pieces processed.
pub fn repeat<R: Eprint + Threads + Wait + Sync>(rt: &R, alloc: Global, tally: &mut Tally) -> u64 {
    let mut worked = 0u64;
    for _ in 0..MARKS {
        for _ in 0..CYCLES {
            match count_squares(rt, alloc) {
                Ok(count) => worked = worked.saturating_add(count),
                Err(refusal) => tally.fail(refusal),
            }
        }
        say(rt, "mark", "run");
    }
    worked
}

fn count_squares<R: Eprint + Threads + Wait + Sync>(rt: &R, alloc: Global) -> Result<u64, Refusal> {
    let squares = squares(rt, alloc, PIECES, 2, false)?;
    let count = squares.len() as u64;
    drop(squares);
    Ok(count)
}

/// Runs with the greatest numbers of shards and workers. One more of either is refused.
pub fn run_limits<R: Print + Eprint + Threads + Wait + Sync>(
    rt: &R,
    bench: &mut Bench,
) -> Result<(), Refusal> {
    bench.renew_manager(SHARDS, WORKERS);
    let is_limit = is_bad(bench, SHARDS + 1, WORKERS) && is_bad(bench, SHARDS, WORKERS + 1);
    let squares = squares(rt, bench.alloc, SHARDS, WORKERS as usize, false)?;
    let count = squares.len() as u128;
    let last = squares.get(63).copied() == Some((63, 3969));
    drop(squares);
    print_two(
        rt,
        count,
        "shards worked, the last as it must",
        last,
        "; more refused: ",
        is_limit,
    );
    Ok(())
}

fn is_bad(bench: &mut Bench, shards: u32, workers: u32) -> bool {
    let made = Manager::new(bench.alloc, config(shards, workers));
    bench.replace_manager(made) == Err(Refusal::BadConfig)
}

/// The squares of the numbers below `count`. If the run is watched, a window begins with it.
fn squares<R: Eprint + Threads + Wait + Sync>(
    rt: &R,
    alloc: Global,
    count: u32,
    workers: usize,
    is_watched: bool,
) -> Result<Vec<(u32, u64)>, Refusal> {
    let items = pieces(alloc, count)?;
    let ready = Crew::ready::<u64, u64>(alloc, count as usize, workers)?;
    if is_watched {
        say(rt, "begun", "run");
    }
    Ok(ready.run(rt, items, &|_, x: u64| x.wrapping_mul(x), &NoGate))
}

fn note_all(squares: &[(u32, u64)], size: u32, tally: &mut Tally) {
    for number in 0..size {
        let square = u64::from(number).wrapping_mul(u64::from(number));
        tally.note(squares.get(number as usize).copied() == Some((number, square)));
    }
}

/// A piece for each shard below `count`, which is the number of the shard.
fn pieces(alloc: Global, count: u32) -> Result<Vec<(u32, u64)>, AllocError> {
    let mut made = Vec::new(alloc);
    for number in 0..count {
        made.push((number, u64::from(number)))?;
    }
    Ok(made)
}
