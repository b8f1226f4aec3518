// Two managers with different shards and workers, and calls that both must answer alike.

use crate::counts::Counts;
use crate::draws;
use crate::equality::are_alike;
use bm_base::{Answer, Call, Config, HashSecret, Refusal};
use bm_crew::NoGate;
use bm_manager::Manager;
use rand::{RngExt, SeedableRng};
use rand_pcg::Pcg32;
use std::alloc::{AllocError, Global};
use std::sync::Wait;
use std::thread::Threads;

/// The number of calls on two managers before two new ones are made.
pub const LIST: u32 = 2000;

/// A run: the source of random calls, the counts so far, and the place to print differences.
#[derive(Drop)]
pub struct Run<'a> {
    pub host: &'a HostRuntime,
    pub rng: Pcg32,
    pub counts: Counts,
}

impl<'a> Run<'a> {
    pub fn new(host: &'a HostRuntime, seed: u64) -> Run<'a> {
        Run {
            host,
            rng: Pcg32::seed_from_u64(seed),
            counts: Counts::new(),
        }
    }
}

/// Whether all calls were answered alike, and enough happened.
pub fn are_all_alike<R: Threads + Wait + Sync>(
    rt: &R,
    host: &HostRuntime,
    calls: u32,
    seed: u64,
) -> Result<bool, Refusal> {
    let mut run = Run::new(host, seed);
    for list in 0..calls.div_ceil(LIST) {
        let before = list.saturating_mul(LIST);
        let count = calls.saturating_sub(before).min(LIST);
        if !is_list_alike(rt, host.alloc(), &mut run, count)? {
            return Ok(false);
        }
    }
    run.counts.print(host);
    Ok(calls < LIST || run.counts.are_enough())
}

/// Whether two new managers answer `count` calls alike.
fn is_list_alike<R: Threads + Wait + Sync>(
    rt: &R,
    alloc: Global,
    run: &mut Run<'_>,
    count: u32,
) -> Result<bool, Refusal> {
    let mut pair = Pair::new(alloc, draw_config(&mut run.rng))?;
    let is_alike = pair.are_alike(rt, alloc, run, count);
    drop(pair);
    Ok(is_alike?)
}

/// Random numbers of shards and workers. Rounds have few commands and transfers expire soon, so
/// that both limits are reached.
fn draw_config(rng: &mut Pcg32) -> Config {
    let shards = 1 + rng.random_range(0..64);
    let workers = 1 + rng.random_range(0..16);
    let work = 1 + rng.random_range(0..3);
    let invalidate = 1 + rng.random_range(0..5);
    let pend = 1 + rng.random_range(0..5);
    Config {
        shards,
        workers,
        work,
        invalidate,
        pend,
        ..Config::standard()
    }
}

/// Two managers with different shards and workers.
#[derive(Drop)]
pub struct Pair {
    one: Manager,
    /// Its tables hash by a secret; those of `one` by none.
    pub other: Manager,
    /// The configuration of `other`.
    config: Config,
}

impl Pair {
    /// `one` has one shard and one worker, `other` this configuration.
    pub fn new(alloc: Global, config: Config) -> Result<Pair, Refusal> {
        let alone = Config {
            shards: 1,
            workers: 1,
            ..config
        };
        let one = Manager::new(alloc, alone)?;
        match Manager::with_secret(alloc, config, HashSecret::of(1)) {
            Ok(other) => Ok(Pair { one, other, config }),
            Err(refusal) => {
                drop(one);
                Err(refusal)
            }
        }
    }

    /// Whether both answer `count` random calls alike.
    fn are_alike<R: Threads + Wait + Sync>(
        &mut self,
        rt: &R,
        alloc: Global,
        run: &mut Run<'_>,
        count: u32,
    ) -> Result<bool, AllocError> {
        for number in 0..count {
            if !self.is_next_alike(rt, alloc, run, number)? {
                return Ok(false);
            }
        }
        Ok(true)
    }

    /// Whether both answer a random call alike.
    pub fn is_next_alike<R: Threads + Wait + Sync>(
        &mut self,
        rt: &R,
        alloc: Global,
        run: &mut Run<'_>,
        number: u32,
    ) -> Result<bool, AllocError> {
        let call = draws::call(&mut run.rng, alloc)?;
        let is_alike = self.is_answered_alike(rt, run, number, &call);
        drop(call);
        Ok(is_alike)
    }

    /// Whether both answer the call alike, and neither is out of memory.
    fn is_answered_alike<R: Threads + Wait + Sync>(
        &mut self,
        rt: &R,
        run: &mut Run<'_>,
        number: u32,
        call: &Call,
    ) -> bool {
        let answer = self.one.answer(rt, &NoGate, call);
        let other = self.other.answer(rt, &NoGate, call);
        let is_fine = are_alike(&answer, &other) && !answer.is_out_of_memory();
        if is_fine {
            run.counts.add(call, &answer);
        } else {
            print_difference(run.host, &self.config, number, call, &answer, &other);
        }
        drop(answer);
        drop(other);
        is_fine
    }
}

/// Prints where two answers differ. A failed write is ignored.
fn print_difference(
    rt: &HostRuntime,
    config: &Config,
    number: u32,
    call: &Call,
    answer: &Answer,
    other: &Answer,
) {
    let _ = eprintln!(rt; "{config:?}");
    let _ = eprintln!(rt; "call {number}: {call:?}");
    let _ = eprintln!(rt; "one shard, one worker: {answer:?}");
    let _ = eprintln!(rt; "these shards and workers: {other:?}");
}
