//! The steps that are measured, the same for each manager. Standard output has what was done;
//! standard error has a line for each figure.

use crate::measured::Measured;
use plain::manager::Done;
use plain::workload::{
    block_number, drawn_block, drawn_free, drawn_node, drawn_replicas, reports, shuffle,
    storages_of, storages_of_node, NODES, NODES_OF_RACK,
};
use std::fs;

const DEAD: u32 = 17;
const PAGE: u64 = 4096;
const SECOND: u64 = 1_000_000_000;
const THREAD_CPU_TIME: i32 = 3;

#[repr(C)]
struct TimeSpec {
    seconds: i64,
    nanos: i64,
}

extern "C" {
    fn clock_gettime(clock: i32, time: *mut TimeSpec) -> i32;
}

/// The CPU time of this thread, in nanoseconds.
fn now() -> u64 {
    let mut time = TimeSpec {
        seconds: 0,
        nanos: 0,
    };
    // SAFETY: the C library writes the time into a struct of its form.
    unsafe { clock_gettime(THREAD_CPU_TIME, &mut time) };
    time.seconds as u64 * SECOND + time.nanos as u64
}

fn resident_bytes() -> u64 {
    let text = fs::read_to_string("/proc/self/statm").unwrap_or_default();
    let pages = text.split_whitespace().nth(1);
    pages.and_then(|it| it.parse::<u64>().ok()).unwrap_or(0) * PAGE
}

/// How often each thing is done, by the number of blocks.
struct Often {
    passes: usize,
    cycles: usize,
    beats: u64,
    questions: u64,
}

fn often(blocks: u64) -> Often {
    let (passes, cycles, beats, questions) = if blocks < 10_000 {
        (2, 1, 2_000, 10_000)
    } else if blocks < 500_000 {
        (9, 7, 200_000, 1_000_000)
    } else {
        (4, 3, 200_000, 1_000_000)
    };
    Often {
        passes,
        cycles,
        beats,
        questions,
    }
}

struct Bench<M: Measured> {
    blocks: u64,
    manager: M,
    added: u64,
    removed: u64,
    transfers: usize,
    deletes: usize,
}

impl<M: Measured> Bench<M> {
    fn new(blocks: u64) -> Self {
        let mut manager = M::new();
        for node in 0..NODES {
            manager.register(node, node / NODES_OF_RACK, &storages_of_node(node));
        }
        Bench {
            blocks,
            manager,
            added: 0,
            removed: 0,
            transfers: 0,
            deletes: 0,
        }
    }

    fn count(&mut self, done: Done) {
        self.added += done.added;
        self.removed += done.removed;
    }

    /// How long it takes, in nanoseconds.
    fn time(&mut self, act: impl FnOnce(&mut Self)) -> u64 {
        let start = now();
        act(self);
        now() - start
    }

    fn report_all(&mut self, reports: &[M::Report]) {
        for report in reports {
            let done = self.manager.report(report);
            self.count(done);
        }
    }

    /// Sends both by turns, and puts the median of all times but the first.
    fn report_in_turn(
        &mut self,
        passes: usize,
        turns: [&[M::Report]; 2],
        text: &str,
        figure: &str,
    ) {
        let mut times = Vec::new();
        for pass in 0..passes {
            times.push(self.time(|it| it.report_all(turns[pass % 2])));
        }
        self.tell_report(text);
        let replicas = 3 * self.blocks;
        self.put_rate(figure, replicas, median(&times[1..]));
    }

    fn tell_report(&mut self, text: &str) {
        println!("{text}: added {}, removed {}", self.added, self.removed);
        self.forget();
    }

    fn forget(&mut self) {
        (self.added, self.removed) = (0, 0);
        (self.transfers, self.deletes) = (0, 0);
    }

    fn round(&mut self) {
        let commanded = self.manager.round();
        self.transfers += commanded.transfers;
        self.deletes += commanded.deletes;
    }

    fn tell_rounds(&mut self, text: &str) {
        let Bench {
            transfers, deletes, ..
        } = self;
        println!("{text}: {transfers} transfers, {deletes} deletes");
        self.forget();
    }

    fn put_rate(&self, figure: &str, count: u64, nanos: u64) {
        if let Some(rate) = (count * SECOND).checked_div(nanos) {
            eprintln!("manager {} {figure} {rate}", self.blocks);
        }
    }

    fn put_millis(&self, figure: &str, nanos: u64) {
        let (whole, rest) = (nanos / 1_000_000, nanos % 1_000_000);
        eprintln!("manager {} {figure} {whole}.{rest:06}", self.blocks);
    }

    fn add_all(&mut self) {
        for i in 0..self.blocks {
            let done = self.manager.add(block_number(i));
            self.count(done);
        }
    }

    fn measure_reports(&mut self, passes: usize) {
        let own_order = made_reports::<M>(self.blocks, true);
        let ascending = made_reports::<M>(self.blocks, false);
        let nanos = self.time(|it| it.report_all(&own_order));
        self.tell_report("first reports");
        let replicas = 3 * self.blocks;
        self.put_rate("b_first_replicas_per_s", replicas, nanos);
        let turns = [
            (
                [&own_order[..], &own_order],
                "full reports in the same order",
                "a_full_replicas_per_s",
            ),
            (
                [&ascending, &ascending],
                "full reports, ascending numbers",
                "a_full_rising_replicas_per_s",
            ),
            (
                [&own_order, &ascending],
                "full reports in another order",
                "a_full_other_order_replicas_per_s",
            ),
        ];
        for (turns, text, figure) in turns {
            self.report_in_turn(passes, turns, text, figure);
        }
    }

    fn measure_notices(&mut self, cycles: usize) {
        let sample = self.blocks * 3 / 10;
        let deleted = drawn_replicas(self.blocks, sample);
        let mut received = deleted.clone();
        shuffle(&mut received, 777);
        let mut times = [Vec::new(), Vec::new()];
        for _ in 0..cycles {
            times[0].push(self.time(|it| {
                for (id, storage) in &deleted {
                    let done = it.manager.deleted(*id, *storage);
                    it.count(done);
                }
            }));
            times[1].push(self.time(|it| {
                for (id, storage) in &received {
                    let done = it.manager.received(*id, *storage);
                    it.count(done);
                }
            }));
        }
        println!("notices: removed {}, added {}", self.removed, self.added);
        self.forget();
        self.put_rate("c_deleted_per_s", sample, median(&times[0]));
        self.put_rate("c_received_per_s", sample, median(&times[1]));
    }

    fn measure_places(&mut self, questions: u64) {
        let questions = if self.blocks == 0 { 0 } else { questions };
        let drawn = (0..questions).map(|k| drawn_block(k, self.blocks));
        let drawn: Vec<u64> = drawn.collect();
        let (mut places, mut sum) = (0, 0);
        let mut times = Vec::new();
        for _ in 0..5 {
            (places, sum) = (0, 0);
            times.push(self.time(|it| {
                for id in &drawn {
                    for storage in it.manager.places(*id) {
                        places += 1;
                        sum += u64::from(storage);
                    }
                }
            }));
        }
        println!("questions: {questions} blocks, {places} places, their sum {sum}");
        self.put_rate("f_places_per_s", questions, median(&times));
    }

    fn measure_heartbeats(&mut self, beats: u64) {
        let mut times = Vec::new();
        for turn in 0..6 {
            let made: Vec<M::Beat> = (0..beats).map(|k| beat::<M>(turn, k)).collect();
            times.push(self.time(|it| {
                for beat in &made {
                    it.manager.heartbeat(beat);
                }
            }));
        }
        self.put_rate("d_heartbeats_per_s", beats, median(&times));
        for node in 0..NODES {
            let free = storages_of_node(node).map(|it| (it, drawn_free(it)));
            self.manager.heartbeat(&M::make_beat(node, free.to_vec()));
        }
    }

    fn measure_rounds(&mut self) {
        let times: Vec<u64> = (0..20).map(|_| self.time(Self::round)).collect();
        self.tell_rounds("idle rounds");
        self.put_millis("e_idle_round_ms", median(&times));
        let nanos = self.time(|it| {
            let done = it.manager.dead(DEAD);
            it.count(done);
        });
        println!("death of a node: removed {}", self.removed);
        self.forget();
        self.put_millis("e_dead_ms", nanos);
        let nanos = self.time(Self::round);
        self.tell_rounds("first round after it");
        self.put_millis("e_round1_ms", nanos);
        let mut times = Vec::new();
        for _ in 0..9 {
            let before = self.transfers;
            let nanos = self.time(Self::round);
            if self.transfers > before {
                times.push(nanos);
            }
        }
        self.tell_rounds("next rounds");
        if !times.is_empty() {
            self.put_millis("e_rounds2to10_ms", median(&times));
        }
    }
}

fn made_reports<M: Measured>(blocks: u64, is_shuffled: bool) -> Vec<M::Report> {
    let reports = reports(blocks, is_shuffled).into_iter();
    let made = reports.map(|(storage, entries)| M::make_report(storage, entries));
    made.collect()
}

fn median(times: &[u64]) -> u64 {
    let mut sorted = times.to_vec();
    sorted.sort_unstable();
    sorted.get(sorted.len() / 2).copied().unwrap_or(0)
}

/// A heartbeat of a node that is drawn, with other numbers in each turn.
fn beat<M: Measured>(turn: u64, k: u64) -> M::Beat {
    let node = drawn_node(k);
    let moment = turn * 1000 + (k >> 8);
    let free = (1 << 42) + (u64::from(node) << 20) + moment * 7;
    let storages = storages_of_node(node).into_iter();
    M::make_beat(node, storages.zip(free..).collect())
}

pub fn calls<M: Measured>(blocks: u64) {
    let often = often(blocks);
    let mut bench: Bench<M> = Bench::new(blocks);
    println!("manager: {blocks} blocks");
    let nanos = bench.time(Bench::add_all);
    bench.put_rate("add_per_s", blocks, nanos);
    bench.measure_reports(often.passes);
    bench.measure_notices(often.cycles);
    bench.measure_places(often.questions);
    bench.measure_heartbeats(often.beats);
    bench.measure_rounds();
}

/// Prints the memory of a manager that got its replicas one by one.
pub fn memory<M: Measured>(blocks: u64) {
    let held = resident_bytes();
    let mut bench: Bench<M> = Bench::new(blocks);
    for i in 0..blocks {
        let id = block_number(i);
        bench.manager.add(id);
        for storage in storages_of(i) {
            let done = bench.manager.received(id, storage);
            bench.count(done);
        }
    }
    let grown = resident_bytes().saturating_sub(held);
    if let Some(each) = grown.checked_div(3 * blocks) {
        eprintln!("manager {blocks} mem_rss_bytes_per_replica {each}");
    }
    println!("memory: added {}", bench.added);
}
