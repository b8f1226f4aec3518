// Runs of a crew, from tables of cases, and bags that are filled and emptied by hand.

use bm_crew::{Bag, Crew, Gate, NoGate};
use std::alloc::Global;
use std::process::Abort;
use std::sync::Wait;
use std::sync::atomic::{AtomicU64, Ordering};
use std::test::Fail;
use std::thread;
use std::thread::Threads;

/// Notes which shards' pieces have entered, with one bit for each shard below 64, and what went
/// wrong.
#[derive(Drop)]
struct Meeting {
    entered: AtomicU64,
    entries: AtomicU64,
    gave_up: AtomicU64,
    too_early: AtomicU64,
}

impl Meeting {
    fn new() -> Meeting {
        Meeting {
            entered: AtomicU64::new(0),
            entries: AtomicU64::new(0),
            gave_up: AtomicU64::new(0),
            too_early: AtomicU64::new(0),
        }
    }

    fn enter(&self, shard: u32) {
        self.entered.fetch_or(bit(shard), Ordering::SeqCst);
        self.entries.fetch_add(1, Ordering::SeqCst);
    }

    fn were_entered(&self, shards: u64) -> bool {
        self.entered.load(Ordering::SeqCst) & shards == shards
    }

    /// Yields to other threads until the pieces of these shards have entered, and gives up after
    /// three million yields.
    fn wait_for(&self, shards: u64) {
        for _ in 0..3_000_000u32 {
            if self.were_entered(shards) {
                return;
            }
            thread::yield_now();
        }
        self.gave_up.fetch_add(1, Ordering::SeqCst);
    }

    /// Works the piece of this shard, which must have entered before.
    fn work(&self, shard: u32) {
        if !self.were_entered(bit(shard)) {
            self.too_early.fetch_add(1, Ordering::SeqCst);
        }
    }

    /// Whether the pieces of just these shards entered, `times` times in all and each before its
    /// work, and no piece gave up.
    fn was_held(&self, shards: u64, times: u64) -> bool {
        self.entered.load(Ordering::SeqCst) == shards
            && self.entries.load(Ordering::SeqCst) == times
            && self.gave_up.load(Ordering::SeqCst) == 0
            && self.too_early.load(Ordering::SeqCst) == 0
    }
}

fn bit(shard: u32) -> u64 {
    1u64.wrapping_shl(shard)
}

/// A gate at which pieces wait until those of these shards have entered.
#[derive(Drop)]
struct Held {
    meeting: Meeting,
    shards: u64,
    /// The shard whose piece waits. `None` if all pieces wait.
    only: Option<u32>,
}

impl Gate for Held {
    fn at(&self, shard: u32) {
        self.meeting.enter(shard);
        let waits = match self.only {
            Some(only) => shard == only,
            None => true,
        };
        if waits {
            self.meeting.wait_for(self.shards);
        }
    }
}

/// The work on a piece.
#[derive(Clone, Copy)]
enum Work {
    Square,
    /// Adds a hundred times the number of the shard.
    AddShards,
}

/// Runs with each of these numbers of workers, all with the same results.
#[derive(Clone, Copy)]
struct Runs<'a> {
    workers: &'a [usize],
    capacity: usize,
    items: &'a [(u32, u64)],
    work: Work,
    results: &'a [(u32, u64)],
}

static RUNS: [Runs<'static>; 4] = [
    Runs {
        workers: &[1, 2, 16],
        capacity: 3,
        items: &[(0, 5), (1, 6), (2, 7)],
        work: Work::Square,
        results: &[(0, 25), (1, 36), (2, 49)],
    },
    Runs {
        workers: &[1, 2, 16],
        capacity: 0,
        items: &[],
        work: Work::AddShards,
        results: &[],
    },
    Runs {
        workers: &[1, 2, 16],
        capacity: 3,
        items: &[],
        work: Work::AddShards,
        results: &[],
    },
    // Shards need not be ascending or distinct, and the capacity may exceed the number of items.
    Runs {
        workers: &[1, 2, 16],
        capacity: 7,
        items: &[(9, 1), (2, 2), (9, 3), (0, 4)],
        work: Work::AddShards,
        results: &[(9, 901), (2, 202), (9, 903), (0, 4)],
    },
];

fn do_work(work: Work, shard: u32, piece: u64) -> u64 {
    match work {
        Work::Square => piece.wrapping_mul(piece),
        Work::AddShards => piece.wrapping_add(100 * shard as u64),
    }
}

fn check_run<R: Abort + Threads + Wait + Sync>(
    rt: &R,
    alloc: Global,
    runs: &Runs<'_>,
    workers: usize,
) {
    assert!(rt; 0 < workers && runs.items.len() <= runs.capacity);
    let items = Vec::from_slice(alloc, runs.items).expect(rt, "memory");
    let ready = Crew::ready::<u64, u64>(alloc, runs.capacity, workers).expect(rt, "memory");
    let work = runs.work;
    let made = ready.run(
        rt,
        items,
        &|shard, piece: u64| do_work(work, shard, piece),
        &NoGate,
    );
    assert!(rt; made.as_slice() == runs.results);
    drop(made);
}

#[test]
fn results_stand_in_the_order_of_items(rt: HostRuntime) {
    for runs in &RUNS {
        for workers in runs.workers {
            check_run(&rt, rt.alloc(), runs, *workers);
        }
    }
}

static PIECES: [(u32, u64); 16] = [
    (0, 5),
    (1, 6),
    (2, 7),
    (3, 8),
    (4, 9),
    (5, 10),
    (6, 11),
    (7, 12),
    (8, 13),
    (9, 14),
    (10, 15),
    (11, 16),
    (12, 17),
    (13, 18),
    (14, 19),
    (15, 20),
];

/// Workers that process the first `pieces` of `PIECES`. At a gate each piece, or just the piece of
/// shard `only`, waits until the pieces of `shards` have entered.
#[derive(Clone, Copy)]
struct Waiting {
    workers: usize,
    pieces: usize,
    /// A bit for each of the pieces.
    shards: u64,
    only: Option<u32>,
}

/// Each piece waits for all others, so each needs a worker at the same time.
static ALL_AT_ONCE: [Waiting; 3] = [
    Waiting {
        workers: 2,
        pieces: 2,
        shards: 0b11,
        only: None,
    },
    Waiting {
        workers: 4,
        pieces: 4,
        shards: 0b1111,
        only: None,
    },
    Waiting {
        workers: 16,
        pieces: 16,
        shards: 0xffff,
        only: None,
    },
];

/// Two workers. The piece of this shard holds up one of them until the other has entered the other
/// three.
fn one_held_up(shard: u32) -> Waiting {
    Waiting {
        workers: 2,
        pieces: 4,
        shards: 0b1111,
        only: Some(shard),
    }
}

fn check_waiting<R: Abort + Threads + Wait + Sync>(rt: &R, alloc: Global, case: &Waiting) {
    assert!(rt; 0 < case.workers && case.pieces <= 16);
    let pieces = &PIECES[..case.pieces];
    let gate = Held {
        meeting: Meeting::new(),
        shards: case.shards,
        only: case.only,
    };
    let items = Vec::from_slice(alloc, pieces).expect(rt, "memory");
    let ready = Crew::ready::<u64, u64>(alloc, case.pieces, case.workers).expect(rt, "memory");
    let work = |shard: u32, piece: u64| {
        gate.meeting.work(shard);
        piece
    };
    let made = ready.run(rt, items, &work, &gate);
    assert!(rt; made.as_slice() == pieces);
    assert!(rt; gate.meeting.was_held(case.shards, case.pieces as u64));
    drop(made);
    drop(gate);
}

/// Sixteen workers run at the same time: with one fewer the last piece would not enter.
#[test]
fn workers_run_at_once(rt: HostRuntime) {
    for case in &ALL_AT_ONCE {
        check_waiting(&rt, rt.alloc(), case);
    }
}

/// Whichever piece holds up its worker, the other worker processes the other three. With fixed
/// shares one of these would wait for a worker that waits for it.
#[test]
fn pieces_are_not_shared_out_beforehand(rt: HostRuntime) {
    for shard in 0..4 {
        check_waiting(&rt, rt.alloc(), &one_held_up(shard));
    }
}

#[test]
fn a_bag_gives_what_was_put(rt: HostRuntime) -> Result<(), Fail> {
    let (bag, mut passes) = Bag::<u64>::open(rt.alloc(), 3, 2)?;
    assert!(rt; passes.len() == 2);
    let mut mine = passes.remove(0);
    let mut other = passes.remove(0);
    bag.put(&rt, &mut mine, 0, 5);
    bag.put(&rt, &mut mine, 1, 6);
    bag.put(&rt, &mut mine, 2, 7);
    let first = bag.take(&rt, &mut other);
    bag.join(&rt, &mut mine, other);
    let taken = [
        first,
        bag.take(&rt, &mut mine),
        bag.take(&rt, &mut mine),
        bag.take(&rt, &mut mine),
    ];
    assert!(rt; taken == [Some((0, 5)), Some((1, 6)), Some((2, 7)), None]);
    Ok(())
}

#[test]
fn a_renewed_pass_takes_too(rt: HostRuntime) -> Result<(), Fail> {
    let (bag, mut passes) = Bag::<u64>::open(rt.alloc(), 2, 2)?;
    let mut mine = passes.remove(0);
    let other = passes.remove(0);
    bag.put(&rt, &mut mine, 4, 5);
    let mut renewed = bag.renew_pass(&mut mine, other);
    let first = bag.take(&rt, &mut renewed);
    let second = bag.take(&rt, &mut renewed);
    bag.join(&rt, &mut mine, renewed);
    let taken = [first, second, bag.take(&rt, &mut mine)];
    assert!(rt; taken == [Some((4, 5)), None, None]);
    Ok(())
}
