// Single calls of managers. Each allocation of a call is refused once, each time on a new manager.
// Those of one report are refused again and again on the same manager.

use crate::answers::{Outcome, compare, make_all};
use crate::bench::Bench;
use crate::cases::{CASES, CLUSTER, Case, THOUSAND_REPORTED};
use crate::marks::{OPEN, Window};
use crate::questions::{ask_all, shows};
use crate::short_calls::ShortCall;
use std::sync::Wait;
use std::thread::Threads;

/// The name of the report that is refused again and again.
const AGAIN: &str = "report_again";

/// The number of that report's allocations that are refused in turn: with one worker it makes four,
/// once all other capacity is there.
const DEPTH: u32 = 4;

const ALL_ADDED: &str = "Done(Done { added: 1000, removed: 0 })";

pub fn run<R: Print + Eprint + Threads + Wait + Sync>(rt: &R, bench: &mut Bench, most: u32) {
    for case in &CASES {
        try_case(rt, bench, case, most);
    }
    for workers in 1..=2 {
        report_again(rt, bench, workers, most);
        print_tally(rt, bench, AGAIN, workers);
    }
}

pub fn print_tally(rt: &impl Print, bench: &mut Bench, name: &str, workers: u32) {
    let _ = print!(rt; "{name}/{workers}");
    bench.tally.print(rt, "");
}

/// Tries a case with one worker and with two. A call that takes no memory is made once with each.
fn try_case<R: Print + Eprint + Threads + Wait + Sync>(
    rt: &R,
    bench: &mut Bench,
    case: &Case,
    most: u32,
) {
    let is_answered = expect(rt, bench, case);
    let turns = if case.takes_memory { most } else { 1 };
    for workers in 1..=2 {
        bench.tally.note(is_answered);
        for turn in 1..=turns {
            let window = Window {
                name: case.name,
                workers,
                turn,
            };
            make_in_turn(rt, bench, case, &window);
        }
        print_tally(rt, bench, case.name, workers);
    }
}

/// Writes what another manager answers before and after the call, in which nothing is refused.
/// Whether its answer is the expected one.
fn expect<R: Eprint + Threads + Wait + Sync>(rt: &R, bench: &mut Bench, case: &Case) -> bool {
    let alloc = bench.alloc;
    bench.renew_other();
    make_all(rt, alloc, &mut bench.other, &CLUSTER, &mut bench.tally);
    make_all(rt, alloc, &mut bench.other, case.before, &mut bench.tally);
    let other = &mut bench.other;
    let is_asked = ask_all(rt, alloc, other, &mut bench.before);
    let outcome = compare(
        rt,
        alloc,
        other,
        case.call,
        case.answer,
        &mut bench.now,
        &OPEN,
    );
    let is_asked_again = ask_all(rt, alloc, other, &mut bench.after);
    outcome == Outcome::AsExpected && is_asked && is_asked_again
}

/// Replaces the manager by an empty one of three shards, and makes the calls of the cluster.
pub fn renew<R: Eprint + Threads + Wait + Sync>(rt: &R, bench: &mut Bench, workers: u32) {
    bench.renew_manager(3, workers);
    make(rt, bench, &CLUSTER);
}

/// Makes calls that must all be accepted.
pub fn make<R: Eprint + Threads + Wait + Sync>(rt: &R, bench: &mut Bench, calls: &[ShortCall]) {
    make_all(rt, bench.alloc, &mut bench.manager, calls, &mut bench.tally);
}

/// Whether the manager answers all questions as before.
pub fn is_as_before<R: Eprint + Threads + Wait + Sync>(rt: &R, bench: &mut Bench) -> bool {
    let before = bench.before.as_str();
    shows(rt, bench.alloc, &mut bench.manager, before, &mut bench.now)
}

/// Makes the call on a new manager with one allocation refused, and again if that refused the call.
fn make_in_turn<R: Eprint + Threads + Wait + Sync>(
    rt: &R,
    bench: &mut Bench,
    case: &Case,
    window: &Window,
) {
    renew(rt, bench, window.workers);
    make(rt, bench, case.before);
    let mut outcome = call(rt, bench, case.call, case.answer, window);
    if outcome == Outcome::WantsMemory {
        bench.tally.refuse_if(true);
        let is_kept = is_as_before(rt, bench);
        bench.tally.note(case.takes_memory && is_kept);
        outcome = call(rt, bench, case.call, case.answer, &OPEN);
    } else {
        bench.tally.note(true);
    }
    bench.tally.note(outcome == Outcome::AsExpected);
    let after = bench.after.as_str();
    let is_after = shows(rt, bench.alloc, &mut bench.manager, after, &mut bench.now);
    bench.tally.note(is_after);
}

fn call<R: Eprint + Threads + Wait + Sync>(
    rt: &R,
    bench: &mut Bench,
    short: ShortCall,
    answer: &str,
    window: &Window,
) -> Outcome {
    let text = &mut bench.now;
    compare(
        rt,
        bench.alloc,
        &mut bench.manager,
        short,
        answer,
        text,
        window,
    )
}

/// Makes a report of a thousand new numbers on one manager. Each turn refuses one of its
/// allocations, until it is accepted.
fn report_again<R: Eprint + Threads + Wait + Sync>(
    rt: &R,
    bench: &mut Bench,
    workers: u32,
    most: u32,
) {
    renew(rt, bench, workers);
    let mut is_kept = ask_all(rt, bench.alloc, &mut bench.manager, &mut bench.before);
    let mut window = Window {
        name: AGAIN,
        workers,
        turn: 1,
    };
    let mut outcome = call(rt, bench, THOUSAND_REPORTED, ALL_ADDED, &window);
    for turn in 1..=most {
        if outcome != Outcome::WantsMemory {
            break;
        }
        bench.tally.refuse_if(true);
        is_kept = is_as_before(rt, bench) && is_kept;
        window.turn = if turn == most { 0 } else { turn % DEPTH + 1 };
        outcome = call(rt, bench, THOUSAND_REPORTED, ALL_ADDED, &window);
    }
    bench.tally.note(is_kept);
    bench.tally.note(outcome == Outcome::AsExpected);
}
