// Each call that a line can ask for, with that line. Each field has a number of its own.

use crate::calls::{Case, call_of};
use bm_base::Call;
use bm_lines::{has_op, line_of};
use std::alloc::Global;
use std::process::Abort;

static LINES: [(Case<'static>, &'static str); 26] = [
    (
        Case::Register(3, 2, &[31, 4_294_967_295]),
        "{\"op\":\"register\",\"node\":3,\"rack\":2,\"storages\":[31,4294967295]}",
    ),
    (Case::Drain(4), "{\"op\":\"drain\",\"node\":4}"),
    (Case::Undrain(5), "{\"op\":\"undrain\",\"node\":5}"),
    (Case::Dead(6), "{\"op\":\"dead\",\"node\":6}"),
    (
        Case::Failed(61),
        "{\"op\":\"storage_failed\",\"storage\":61}",
    ),
    (
        Case::Heartbeat(1, &[(11, 18_446_744_073_709_551_615), (12, 0), (13, 700)]),
        "{\"op\":\"heartbeat\",\"node\":1,\"remaining\":[[11,18446744073709551615],[12,0],[13,700]]}",
    ),
    (
        Case::Add(7, (5, 64), 3),
        "{\"op\":\"add\",\"id\":7,\"gen\":5,\"len\":64,\"repl\":3}",
    ),
    (Case::Delete(7), "{\"op\":\"delete\",\"id\":7}"),
    (
        Case::SetReplication(7, 2),
        "{\"op\":\"set_replication\",\"id\":7,\"repl\":2}",
    ),
    (
        Case::Restamp(7, (6, 65)),
        "{\"op\":\"restamp\",\"id\":7,\"gen\":6,\"len\":65}",
    ),
    (
        Case::Received(21, 8, (5, 64)),
        "{\"op\":\"received\",\"storage\":21,\"id\":8,\"gen\":5,\"len\":64}",
    ),
    (
        Case::Deleted(21, 8),
        "{\"op\":\"deleted\",\"storage\":21,\"id\":8}",
    ),
    (
        Case::Corrupt(21, 8),
        "{\"op\":\"corrupt\",\"storage\":21,\"id\":8}",
    ),
    // One block, a run, a run that contains none, and the run of all blocks.
    (
        Case::Report(
            11,
            &[
                (7, 7, (1, 10)),
                (8, 20, (2, 30)),
                (9, 8, (3, 40)),
                (0, 18_446_744_073_709_551_615, (4, 50)),
            ],
        ),
        "{\"op\":\"report\",\"storage\":11,\"blocks\":[[7,1,10],[8,20,2,30],[9,8,3,40],[0,18446744073709551615,4,50]]}",
    ),
    // Empty lists.
    (
        Case::Register(0, 0, &[]),
        "{\"op\":\"register\",\"node\":0,\"rack\":0,\"storages\":[]}",
    ),
    (
        Case::Heartbeat(0, &[]),
        "{\"op\":\"heartbeat\",\"node\":0,\"remaining\":[]}",
    ),
    (
        Case::Report(0, &[]),
        "{\"op\":\"report\",\"storage\":0,\"blocks\":[]}",
    ),
    (Case::Round, "{\"op\":\"round\"}"),
    (Case::Replicas, "{\"op\":\"list_replicas\"}"),
    (Case::AllCorrupt, "{\"op\":\"list_corrupt\"}"),
    (Case::Excess, "{\"op\":\"list_excess\"}"),
    (Case::Missing, "{\"op\":\"list_missing\"}"),
    (
        Case::BlocksOn(11),
        "{\"op\":\"list_storage\",\"storage\":11}",
    ),
    (
        Case::Places(18_446_744_073_709_551_615),
        "{\"op\":\"list_places\",\"id\":18446744073709551615}",
    ),
    (Case::LevelOf(0), "{\"op\":\"level\",\"id\":0}"),
    (
        Case::Retired(4_294_967_295),
        "{\"op\":\"retired\",\"node\":4294967295}",
    ),
];

fn is_written(rt: &impl Abort, alloc: Global, call: &Call, line: &str) {
    let written = line_of(alloc, call).expect(rt, "memory");
    assert!(rt; written.as_str() == line, "at {line}");
}

/// Checks that the call of a line is written as the same line.
fn is_read(rt: &impl Abort, alloc: Global, line: &str) {
    match bm_lines::call_of(alloc, line.as_bytes()).expect(rt, "memory") {
        Some(call) => is_written(rt, alloc, &call, line),
        None => assert!(rt; false, "no call is read of {line}"),
    }
}

fn check(rt: &impl Abort, alloc: Global, case: Case<'_>, line: &str) {
    let call = call_of(rt, alloc, case);
    assert!(rt; has_op(&call), "at {line}");
    is_written(rt, alloc, &call, line);
    is_read(rt, alloc, line);
}

#[test]
fn calls_are_written_and_read(rt: HostRuntime) {
    for (case, line) in &LINES {
        check(&rt, rt.alloc(), *case, line);
    }
}

#[test]
fn no_line_asks_for_a_number_alone(rt: HostRuntime) {
    assert!(&rt; !has_op(&Call::Calls));
    assert!(&rt; !has_op(&Call::Rounds));
}
