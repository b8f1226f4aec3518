// Rounds and accepted calls are numbered up to the greatest number of 64 bits. No option of the
// tool sets the first number, so these scripts can only run here.
use crate::rows::{
    ALL_SPENT, CLUSTER, FIRST_PATH, LAST_CALL, LAST_ROUND, NOTHING, Row, check_rows,
};
use std::alloc::AllocError;

const SPENT: [Row; 6] = [
    Row {
        name: "calls_run_out",
        config: LAST_CALL,
        before: NOTHING,
        script: r#"{"op":"add","id":7,"gen":1,"len":10,"repl":3}
{"op":"add","id":8,"gen":1,"len":10,"repl":3}
{"op":"register","node":1,"rack":1,"storages":[]}
{"op":"add","id":7,"gen":1,"len":10,"repl":3}
{"op":"received","storage":1,"id":7,"gen":1,"len":10}
{"op":"list_places","id":7}
{"op":"list_places","id":8}
"#,
        answers: "ok 0 0
refused 13 CallsSpent
refused 13 CallsSpent
refused 6 BlockKnown
refused 3 UnknownStorage
places 7
refused 5 UnknownBlock
",
    },
    Row {
        name: "no_call_is_left",
        config: ALL_SPENT,
        before: NOTHING,
        script: FIRST_PATH,
        answers: "refused 13 CallsSpent
refused 13 CallsSpent
refused 3 UnknownStorage
refused 5 UnknownBlock
",
    },
    // No round is accepted after the last round number, and no event or round after the last number
    // of accepted calls.
    Row {
        name: "rounds_run_out_on_a_cluster",
        config: LAST_ROUND,
        before: CLUSTER,
        script: r#"{"op":"round"}
{"op":"round"}
"#,
        answers: "round 18446744073709551615
refused 12 RoundsSpent
",
    },
    Row {
        name: "rounds_run_out",
        config: LAST_ROUND,
        before: NOTHING,
        script: r#"{"op":"round"}
{"op":"round"}
"#,
        answers: "round 18446744073709551615
refused 12 RoundsSpent
",
    },
    Row {
        name: "calls_run_out_with_a_round",
        config: LAST_CALL,
        before: NOTHING,
        script: r#"{"op":"add","id":7,"gen":1,"len":10,"repl":3}
{"op":"add","id":8,"gen":1,"len":10,"repl":3}
{"op":"round"}
{"op":"add","id":7,"gen":1,"len":10,"repl":3}
"#,
        answers: "ok 0 0
refused 13 CallsSpent
refused 13 CallsSpent
refused 6 BlockKnown
",
    },
    Row {
        name: "rounds_are_checked_before_calls",
        config: ALL_SPENT,
        before: NOTHING,
        script: r#"{"op":"round"}"#,
        answers: "refused 12 RoundsSpent
",
    },
];

#[test]
fn rounds_and_calls_run_out(rt: HostRuntime) -> Result<(), AllocError> {
    check_rows(&rt, rt.alloc(), SPENT.as_slice())
}
