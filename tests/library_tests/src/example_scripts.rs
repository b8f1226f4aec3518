// The worked examples: scripts of calls and their answers, worked out by hand from docs/RULES.md
// and docs/FORMATS.md.
use crate::rows::{
    CLUSTER, EXAMPLE_CONFIG, FIRST_PATH, FIRST_PATH_ANSWERS, NOTHING, ONE_COPY_A_NODE, ONE_DELETE,
    Row, TWO_ROUNDS, check_rows,
};
use std::alloc::AllocError;

const WORKED: [Row; 21] = [
    Row {
        name: "empty_input",
        config: EXAMPLE_CONFIG,
        before: NOTHING,
        script: "",
        answers: "",
    },
    // A known block without replicas is missing, and a round does nothing for it yet.
    Row {
        name: "block_without_replicas_is_missing",
        config: EXAMPLE_CONFIG,
        before: CLUSTER,
        script: r#"{"op":"add","id":7,"gen":1,"len":10,"repl":3}
{"op":"list_missing"}
{"op":"level","id":7}
{"op":"round"}
"#,
        answers: "ok 0 0
missing; 7
level 7; 4
round 1
",
    },
    // The second target is chosen as if the first already held the block.
    Row {
        name: "copies_span_two_racks",
        config: EXAMPLE_CONFIG,
        before: CLUSTER,
        script: r#"{"op":"add","id":7,"gen":1,"len":10,"repl":3}
{"op":"received","storage":11,"id":7,"gen":1,"len":10}
{"op":"level","id":7}
{"op":"round"}
"#,
        answers: "ok 0 0
ok 1 0
level 7; 0
round 1; copy 1 7 1 10 11 31; copy 1 7 1 10 11 21
",
    },
    Row {
        name: "copies_arrive",
        config: EXAMPLE_CONFIG,
        before: CLUSTER,
        script: r#"{"op":"add","id":7,"gen":1,"len":10,"repl":3}
{"op":"received","storage":11,"id":7,"gen":1,"len":10}
{"op":"level","id":7}
{"op":"round"}
{"op":"received","storage":31,"id":7,"gen":1,"len":10}
{"op":"received","storage":21,"id":7,"gen":1,"len":10}
{"op":"level","id":7}
{"op":"round"}
{"op":"list_replicas"}
"#,
        answers: "ok 0 0
ok 1 0
level 7; 0
round 1; copy 1 7 1 10 11 31; copy 1 7 1 10 11 21
ok 1 0
ok 1 0
level 7; none
round 2
replicas; 7 11 good; 7 21 good; 7 31 good
",
    },
    // Another number of requested replicas changes the level, and nothing else.
    Row {
        name: "levels_follow_replication",
        config: EXAMPLE_CONFIG,
        before: CLUSTER,
        script: r#"{"op":"add","id":7,"gen":1,"len":10,"repl":6}
{"op":"received","storage":11,"id":7,"gen":1,"len":10}
{"op":"received","storage":31,"id":7,"gen":1,"len":10}
{"op":"level","id":7}
{"op":"set_replication","id":7,"repl":7}
{"op":"level","id":7}
{"op":"set_replication","id":7,"repl":2}
{"op":"level","id":7}
{"op":"set_replication","id":7,"repl":17}
{"op":"set_replication","id":7,"repl":0}
{"op":"set_replication","id":6,"repl":0}
"#,
        answers: "ok 0 0
ok 1 0
ok 1 0
level 7; 2
ok 0 0
level 7; 1
ok 0 0
level 7; none
refused 8 BadReplication
refused 8 BadReplication
refused 5 UnknownBlock
",
    },
    // Block 3 has no source left.
    Row {
        name: "stream_limits",
        config: EXAMPLE_CONFIG,
        before: CLUSTER,
        script: r#"{"op":"add","id":1,"gen":1,"len":10,"repl":4}
{"op":"add","id":2,"gen":1,"len":10,"repl":4}
{"op":"add","id":3,"gen":1,"len":10,"repl":4}
{"op":"received","storage":11,"id":1,"gen":1,"len":10}
{"op":"received","storage":21,"id":1,"gen":1,"len":10}
{"op":"received","storage":11,"id":2,"gen":1,"len":10}
{"op":"received","storage":21,"id":2,"gen":1,"len":10}
{"op":"received","storage":11,"id":3,"gen":1,"len":10}
{"op":"received","storage":21,"id":3,"gen":1,"len":10}
{"op":"round"}
"#,
        answers: "ok 0 0
ok 0 0
ok 0 0
ok 1 0
ok 1 0
ok 1 0
ok 1 0
ok 1 0
ok 1 0
round 1; copy 1 1 1 10 11 31; copy 1 2 1 10 11 31; copy 2 1 1 10 21 41; copy 2 2 1 10 21 41
",
    },
    Row {
        name: "stream_limits_of_most_urgent_blocks",
        config: EXAMPLE_CONFIG,
        before: CLUSTER,
        script: r#"{"op":"add","id":1,"gen":1,"len":10,"repl":2}
{"op":"add","id":2,"gen":1,"len":10,"repl":2}
{"op":"add","id":3,"gen":1,"len":10,"repl":2}
{"op":"add","id":4,"gen":1,"len":10,"repl":2}
{"op":"add","id":5,"gen":1,"len":10,"repl":2}
{"op":"received","storage":11,"id":1,"gen":1,"len":10}
{"op":"received","storage":11,"id":2,"gen":1,"len":10}
{"op":"received","storage":11,"id":3,"gen":1,"len":10}
{"op":"received","storage":11,"id":4,"gen":1,"len":10}
{"op":"received","storage":11,"id":5,"gen":1,"len":10}
{"op":"round"}
"#,
        answers: "ok 0 0
ok 0 0
ok 0 0
ok 0 0
ok 0 0
ok 1 0
ok 1 0
ok 1 0
ok 1 0
ok 1 0
round 1; copy 1 1 1 10 11 31; copy 1 2 1 10 11 41; copy 1 3 1 10 11 31; copy 1 4 1 10 11 41
",
    },
    Row {
        name: "work_limits",
        config: ONE_COPY_A_NODE,
        before: CLUSTER,
        script: r#"{"op":"add","id":1,"gen":1,"len":10,"repl":2}
{"op":"add","id":2,"gen":1,"len":10,"repl":2}
{"op":"add","id":3,"gen":1,"len":10,"repl":2}
{"op":"add","id":4,"gen":1,"len":10,"repl":2}
{"op":"add","id":5,"gen":1,"len":10,"repl":2}
{"op":"received","storage":11,"id":1,"gen":1,"len":10}
{"op":"received","storage":11,"id":2,"gen":1,"len":10}
{"op":"received","storage":11,"id":3,"gen":1,"len":10}
{"op":"received","storage":31,"id":4,"gen":1,"len":10}
{"op":"received","storage":31,"id":5,"gen":1,"len":10}
{"op":"round"}
"#,
        answers: "ok 0 0
ok 0 0
ok 0 0
ok 0 0
ok 0 0
ok 1 0
ok 1 0
ok 1 0
ok 1 0
ok 1 0
round 1; copy 1 1 1 10 11 31; copy 1 2 1 10 11 41; copy 1 3 1 10 11 31; copy 3 4 1 10 31 11
",
    },
    // The last entry of a block counts, and the stray replica is commanded to be deleted once.
    Row {
        name: "wrong_stamp_in_report",
        config: EXAMPLE_CONFIG,
        before: CLUSTER,
        script: r#"{"op":"add","id":7,"gen":1,"len":10,"repl":3}
{"op":"add","id":9,"gen":1,"len":10,"repl":3}
{"op":"received","storage":11,"id":7,"gen":1,"len":10}
{"op":"received","storage":11,"id":9,"gen":1,"len":10}
{"op":"report","storage":11,"blocks":[[7,1,10],[8,1,10],[7,0,10]]}
{"op":"list_replicas"}
{"op":"list_corrupt"}
{"op":"round"}
{"op":"round"}
"#,
        answers: "ok 0 0
ok 0 0
ok 1 0
ok 1 0
ok 1 1
replicas; 7 11 stale; 8 11 stray
corrupt; 7 11
round 1; delete 1 11 8
round 2
",
    },
    // A full report removes the replicas that it does not list.
    Row {
        name: "empty_report_clears_storage",
        config: EXAMPLE_CONFIG,
        before: CLUSTER,
        script: r#"{"op":"add","id":7,"gen":1,"len":10,"repl":3}
{"op":"add","id":9,"gen":1,"len":10,"repl":3}
{"op":"received","storage":11,"id":7,"gen":1,"len":10}
{"op":"received","storage":11,"id":9,"gen":1,"len":10}
{"op":"report","storage":11,"blocks":[[7,1,10],[8,1,10],[7,0,10]]}
{"op":"list_replicas"}
{"op":"list_corrupt"}
{"op":"round"}
{"op":"round"}
{"op":"received","storage":21,"id":7,"gen":1,"len":10}
{"op":"report","storage":11,"blocks":[]}
{"op":"list_replicas"}
{"op":"list_storage","storage":11}
{"op":"list_storage","storage":99}
"#,
        answers: "ok 0 0
ok 0 0
ok 1 0
ok 1 0
ok 1 1
replicas; 7 11 stale; 8 11 stray
corrupt; 7 11
round 1; delete 1 11 8
round 2
ok 1 0
ok 0 2
replicas; 7 21 good
storage 11
refused 3 UnknownStorage
",
    },
    // A node has at most one replica of a block, and a bad one stays bad until it is removed.
    Row {
        name: "block_moves_between_sister_storages",
        config: EXAMPLE_CONFIG,
        before: NOTHING,
        script: r#"{"op":"register","node":1,"rack":1,"storages":[11,12]}
{"op":"register","node":2,"rack":1,"storages":[21]}
{"op":"register","node":3,"rack":2,"storages":[31]}
{"op":"register","node":4,"rack":2,"storages":[41]}
{"op":"heartbeat","node":1,"remaining":[[11,1000],[12,1000]]}
{"op":"heartbeat","node":2,"remaining":[[21,1000]]}
{"op":"heartbeat","node":3,"remaining":[[31,1000]]}
{"op":"heartbeat","node":4,"remaining":[[41,1000]]}
{"op":"add","id":7,"gen":1,"len":10,"repl":3}
{"op":"received","storage":11,"id":7,"gen":1,"len":10}
{"op":"corrupt","storage":11,"id":7}
{"op":"received","storage":12,"id":7,"gen":1,"len":10}
{"op":"list_replicas"}
{"op":"corrupt","storage":12,"id":7}
{"op":"report","storage":12,"blocks":[[7,1,10]]}
{"op":"list_replicas"}
{"op":"report","storage":11,"blocks":[[7,0,10],[7,1,10]]}
{"op":"list_replicas"}
"#,
        answers: "ok 0 0
ok 0 0
ok 0 0
ok 0 0
ok 0 0
ok 0 0
ok 0 0
ok 0 0
ok 0 0
ok 1 0
ok 0 0
ok 1 1
replicas; 7 12 good
ok 0 0
ok 0 0
replicas; 7 12 bad
ok 1 1
replicas; 7 11 good
",
    },
    // A new generation makes good replicas stale until they are received with it.
    Row {
        name: "restamp_makes_stale",
        config: EXAMPLE_CONFIG,
        before: CLUSTER,
        script: r#"{"op":"add","id":7,"gen":1,"len":10,"repl":3}
{"op":"received","storage":11,"id":7,"gen":1,"len":10}
{"op":"received","storage":31,"id":7,"gen":1,"len":10}
{"op":"restamp","id":7,"gen":2,"len":10}
{"op":"list_corrupt"}
{"op":"level","id":7}
{"op":"received","storage":31,"id":7,"gen":2,"len":10}
{"op":"list_corrupt"}
{"op":"restamp","id":7,"gen":2,"len":10}
"#,
        answers: "ok 0 0
ok 1 0
ok 1 0
ok 0 0
corrupt; 7 11; 7 31
level 7; 4
ok 0 0
corrupt; 7 11
refused 9 OldGeneration
",
    },
    Row {
        name: "corrupt_replica_waits_for_replacement",
        config: EXAMPLE_CONFIG,
        before: CLUSTER,
        script: r#"{"op":"add","id":7,"gen":1,"len":10,"repl":3}
{"op":"received","storage":11,"id":7,"gen":1,"len":10}
{"op":"received","storage":21,"id":7,"gen":1,"len":10}
{"op":"received","storage":31,"id":7,"gen":1,"len":10}
{"op":"corrupt","storage":11,"id":7}
{"op":"round"}
{"op":"received","storage":41,"id":7,"gen":1,"len":10}
{"op":"round"}
{"op":"round"}
{"op":"report","storage":11,"blocks":[[7,1,10]]}
{"op":"round"}
{"op":"deleted","storage":11,"id":7}
{"op":"deleted","storage":11,"id":7}
"#,
        answers: "ok 0 0
ok 1 0
ok 1 0
ok 1 0
ok 0 0
round 1; copy 2 7 1 10 21 41
ok 1 0
round 2; delete 1 11 7
round 3
ok 0 0
round 4; delete 1 11 7
ok 0 1
ok 0 0
",
    },
    Row {
        name: "surplus_keeps_two_racks",
        config: EXAMPLE_CONFIG,
        before: CLUSTER,
        script: r#"{"op":"add","id":7,"gen":1,"len":10,"repl":2}
{"op":"received","storage":11,"id":7,"gen":1,"len":10}
{"op":"received","storage":21,"id":7,"gen":1,"len":10}
{"op":"received","storage":31,"id":7,"gen":1,"len":10}
{"op":"round"}
{"op":"list_excess"}
{"op":"list_places","id":7}
"#,
        answers: "ok 0 0
ok 1 0
ok 1 0
ok 1 0
round 1; delete 2 21 7
excess; 7 21
places 7; 11; 21; 31
",
    },
    Row {
        name: "delete_limit_per_node",
        config: ONE_DELETE,
        before: CLUSTER,
        script: r#"{"op":"add","id":1,"gen":1,"len":10,"repl":1}
{"op":"add","id":2,"gen":1,"len":10,"repl":1}
{"op":"received","storage":11,"id":1,"gen":1,"len":10}
{"op":"received","storage":31,"id":1,"gen":1,"len":10}
{"op":"received","storage":11,"id":2,"gen":1,"len":10}
{"op":"received","storage":31,"id":2,"gen":1,"len":10}
{"op":"round"}
{"op":"list_excess"}
{"op":"dead","node":1}
{"op":"list_missing"}
{"op":"round"}
{"op":"list_missing"}
{"op":"received","storage":31,"id":1,"gen":1,"len":10}
{"op":"round"}
{"op":"list_missing"}
"#,
        answers: "ok 0 0
ok 0 0
ok 1 0
ok 1 0
ok 1 0
ok 1 0
round 1; delete 3 31 1
excess; 1 31; 2 31
ok 0 2
missing; 1; 2
round 2
missing; 1
ok 0 0
round 3
missing
",
    },
    // The number of a deleted block may be used again once its replicas are gone.
    Row {
        name: "deleted_block_must_leave_storages",
        config: EXAMPLE_CONFIG,
        before: CLUSTER,
        script: r#"{"op":"add","id":7,"gen":1,"len":10,"repl":1}
{"op":"received","storage":11,"id":7,"gen":1,"len":10}
{"op":"delete","id":7}
{"op":"add","id":7,"gen":1,"len":10,"repl":1}
{"op":"round"}
{"op":"deleted","storage":11,"id":7}
{"op":"add","id":7,"gen":1,"len":10,"repl":1}
{"op":"add","id":7,"gen":1,"len":10,"repl":0}
"#,
        answers: "ok 0 0
ok 1 0
ok 0 0
refused 7 StillStored
round 1; delete 1 11 7
ok 0 1
ok 0 0
refused 6 BlockKnown
",
    },
    Row {
        name: "pending_transfer_expires",
        config: TWO_ROUNDS,
        before: CLUSTER,
        script: r#"{"op":"add","id":7,"gen":1,"len":10,"repl":2}
{"op":"received","storage":11,"id":7,"gen":1,"len":10}
{"op":"round"}
{"op":"round"}
{"op":"round"}
"#,
        answers: "ok 0 0
ok 1 0
round 1; copy 1 7 1 10 11 31
round 2
round 3; copy 1 7 1 10 11 31
",
    },
    Row {
        name: "four_lines",
        config: EXAMPLE_CONFIG,
        before: NOTHING,
        script: FIRST_PATH,
        answers: FIRST_PATH_ANSWERS,
    },
    Row {
        name: "badly_distributed_block_gets_second_rack",
        config: EXAMPLE_CONFIG,
        before: CLUSTER,
        script: r#"{"op":"add","id":7,"gen":1,"len":10,"repl":2}
{"op":"received","storage":11,"id":7,"gen":1,"len":10}
{"op":"received","storage":21,"id":7,"gen":1,"len":10}
{"op":"level","id":7}
{"op":"round"}
{"op":"received","storage":31,"id":7,"gen":1,"len":10}
{"op":"round"}
"#,
        answers: "ok 0 0
ok 1 0
ok 1 0
level 7; 3
round 1; copy 1 7 1 10 11 31
ok 1 0
round 2; delete 2 21 7
",
    },
    // No target has enough free bytes for the second copy.
    Row {
        name: "targets_need_free_bytes",
        config: EXAMPLE_CONFIG,
        before: CLUSTER,
        script: r#"{"op":"heartbeat","node":2,"remaining":[[21,10]]}
{"op":"heartbeat","node":3,"remaining":[[31,9]]}
{"op":"heartbeat","node":4,"remaining":[[41,5]]}
{"op":"add","id":7,"gen":1,"len":10,"repl":3}
{"op":"received","storage":11,"id":7,"gen":1,"len":10}
{"op":"round"}
"#,
        answers: "ok 0 0
ok 0 0
ok 0 0
ok 0 0
ok 1 0
round 1; copy 1 7 1 10 11 21
",
    },
    // Each refusal has its number and its name.
    Row {
        name: "refusals_are_named",
        config: EXAMPLE_CONFIG,
        before: CLUSTER,
        script: r#"{"op":"register","node":1,"rack":9,"storages":[99]}
{"op":"register","node":5,"rack":1,"storages":[51,51]}
{"op":"register","node":5,"rack":1,"storages":[11]}
{"op":"heartbeat","node":1,"remaining":[[21,5]]}
{"op":"heartbeat","node":1,"remaining":[[21,5],[99,5]]}
{"op":"dead","node":9}
{"op":"corrupt","storage":11,"id":7}
{"op":"storage_failed","storage":11}
{"op":"storage_failed","storage":11}
"#,
        answers: "refused 2 NodeKnown
refused 4 StorageKnown
refused 4 StorageKnown
refused 11 NotItsStorage
refused 3 UnknownStorage
refused 1 UnknownNode
refused 5 UnknownBlock
ok 0 0
refused 3 UnknownStorage
",
    },
];

/// Each worked example has its answers, byte for byte, with each number of shards and workers.
#[test]
fn same_bytes_for_any_shards_and_workers(rt: HostRuntime) -> Result<(), AllocError> {
    check_rows(&rt, rt.alloc(), WORKED.as_slice())
}
