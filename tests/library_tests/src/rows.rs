// Scripts with their answers: one function runs all rows of a table.
use bm_base::Config;
use bm_session::{Fault, FaultCounting, Summary, run};
use std::alloc::{AllocError, Global};
use std::process::Abort;
use std::random::RandomSource;
use std::sync::Wait;
use std::thread::Threads;

/// A script with its answers, worked out by hand. The answer to each line before it is `ok 0 0`.
pub struct Row {
    pub name: &'static str,
    pub config: Config,
    pub before: &'static str,
    pub script: &'static str,
    pub answers: &'static str,
}

/// The numbers of shards and workers that are tried. No answer depends on them.
const SHARDS_AND_WORKERS: [(u32, u32); 4] = [(1, 1), (3, 2), (5, 4), (2, 16)];

/// The configuration of the worked examples.
pub const EXAMPLE_CONFIG: Config = Config {
    shards: 3,
    workers: 2,
    work: 2,
    invalidate: 1000,
    pend: 100,
    first_round: 0,
    first_call: 0,
};

/// With one round left.
pub const LAST_ROUND: Config = Config {
    first_round: 18_446_744_073_709_551_614,
    ..EXAMPLE_CONFIG
};

/// With one call left.
pub const LAST_CALL: Config = Config {
    first_call: 18_446_744_073_709_551_614,
    ..EXAMPLE_CONFIG
};

/// With no round and no call left.
pub const ALL_SPENT: Config = Config {
    first_round: 18_446_744_073_709_551_615,
    first_call: 18_446_744_073_709_551_615,
    ..EXAMPLE_CONFIG
};

/// With one delete for each node and round.
pub const ONE_DELETE: Config = Config {
    invalidate: 1,
    ..EXAMPLE_CONFIG
};

/// With one copy for each alive node and round.
pub const ONE_COPY_A_NODE: Config = Config {
    work: 1,
    ..EXAMPLE_CONFIG
};

/// With copies that expire after two rounds.
pub const TWO_ROUNDS: Config = Config {
    pend: 2,
    ..EXAMPLE_CONFIG
};

pub const NOTHING: &str = "";

/// Four DataNodes with a storage each, two on each of two racks, and 1,000 bytes free on each
/// storage.
pub const CLUSTER: &str = r#"{"op":"register","node":1,"rack":1,"storages":[11]}
{"op":"register","node":2,"rack":1,"storages":[21]}
{"op":"register","node":3,"rack":2,"storages":[31]}
{"op":"register","node":4,"rack":2,"storages":[41]}
{"op":"heartbeat","node":1,"remaining":[[11,1000]]}
{"op":"heartbeat","node":2,"remaining":[[21,1000]]}
{"op":"heartbeat","node":3,"remaining":[[31,1000]]}
{"op":"heartbeat","node":4,"remaining":[[41,1000]]}
"#;

/// The first path through the tool: a node, a block, its first replica and its places.
pub const FIRST_PATH: &str = r#"{"op":"register","node":1,"rack":1,"storages":[11]}
{"op":"add","id":7,"gen":1,"len":10,"repl":3}
{"op":"received","storage":11,"id":7,"gen":1,"len":10}
{"op":"list_places","id":7}
"#;

pub const FIRST_PATH_ANSWERS: &str = "ok 0 0\nok 0 0\nok 1 0\nplaces 7; 11\n";

/// The answer of `run` for an input in memory, and its output.
pub fn run_with<H: Threads + Wait + RandomSource + Sync>(
    rt: &H,
    alloc: Global,
    config: &Config,
    input: &[u8],
) -> (Result<Summary, Fault>, Vec<u8>) {
    let mut reader = FaultCounting::new(input);
    let mut writer = FaultCounting::new(Vec::new(alloc));
    let result = run(rt, alloc, &mut reader, &mut writer, config);
    (result, writer.into_inner())
}

/// Checks that each script has the answers of its row, for each number of shards and workers, and
/// that its lines are counted.
pub fn check_rows<H: Abort + Threads + Wait + RandomSource + Sync>(
    rt: &H,
    alloc: Global,
    rows: &[Row],
) -> Result<(), AllocError> {
    let mut input = Vec::new(alloc);
    for row in rows {
        input.clear();
        input.extend_from_slice(row.before.as_bytes())?;
        input.extend_from_slice(row.script.as_bytes())?;
        for (shards, workers) in SHARDS_AND_WORKERS.as_slice() {
            is_answered(rt, alloc, row, input.as_slice(), *shards, *workers);
        }
    }
    Ok(())
}

/// Checks that the input has the answers of the row.
pub fn is_answered<H: Abort + Threads + Wait + RandomSource + Sync>(
    rt: &H,
    alloc: Global,
    row: &Row,
    input: &[u8],
    shards: u32,
    workers: u32,
) {
    let config = Config {
        shards,
        workers,
        ..row.config
    };
    let (result, text) = run_with(rt, alloc, &config, input);
    let answers = answers_in(row, text.as_slice());
    let is_so = result == Ok(counts_of(row)) && answers == row.answers.as_bytes();
    assert!(rt;
        is_so,
        "{} with {shards} shards and {workers} workers",
        row.name
    );
}

/// The answers to the script. Each answer to a line before it has seven bytes.
fn answers_in<'t>(row: &Row, text: &'t [u8]) -> &'t [u8] {
    let before = row.before.lines().count().saturating_mul(7);
    text.get(before..).unwrap_or(&[])
}

/// The numbers of lines, of accepted ones and of refused ones.
fn counts_of(row: &Row) -> Summary {
    let mut accepted = row.before.lines().count() as u64;
    let mut refused = 0u64;
    for answer in row.answers.lines() {
        if answer.starts_with("refused ") {
            refused = refused.saturating_add(1);
        } else {
            accepted = accepted.saturating_add(1);
        }
    }
    Summary {
        lines: accepted.saturating_add(refused),
        accepted,
        refused,
    }
}
