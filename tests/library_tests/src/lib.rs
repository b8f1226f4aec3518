//! Tests of what no clause promises, and answers worked out by hand. They test the parts of a shard
//! and of a round, the manager with its crew, readers and lines, the small callers, and runs of the
//! line tool. No call may be refused while there is memory. All are in one crate, since compiling
//! the crates below takes most of the time. Scripts for the tool itself are in `examples/lines`.
#![tactic(auto)]

mod arena;
mod caller_cases;
mod calls;
mod crew;
mod example_scripts;
mod levels;
mod limits;
mod lines;
mod locator_answers;
mod long_lines;
mod manager;
mod noting_streams;
mod pages;
mod pending_transfers;
mod placement;
mod queries;
mod queues;
mod report;
mod round;
mod round_scan;
mod rows;
mod shard;
mod spent_counters;
mod streams;
mod support;
mod topology;
mod vectors;
mod view;
