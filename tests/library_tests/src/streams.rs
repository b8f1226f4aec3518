// Readers and writers that fail, and answers that are flushed before the next read: no script on
// standard streams can observe these. The input is always the first path.
use crate::noting_streams::{Notes, Noting, NotingReader, Pieces};
use crate::rows::{EXAMPLE_CONFIG, FIRST_PATH, FIRST_PATH_ANSWERS};
use bm_base::Config;
use bm_session::{Fault, FaultCounting, Summary, run};
use std::alloc::Global;
use std::random::RandomSource;
use std::sync::Wait;
use std::thread::Threads;

/// What fails in a run.
#[derive(Clone, Copy)]
enum Cause {
    Nothing,
    /// The configuration, which has no shard.
    Config,
    /// The read of this number, from 0 on.
    Read(usize),
    /// The write or flush of this number, from 0 on.
    Call(usize),
}

/// The end of a run with this cause.
fn end_by(cause: Cause) -> Result<Summary, Fault> {
    match cause {
        Cause::Nothing => Ok(Summary {
            lines: 4,
            accepted: 4,
            refused: 0,
        }),
        Cause::Config => Err(Fault::Config),
        Cause::Read(_) => Err(Fault::Read),
        Cause::Call(_) => Err(Fault::Write),
    }
}

fn run_noted<H: Threads + Wait + RandomSource + Sync>(
    rt: &H,
    alloc: Global,
    pieces: Pieces,
    cause: Cause,
    notes: &Notes,
) -> Result<Summary, Fault> {
    let mut config: Config = EXAMPLE_CONFIG;
    let (mut failing_read, mut failing_call) = (None, None);
    match cause {
        Cause::Nothing => {}
        Cause::Config => config.shards = 0,
        Cause::Read(at) => failing_read = Some(at),
        Cause::Call(at) => failing_call = Some(at),
    }
    let input = NotingReader::new(FIRST_PATH, pieces, failing_read, notes);
    let mut reader = FaultCounting::new(input);
    let mut writer = FaultCounting::new(Noting::new(FIRST_PATH_ANSWERS, failing_call, notes));
    run(rt, alloc, &mut reader, &mut writer, &config)
}

/// What one read gives, what fails, and the numbers of reads, of writes and flushes, of bytes
/// written and of bytes flushed. The failed read or call is the last one.
const CASES: [(Pieces, Cause, [usize; 4]); 23] = [
    // Each answer is flushed before the next line is read. The calls are a write and a flush for
    // each line, and the flush at the end. The reads are four lines and the end of input.
    (Pieces::Lines, Cause::Nothing, [5, 9, 34, 34]),
    (Pieces::Lines, Cause::Config, [0, 0, 0, 0]),
    (Pieces::Lines, Cause::Read(0), [1, 0, 0, 0]),
    (Pieces::Lines, Cause::Read(1), [2, 2, 7, 7]),
    (Pieces::Lines, Cause::Read(2), [3, 4, 14, 14]),
    (Pieces::Lines, Cause::Read(3), [4, 6, 21, 21]),
    (Pieces::Lines, Cause::Read(4), [5, 8, 34, 34]),
    (Pieces::Lines, Cause::Call(0), [1, 1, 0, 0]),
    (Pieces::Lines, Cause::Call(1), [1, 2, 7, 0]),
    (Pieces::Lines, Cause::Call(2), [2, 3, 7, 7]),
    (Pieces::Lines, Cause::Call(3), [2, 4, 14, 7]),
    (Pieces::Lines, Cause::Call(4), [3, 5, 14, 14]),
    (Pieces::Lines, Cause::Call(5), [3, 6, 21, 14]),
    (Pieces::Lines, Cause::Call(6), [4, 7, 21, 21]),
    (Pieces::Lines, Cause::Call(7), [4, 8, 34, 21]),
    (Pieces::Lines, Cause::Call(8), [5, 9, 34, 34]),
    // One read gives all four lines: four writes, a flush, and the flush at the end.
    (Pieces::Whole, Cause::Nothing, [2, 6, 34, 34]),
    (Pieces::Whole, Cause::Call(0), [1, 1, 0, 0]),
    (Pieces::Whole, Cause::Call(1), [1, 2, 7, 0]),
    (Pieces::Whole, Cause::Call(2), [1, 3, 14, 0]),
    (Pieces::Whole, Cause::Call(3), [1, 4, 21, 0]),
    (Pieces::Whole, Cause::Call(4), [1, 5, 34, 0]),
    (Pieces::Whole, Cause::Call(5), [2, 6, 34, 34]),
];

#[test]
fn failed_reads_and_writes_end_the_run(rt: HostRuntime) {
    for (at, (pieces, cause, want)) in CASES.iter().enumerate() {
        let notes = Notes::new();
        let result = run_noted(&rt, rt.alloc(), *pieces, *cause, &notes);
        let is_so = result == end_by(*cause) && notes.counts() == *want && notes.is_as_wanted();
        assert!(rt; is_so, "case {at}");
    }
}
