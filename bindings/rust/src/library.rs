//! The C library: a handle, its lines, and its codes.

use crate::answers::{Command, Commands, Done, Replica, Tag};
use crate::events::{Entry, Event, Remaining};
use std::collections::hash_map::RandomState;
use std::fmt;
use std::hash::{BuildHasher, Hasher};
use std::ptr;

#[repr(C)]
struct Handle {
    at: *mut u8,
    is_open: bool,
}

/// How a manager is set up; docs/FORMATS.md has the ranges. No answer depends on `shards` or
/// `secret`.
#[repr(C)]
#[derive(Clone, Copy, Debug, PartialEq, Eq)]
pub struct Options {
    /// Parts into which the blocks are cut, 1 to 64.
    pub shards: u32,
    /// Copies that a round commands for each alive node, 1 to 1,000.
    pub work: u32,
    /// Deletes that a round commands one node, 1 to 1,000,000.
    pub invalidate: u32,
    /// Rounds after which a copy is given up, 1 to 1,000,000.
    pub pend: u32,
    /// The round number at the start.
    pub first_round: u64,
    /// The number of accepted calls at the start.
    pub first_call: u64,
    /// Random bits that whoever chooses block numbers does not know. 0 is no secret: then chosen
    /// numbers can make each call slow.
    pub secret: u64,
    /// The most nodes alive at a time, 1 to 65,536; 0 means 256.
    pub nodes: u32,
    /// The most storages at a time, 1 to 1,048,576; 0 means 4,096.
    pub storages: u32,
}

impl Default for Options {
    /// The standard values, with a secret that is drawn. The random keys of std's `RandomState`,
    /// which come from the system, make it.
    fn default() -> Options {
        let secret = RandomState::new().build_hasher().finish();
        Options {
            shards: 1,
            work: 2,
            invalidate: 1000,
            pend: 100,
            first_round: 0,
            first_call: 0,
            secret,
            nodes: 256,
            storages: 4096,
        }
    }
}

extern "C" {
    fn puljemrod_version() -> u32;
    fn puljemrod_open(handle: *mut Handle, options: *const Options) -> u32;
    fn puljemrod_line(handle: *mut Handle, line: *const u8, len: usize, answer_len: *mut usize) -> u32;
    fn puljemrod_text(handle: *mut Handle, answer_len: *mut usize) -> u32;
    fn puljemrod_answer(handle: *mut Handle, from: usize, out: *mut u8, out_len: usize) -> usize;
    fn puljemrod_close(handle: *mut Handle) -> u32;
    fn puljemrod_register(handle: *mut Handle, node: u32, rack: u32, storages: *const u32, len: usize) -> u32;
    fn puljemrod_dead(handle: *mut Handle, node: u32) -> u32;
    fn puljemrod_storage_failed(handle: *mut Handle, storage: u32) -> u32;
    fn puljemrod_drain(handle: *mut Handle, node: u32) -> u32;
    fn puljemrod_undrain(handle: *mut Handle, node: u32) -> u32;
    fn puljemrod_heartbeat(handle: *mut Handle, node: u32, remaining: *const Remaining, len: usize) -> u32;
    fn puljemrod_add_block(handle: *mut Handle, id: u64, generation: u64, len: u64, repl: u32) -> u32;
    fn puljemrod_delete_block(handle: *mut Handle, id: u64) -> u32;
    fn puljemrod_set_replication(handle: *mut Handle, id: u64, repl: u32) -> u32;
    fn puljemrod_restamp(handle: *mut Handle, id: u64, generation: u64, len: u64) -> u32;
    fn puljemrod_received(handle: *mut Handle, storage: u32, id: u64, generation: u64, len: u64) -> u32;
    fn puljemrod_deleted(handle: *mut Handle, storage: u32, id: u64) -> u32;
    fn puljemrod_corrupt(handle: *mut Handle, storage: u32, id: u64) -> u32;
    fn puljemrod_full_report(handle: *mut Handle, storage: u32, entries: *const Entry, len: usize) -> u32;
    fn puljemrod_done(handle: *mut Handle, done: *mut DoneRow) -> u32;
    fn puljemrod_level(handle: *mut Handle, id: u64, level: *mut u64) -> u32;
    fn puljemrod_retired(handle: *mut Handle, node: u32, is_retired: *mut u64) -> u32;
    fn puljemrod_calls(handle: *mut Handle, calls: *mut u64) -> u32;
    fn puljemrod_rounds(handle: *mut Handle, rounds: *mut u64) -> u32;
    fn puljemrod_replicas(handle: *mut Handle, count: *mut u64) -> u32;
    fn puljemrod_corrupt_replicas(handle: *mut Handle, count: *mut u64) -> u32;
    fn puljemrod_excess_replicas(handle: *mut Handle, count: *mut u64) -> u32;
    fn puljemrod_missing_blocks(handle: *mut Handle, count: *mut u64) -> u32;
    fn puljemrod_blocks_on(handle: *mut Handle, storage: u32, count: *mut u64) -> u32;
    fn puljemrod_places(handle: *mut Handle, id: u64, count: *mut u64) -> u32;
    fn puljemrod_replica_rows(handle: *mut Handle, from: usize, out: *mut ReplicaRow, len: usize) -> usize;
    fn puljemrod_pair_rows(handle: *mut Handle, from: usize, out: *mut PairRow, len: usize) -> usize;
    fn puljemrod_number_rows(handle: *mut Handle, from: usize, out: *mut u64, len: usize) -> usize;
    fn puljemrod_locate(rows: *const ReplicaRow, row_count: usize, id: u64, out: *mut u32, len: usize) -> usize;
    fn puljemrod_round(handle: *mut Handle, round: *mut u64, copies: *mut u64, deletes: *mut u64) -> u32;
    fn puljemrod_copies(handle: *mut Handle, from: usize, out: *mut CopyRow, len: usize) -> usize;
    fn puljemrod_deletes(handle: *mut Handle, from: usize, out: *mut DeleteRow, len: usize) -> usize;
}

#[repr(C)]
#[derive(Default)]
struct DoneRow {
    added: u64,
    added_high: u64,
    removed: u64,
    removed_high: u64,
}

#[repr(C)]
#[derive(Clone, Copy, Default)]
pub(crate) struct ReplicaRow {
    block: u64,
    storage: u32,
    tag: u32,
}

#[repr(C)]
#[derive(Clone, Copy, Default)]
struct PairRow {
    block: u64,
    storage: u32,
}

#[repr(C)]
#[derive(Clone, Copy, Default)]
struct CopyRow {
    node: u32,
    source: u32,
    target: u32,
    block: u64,
    generation: u64,
    len: u64,
}

#[repr(C)]
#[derive(Clone, Copy, Default)]
struct DeleteRow {
    node: u32,
    storage: u32,
    block: u64,
}

const NO_LEVEL: u64 = 5;

fn tag(number: u32) -> Tag {
    match number {
        0 => Tag::Good,
        1 => Tag::Stale,
        2 => Tag::Bad,
        _ => Tag::Stray,
    }
}

fn copy_command(row: &CopyRow) -> Command {
    let CopyRow { node, source, target, block, generation, len } = *row;
    Command::Copy { node, block, generation, len, source, target }
}

fn delete_command(row: &DeleteRow) -> Command {
    let DeleteRow { node, storage, block } = *row;
    Command::Delete { node, storage, block }
}

fn whole(low: u64, high: u64) -> u128 {
    u128::from(high) << 64 | u128::from(low)
}

unsafe fn apply(handle: *mut Handle, event: &Event) -> u32 {
    unsafe {
        match *event {
            Event::Register { node, rack, ref storages } => {
                puljemrod_register(handle, node, rack, storages.as_ptr(), storages.len())
            }
            Event::Drain { node } => puljemrod_drain(handle, node),
            Event::Undrain { node } => puljemrod_undrain(handle, node),
            Event::Heartbeat { node, ref remaining } => {
                puljemrod_heartbeat(handle, node, remaining.as_ptr(), remaining.len())
            }
            Event::Dead { node } => puljemrod_dead(handle, node),
            Event::StorageFailed { storage } => puljemrod_storage_failed(handle, storage),
            Event::Add { id, generation, len, repl } => puljemrod_add_block(handle, id, generation, len, repl),
            Event::Delete { id } => puljemrod_delete_block(handle, id),
            Event::SetReplication { id, repl } => puljemrod_set_replication(handle, id, repl),
            Event::Restamp { id, generation, len } => puljemrod_restamp(handle, id, generation, len),
            Event::Received { storage, id, generation, len } => {
                puljemrod_received(handle, storage, id, generation, len)
            }
            Event::Deleted { storage, id } => puljemrod_deleted(handle, storage, id),
            Event::Corrupt { storage, id } => puljemrod_corrupt(handle, storage, id),
            Event::Report { storage, ref blocks } => {
                puljemrod_full_report(handle, storage, blocks.as_ptr(), blocks.len())
            }
        }
    }
}

/// Copies out rows from an index on, and returns how many.
type CopyOut<R> = unsafe extern "C" fn(*mut Handle, usize, *mut R, usize) -> usize;

/// Why a call has no answer. A refused call has changed nothing.
///
/// With the number [`Error::NO_TEXT`] the line is not refused: it is answered and counts, but
/// memory was refused for the text of its answer. [`Manager::text`] makes the text.
#[derive(Clone, Copy, Debug, PartialEq, Eq)]
pub struct Error {
    number: u32,
}

impl Error {
    /// The number of `Memory`: nothing has changed, and the call may be made again.
    pub const MEMORY: u32 = 14;
    /// The number of `NoText`.
    pub const NO_TEXT: u32 = 34;

    /// The number of the refusal, as docs/FORMATS.md lists it, or `NO_TEXT`.
    pub fn number(&self) -> u32 {
        self.number
    }

    /// Its name, as docs/FORMATS.md lists it, or `NoText`.
    pub fn name(&self) -> &'static str {
        match self.number {
            1 => "UnknownNode",
            2 => "NodeKnown",
            3 => "UnknownStorage",
            4 => "StorageKnown",
            5 => "UnknownBlock",
            6 => "BlockKnown",
            7 => "StillStored",
            8 => "BadReplication",
            9 => "OldGeneration",
            10 => "TooMany",
            11 => "NotItsStorage",
            12 => "RoundsSpent",
            13 => "CallsSpent",
            14 => "Memory",
            15 => "BadConfig",
            20 => "BadLine",
            21 => "LongLine",
            34 => "NoText",
            _ => "Unknown",
        }
    }
}

impl fmt::Display for Error {
    fn fmt(&self, f: &mut fmt::Formatter<'_>) -> fmt::Result {
        match self.number {
            Error::NO_TEXT => f.write_str("the line is answered, but memory was refused for the text"),
            number => write!(f, "refused {number} {}", self.name()),
        }
    }
}

impl std::error::Error for Error {}

/// The version of the library that is linked, as `2.0.0`.
pub fn version() -> String {
    // SAFETY: it takes nothing.
    let number = unsafe { puljemrod_version() };
    format!("{}.{}.{}", number / 1_000_000, number / 1_000 % 1_000, number % 1_000)
}

fn checked(code: u32) -> Result<(), Error> {
    if code == 0 { Ok(()) } else { Err(Error { number: code }) }
}

/// The storages of a block's good replicas, among all replicas of a state, in their order.
pub(crate) fn locate<'a>(rows: &[ReplicaRow], id: u64, out: &'a mut [u32]) -> &'a [u32] {
    // SAFETY: the rows are read, and at most `out.len()` storages are written, while the call runs.
    let count = unsafe { puljemrod_locate(rows.as_ptr(), rows.len(), id, out.as_mut_ptr(), out.len()) };
    &out[..count]
}

/// A block manager. It is `Send`: it may move to another thread. Each call takes `&mut self`, a
/// question too, since the library keeps the last answer: so no two calls run at the same time. It
/// is not `Sync`; several threads share a `Mutex<Manager>`.
///
/// ```compile_fail,E0277
/// fn share<T: Sync>() {}
/// share::<puljemrod::Manager>();
/// ```
pub struct Manager {
    // The library asks that a handle never moves once it is open.
    handle: Box<Handle>,
}

// SAFETY: `Send` of the handle is proved (crates/puljemrod).
unsafe impl Send for Manager {}

impl Manager {
    /// An empty manager: no node, no block. `BadConfig` where an option is outside its range.
    pub fn open(options: &Options) -> Result<Manager, Error> {
        let mut handle = Box::new(Handle { at: ptr::null_mut(), is_open: false });
        // SAFETY: the handle is zeros, and both pointers lead to values of this call.
        checked(unsafe { puljemrod_open(&mut *handle, options) })?;
        Ok(Manager { handle })
    }

    /// Answers a line of the tool, without a line end. A refusal is an answer too (`refused 5 ..`).
    /// An `Err` is `Memory`, and then nothing has changed, or `NoText`.
    pub fn line(&mut self, line: &[u8]) -> Result<Vec<u8>, Error> {
        let mut len = 0;
        // SAFETY: the handle is open, and the line is `line.len()` bytes.
        let code = unsafe { puljemrod_line(&mut *self.handle, line.as_ptr(), line.len(), &mut len) };
        self.answer(code, len)
    }

    /// The text of the last answer: after `NoText`, once more, or that of a typed call. No state
    /// changes. An `Err` is `NoText` alone.
    pub fn text(&mut self) -> Result<Vec<u8>, Error> {
        let mut len = 0;
        // SAFETY: the handle is open.
        let code = unsafe { puljemrod_text(&mut *self.handle, &mut len) };
        self.answer(code, len)
    }

    fn answer(&mut self, code: u32, len: usize) -> Result<Vec<u8>, Error> {
        if matches!(code, Error::MEMORY | Error::NO_TEXT) {
            return Err(Error { number: code });
        }
        let mut answer = Vec::new();
        answer.try_reserve_exact(len).map_err(|_| Error { number: Error::NO_TEXT })?;
        answer.resize(len, 0);
        // SAFETY: the handle is open, and the answer is copied into `len` bytes of this call.
        let copied = unsafe { puljemrod_answer(&mut *self.handle, 0, answer.as_mut_ptr(), len) };
        answer.truncate(copied);
        Ok(answer)
    }

    /// Takes an event; says how many replicas came and went.
    pub fn apply(&mut self, event: &Event) -> Result<Done, Error> {
        // SAFETY: the handle is open, and each list is read while its call runs.
        checked(unsafe { apply(&mut *self.handle, event) })?;
        let mut done = DoneRow::default();
        // SAFETY: the handle is open, and the counts are of this call.
        checked(unsafe { puljemrod_done(&mut *self.handle, &mut done) })?;
        Ok(Done { added: whole(done.added, done.added_high), removed: whole(done.removed, done.removed_high) })
    }

    /// Makes a round: what each DataNode is to copy and to delete, by ascending node.
    pub fn round(&mut self) -> Result<Commands, Error> {
        let (mut round, mut copies, mut deletes) = (0, 0, 0);
        // SAFETY: the handle is open, and the numbers are of this call.
        checked(unsafe { puljemrod_round(&mut *self.handle, &mut round, &mut copies, &mut deletes) })?;
        let copies = self.rows(puljemrod_copies, copies);
        let deletes = self.rows(puljemrod_deletes, deletes);
        let by_node = |command: &Command| match command {
            Command::Copy { node, .. } | Command::Delete { node, .. } => *node,
        };
        let mut commands: Vec<Command> = copies.iter().map(copy_command).collect();
        commands.extend(deletes.iter().map(delete_command));
        // It is stable: the copies of a node stay before its deletes.
        commands.sort_by_key(by_node);
        Ok(Commands { round, commands })
    }

    fn rows<R: Copy + Default>(&mut self, copy_out: CopyOut<R>, count: u64) -> Vec<R> {
        let mut rows = vec![R::default(); count as usize];
        // SAFETY: the handle is open, and the rows are copied into an array of this call.
        let copied = unsafe { copy_out(&mut *self.handle, 0, rows.as_mut_ptr(), rows.len()) };
        rows.truncate(copied);
        rows
    }

    /// The number that a query answers.
    fn query(&mut self, ask: impl FnOnce(*mut Handle, *mut u64) -> u32) -> Result<u64, Error> {
        let mut answer = 0;
        checked(ask(&mut *self.handle, &mut answer))?;
        Ok(answer)
    }

    fn pairs(&mut self, count: u64) -> Vec<(u64, u32)> {
        self.rows(puljemrod_pair_rows, count).iter().map(|row: &PairRow| (row.block, row.storage)).collect()
    }

    pub(crate) fn replica_rows(&mut self) -> Result<Vec<ReplicaRow>, Error> {
        // SAFETY: the handle is open, here and in each question below.
        let count = self.query(|handle, answer| unsafe { puljemrod_replicas(handle, answer) })?;
        Ok(self.rows(puljemrod_replica_rows, count))
    }

    /// All replicas, by block and storage.
    pub fn replicas(&mut self) -> Result<Vec<Replica>, Error> {
        let replica = |row: &ReplicaRow| Replica { block: row.block, storage: row.storage, tag: tag(row.tag) };
        Ok(self.replica_rows()?.iter().map(replica).collect())
    }

    /// The stale and bad replicas, as pairs of block and storage.
    pub fn corrupt(&mut self) -> Result<Vec<(u64, u32)>, Error> {
        let count = self.query(|handle, answer| unsafe { puljemrod_corrupt_replicas(handle, answer) })?;
        Ok(self.pairs(count))
    }

    /// The replicas in excess, as pairs of block and storage.
    pub fn excess(&mut self) -> Result<Vec<(u64, u32)>, Error> {
        let count = self.query(|handle, answer| unsafe { puljemrod_excess_replicas(handle, answer) })?;
        Ok(self.pairs(count))
    }

    /// The known blocks of which no replica is live or drained.
    pub fn missing(&mut self) -> Result<Vec<u64>, Error> {
        let count = self.query(|handle, answer| unsafe { puljemrod_missing_blocks(handle, answer) })?;
        Ok(self.rows(puljemrod_number_rows, count))
    }

    /// The blocks of all replicas on a storage.
    pub fn blocks_on(&mut self, storage: u32) -> Result<Vec<u64>, Error> {
        let count = self.query(|handle, answer| unsafe { puljemrod_blocks_on(handle, storage, answer) })?;
        Ok(self.rows(puljemrod_number_rows, count))
    }

    /// The storages of a block's good replicas.
    pub fn places(&mut self, id: u64) -> Result<Vec<u32>, Error> {
        let count = self.query(|handle, answer| unsafe { puljemrod_places(handle, id, answer) })?;
        Ok(self.rows(puljemrod_number_rows, count).iter().map(|storage| *storage as u32).collect())
    }

    /// The level of a block: 0 (copied first) to 3, or 4 without a usable replica; `None` if the
    /// block needs no copy.
    pub fn level(&mut self, id: u64) -> Result<Option<u32>, Error> {
        let answer = self.query(|handle, answer| unsafe { puljemrod_level(handle, id, answer) })?;
        Ok((answer != NO_LEVEL).then_some(answer as u32))
    }

    /// Whether a draining node can be taken away.
    pub fn retired(&mut self, node: u32) -> Result<bool, Error> {
        Ok(self.query(|handle, answer| unsafe { puljemrod_retired(handle, node, answer) })? == 1)
    }

    /// The number of accepted events and rounds.
    pub fn calls(&mut self) -> Result<u64, Error> {
        self.query(|handle, answer| unsafe { puljemrod_calls(handle, answer) })
    }

    /// The number of the last round.
    pub fn rounds(&mut self) -> Result<u64, Error> {
        self.query(|handle, answer| unsafe { puljemrod_rounds(handle, answer) })
    }
}

impl Drop for Manager {
    fn drop(&mut self) {
        // SAFETY: the handle is open, and nobody uses it again.
        unsafe { puljemrod_close(&mut *self.handle) };
    }
}
