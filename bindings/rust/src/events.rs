//! What happens in a cluster.

/// Blocks of a full report: those from `from` to `to`, all with one generation and length.
#[repr(C)]
#[derive(Clone, Copy, Debug, PartialEq, Eq)]
pub struct Entry {
    pub from: u64,
    pub to: u64,
    pub generation: u64,
    pub len: u64,
}

/// The free bytes of a storage.
#[repr(C)]
#[derive(Clone, Copy, Debug, PartialEq, Eq)]
pub struct Remaining {
    pub storage: u32,
    pub remaining: u64,
}

/// An event; docs/FORMATS.md says what each means.
///
/// There is no safe mode: a replica that is reported before its block is added is stray, and the
/// next round orders its delete. So add all blocks before the first report, and start rounds after
/// it.
#[derive(Clone, Debug, PartialEq, Eq)]
pub enum Event {
    Register { node: u32, rack: u32, storages: Vec<u32> },
    Drain { node: u32 },
    Undrain { node: u32 },
    Heartbeat { node: u32, remaining: Vec<Remaining> },
    Dead { node: u32 },
    StorageFailed { storage: u32 },
    Add { id: u64, generation: u64, len: u64, repl: u32 },
    Delete { id: u64 },
    SetReplication { id: u64, repl: u32 },
    Restamp { id: u64, generation: u64, len: u64 },
    Received { storage: u32, id: u64, generation: u64, len: u64 },
    Deleted { storage: u32, id: u64 },
    Corrupt { storage: u32, id: u64 },
    Report { storage: u32, blocks: Vec<Entry> },
}
