//! Versions of a manager, for readers on other threads.

use crate::library::{locate, Error, Manager, ReplicaRow};
use std::ptr;
use std::sync::atomic::{AtomicPtr, Ordering::SeqCst};
use std::sync::Arc;

/// All replicas after a number of accepted calls.
struct Version {
    calls: u64,
    rows: Vec<ReplicaRow>,
}

/// The newest version for one reader, until it takes it. A pointer that is not null is of
/// `Arc::into_raw`.
struct Slot(AtomicPtr<Version>);

impl Slot {
    fn put(&self, version: Arc<Version>) {
        drop(owned(self.0.swap(Arc::into_raw(version).cast_mut(), SeqCst)));
    }

    fn take(&self) -> Option<Arc<Version>> {
        owned(self.0.swap(ptr::null_mut(), SeqCst))
    }

    fn is_empty(&self) -> bool {
        self.0.load(SeqCst).is_null()
    }
}

impl Drop for Slot {
    fn drop(&mut self) {
        drop(self.take());
    }
}

/// The version of a pointer that a swap has taken out of a slot.
fn owned(at: *mut Version) -> Option<Arc<Version>> {
    // SAFETY: the slot had it of `Arc::into_raw`, and no other swap can get it.
    (!at.is_null()).then(|| unsafe { Arc::from_raw(at) })
}

/// Publishes where all blocks are to the [`Reader`]s that were made with it. It serves one manager.
///
/// A version has 16 bytes for each replica, of any tag. A reader keeps at most two versions: the
/// one that it answers from, and the newest, if it has not asked since. A publish frees the
/// versions that no reader keeps. So a reader frees one only if its publisher is dropped.
pub struct Publisher {
    slots: Vec<Arc<Slot>>,
    versions: Vec<Arc<Version>>,
}

impl Publisher {
    /// A publisher and its readers, each of which may go to a thread of its own.
    pub fn new(readers: usize) -> (Publisher, Vec<Reader>) {
        let slots: Vec<_> = (0..readers).map(|_| Arc::new(Slot(AtomicPtr::new(ptr::null_mut())))).collect();
        let readers = slots.iter().map(|slot| Reader { slot: slot.clone(), current: None }).collect();
        (Publisher { slots, versions: Vec::new() }, readers)
    }

    /// Publishes where all blocks of the manager are now, and returns the number of accepted calls.
    /// That is a receipt: a reader's call that begins after this one has returned answers with that
    /// number of calls or more. It waits for no reader. An `Err` is `Memory`; nothing is published
    /// then.
    pub fn publish(&mut self, manager: &mut Manager) -> Result<u64, Error> {
        self.versions.retain(|it| Arc::strong_count(it) > 1);
        let version = Arc::new(Version { calls: manager.calls()?, rows: manager.replica_rows()? });
        for slot in &self.slots {
            slot.put(version.clone());
        }
        self.versions.push(version.clone());
        Ok(version.calls)
    }
}

/// Where a block was after a number of accepted calls.
#[derive(Clone, Copy, Debug, PartialEq, Eq)]
pub struct Located<'a> {
    /// The accepted calls of the version that this is from; 0 before the first publish.
    pub calls: u64,
    /// The storages of the block's good replicas, ascending.
    pub storages: &'a [u32],
}

/// Answers where blocks are, from the version that was published last. It is `Send`: several
/// readers are in calls at the same time, also while another thread changes the manager or
/// publishes. No call waits, takes memory or has a lock.
pub struct Reader {
    slot: Arc<Slot>,
    current: Option<Arc<Version>>,
}

impl Reader {
    /// Where a block is: all its storages that `out` has space for. They are of one version, the
    /// newest when the call began or a later one. So no answer is older than one before.
    pub fn locate<'a>(&mut self, id: u64, out: &'a mut [u32]) -> Located<'a> {
        if !self.slot.is_empty() {
            self.current = self.slot.take();
        }
        match &self.current {
            Some(version) => Located { calls: version.calls, storages: locate(&version.rows, id, out) },
            None => Located { calls: 0, storages: &[] },
        }
    }
}
