// Threads that read in parallel with a manager, and get its receipts over channels.

use bm_base::BlockId;
use bm_view::{Located, Locator, Receipt};
use crossbeam_channel::Receiver;
use std::sync::Wait;
use std::thread::{Threads, join};

/// The number of reads before each receipt, and after it.
const READS: u32 = 20;

/// What readers compare with.
#[derive(Drop)]
pub struct List {
    pub block: BlockId,
    /// The block's locations in each version that can be published.
    pub located: Vec<Located>,
}

/// The results of the reads.
#[derive(Clone, Copy)]
pub struct Reads {
    /// The calls of the version of the last read.
    last: Option<u64>,
    /// No read may be of a version with fewer calls.
    least: u64,
    /// The number of reads of a later version than the read before.
    pub later: u32,
    /// The number of reads of no version, and of those that went back.
    pub wrong: u32,
}

impl Reads {
    fn new() -> Reads {
        Reads {
            last: None,
            least: 0,
            later: 0,
            wrong: 0,
        }
    }

    /// Counts a read. It is wrong if it is of no version, or of an older one than was read or
    /// learnt before.
    fn note(&mut self, list: &List, seen: Located) {
        let is_known = list.located.as_slice().iter().any(|one| *one == seen);
        let is_later = matches!(self.last, Some(before) if before < seen.calls);
        self.later = self.later.saturating_add(u32::from(is_later));
        self.add_wrong(u32::from(!is_known || seen.calls < self.least));
        self.last = Some(seen.calls);
        self.least = seen.calls;
    }

    pub fn add_wrong(&mut self, count: u32) {
        self.wrong = self.wrong.saturating_add(count);
    }

    /// The results of two readers together.
    fn plus(self, other: Reads) -> Reads {
        Reads {
            later: self.later.saturating_add(other.later),
            wrong: self.wrong.saturating_add(other.wrong),
            ..self
        }
    }
}

/// Reads in two threads.
pub fn read_both<R: Threads + Wait + Sync>(
    rt: &R,
    list: &List,
    one: Locator,
    from_one: Receiver<Receipt>,
    other: Locator,
    from_other: Receiver<Receipt>,
) -> Reads {
    let (first, second) = join(
        rt,
        move || read_all(rt, list, one, from_one),
        move || read_all(rt, list, other, from_other),
    );
    first.plus(second)
}

/// Reads before and after each receipt that comes.
fn read_all<R: Wait>(rt: &R, list: &List, mut locator: Locator, from: Receiver<Receipt>) -> Reads {
    let reads = read_each(rt, list, &mut locator, &from);
    drop(from);
    drop(locator);
    reads
}

fn read_each<R: Wait>(
    rt: &R,
    list: &List,
    locator: &mut Locator,
    from: &Receiver<Receipt>,
) -> Reads {
    let mut reads = Reads::new();
    for receipt in from.iter(rt) {
        read_around(list, locator, receipt, &mut reads);
    }
    reads
}

/// Reads before and after the receipt is learnt.
fn read_around(list: &List, locator: &mut Locator, receipt: Receipt, reads: &mut Reads) {
    read_many(list, locator, reads);
    reads.least = receipt.calls().max(reads.least);
    locator.learn(receipt);
    read_many(list, locator, reads);
}

fn read_many(list: &List, locator: &mut Locator, reads: &mut Reads) {
    for _ in 0..READS {
        match locator.locate(list.block) {
            Some(seen) => reads.note(list, seen),
            None => reads.add_wrong(1),
        }
    }
}
