// Answers of locators, by plain numbers.
use bm_base::{Places, StorageId};
use bm_view::Located;
use std::alloc::Global;
use std::process::Abort;

pub(crate) fn storages_numbered(rt: &impl Abort, alloc: Global, numbers: &[u32]) -> Vec<StorageId> {
    let mut storages = Vec::new(alloc);
    for number in numbers {
        storages.push(StorageId(*number)).expect(rt, "memory");
    }
    storages
}

pub(crate) fn found_on(calls: u64, storages: &[StorageId]) -> Option<Located> {
    Some(Located {
        calls,
        places: Places::first_of(storages),
    })
}

/// Whether a locator has found a block on these storages, in the version with this number of calls.
pub(crate) fn is_found_on(
    rt: &impl Abort,
    alloc: Global,
    found: Option<Located>,
    calls: u64,
    numbers: &[u32],
) -> bool {
    let storages = storages_numbered(rt, alloc, numbers);
    let is_so = found == found_on(calls, storages.as_slice());
    drop(storages);
    is_so
}
