//! What is measured: a block manager that accepts every call of the workload.

use plain::cluster::Refusal;
use plain::lists::Form;
use plain::manager::{Done, Limits, Manager};
use plain::report::Entry;
use plain::workload::STAMP;

/// How many commands of each kind a round gave.
pub struct Commanded {
    pub transfers: usize,
    pub deletes: usize,
}

pub trait Measured {
    /// A full report, and a heartbeat with free bytes by storage: made before the time counts.
    type Report;
    type Beat;

    fn new() -> Self;
    fn register(&mut self, node: u32, rack: u32, storages: &[u32]);
    fn add(&mut self, id: u64) -> Done;
    fn received(&mut self, id: u64, storage: u32) -> Done;
    fn deleted(&mut self, id: u64, storage: u32) -> Done;
    fn dead(&mut self, node: u32) -> Done;
    fn make_report(storage: u32, entries: Vec<Entry>) -> Self::Report;
    fn report(&mut self, report: &Self::Report) -> Done;
    fn make_beat(node: u32, free: Vec<(u32, u64)>) -> Self::Beat;
    fn heartbeat(&mut self, beat: &Self::Beat);
    fn places(&mut self, id: u64) -> Vec<u32>;
    fn round(&mut self) -> Commanded;
}

fn accept<T>(answer: Result<T, Refusal>) -> T {
    answer.unwrap_or_else(|refusal| panic!("refused: {refusal:?}"))
}

impl<F: Form> Measured for Manager<F> {
    type Report = (u32, Vec<Entry>);
    type Beat = (u32, Vec<(u32, u64)>);

    fn new() -> Self {
        Manager::new(Limits::default())
    }

    fn register(&mut self, node: u32, rack: u32, storages: &[u32]) {
        accept(Manager::register(self, node, rack, storages));
    }

    fn add(&mut self, id: u64) -> Done {
        accept(Manager::add(self, id, STAMP, 3))
    }

    fn received(&mut self, id: u64, storage: u32) -> Done {
        accept(Manager::received(self, storage, id, STAMP))
    }

    fn deleted(&mut self, id: u64, storage: u32) -> Done {
        accept(Manager::deleted(self, storage, id))
    }

    fn dead(&mut self, node: u32) -> Done {
        accept(Manager::dead(self, node))
    }

    fn make_report(storage: u32, entries: Vec<Entry>) -> Self::Report {
        (storage, entries)
    }

    fn report(&mut self, (storage, entries): &Self::Report) -> Done {
        accept(Manager::report(self, *storage, entries))
    }

    fn make_beat(node: u32, free: Vec<(u32, u64)>) -> Self::Beat {
        (node, free)
    }

    fn heartbeat(&mut self, (node, free): &Self::Beat) {
        accept(Manager::heartbeat(self, *node, free));
    }

    fn places(&mut self, id: u64) -> Vec<u32> {
        accept(Manager::places(self, id))
    }

    fn round(&mut self) -> Commanded {
        let mut sum = Commanded {
            transfers: 0,
            deletes: 0,
        };
        for (_, commands) in Manager::round(self) {
            sum.transfers += commands.transfers.len();
            sum.deletes += commands.deletes.len();
        }
        sum
    }
}
