// The managers, tables and texts that all checks use, and how each size and each turn gets new
// ones.

use crate::managers::config;
use crate::tally::Tally;
use bm_arena::Arena;
use bm_base::{Config, Limits, Refusal};
use bm_manager::Manager;
use bm_topo::Topology;
use std::alloc::Global;
use std::mem;

#[derive(Drop)]
pub struct Bench {
    pub alloc: Global,
    pub manager: Manager,
    /// The manager to which the first one is compared.
    pub other: Manager,
    pub topology: Topology,
    pub arena: Arena,
    /// The answers of a manager before a call.
    pub before: String,
    /// The expected answers after the call.
    pub after: String,
    pub now: String,
    pub tally: Tally,
}

impl Bench {
    pub fn new(alloc: Global) -> Result<Bench, Refusal> {
        Ok(Bench {
            alloc,
            manager: Manager::new(alloc, Config::standard())?,
            other: Manager::new(alloc, Config::standard())?,
            topology: Topology::new(alloc, Limits::standard())?,
            arena: Arena::new(alloc)?,
            before: String::new(alloc),
            after: String::new(alloc),
            now: String::new(alloc),
            tally: Tally::EMPTY,
        })
    }

    /// Replaces the manager by an empty one. The old one stays if the new one is refused.
    pub fn renew_manager(&mut self, shards: u32, workers: u32) {
        let made = Manager::new(self.alloc, config(shards, workers));
        let replaced = self.replace_manager(made);
        self.tally.require(replaced);
    }

    pub fn replace_manager(&mut self, made: Result<Manager, Refusal>) -> Result<(), Refusal> {
        match made {
            Ok(new) => {
                drop(mem::replace(&mut self.manager, new));
                Ok(())
            }
            Err(refusal) => Err(refusal),
        }
    }

    /// Replaces the other manager by an empty one of one shard and one worker.
    pub fn renew_other(&mut self) {
        match Manager::new(self.alloc, Config::standard()) {
            Ok(new) => drop(mem::replace(&mut self.other, new)),
            Err(refusal) => self.tally.fail(refusal),
        }
    }

    pub fn renew_topology(&mut self) {
        match Topology::new(self.alloc, Limits::standard()) {
            Ok(new) => drop(mem::replace(&mut self.topology, new)),
            Err(refusal) => self.tally.fail(refusal),
        }
    }
}
