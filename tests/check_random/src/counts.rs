// The events and answers of a run, counted.

use bm_base::{Answer, Call, Commands, Event};

const KINDS: usize = 14;

/// The least number of accepted events of each kind.
const LEAST_OF_A_KIND: u32 = 5;

const LEAST_ACCEPTED: u32 = 300;

/// The least number of rounds with a command.
const LEAST_ROUNDS: u32 = 50;

const LEAST_LISTS: u32 = 30;

const LEAST_REFUSALS: u32 = 100;

/// The numbers of answers, by kind.
#[derive(Clone, Copy)]
pub struct Counts {
    /// The accepted events of each kind.
    accepted: [u32; KINDS],
    /// The rounds that command something.
    rounds: u32,
    /// The transfers and deletes of all rounds.
    commands: u32,
    /// The lists that are not empty.
    lists: u32,
    refusals: u32,
}

impl Counts {
    pub fn new() -> Counts {
        Counts {
            accepted: [0; KINDS],
            rounds: 0,
            commands: 0,
            lists: 0,
            refusals: 0,
        }
    }

    pub fn add(&mut self, call: &Call, answer: &Answer) {
        match answer {
            Answer::Done(_) => self.accept(call),
            Answer::Commanded(commands) => self.command(commands),
            Answer::Replicas(replicas) => self.list(replicas.as_slice().len()),
            Answer::ReplicaIds(replicas) => self.list(replicas.as_slice().len()),
            Answer::Blocks(blocks) => self.list(blocks.as_slice().len()),
            Answer::Storages(storages) => self.list(storages.as_slice().len()),
            Answer::Refused(_) => self.refusals = self.refusals.saturating_add(1),
            Answer::LevelIs(_) | Answer::IsRetired(_) | Answer::Number(_) => (),
        }
    }

    fn accept(&mut self, call: &Call) {
        let Call::Apply(event) = call else {
            return;
        };
        if let Some(count) = self.accepted.get_mut(kind_of(event)) {
            *count = count.saturating_add(1);
        }
    }

    fn command(&mut self, commands: &Commands) {
        let mut count = 0usize;
        for node in commands.nodes.as_slice() {
            count = count
                .saturating_add(node.transfers.as_slice().len())
                .saturating_add(node.deletes.as_slice().len());
        }
        if count > 0 {
            self.rounds = self.rounds.saturating_add(1);
        }
        self.commands = self
            .commands
            .saturating_add(u32::try_from(count).unwrap_or(u32::MAX));
    }

    fn list(&mut self, length: usize) {
        self.lists = self.lists.saturating_add(u32::from(length > 0));
    }

    fn accepted_events(&self) -> u32 {
        let mut all = 0u32;
        for count in &self.accepted {
            all = all.saturating_add(*count);
        }
        all
    }

    /// Prints one line of counts on standard error. A failed write is ignored.
    pub fn print(&self, rt: &HostRuntime) {
        let accepted = self.accepted_events();
        let Counts {
            rounds,
            commands,
            lists,
            refusals,
            ..
        } = self;
        let _ = eprintln!(rt;
            "{accepted} events accepted, {commands} commands in {rounds} rounds, {lists} lists, {refusals} refusals"
        );
    }

    /// Whether enough of each kind happened for the comparison to mean something.
    pub fn are_enough(&self) -> bool {
        self.accepted.iter().all(|count| *count >= LEAST_OF_A_KIND)
            && self.accepted_events() >= LEAST_ACCEPTED
            && self.rounds >= LEAST_ROUNDS
            && self.lists >= LEAST_LISTS
            && self.refusals >= LEAST_REFUSALS
    }
}

fn kind_of(event: &Event) -> usize {
    match event {
        Event::Register { .. } => 0,
        Event::Dead { .. } => 1,
        Event::StorageFailed { .. } => 2,
        Event::Drain { .. } => 3,
        Event::Undrain { .. } => 4,
        Event::Heartbeat { .. } => 5,
        Event::AddBlock { .. } => 6,
        Event::DeleteBlock { .. } => 7,
        Event::SetReplication { .. } => 8,
        Event::Restamp { .. } => 9,
        Event::Received { .. } => 10,
        Event::Deleted { .. } => 11,
        Event::Corrupt { .. } => 12,
        Event::FullReport { .. } => 13,
    }
}
