//! What the calls of a manager answer.

/// How many replicas, of any tag, are there after an event and were not before, and the reverse.
#[derive(Clone, Copy, Debug, PartialEq, Eq)]
pub struct Done {
    pub added: u128,
    pub removed: u128,
}

/// What is known of a replica.
#[derive(Clone, Copy, Debug, PartialEq, Eq)]
pub enum Tag {
    Good,
    Stale,
    Bad,
    Stray,
}

#[derive(Clone, Copy, Debug, PartialEq, Eq)]
pub struct Replica {
    pub block: u64,
    pub storage: u32,
    pub tag: Tag,
}

/// What a round commands a node.
#[derive(Clone, Copy, Debug, PartialEq, Eq)]
pub enum Command {
    Copy { node: u32, block: u64, generation: u64, len: u64, source: u32, target: u32 },
    Delete { node: u32, storage: u32, block: u64 },
}

/// A round's number, and all that it commands, by ascending node.
#[derive(Clone, Debug, PartialEq, Eq)]
pub struct Commands {
    pub round: u64,
    pub commands: Vec<Command>,
}
