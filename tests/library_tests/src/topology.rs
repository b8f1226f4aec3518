// With ample memory, each event that no check refuses is accepted, and the cluster's answers are
// those worked out by hand. A table of scenarios, each a list of steps with their expected answers.
use crate::support::check_step;
use bm_base::{
    BlockId, Entry, Event, Gen, Items, Limits, NodeId, Rack, Refusal, Remaining, Stamp, StorageId,
};
use bm_topo::Topology;
use std::alloc::Global;
use std::process::Abort;

/// An event on a cluster.
#[derive(Clone, Copy)]
enum Case {
    /// A node registers: the node, its rack, its first storage and the number of its storages.
    Comes(u32, u32, u32, u32),
    /// A node registers on rack 1 with two storages.
    ComesWithTwo(u32, u32, u32),
    /// A node sends a heartbeat: the node, a storage and its free bytes.
    Beats(u32, u32, u64),
    /// A node sends a heartbeat with two storages, each with its free bytes.
    BeatsWithTwo(u32, u32, u64, u32, u64),
    /// A node dies.
    Dies(u32),
    /// A storage fails.
    Fails(u32),
    /// A storage sends a full report with this number of entries, each for the same block.
    Reports(u32, usize),
    /// A storage sends a full report of one run of blocks: its first block, its last block, and the
    /// number of entries that repeat it.
    ReportsRuns(u32, u64, u64, usize),
    /// A node begins to drain.
    Drains(u32),
    /// A node stops draining.
    Stays(u32),
}

/// What is done with an event.
#[derive(Clone, Copy)]
enum Deed {
    /// Checks the event and, unless it is refused, prepares and commits it.
    Take,
    Check,
    /// Checks the event and, unless it is refused, prepares and aborts it.
    GiveUp,
    /// Asks whether the alive nodes would be on two racks or more after the event.
    Foresee,
}

/// A change of a cluster, or a question to it.
#[derive(Clone, Copy)]
enum Step {
    Do(Deed, Case),
    /// Registers 256 nodes without storages, each on a rack of its own.
    Crowd,
    HasRacks,
    Nodes,
    Storages,
    NodeOf(u32),
    RackOf(u32),
    FreeOn(u32),
    NodeAt(u32),
    StorageAt(u32),
    NodeDrains(u32),
    OnDraining(u32),
}

/// The answer to a step.
#[derive(Clone, Copy, PartialEq, Eq)]
enum Answer {
    Fine,
    Refused(Refusal),
    Yes,
    No,
    Number(u64),
    Nothing,
}

/// The storages from `first` on, `count` of them.
fn storages(rt: &impl Abort, alloc: Global, first: u32, count: u32) -> Items<StorageId> {
    let mut ids = Vec::new(alloc);
    for index in 0..count {
        ids.push(StorageId(first.saturating_add(index)))
            .expect(rt, "memory");
    }
    Items::from_vec(ids)
}

/// `count` entries of the same run of blocks.
fn entries(rt: &impl Abort, alloc: Global, from: u64, to: u64, count: usize) -> Items<Entry> {
    let mut entries = Vec::new(alloc);
    for _ in 0..count {
        let entry = Entry {
            from: BlockId(from),
            to: BlockId(to),
            stamp: Stamp {
                generation: Gen(1),
                len: 10,
            },
        };
        entries.push(entry).expect(rt, "memory");
    }
    Items::from_vec(entries)
}

fn heartbeat(rt: &impl Abort, alloc: Global, node: u32, case: &[Remaining]) -> Event {
    Event::Heartbeat {
        node: NodeId(node),
        remaining: Items::from_vec(Vec::from_slice(alloc, case).expect(rt, "memory")),
    }
}

fn free(storage: u32, remaining: u64) -> Remaining {
    Remaining {
        storage: StorageId(storage),
        remaining,
    }
}

fn two(rt: &impl Abort, alloc: Global, first: u32, second: u32) -> Items<StorageId> {
    let both = [StorageId(first), StorageId(second)];
    Items::from_vec(Vec::from_slice(alloc, both.as_slice()).expect(rt, "memory"))
}

fn event_of(rt: &impl Abort, alloc: Global, case: Case) -> Event {
    match case {
        Case::Comes(node, rack, first, count) => Event::Register {
            node: NodeId(node),
            rack: Rack(rack),
            storages: storages(rt, alloc, first, count),
        },
        Case::ComesWithTwo(node, first, second) => Event::Register {
            node: NodeId(node),
            rack: Rack(1),
            storages: two(rt, alloc, first, second),
        },
        Case::Beats(node, storage, left) => {
            heartbeat(rt, alloc, node, [free(storage, left)].as_slice())
        }
        Case::BeatsWithTwo(node, first, left, second, other) => {
            heartbeat(
                rt,
                alloc,
                node,
                [free(first, left), free(second, other)].as_slice(),
            )
        }
        Case::Dies(node) => Event::Dead { node: NodeId(node) },
        Case::Fails(storage) => Event::StorageFailed {
            storage: StorageId(storage),
        },
        Case::Reports(storage, count) => Event::FullReport {
            storage: StorageId(storage),
            entries: entries(rt, alloc, 7, 7, count),
        },
        Case::ReportsRuns(storage, from, to, count) => Event::FullReport {
            storage: StorageId(storage),
            entries: entries(rt, alloc, from, to, count),
        },
        Case::Drains(node) => Event::Drain { node: NodeId(node) },
        Case::Stays(node) => Event::Undrain { node: NodeId(node) },
    }
}

fn take(topology: &mut Topology, event: &Event) -> Answer {
    if let Err(refusal) = topology.check(event) {
        return Answer::Refused(refusal);
    }
    if let Err(refusal) = topology.prepare(event) {
        return Answer::Refused(refusal);
    }
    topology.commit(event);
    Answer::Fine
}

fn give_up(topology: &mut Topology, event: &Event) -> Answer {
    if let Err(refusal) = topology.check(event) {
        return Answer::Refused(refusal);
    }
    if let Err(refusal) = topology.prepare(event) {
        return Answer::Refused(refusal);
    }
    topology.abort();
    Answer::Fine
}

fn check_event(topology: &Topology, event: &Event) -> Answer {
    match topology.check(event) {
        Ok(()) => Answer::Fine,
        Err(refusal) => Answer::Refused(refusal),
    }
}

fn yes(is_so: bool) -> Answer {
    if is_so { Answer::Yes } else { Answer::No }
}

fn number(found: Option<u64>) -> Answer {
    match found {
        Some(number) => Answer::Number(number),
        None => Answer::Nothing,
    }
}

fn done_with(topology: &mut Topology, deed: Deed, event: &Event) -> Answer {
    match deed {
        Deed::Take => take(topology, event),
        Deed::Check => check_event(topology, event),
        Deed::GiveUp => give_up(topology, event),
        Deed::Foresee => yes(topology.multi_after(event)),
    }
}

/// Registers a node without storages, on a rack of its own.
fn take_without_storages(topology: &mut Topology, alloc: Global, node: u32) -> Answer {
    let event = Event::Register {
        node: NodeId(node),
        rack: Rack(node),
        storages: Items::from_vec(Vec::new(alloc)),
    };
    take(topology, &event)
}

/// `Fine` if each of the 256 nodes is accepted.
fn crowd(topology: &mut Topology, alloc: Global) -> Answer {
    for node in 0..256 {
        if take_without_storages(topology, alloc, node) != Answer::Fine {
            return Answer::No;
        }
    }
    Answer::Fine
}

fn answer_of(rt: &impl Abort, alloc: Global, topology: &mut Topology, step: Step) -> Answer {
    match step {
        Step::Do(deed, case) => done_with(topology, deed, &event_of(rt, alloc, case)),
        Step::Crowd => crowd(topology, alloc),
        Step::HasRacks => yes(topology.multi_rack()),
        Step::OnDraining(storage) => yes(topology.is_draining(StorageId(storage))),
        Step::NodeDrains(node) => match topology.node_drains(NodeId(node)) {
            Some(drains) => yes(drains),
            None => Answer::Nothing,
        },
        _ => number(looked_up(topology, step)),
    }
}

fn looked_up(topology: &Topology, step: Step) -> Option<u64> {
    match step {
        Step::Nodes => Some(u64::from(topology.alive_nodes())),
        Step::Storages => Some(u64::from(topology.storage_count())),
        Step::NodeOf(storage) => topology.node_of(StorageId(storage)).map(|n| u64::from(n.0)),
        Step::RackOf(storage) => topology.rack_of(StorageId(storage)).map(|r| u64::from(r.0)),
        Step::FreeOn(storage) => topology.remaining(StorageId(storage)),
        Step::NodeAt(index) => topology.node_at(index).map(|n| u64::from(n.0)),
        Step::StorageAt(index) => topology.storage_at(index).map(|s| u64::from(s.0)),
        _ => None,
    }
}

/// Runs the steps in order, and checks each answer.
fn run_steps(
    rt: &impl Abort,
    alloc: Global,
    topology: &mut Topology,
    name: &str,
    steps: &[(Step, Answer)],
) {
    for (index, (step, must)) in steps.iter().enumerate() {
        let is_correct = answer_of(rt, alloc, topology, *step) == *must;
        check_step(rt, name, index, is_correct);
    }
}

/// Steps on a new cluster with their expected answers: first the setup, then the steps of the case.
#[derive(Clone, Copy)]
struct Scenario<'a> {
    name: &'a str,
    setup: &'a [(Step, Answer)],
    steps: &'a [(Step, Answer)],
}

/// Four nodes with a storage each, two on each of two racks.
const FOUR_NODES: [(Step, Answer); 12] = [
    (Step::Do(Deed::Take, Case::Comes(1, 1, 11, 1)), Answer::Fine),
    (Step::Do(Deed::Take, Case::Comes(2, 1, 21, 1)), Answer::Fine),
    (Step::Do(Deed::Take, Case::Comes(3, 2, 31, 1)), Answer::Fine),
    (Step::Do(Deed::Take, Case::Comes(4, 2, 41, 1)), Answer::Fine),
    (Step::FreeOn(11), Answer::Number(0)),
    (Step::FreeOn(21), Answer::Number(0)),
    (Step::FreeOn(31), Answer::Number(0)),
    (Step::FreeOn(41), Answer::Number(0)),
    (Step::Do(Deed::Take, Case::Beats(1, 11, 1000)), Answer::Fine),
    (Step::Do(Deed::Take, Case::Beats(2, 21, 1000)), Answer::Fine),
    (Step::Do(Deed::Take, Case::Beats(3, 31, 1000)), Answer::Fine),
    (Step::Do(Deed::Take, Case::Beats(4, 41, 1000)), Answer::Fine),
];

static SCENARIOS: [Scenario<'static>; 13] = [
    Scenario {
        name: "four nodes in ascending order on two racks",
        setup: &FOUR_NODES,
        steps: &[
            (Step::Nodes, Answer::Number(4)),
            (Step::HasRacks, Answer::Yes),
            (Step::NodeOf(31), Answer::Number(3)),
            (Step::RackOf(31), Answer::Number(2)),
            (Step::FreeOn(31), Answer::Number(1000)),
            (Step::NodeOf(99), Answer::Nothing),
            (Step::RackOf(99), Answer::Nothing),
            (Step::FreeOn(99), Answer::Nothing),
            (Step::Storages, Answer::Number(4)),
            (Step::StorageAt(2), Answer::Number(31)),
            (Step::StorageAt(4), Answer::Nothing),
            (Step::NodeAt(0), Answer::Number(1)),
            (Step::NodeAt(4), Answer::Nothing),
        ],
    },
    Scenario {
        name: "deaths leave one rack",
        setup: &FOUR_NODES,
        steps: &[
            (Step::Do(Deed::Foresee, Case::Dies(3)), Answer::Yes),
            (Step::Do(Deed::Take, Case::Dies(3)), Answer::Fine),
            (Step::Do(Deed::Foresee, Case::Dies(4)), Answer::No),
            (Step::HasRacks, Answer::Yes),
            (Step::Do(Deed::Take, Case::Dies(4)), Answer::Fine),
            (Step::HasRacks, Answer::No),
            (Step::NodeOf(31), Answer::Nothing),
            (Step::Storages, Answer::Number(2)),
        ],
    },
    Scenario {
        name: "a node on another rack makes two",
        setup: &[],
        steps: &[
            (Step::Do(Deed::Foresee, Case::Comes(1, 1, 0, 0)), Answer::No),
            (Step::Do(Deed::Take, Case::Comes(1, 1, 0, 0)), Answer::Fine),
            (Step::Do(Deed::Foresee, Case::Comes(2, 1, 0, 0)), Answer::No),
            (
                Step::Do(Deed::Foresee, Case::Comes(2, 2, 0, 0)),
                Answer::Yes,
            ),
            (Step::Do(Deed::Foresee, Case::Dies(1)), Answer::No),
        ],
    },
    // A dead node loses its storages, so it can join again with others.
    Scenario {
        name: "a dead node comes again with other storages",
        setup: &FOUR_NODES,
        steps: &[
            (Step::Do(Deed::Take, Case::Dies(1)), Answer::Fine),
            (Step::Do(Deed::Take, Case::Comes(1, 7, 13, 1)), Answer::Fine),
            (Step::NodeOf(11), Answer::Nothing),
            (Step::RackOf(13), Answer::Number(7)),
            (Step::FreeOn(13), Answer::Number(0)),
        ],
    },
    Scenario {
        name: "a failed storage comes back with a later node",
        setup: &FOUR_NODES,
        steps: &[
            (Step::Do(Deed::Take, Case::Fails(11)), Answer::Fine),
            (Step::Nodes, Answer::Number(4)),
            (
                Step::Do(Deed::Check, Case::Fails(11)),
                Answer::Refused(Refusal::UnknownStorage),
            ),
            (Step::Do(Deed::Take, Case::Comes(5, 1, 11, 1)), Answer::Fine),
            (Step::NodeOf(11), Answer::Number(5)),
            (Step::FreeOn(11), Answer::Number(0)),
        ],
    },
    Scenario {
        name: "the last value of a storage counts",
        setup: &FOUR_NODES,
        steps: &[
            (
                Step::Do(
                    Deed::Take,
                    Case::BeatsWithTwo(1, 11, 5, 11, 18_446_744_073_709_551_615),
                ),
                Answer::Fine,
            ),
            (Step::FreeOn(11), Answer::Number(18_446_744_073_709_551_615)),
        ],
    },
    Scenario {
        name: "what is given up leaves the cluster",
        setup: &FOUR_NODES,
        steps: &[
            (
                Step::Do(Deed::GiveUp, Case::Comes(5, 1, 51, 1)),
                Answer::Fine,
            ),
            (Step::Nodes, Answer::Number(4)),
            (Step::NodeOf(51), Answer::Nothing),
            (Step::Do(Deed::Take, Case::Comes(5, 1, 51, 1)), Answer::Fine),
            (Step::Nodes, Answer::Number(5)),
        ],
    },
    Scenario {
        name: "refusals in the order of the checks",
        setup: &FOUR_NODES,
        steps: &[
            (
                Step::Do(Deed::Check, Case::ComesWithTwo(1, 99, 99)),
                Answer::Refused(Refusal::NodeKnown),
            ),
            (
                Step::Do(Deed::Check, Case::ComesWithTwo(5, 51, 51)),
                Answer::Refused(Refusal::StorageKnown),
            ),
            (
                Step::Do(Deed::Check, Case::ComesWithTwo(5, 11, 11)),
                Answer::Refused(Refusal::StorageKnown),
            ),
            (
                Step::Do(Deed::Check, Case::ComesWithTwo(5, 51, 11)),
                Answer::Refused(Refusal::StorageKnown),
            ),
            (Step::Do(Deed::Check, Case::Comes(5, 1, 0, 0)), Answer::Fine),
            (
                Step::Do(Deed::Check, Case::BeatsWithTwo(9, 99, 5, 99, 5)),
                Answer::Refused(Refusal::UnknownNode),
            ),
            (
                Step::Do(Deed::Check, Case::BeatsWithTwo(1, 21, 5, 99, 5)),
                Answer::Refused(Refusal::UnknownStorage),
            ),
            (
                Step::Do(Deed::Check, Case::BeatsWithTwo(1, 11, 5, 21, 5)),
                Answer::Refused(Refusal::NotItsStorage),
            ),
            (
                Step::Do(Deed::Check, Case::Dies(9)),
                Answer::Refused(Refusal::UnknownNode),
            ),
            (
                Step::Do(Deed::Check, Case::Reports(11, 65_536)),
                Answer::Fine,
            ),
            (
                Step::Do(Deed::Check, Case::Reports(11, 65_537)),
                Answer::Refused(Refusal::TooMany),
            ),
            (
                Step::Do(Deed::Check, Case::Reports(99, 65_537)),
                Answer::Refused(Refusal::UnknownStorage),
            ),
            (
                Step::Do(Deed::Check, Case::Drains(9)),
                Answer::Refused(Refusal::UnknownNode),
            ),
            (
                Step::Do(Deed::Check, Case::Stays(9)),
                Answer::Refused(Refusal::UnknownNode),
            ),
        ],
    },
    Scenario {
        name: "no 257th node",
        setup: &[],
        steps: &[
            (Step::Crowd, Answer::Fine),
            (Step::Nodes, Answer::Number(256)),
            (
                Step::Do(Deed::Check, Case::Comes(256, 1, 0, 0)),
                Answer::Refused(Refusal::TooMany),
            ),
            (Step::Do(Deed::Take, Case::Dies(9)), Answer::Fine),
            (
                Step::Do(Deed::Check, Case::Comes(256, 1, 0, 0)),
                Answer::Fine,
            ),
        ],
    },
    Scenario {
        name: "no 4097th storage",
        setup: &[],
        steps: &[
            (
                Step::Do(Deed::Take, Case::Comes(1, 1, 0, 4095)),
                Answer::Fine,
            ),
            (
                Step::Do(Deed::Check, Case::ComesWithTwo(2, 5000, 5001)),
                Answer::Refused(Refusal::TooMany),
            ),
            (
                Step::Do(Deed::Take, Case::Comes(2, 1, 5000, 1)),
                Answer::Fine,
            ),
            (Step::Storages, Answer::Number(4096)),
            (Step::StorageAt(4095), Answer::Number(5000)),
            (
                Step::Do(Deed::Check, Case::Comes(3, 1, 5001, 1)),
                Answer::Refused(Refusal::TooMany),
            ),
        ],
    },
    Scenario {
        name: "storages at the limit",
        setup: &FOUR_NODES,
        steps: &[
            (
                Step::Do(Deed::Take, Case::Comes(5, 1, 1001, 4092)),
                Answer::Fine,
            ),
            (Step::Storages, Answer::Number(4096)),
            (
                Step::Do(Deed::Take, Case::Comes(6, 1, 6000, 1)),
                Answer::Refused(Refusal::TooMany),
            ),
        ],
    },
    // The runs of a report may contain 1,048,576 numbers together. A run that ends before it begins
    // contains none.
    Scenario {
        name: "numbers of a report at the limit",
        setup: &FOUR_NODES,
        steps: &[
            (
                Step::Do(Deed::Check, Case::ReportsRuns(11, 0, 1_048_575, 1)),
                Answer::Fine,
            ),
            (
                Step::Do(Deed::Check, Case::ReportsRuns(11, 0, 1_048_576, 1)),
                Answer::Refused(Refusal::TooMany),
            ),
            (
                Step::Do(
                    Deed::Check,
                    Case::ReportsRuns(
                        11,
                        18_446_744_073_709_551_615,
                        18_446_744_073_709_551_615,
                        1,
                    ),
                ),
                Answer::Fine,
            ),
            (
                Step::Do(
                    Deed::Check,
                    Case::ReportsRuns(11, 0, 18_446_744_073_709_551_615, 65_536),
                ),
                Answer::Refused(Refusal::TooMany),
            ),
            (
                Step::Do(Deed::Check, Case::ReportsRuns(11, 1, 16, 65_536)),
                Answer::Fine,
            ),
            (
                Step::Do(Deed::Check, Case::ReportsRuns(11, 1, 17, 65_536)),
                Answer::Refused(Refusal::TooMany),
            ),
            (
                Step::Do(
                    Deed::Check,
                    Case::ReportsRuns(11, 18_446_744_073_709_551_615, 0, 65_536),
                ),
                Answer::Fine,
            ),
            (
                Step::Do(Deed::Check, Case::ReportsRuns(11, 9, 8, 65_537)),
                Answer::Refused(Refusal::TooMany),
            ),
        ],
    },
    Scenario {
        name: "nodes drain until they stay or die",
        setup: &FOUR_NODES,
        steps: &[
            (Step::NodeDrains(1), Answer::No),
            (Step::NodeDrains(9), Answer::Nothing),
            (Step::OnDraining(11), Answer::No),
            (Step::OnDraining(99), Answer::No),
            (Step::Do(Deed::GiveUp, Case::Drains(1)), Answer::Fine),
            (Step::NodeDrains(1), Answer::No),
            (Step::Do(Deed::Take, Case::Drains(1)), Answer::Fine),
            (Step::Do(Deed::Take, Case::Drains(3)), Answer::Fine),
            (Step::Do(Deed::Take, Case::Drains(1)), Answer::Fine),
            (Step::NodeDrains(1), Answer::Yes),
            (Step::NodeDrains(2), Answer::No),
            (Step::OnDraining(11), Answer::Yes),
            (Step::OnDraining(21), Answer::No),
            (Step::OnDraining(31), Answer::Yes),
            (Step::HasRacks, Answer::Yes),
            (Step::Do(Deed::Foresee, Case::Drains(4)), Answer::Yes),
            (Step::Nodes, Answer::Number(4)),
            (Step::FreeOn(11), Answer::Number(1000)),
            (Step::Do(Deed::Take, Case::Stays(1)), Answer::Fine),
            (Step::Do(Deed::Take, Case::Stays(1)), Answer::Fine),
            (Step::NodeDrains(1), Answer::No),
            (Step::OnDraining(31), Answer::Yes),
            (Step::Do(Deed::Take, Case::Dies(3)), Answer::Fine),
            (Step::NodeDrains(3), Answer::Nothing),
            (Step::Do(Deed::Take, Case::Comes(3, 2, 31, 1)), Answer::Fine),
            (Step::NodeDrains(3), Answer::No),
        ],
    },
];

fn check(rt: &impl Abort, alloc: Global, scenario: &Scenario<'_>) {
    let mut topology = Topology::new(alloc, Limits::standard()).expect(rt, "memory");
    run_steps(rt, alloc, &mut topology, "setup", scenario.setup);
    run_steps(rt, alloc, &mut topology, scenario.name, scenario.steps);
    drop(topology);
}

#[test]
fn clusters_answer_as_worked_out(rt: HostRuntime) {
    for scenario in &SCENARIOS {
        check(&rt, rt.alloc(), scenario);
    }
}

/// A topology keeps to the limits that it is given, also above the standard ones.
#[test]
fn given_limits_hold(rt: HostRuntime) {
    let alloc = rt.alloc();
    let limits = Limits {
        nodes: 600,
        storages: 6_001,
    };
    let mut topology = Topology::new(alloc, limits).expect(&rt, "memory");
    for node in 0..600 {
        let event = event_of(&rt, alloc, Case::Comes(node, node % 7, node * 1_000, 10));
        assert!(rt; take(&mut topology, &event) == Answer::Fine);
    }
    let further = event_of(&rt, alloc, Case::Comes(600, 1, 600_000, 1));
    assert!(rt; take(&mut topology, &further) == Answer::Refused(Refusal::TooMany));
    for storage in 0..6_000 {
        let place = storage / 10 * 1_000 + storage % 10;
        assert!(rt; topology.storage_at(storage) == Some(StorageId(place)));
        assert!(rt; topology.node_of(StorageId(place)) == Some(NodeId(storage / 10)));
    }
    let dead = event_of(&rt, alloc, Case::Dies(300));
    assert!(rt; take(&mut topology, &dead) == Answer::Fine);
    let larger = event_of(&rt, alloc, Case::Comes(600, 1, 600_000, 12));
    assert!(rt; take(&mut topology, &larger) == Answer::Refused(Refusal::TooMany));
    assert!(rt; take(&mut topology, &further) == Answer::Fine);
    assert!(rt; topology.storages_of(NodeId(300)).is_empty());
    assert!(rt; topology.storages_of(NodeId(599)).len() == 10);
    assert!(rt; topology.limits() == limits);
    drop(topology);
    drop((further, dead, larger));
}
