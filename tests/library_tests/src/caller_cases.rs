// Each caller once with ample memory, on a small cluster, with answers worked out by hand.

use bm_base::{
    BlockId, Call, Config, Done, Entry, Event, Gen, Items, Limits, NodeCommands, NodeId, Places,
    Rack, Refusal, Replica, Stamp, StorageId, Tag, Transfer,
};
use bm_crew::NoGate;
use bm_manager::Manager;
use bm_view::{Located, Locator, Publisher, open_view};
use callers::{
    Pieces, Seen, SideBySide, apply_counted, apply_or_free, apply_with_reader, arrival, for_node,
    missing_if_dead, publish_and_locate, replica_lines, tidy_line, turn,
};
use std::alloc::Global;
use std::process::Abort;
use std::sync::Wait;
use std::thread::Threads;

fn stamp() -> Stamp {
    Stamp {
        generation: Gen(1),
        len: 10,
    }
}

fn add(block: u64, repl: u32) -> Event {
    Event::AddBlock {
        id: BlockId(block),
        stamp: stamp(),
        repl,
    }
}

fn received_event(storage: u32, block: u64) -> Event {
    Event::Received {
        storage: StorageId(storage),
        id: BlockId(block),
        stamp: stamp(),
    }
}

fn dead(node: u32) -> Event {
    Event::Dead { node: NodeId(node) }
}

fn register(rt: &impl Abort, alloc: Global, node: u32, storage: u32) -> Event {
    Event::register(alloc, NodeId(node), Rack(node), &[StorageId(storage)]).expect(rt, "memory")
}

/// Seven events: block 7 with two requested replicas; node 1 with a replica of it on storage 11;
/// and node 2 on another rack, with storage 21, which is empty.
fn cluster(rt: &impl Abort, alloc: Global) -> Vec<Event> {
    let entries = [Entry::one(BlockId(7), stamp())];
    let mut first = arrival(alloc, NodeId(1), Rack(1), StorageId(11), 1000, &entries).expect(
        rt, "memory",
    );
    let mut second = arrival(alloc, NodeId(2), Rack(2), StorageId(21), 1000, &[]).expect(
        rt, "memory",
    );
    let mut events = Vec::new(alloc);
    events.push(add(7, 2)).expect(rt, "memory");
    events.append(&mut first).expect(rt, "memory");
    events.append(&mut second).expect(rt, "memory");
    events
}

/// What is tried on a manager: on an empty one, or on one that has applied the events of `cluster`.
#[derive(Clone, Copy)]
enum Trial {
    EmptyTakesTurns,
    EmptyIsCounted,
    HasArrived,
    StopsAtRefusal,
    FreesNothing,
    IsSeen,
    IsSeenByReader,
    IsSeenWithoutChanges,
    IsSeenUntilRefusal,
}

fn try_on<R: Abort + Threads + Wait + Sync>(rt: &R, alloc: Global, config: Config, trial: Trial) {
    let mut manager = Manager::new(alloc, config).expect(rt, "memory");
    try_one(rt, alloc, &mut manager, trial);
}

/// A function of its own, since a manager that is dropped at the end of the function makes the
/// proof of each step longer.
fn try_one<R: Abort + Threads + Wait + Sync>(
    rt: &R,
    alloc: Global,
    manager: &mut Manager,
    trial: Trial,
) {
    match trial {
        Trial::EmptyTakesTurns => check_turns(rt, alloc, manager),
        Trial::EmptyIsCounted => check_pieces(rt, alloc, manager),
        _ => {
            for event in &cluster(rt, alloc) {
                manager.apply(rt, &NoGate, event).expect(rt, "memory");
            }
            try_on_cluster(rt, alloc, manager, trial);
        }
    }
}

fn try_on_cluster<R: Abort + Threads + Wait + Sync>(
    rt: &R,
    alloc: Global,
    manager: &mut Manager,
    trial: Trial,
) {
    match trial {
        Trial::HasArrived => check_arrival(rt, manager),
        Trial::StopsAtRefusal => check_stop(rt, manager),
        Trial::FreesNothing => check_spare(rt, manager),
        _ => check_view(rt, alloc, manager, trial),
    }
}

fn is_at(manager: &Manager, block: u64, storages: &[StorageId]) -> bool {
    match manager.places(BlockId(block)) {
        Ok(places) => places.as_slice() == storages,
        Err(_) => false,
    }
}

fn check_arrival(rt: &impl Abort, manager: &Manager) {
    assert_eq!(rt; manager.calls(), 7);
    assert!(rt; is_at(manager, 7, &[StorageId(11)]));
    assert!(rt; manager.retired(NodeId(2)) == Ok(false));
}

#[test]
fn nodes_arrive(rt: HostRuntime) {
    try_on(&rt, rt.alloc(), Config::standard(), Trial::HasArrived);
}

/// Whether a node is to copy block 7 from storage 11 to storage 21, and nothing else.
fn is_copy(commands: Option<&NodeCommands>) -> bool {
    let copy = Transfer {
        block: BlockId(7),
        stamp: stamp(),
        source: StorageId(11),
        target: StorageId(21),
    };
    match commands {
        Some(commands) => commands.transfers.as_slice() == [copy].as_slice()
            && commands.deletes.is_empty(),
        None => false,
    }
}

fn check_first_turn<R: Abort + Threads + Wait + Sync>(
    rt: &R,
    alloc: Global,
    manager: &mut Manager,
) {
    let events = cluster(rt, alloc);
    let commands = turn(rt, manager, events.as_slice()).expect(rt, "memory");
    assert_eq!(rt; commands.round, 1);
    assert!(rt; is_copy(for_node(&commands, NodeId(1))));
    assert!(rt; for_node(&commands, NodeId(2)).is_none());
}

fn check_second_turn<R: Abort + Threads + Wait + Sync>(rt: &R, manager: &mut Manager) {
    let commands = turn(rt, manager, &[received_event(21, 7)]).expect(rt, "memory");
    assert_eq!(rt; commands.round, 2);
    assert!(rt; commands.nodes.is_empty());
    assert!(rt; is_at(manager, 7, &[StorageId(11), StorageId(21)]));
}

fn check_turns<R: Abort + Threads + Wait + Sync>(rt: &R, alloc: Global, manager: &mut Manager) {
    check_first_turn(rt, alloc, manager);
    check_second_turn(rt, manager);
}

#[test]
fn a_turn_commands_the_copy_that_is_due(rt: HostRuntime) {
    try_on(&rt, rt.alloc(), Config::standard(), Trial::EmptyTakesTurns);
}

fn check_stop<R: Abort + Threads + Wait + Sync>(rt: &R, manager: &mut Manager) {
    let events = [received_event(21, 7), dead(9), dead(1)];
    assert!(rt; matches!(turn(rt, manager, &events), Err(Refusal::UnknownNode)));
    assert_eq!(rt; (manager.calls(), manager.rounds()), (8, 0));
    assert!(rt; is_at(manager, 7, &[StorageId(11), StorageId(21)]));
}

#[test]
fn a_turn_stops_at_a_refusal(rt: HostRuntime) {
    try_on(&rt, rt.alloc(), Config::standard(), Trial::StopsAtRefusal);
}

fn replica(block: u64, storage: u32, tag: Tag) -> Replica {
    Replica {
        block: BlockId(block),
        storage: StorageId(storage),
        tag,
    }
}

#[test]
fn a_line_for_each_replica(rt: HostRuntime) {
    let alloc = rt.alloc();
    let replicas = [
        replica(7, 11, Tag::Good),
        replica(7, 4_294_967_295, Tag::Stale),
        replica(8, 0, Tag::Bad),
        replica(18_446_744_073_709_551_615, 21, Tag::Stray),
    ];
    let replicas = Items::from_slice(alloc, &replicas).expect(&rt, "memory");
    let text = replica_lines(alloc, &replicas).expect(&rt, "memory");
    assert_eq!(rt;
        text.as_str(),
        "7 on 11 is good\n7 on 4294967295 is stale\n8 on 0 is bad\n18446744073709551615 on 21 is stray\n"
    );
}

/// Block 7 is on storage 11, block 8 on 11 and on 21, and block 9 nowhere. The fifth call is
/// refused.
fn calls(rt: &impl Abort, alloc: Global) -> Vec<Call> {
    let events = [
        add(7, 2),
        add(8, 2),
        add(9, 1),
        register(rt, alloc, 1, 11),
        register(rt, alloc, 1, 12),
        register(rt, alloc, 2, 21),
        received_event(11, 7),
        received_event(11, 8),
        received_event(21, 8),
    ];
    let mut calls = Vec::new(alloc);
    for event in Vec::from_array(alloc, events).expect(rt, "memory") {
        calls.push(Call::Apply(event)).expect(rt, "memory");
    }
    calls
}

fn check_if_dead<R: Abort + Threads + Wait + Sync>(
    rt: &R,
    alloc: Global,
    node: u32,
    missing: &[BlockId],
) {
    let calls = calls(rt, alloc);
    let (config, limits) = (Config::standard(), Limits::standard());
    let found = missing_if_dead(rt, alloc, config, limits, calls.as_slice(), NodeId(node)).expect(
        rt, "memory",
    );
    assert!(rt; found.as_is.as_slice() == [BlockId(9)].as_slice());
    assert!(rt; found.if_dead.as_slice() == missing);
}

#[test]
fn what_is_missing_if_a_node_dies(rt: HostRuntime) {
    check_if_dead(&rt, rt.alloc(), 1, &[BlockId(7), BlockId(9)]);
    check_if_dead(&rt, rt.alloc(), 2, &[BlockId(9)]);
}

#[test]
fn the_death_of_an_unknown_node_is_refused(rt: HostRuntime) {
    let alloc = rt.alloc();
    let calls = calls(&rt, alloc);
    let (config, limits) = (Config::standard(), Limits::standard());
    let found = missing_if_dead(&rt, alloc, config, limits, calls.as_slice(), NodeId(3));
    assert!(rt; matches!(found, Err(Refusal::UnknownNode)));
    let none = Config {
        shards: 0,
        ..Config::standard()
    };
    let found = missing_if_dead(&rt, alloc, none, limits, calls.as_slice(), NodeId(1));
    assert!(rt; matches!(found, Err(Refusal::BadConfig)));
    let one_node = Limits { nodes: 1, ..limits };
    let found = missing_if_dead(&rt, alloc, config, one_node, calls.as_slice(), NodeId(2));
    assert!(rt; matches!(found, Err(Refusal::UnknownNode)));
}

fn check_spare<R: Abort + Threads + Wait + Sync>(rt: &R, manager: &mut Manager) {
    let mut spare = Some(5);
    let done = Done {
        added: 1,
        removed: 0,
    };
    assert!(rt; apply_or_free(rt, manager, &mut spare, &received_event(21, 7)) == Ok(done));
    assert!(rt;
        apply_or_free(rt, manager, &mut spare, &received_event(99, 7))
            == Err(Refusal::UnknownStorage)
    );
    assert_eq!(rt; spare, Some(5));
    assert!(rt; is_at(manager, 7, &[StorageId(11), StorageId(21)]));
}

#[test]
fn nothing_is_freed_where_memory_is_ample(rt: HostRuntime) {
    try_on(&rt, rt.alloc(), Config::standard(), Trial::FreesNothing);
}

fn found_on(calls: u64, storages: &[StorageId]) -> Option<Located> {
    Some(Located {
        calls,
        places: Places::first_of(storages),
    })
}

#[test]
fn a_reader_sees_what_is_published(rt: HostRuntime) {
    try_on(&rt, rt.alloc(), Config::standard(), Trial::IsSeen);
}

/// Events after those of the cluster.
fn changes() -> [Event; 3] {
    [
        received_event(21, 7),
        Event::StorageFailed {
            storage: StorageId(11),
        },
        Event::Corrupt {
            storage: StorageId(21),
            id: BlockId(7),
        },
    ]
}

/// What a reader finds of block 7 after this number of calls.
fn version(calls: u64) -> Option<Located> {
    match calls {
        8 => found_on(8, &[StorageId(11), StorageId(21)]),
        9 => found_on(9, &[StorageId(21)]),
        10 => found_on(10, &[]),
        _ => None,
    }
}

/// Whether a reader that learned of the version after `learnt` calls may see this: block 7 as of
/// that version or a later one.
fn may_be_seen(seen: &Seen, learnt: u64) -> bool {
    match seen.found {
        Some(found) => {
            seen.learnt == learnt && learnt <= found.calls && seen.found == version(found.calls)
        }
        None => false,
    }
}

/// Whether the reader learned of `count` versions, one for each change, and saw after each what it
/// may see.
fn are_seen(ended: &SideBySide, count: usize) -> bool {
    match &ended.seen {
        Ok(seen) => {
            seen.len() == count
                && seen
                    .iter()
                    .zip(8u64..)
                    .all(|(one, learnt)| may_be_seen(one, learnt))
        }
        Err(_) => false,
    }
}

/// Opens a view with one reader, and runs the trial with it.
fn check_view<R: Abort + Threads + Wait + Sync>(
    rt: &R,
    alloc: Global,
    manager: &mut Manager,
    trial: Trial,
) {
    let (mut publisher, mut locators) = open_view(rt, alloc, 1).expect(rt, "memory");
    match locators.pop() {
        Some(mut locator) => check_on_view(rt, alloc, manager, &mut publisher, &mut locator, trial),
        None => assert!(rt; false),
    }
    publisher.end(rt);
}

fn check_on_view<R: Abort + Threads + Wait + Sync>(
    rt: &R,
    alloc: Global,
    manager: &mut Manager,
    publisher: &mut Publisher,
    locator: &mut Locator,
    trial: Trial,
) {
    match trial {
        Trial::IsSeen => check_seen(rt, manager, publisher, locator),
        Trial::IsSeenByReader => {
            check_with_reader(
                rt,
                alloc,
                manager,
                publisher,
                locator,
                &changes(),
                Ok(()),
                3,
            )
        }
        Trial::IsSeenWithoutChanges => {
            check_with_reader(rt, alloc, manager, publisher, locator, &[], Ok(()), 0)
        }
        _ => {
            let events = [received_event(21, 7), dead(9), dead(1)];
            let want = Err(Refusal::UnknownNode);
            check_with_reader(rt, alloc, manager, publisher, locator, &events, want, 1)
        }
    }
}

fn check_seen<R: Abort + Threads + Wait + Sync>(
    rt: &R,
    manager: &mut Manager,
    publisher: &mut Publisher,
    locator: &mut Locator,
) {
    let seen = publish_and_locate(rt, manager, publisher, locator, BlockId(7));
    assert!(rt; seen == Ok(found_on(7, &[StorageId(11)])));
}

fn check_with_reader<R: Abort + Threads + Wait + Sync>(
    rt: &R,
    alloc: Global,
    manager: &mut Manager,
    publisher: &mut Publisher,
    locator: &mut Locator,
    events: &[Event],
    want: Result<(), Refusal>,
    count: usize,
) {
    let ended = apply_with_reader(rt, alloc, manager, publisher, locator, events, BlockId(7));
    assert!(rt; ended.changes == want);
    assert!(rt; are_seen(&ended, count));
}

#[test]
fn a_concurrent_reader_learns_of_each_change(rt: HostRuntime) {
    for _ in 0..100 {
        try_on(&rt, rt.alloc(), Config::standard(), Trial::IsSeenByReader);
    }
    try_on(
        &rt,
        rt.alloc(),
        Config::standard(),
        Trial::IsSeenWithoutChanges,
    );
}

#[test]
fn changes_with_a_concurrent_reader_stop_at_a_refusal(rt: HostRuntime) {
    try_on(
        &rt,
        rt.alloc(),
        Config::standard(),
        Trial::IsSeenUntilRefusal,
    );
}

/// Lines, each with the canonical line of the same call. `None` if the line asks for no call.
static TIDIED: [(&'static str, Option<&'static str>); 5] = [
    (
        " { \"repl\" : 3, \"len\":10 ,\"op\":\"add\", \"gen\": 1,\t\"id\":7 } ",
        Some("{\"op\":\"add\",\"id\":7,\"gen\":1,\"len\":10,\"repl\":3}"),
    ),
    ("{\"more\":[],\"op\":\"round\"}", Some("{\"op\":\"round\"}")),
    ("{\"op\":\"added\",\"id\":7}", None),
    ("{\"op\":\"dead\",\"node\":4294967296}", None),
    ("", None),
];

#[test]
fn lines_are_tidied(rt: HostRuntime) {
    for (line, want) in &TIDIED {
        let tidy = tidy_line(rt.alloc(), line.as_bytes()).expect(&rt, "memory");
        match (&tidy, want) {
            (Some(tidy), Some(want)) => assert_eq!(rt; tidy.as_str(), *want),
            (None, None) => {}
            _ => assert!(rt; false, "{line}"),
        }
    }
}

/// An event on all shards has two pieces of work for each shard: preparing, and once all shards
/// have prepared, the change. An event on one block has none, and neither has a refused event.
fn check_pieces<R: Abort + Threads + Wait + Sync>(rt: &R, alloc: Global, manager: &mut Manager) {
    let pieces = Pieces::new();
    let events = [
        (add(7, 2), 0),
        (register(rt, alloc, 1, 11), 6),
        (received_event(11, 7), 6),
        (dead(9), 6),
        (dead(1), 12),
    ];
    for (event, count) in &events {
        let _ = apply_counted(rt, manager, &pieces, event);
        assert_eq!(rt; pieces.count(), *count);
    }
    assert_eq!(rt; manager.calls(), 4);
}

#[test]
fn pieces_are_counted(rt: HostRuntime) {
    let config = Config {
        shards: 3,
        workers: 2,
        ..Config::standard()
    };
    try_on(&rt, rt.alloc(), config, Trial::EmptyIsCounted);
}
