//! The worked examples of the repository, line by line, and each typed call on a small cluster
//! whose answers were worked out by hand.

use puljemrod::{Command, Commands, Done, Entry, Event, Manager, Options, Remaining, Replica, Tag};
use std::fs;
use std::path::Path;

#[test]
fn the_library_is_of_this_version() {
    assert_eq!(puljemrod::version(), env!("CARGO_PKG_VERSION"));
}

#[test]
fn the_examples_are_answered_as_worked_out() {
    let folder = Path::new(env!("CARGO_MANIFEST_DIR")).join("../../examples");
    let mut count = 0;
    for entry in fs::read_dir(&folder).unwrap() {
        let path = entry.unwrap().path();
        if path.extension().map_or(true, |it| it != "jsonl") || !path.with_extension("txt").exists() {
            continue;
        }
        let mut manager = Manager::open(&Options { shards: 3, ..Options::default() }).unwrap();
        let mut answers = Vec::new();
        for line in fs::read(&path).unwrap().split_inclusive(|it| *it == b'\n') {
            answers.extend(manager.line(line.strip_suffix(b"\n").unwrap_or(line)).unwrap());
            answers.push(b'\n');
        }
        assert_eq!(answers, fs::read(path.with_extension("txt")).unwrap(), "{}", path.display());
        count += 1;
    }
    assert!(count >= 5, "{count} examples");
}

/// Three nodes on two racks; block 7 wants two replicas, on storages 11 and 31.
fn cluster() -> Manager {
    let mut manager = Manager::open(&Options::default()).unwrap();
    for (node, rack, storage) in [(1, 1, 11), (2, 1, 21), (3, 2, 31)] {
        manager.apply(&Event::Register { node, rack, storages: vec![storage] }).unwrap();
    }
    let remaining = vec![Remaining { storage: 21, remaining: 1000 }];
    manager.apply(&Event::Heartbeat { node: 2, remaining }).unwrap();
    manager.apply(&Event::Add { id: 7, generation: 1, len: 64, repl: 2 }).unwrap();
    for storage in [11, 31] {
        let done = manager.apply(&Event::Received { storage, id: 7, generation: 1, len: 64 }).unwrap();
        assert_eq!(done, Done { added: 1, removed: 0 });
    }
    manager
}

#[test]
fn a_corrupt_replica_is_copied_and_then_deleted() {
    let mut manager = cluster();
    // Three nodes, a heartbeat, a block and two replicas.
    assert_eq!((manager.calls(), manager.rounds()), (Ok(7), Ok(0)));
    assert_eq!(manager.level(7), Ok(None));
    manager.apply(&Event::Corrupt { storage: 11, id: 7 }).unwrap();
    assert_eq!(manager.level(7), Ok(Some(0)));
    assert_eq!(manager.corrupt(), Ok(vec![(7, 11)]));
    let copy = Command::Copy { node: 3, block: 7, generation: 1, len: 64, source: 31, target: 21 };
    assert_eq!(manager.round(), Ok(Commands { round: 1, commands: vec![copy] }));
    manager.apply(&Event::Received { storage: 21, id: 7, generation: 1, len: 64 }).unwrap();
    let delete = Command::Delete { node: 1, storage: 11, block: 7 };
    assert_eq!(manager.round(), Ok(Commands { round: 2, commands: vec![delete] }));
    assert_eq!((manager.calls(), manager.rounds()), (Ok(11), Ok(2)));
    let done = manager.apply(&Event::Deleted { storage: 11, id: 7 });
    assert_eq!(done, Ok(Done { added: 0, removed: 1 }));
    assert_eq!(manager.places(7), Ok(vec![21, 31]));
    assert_eq!(manager.excess(), Ok(vec![]));
}

#[test]
fn lists_and_reports() {
    let mut manager = cluster();
    let blocks = vec![Entry { from: 7, to: 8, generation: 1, len: 64 }];
    let done = manager.apply(&Event::Report { storage: 21, blocks });
    assert_eq!(done, Ok(Done { added: 2, removed: 0 }));
    assert_eq!(manager.blocks_on(21), Ok(vec![7, 8]));
    let last = Replica { block: 8, storage: 21, tag: Tag::Stray };
    assert_eq!(manager.replicas().unwrap().last(), Some(&last));
    manager.apply(&Event::StorageFailed { storage: 21 }).unwrap();
    manager.apply(&Event::Dead { node: 1 }).unwrap();
    manager.apply(&Event::Dead { node: 3 }).unwrap();
    assert_eq!(manager.missing(), Ok(vec![7]));
}

#[test]
fn typed_calls_have_a_text() {
    let mut manager = cluster();
    assert_eq!(manager.places(7), Ok(vec![11, 31]));
    assert_eq!(manager.text().unwrap(), b"places 7; 11; 31");
    manager.apply(&Event::Delete { id: 8 }).unwrap_err();
    assert_eq!(manager.text().unwrap(), b"refused 5 UnknownBlock");
}

#[test]
fn each_manager_has_a_secret_of_its_own() {
    assert_ne!(Options::default().secret, Options::default().secret);
}

#[test]
fn refusals_have_number_and_name() {
    let mut manager = cluster();
    let refused = manager.apply(&Event::Delete { id: 8 }).unwrap_err();
    assert_eq!((refused.number(), refused.name()), (5, "UnknownBlock"));
    assert_eq!(refused.to_string(), "refused 5 UnknownBlock");
    assert_eq!(manager.line(b"?").unwrap(), b"refused 20 BadLine");
    let closed = Manager::open(&Options { shards: 0, ..Options::default() });
    assert_eq!(closed.err().map(|it| it.name()), Some("BadConfig"));
}

#[test]
fn a_draining_node_retires_and_a_manager_moves_between_threads() {
    let mut manager = cluster();
    manager.apply(&Event::Drain { node: 1 }).unwrap();
    let mut manager = std::thread::spawn(move || {
        assert_eq!(manager.retired(1), Ok(false));
        manager.round().unwrap();
        manager.apply(&Event::Received { storage: 21, id: 7, generation: 1, len: 64 }).unwrap();
        manager
    })
    .join()
    .unwrap();
    assert_eq!(manager.retired(1), Ok(true));
    manager.apply(&Event::Undrain { node: 1 }).unwrap();
    assert_eq!(manager.retired(1), Ok(false));
    manager.apply(&Event::SetReplication { id: 7, repl: 3 }).unwrap();
    manager.apply(&Event::Restamp { id: 7, generation: 2, len: 65 }).unwrap();
    assert_eq!(manager.places(7), Ok(vec![]));
}

/// Each kind of event, by its typed call on one manager and by its line on another.
#[test]
fn typed_events_are_answered_as_their_lines() {
    let mut typed = Manager::open(&Options::default()).unwrap();
    let mut lines = Manager::open(&Options::default()).unwrap();
    let mut compare = |event: Event, line: &str, answer: &str| {
        let done = typed.apply(&event).unwrap();
        assert_eq!(format!("ok {} {}", done.added, done.removed), answer, "{line}");
        assert_eq!(lines.line(line.as_bytes()).unwrap(), answer.as_bytes(), "{line}");
    };
    let storages = vec![11, 12];
    compare(
        Event::Register { node: 1, rack: 1, storages },
        r#"{"op":"register","node":1,"rack":1,"storages":[11,12]}"#,
        "ok 0 0",
    );
    compare(
        Event::Register { node: 2, rack: 1, storages: vec![21] },
        r#"{"op":"register","node":2,"rack":1,"storages":[21]}"#,
        "ok 0 0",
    );
    let remaining = vec![Remaining { storage: 12, remaining: 1000 }];
    compare(
        Event::Heartbeat { node: 1, remaining },
        r#"{"op":"heartbeat","node":1,"remaining":[[12,1000]]}"#,
        "ok 0 0",
    );
    compare(
        Event::Add { id: 7, generation: 1, len: 64, repl: 2 },
        r#"{"op":"add","id":7,"gen":1,"len":64,"repl":2}"#,
        "ok 0 0",
    );
    for (storage, answer) in [(11, "ok 1 0"), (21, "ok 1 0"), (21, "ok 0 0"), (12, "ok 1 1")] {
        let line = format!(r#"{{"op":"received","storage":{storage},"id":7,"gen":1,"len":64}}"#);
        compare(Event::Received { storage, id: 7, generation: 1, len: 64 }, &line, answer);
    }
    for storage in [12, 11] {
        let line = format!(r#"{{"op":"corrupt","storage":{storage},"id":7}}"#);
        compare(Event::Corrupt { storage, id: 7 }, &line, "ok 0 0");
    }
    compare(
        Event::SetReplication { id: 7, repl: 1 },
        r#"{"op":"set_replication","id":7,"repl":1}"#,
        "ok 0 0",
    );
    compare(
        Event::Restamp { id: 7, generation: 2, len: 65 },
        r#"{"op":"restamp","id":7,"gen":2,"len":65}"#,
        "ok 0 0",
    );
    compare(Event::Drain { node: 1 }, r#"{"op":"drain","node":1}"#, "ok 0 0");
    compare(Event::Undrain { node: 1 }, r#"{"op":"undrain","node":1}"#, "ok 0 0");
    compare(Event::Delete { id: 7 }, r#"{"op":"delete","id":7}"#, "ok 0 0");
    let blocks = vec![Entry { from: 7, to: 9, generation: 2, len: 65 }];
    compare(
        Event::Report { storage: 12, blocks },
        r#"{"op":"report","storage":12,"blocks":[[7,9,2,65]]}"#,
        "ok 2 0",
    );
    compare(
        Event::Deleted { storage: 12, id: 7 },
        r#"{"op":"deleted","storage":12,"id":7}"#,
        "ok 0 1",
    );
    compare(
        Event::StorageFailed { storage: 21 },
        r#"{"op":"storage_failed","storage":21}"#,
        "ok 0 1",
    );
    compare(Event::Dead { node: 1 }, r#"{"op":"dead","node":1}"#, "ok 0 2");
}
