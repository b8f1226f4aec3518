//! Readers on threads of their own, while another thread changes the manager and publishes. The
//! storages of each block after each call were worked out by hand: `storages_after`.

use puljemrod::{Event, Manager, Options, Publisher, Reader};
use std::sync::mpsc::{channel, Receiver, TryRecvError};
use std::thread;

const NODES: u64 = 4;
const BLOCKS: u64 = 50;
const READERS: usize = 3;

/// The calls before the first replica comes: a node and a block each.
const BEFORE: u64 = NODES + BLOCKS;

/// Replica `at` of block `id` comes by this call: block after block, on storages 11, 21, 31, 41.
fn call_of(id: u64, at: u64) -> u64 {
    BEFORE + NODES * id + at + 1
}

fn storages_after(calls: u64, id: u64) -> Vec<u32> {
    (0..NODES).filter(|at| call_of(id, *at) <= calls).map(|at| 10 * (at as u32 + 1) + 1).collect()
}

fn change(manager: &mut Manager, call: u64) {
    let event = if call <= NODES {
        Event::Register { node: call as u32, rack: 1, storages: vec![10 * call as u32 + 1] }
    } else if call <= BEFORE {
        Event::Add { id: call - NODES - 1, generation: 1, len: 64, repl: 4 }
    } else {
        let (id, at) = ((call - BEFORE - 1) / NODES, (call - BEFORE - 1) % NODES);
        Event::Received { storage: 10 * (at as u32 + 1) + 1, id, generation: 1, len: 64 }
    };
    manager.apply(&event).unwrap();
}

/// Asks for one block after another, until there are no more receipts. Returns the calls of the
/// last answer.
fn read(mut reader: Reader, receipts: Receiver<u64>) -> u64 {
    let (mut seen, mut receipt) = (0, 0);
    for id in (0..BLOCKS).cycle() {
        let is_last = loop {
            match receipts.try_recv() {
                Ok(next) => receipt = next,
                Err(error) => break error == TryRecvError::Disconnected,
            }
        };
        let mut out = [0; 8];
        let found = reader.locate(id, &mut out);
        assert_eq!(found.storages, storages_after(found.calls, id), "block {id} after {} calls", found.calls);
        assert!(found.calls >= seen, "{} calls after {seen}", found.calls);
        assert!(found.calls >= receipt, "{} calls after a receipt of {receipt}", found.calls);
        seen = found.calls;
        if is_last {
            break;
        }
    }
    seen
}

#[test]
fn readers_answer_from_versions_in_their_order() {
    let last = call_of(BLOCKS - 1, NODES - 1);
    let (mut publisher, readers) = Publisher::new(READERS);
    let mut threads = Vec::new();
    let mut senders = Vec::new();
    for reader in readers {
        let (sender, receipts) = channel();
        senders.push(sender);
        threads.push(thread::spawn(move || read(reader, receipts)));
    }
    let mut manager = Manager::open(&Options { shards: 3, ..Options::default() }).unwrap();
    for call in 1..=last {
        change(&mut manager, call);
        let receipt = publisher.publish(&mut manager).unwrap();
        assert_eq!(receipt, call);
        // A reader that found a wrong answer takes no more.
        senders.iter().for_each(|sender| drop(sender.send(receipt)));
    }
    drop(senders);
    for thread in threads {
        assert_eq!(thread.join().unwrap(), last);
    }
}

#[test]
fn a_reader_outlives_its_publisher() {
    let mut manager = Manager::open(&Options::default()).unwrap();
    let (mut publisher, mut readers) = Publisher::new(2);
    let mut out = [0; 1];
    assert_eq!(readers[0].locate(0, &mut out).calls, 0);
    for call in 1..=call_of(0, 1) {
        change(&mut manager, call);
        publisher.publish(&mut manager).unwrap();
    }
    drop((publisher, manager));
    let found = readers[0].locate(0, &mut out);
    // There is space for one of the two storages.
    assert_eq!((found.calls, found.storages), (call_of(0, 1), &[11][..]));
    assert_eq!(readers[1].locate(1, &mut out).storages, []);
}
