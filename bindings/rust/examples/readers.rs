//! Three threads ask where a block is, while the main thread changes the manager. Each prints where
//! the block is after the calls of the last receipt.

use puljemrod::{Error, Event, Manager, Options, Publisher, Reader};
use std::sync::mpsc::channel;
use std::thread;

/// Where block 7 is after these calls. Nothing waits for the reader, and it waits for nothing.
fn answer(mut reader: Reader, calls: u64) -> String {
    let mut out = [0; 16];
    let found = reader.locate(7, &mut out);
    assert!(found.calls >= calls);
    format!("block 7 is on {:?} after {} calls", found.storages, found.calls)
}

fn main() -> Result<(), Error> {
    let (mut publisher, readers) = Publisher::new(3);
    let mut threads = Vec::new();
    let mut senders = Vec::new();
    for reader in readers {
        let (sender, receipts) = channel();
        senders.push(sender);
        threads.push(thread::spawn(move || answer(reader, receipts.iter().last().unwrap_or(0))));
    }
    let mut manager = Manager::open(&Options::default())?;
    let mut events = vec![Event::Add { id: 7, generation: 1, len: 64, repl: 3 }];
    for node in 1..=3 {
        let storage = 10 * node + 1;
        events.push(Event::Register { node, rack: 1, storages: vec![storage] });
        events.push(Event::Received { storage, id: 7, generation: 1, len: 64 });
    }
    for event in &events {
        manager.apply(event)?;
        let receipt = publisher.publish(&mut manager)?;
        senders.iter().for_each(|sender| sender.send(receipt).unwrap());
    }
    drop(senders);
    for thread in threads {
        println!("{}", thread.join().unwrap());
    }
    Ok(())
}
