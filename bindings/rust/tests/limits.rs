//! How many nodes and storages a manager takes.

use puljemrod::{Error, Event, Manager, Options};

fn within(nodes: u32, storages: u32) -> Result<Manager, Error> {
    Manager::open(&Options { nodes, storages, ..Options::default() })
}

/// A node joins with this number of storages, numbered from `first`; the name of the refusal.
fn join(manager: &mut Manager, node: u32, first: u32, count: u32) -> Result<(), &'static str> {
    let storages = (first..first + count).collect();
    let joined = manager.apply(&Event::Register { node, rack: node % 3, storages });
    joined.map(|_| ()).map_err(|it| it.name())
}

fn takes_nodes(manager: &mut Manager, most: u32) {
    for node in 0..most {
        assert_eq!(join(manager, node, 0, 0), Ok(()), "node {node}");
    }
    assert_eq!(join(manager, most, 0, 0), Err("TooMany"), "past {most}");
}

fn takes_storages(manager: &mut Manager, most: u32) {
    assert_eq!(join(manager, 1, 0, most + 1), Err("TooMany"), "past {most}");
    assert_eq!(join(manager, 1, 0, most), Ok(()), "{most}");
    assert_eq!(join(manager, 2, most, 1), Err("TooMany"), "past {most}");
    assert_eq!(join(manager, 2, 0, 0), Ok(()));
}

#[test]
fn standard_limits_are_256_nodes_and_4096_storages() {
    let standard = Options::default();
    assert_eq!((standard.nodes, standard.storages), (256, 4096));
    takes_nodes(&mut Manager::open(&standard).unwrap(), 256);
    takes_storages(&mut Manager::open(&standard).unwrap(), 4096);
    takes_nodes(&mut within(0, 0).unwrap(), 256);
    takes_storages(&mut within(0, 0).unwrap(), 4096);
}

#[test]
fn other_limits_are_kept() {
    for most in [1, 300, 65_536] {
        takes_nodes(&mut within(most, 1).unwrap(), most);
    }
    for most in [1, 5000, 1_048_576] {
        takes_storages(&mut within(2, most).unwrap(), most);
    }
}

#[test]
fn limits_outside_their_ranges_are_refused() {
    for (nodes, storages) in [(65_537, 1), (1, 1_048_577), (u32::MAX, 0), (0, u32::MAX)] {
        let refused = within(nodes, storages).err().map(|it| (it.number(), it.name()));
        assert_eq!(refused, Some((15, "BadConfig")), "{nodes} {storages}");
    }
}
