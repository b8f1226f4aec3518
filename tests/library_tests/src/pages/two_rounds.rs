//! A block wants two replicas and has one. A round commands a copy, and the DataNode reports it.
use bm_base::{
    BlockId, Commands, Config, Event, Gen, NodeId, Rack, Refusal, Remaining, Stamp, StorageId,
};
use bm_manager::Manager;
use std::alloc::Global;

const BLOCK: BlockId = BlockId(7);

const STAMP: Stamp = Stamp {
    generation: Gen(1),
    len: 64,
};

#[test]
fn main(rt: HostRuntime) -> anyhow::Result<()> {
    let mut manager = Manager::new(rt.alloc(), Config::standard())?;
    add_node(rt.alloc(), &mut manager, NodeId(1), Rack(1), StorageId(11))?;
    add_node(rt.alloc(), &mut manager, NodeId(2), Rack(2), StorageId(21))?;
    manager.apply_alone(&Event::AddBlock {
        id: BLOCK,
        stamp: STAMP,
        repl: 2,
    })?;
    receive(&mut manager, StorageId(11))?;
    print_commands(&rt, &manager.round_alone()?)?;
    receive(&mut manager, StorageId(21))?;
    print_commands(&rt, &manager.round_alone()?)?;
    for storage in &manager.places(BLOCK)? {
        println!(rt; "block 7 is on storage {}", storage.0)?;
    }
    Ok(())
}

/// A DataNode with one storage, which has 1,000 free bytes.
fn add_node(
    alloc: Global,
    manager: &mut Manager,
    node: NodeId,
    rack: Rack,
    storage: StorageId,
) -> Result<(), Refusal> {
    let free = Remaining {
        storage,
        remaining: 1000,
    };
    manager.apply_alone(&Event::register(alloc, node, rack, &[storage])?)?;
    manager.apply_alone(&Event::heartbeat(alloc, node, &[free])?)?;
    Ok(())
}

fn receive(manager: &mut Manager, storage: StorageId) -> Result<(), Refusal> {
    manager.apply_alone(&Event::Received {
        storage,
        id: BLOCK,
        stamp: STAMP,
    })?;
    Ok(())
}

fn print_commands(rt: &impl Print, commands: &Commands) -> anyhow::Result<()> {
    println!(rt; "round {}", commands.round)?;
    for node in &commands.nodes {
        for copy in &node.transfers {
            println!(rt;
                "node {} copies block {} from storage {} to storage {}",
                node.node.0, copy.block.0, copy.source.0, copy.target.0
            )?;
        }
    }
    Ok(())
}
