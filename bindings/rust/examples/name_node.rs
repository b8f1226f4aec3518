//! The loop of a NameNode: events come in, a round is made at each tick of a clock, and its
//! commands go out. The cluster is simulated in this process: examples/stories/README.md, "A whole
//! loop". The argument is the time between two ticks in milliseconds, 20 if it is left out.

use puljemrod::{Command, Entry, Error, Event, Manager, Options, Remaining};
use std::collections::{BTreeMap, BTreeSet, VecDeque};
use std::time::{Duration, Instant};
use std::{env, thread};

const TICKS: u64 = 12;
const SILENT_TICKS: u64 = 2;
const TICKS_OF_REPORTS: u64 = 3;
const CAPACITY: u64 = 100;
const GENERATION: u64 = 1;
const LENGTH: u64 = 10;
const WANTED: u32 = 3;

/// The refusals that the loop expects.
const UNKNOWN_NODE: u32 = 1;
const NODE_KNOWN: u32 = 2;
const UNKNOWN_STORAGE: u32 = 3;

/// A simulated DataNode with one disk.
struct DataNode {
    node: u32,
    rack: u32,
    disk: u32,
    blocks: BTreeSet<u64>,
}

impl DataNode {
    fn new(node: u32, rack: u32, blocks: [u64; 3]) -> DataNode {
        DataNode { node, rack, disk: 10 * node + 1, blocks: blocks.into() }
    }

    fn heartbeat(&self) -> Event {
        let free = CAPACITY - LENGTH * self.blocks.len() as u64;
        let remaining = vec![Remaining { storage: self.disk, remaining: free }];
        Event::Heartbeat { node: self.node, remaining }
    }

    fn report(&self) -> Event {
        let entry = |it: &u64| Entry { from: *it, to: *it, generation: GENERATION, len: LENGTH };
        Event::Report { storage: self.disk, blocks: self.blocks.iter().map(entry).collect() }
    }

    fn registration(&self) -> [Event; 3] {
        let storages = vec![self.disk];
        let register = Event::Register { node: self.node, rack: self.rack, storages };
        [register, self.heartbeat(), self.report()]
    }

    fn store(&mut self, block: u64) -> Event {
        self.blocks.insert(block);
        Event::Received { storage: self.disk, id: block, generation: GENERATION, len: LENGTH }
    }

    fn erase(&mut self, block: u64) -> Event {
        self.blocks.remove(&block);
        Event::Deleted { storage: self.disk, id: block }
    }
}

/// The DataNodes, and what they have sent.
struct Cluster {
    nodes: Vec<DataNode>,
    sent: VecDeque<Event>,
}

impl Cluster {
    fn node(&mut self, node: u32) -> &mut DataNode {
        &mut self.nodes[node as usize - 1]
    }

    fn register(&mut self, node: u32) {
        let events = self.node(node).registration();
        self.sent.extend(events);
    }

    /// Block 5 is written at tick 5. Node 4 is away from tick 2 to tick 6, and node 2 restarts at
    /// tick 8.
    fn tick(&mut self, tick: u64) {
        if tick == 5 {
            let notice = self.node(1).store(5);
            self.sent.push_back(notice);
        }
        if tick == 8 {
            self.register(2);
        }
        for it in self.nodes.iter().filter(|it| it.node != 4 || !(2..=6).contains(&tick)) {
            self.sent.push_back(it.heartbeat());
            self.sent.extend((tick % TICKS_OF_REPORTS == 1).then(|| it.report()));
        }
    }

    /// Makes a copy or a delete, and sends the notice. One command gets lost.
    fn carry_out(&mut self, tick: u64, command: &Command) {
        let notice = match *command {
            Command::Copy { node, block, source, target, .. } => {
                print!("  node {node} copies block {block} ");
                println!("from storage {source} to storage {target}");
                self.node(target / 10).store(block)
            }
            Command::Delete { node, storage, block } if (tick, block) == (7, 3) => {
                return println!("  node {node} deletes block {block} from storage {storage}: lost");
            }
            Command::Delete { node, storage, block } => {
                println!("  node {node} deletes block {block} from storage {storage}");
                self.node(node).erase(block)
            }
        };
        self.sent.push_back(notice);
    }
}

struct NameNode {
    manager: Manager,
    /// When each node was heard of.
    seen: BTreeMap<u32, u64>,
    in_safe_mode: bool,
}

impl NameNode {
    fn add(&mut self, block: u64) -> Result<(), Error> {
        let (generation, len, repl) = (GENERATION, LENGTH, WANTED);
        self.manager.apply(&Event::Add { id: block, generation, len, repl })?;
        Ok(())
    }

    /// Takes an event. One of an unknown node is refused, and it has to register.
    fn take(&mut self, tick: u64, event: &Event, cluster: &mut Cluster) -> Result<(), Error> {
        match (event, self.manager.apply(event)) {
            (Event::Register { node, .. } | Event::Heartbeat { node, .. }, Ok(_)) => {
                if self.seen.insert(*node, tick).is_none() {
                    println!("node {node} registers");
                }
            }
            (Event::Register { node, .. }, Err(why)) if why.number() == NODE_KNOWN => {
                println!("node {node} restarts");
            }
            (Event::Heartbeat { node, .. }, Err(why)) if why.number() == UNKNOWN_NODE => {
                cluster.register(*node);
            }
            (_, Err(why)) if why.number() != UNKNOWN_STORAGE => return Err(why),
            _ => {}
        }
        Ok(())
    }

    /// Nodes that have been silent for too long are dead.
    fn bury(&mut self, tick: u64) -> Result<(), Error> {
        let mut dead = self.seen.clone();
        dead.retain(|_, last| tick - *last >= SILENT_TICKS);
        for node in dead.into_keys() {
            self.seen.remove(&node);
            self.manager.apply(&Event::Dead { node })?;
            println!("node {node} is dead");
        }
        Ok(())
    }

    /// The commands of a round, once the first reports have shown every block.
    fn round(&mut self) -> Result<Vec<Command>, Error> {
        let missing = self.manager.missing()?.len();
        self.in_safe_mode = self.in_safe_mode && missing > 0;
        if self.in_safe_mode {
            return Ok(vec![]);
        }
        let made = self.manager.round()?;
        let excess = self.manager.excess()?.len();
        println!("round {}: {missing} missing, {excess} in excess", made.round);
        Ok(made.commands)
    }
}

fn main() -> Result<(), Box<dyn std::error::Error>> {
    let interval = Duration::from_millis(env::args().nth(1).map_or(Ok(20), |word| word.parse())?);
    let start = Instant::now();
    let on_disks = [(1, 1, [1, 2, 3]), (2, 1, [1, 2, 4]), (3, 2, [1, 3, 4]), (4, 2, [2, 3, 4])];
    let nodes = on_disks.map(|(node, rack, blocks)| DataNode::new(node, rack, blocks)).into();
    let mut cluster = Cluster { nodes, sent: VecDeque::new() };
    let manager = Manager::open(&Options::default())?;
    let mut name_node = NameNode { manager, seen: BTreeMap::new(), in_safe_mode: true };
    // All blocks are added before anything is reported.
    for block in 1..=4 {
        name_node.add(block)?;
    }
    for tick in 1..=TICKS {
        thread::sleep((interval * tick as u32).saturating_sub(start.elapsed()));
        if tick == 5 {
            name_node.add(5)?;
        }
        cluster.tick(tick);
        while let Some(event) = cluster.sent.pop_front() {
            name_node.take(tick, &event, &mut cluster)?;
        }
        name_node.bury(tick)?;
        for command in name_node.round()? {
            cluster.carry_out(tick, &command);
        }
    }
    for block in 1..=5 {
        let places = name_node.manager.places(block)?;
        let words: String = places.iter().map(|it| format!(" {it}")).collect();
        println!("block {block}: storages{words}");
    }
    Ok(())
}
