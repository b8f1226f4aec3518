//! Answers each line of standard input through the crate. Where memory is refused it makes the call
//! again. Its arguments are `lines` or `typed`, and then shards, work, invalidate, pend, nodes and
//! storages. The argument `version` alone prints the library's version.
//!
//! A line of `typed` is the name of an operation and its numbers. It prints two lines for each: the
//! answer of the typed call, and the text of the answer. At the end it prints on standard error how
//! often a call was refused for memory, and how often a text was.

use puljemrod::{Command, Entry, Error, Event, Manager, Options, Remaining, Tag};
use std::env;
use std::io::{self, BufRead, BufWriter, Write};

/// How often a call is made at most.
const TRIES: u32 = 1000;

#[derive(Default)]
struct Refused {
    calls: u32,
    texts: u32,
}

impl Refused {
    fn line(&mut self, manager: &mut Manager, line: &[u8]) -> Result<Vec<u8>, Error> {
        for _ in 0..TRIES {
            match manager.line(line) {
                Err(error) if error.number() == Error::MEMORY => self.calls += 1,
                Err(error) if error.number() == Error::NO_TEXT => {
                    self.texts += 1;
                    return self.text(manager);
                }
                answer => return answer,
            }
        }
        manager.line(line)
    }

    /// The text of the last answer.
    fn text(&mut self, manager: &mut Manager) -> Result<Vec<u8>, Error> {
        for _ in 0..TRIES {
            match manager.text() {
                Err(error) if error.number() == Error::NO_TEXT => self.texts += 1,
                answer => return answer,
            }
        }
        manager.text()
    }

    fn typed(&mut self, manager: &mut Manager, name: &str, numbers: &[u64]) -> String {
        for _ in 0..TRIES {
            match typed(manager, name, numbers) {
                Err(error) if error.number() == Error::MEMORY => self.calls += 1,
                Err(error) => return error.to_string(),
                Ok(answer) => return answer,
            }
        }
        "refused for ever".to_string()
    }
}

/// A new manager. How often opening it was refused is not counted.
fn opened(options: &Options) -> Result<Manager, Error> {
    for _ in 0..TRIES {
        match Manager::open(options) {
            Err(error) if error.number() == Error::MEMORY => {}
            opened => return opened,
        }
    }
    Manager::open(options)
}

fn event(name: &str, numbers: &[u64]) -> Option<Event> {
    let small = |at: usize| numbers[at] as u32;
    Some(match name {
        "register" => {
            let storages = numbers[2..].iter().map(|it| *it as u32).collect();
            Event::Register { node: small(0), rack: small(1), storages }
        }
        "drain" => Event::Drain { node: small(0) },
        "undrain" => Event::Undrain { node: small(0) },
        "heartbeat" => {
            let item = |it: &[u64]| Remaining { storage: it[0] as u32, remaining: it[1] };
            Event::Heartbeat { node: small(0), remaining: numbers[1..].chunks(2).map(item).collect() }
        }
        "dead" => Event::Dead { node: small(0) },
        "storage_failed" => Event::StorageFailed { storage: small(0) },
        "add" => Event::Add { id: numbers[0], generation: numbers[1], len: numbers[2], repl: small(3) },
        "delete" => Event::Delete { id: numbers[0] },
        "set_replication" => Event::SetReplication { id: numbers[0], repl: small(1) },
        "restamp" => Event::Restamp { id: numbers[0], generation: numbers[1], len: numbers[2] },
        "received" => {
            Event::Received { storage: small(0), id: numbers[1], generation: numbers[2], len: numbers[3] }
        }
        "deleted" => Event::Deleted { storage: small(0), id: numbers[1] },
        "corrupt" => Event::Corrupt { storage: small(0), id: numbers[1] },
        "report" => {
            let entry = |it: &[u64]| Entry { from: it[0], to: it[1], generation: it[2], len: it[3] };
            Event::Report { storage: small(0), blocks: numbers[1..].chunks(4).map(entry).collect() }
        }
        _ => return None,
    })
}

/// The items of a list, after its first item.
fn listed<T>(first: String, items: Vec<T>, text: impl Fn(&T) -> String) -> String {
    items.iter().fold(first, |line, it| line + "; " + &text(it))
}

fn command(it: &Command) -> String {
    match it {
        Command::Copy { node, block, generation, len, source, target } => {
            format!("copy {node} {block} {generation} {len} {source} {target}")
        }
        Command::Delete { node, storage, block } => format!("delete {node} {storage} {block}"),
    }
}

fn tag(it: Tag) -> &'static str {
    match it {
        Tag::Good => "good",
        Tag::Stale => "stale",
        Tag::Bad => "bad",
        Tag::Stray => "stray",
    }
}

/// What the line of the call would answer, made of the typed answer.
fn typed(manager: &mut Manager, name: &str, numbers: &[u64]) -> Result<String, Error> {
    if let Some(event) = event(name, numbers) {
        let done = manager.apply(&event)?;
        return Ok(format!("ok {} {}", done.added, done.removed));
    }
    let pair = |it: &(u64, u32)| format!("{} {}", it.0, it.1);
    Ok(match (name, numbers) {
        ("round", _) => {
            let it = manager.round()?;
            listed(format!("round {}", it.round), it.commands, command)
        }
        ("list_replicas", _) => listed("replicas".to_string(), manager.replicas()?, |it| {
            format!("{} {} {}", it.block, it.storage, tag(it.tag))
        }),
        ("list_corrupt", _) => listed("corrupt".to_string(), manager.corrupt()?, pair),
        ("list_excess", _) => listed("excess".to_string(), manager.excess()?, pair),
        ("list_missing", _) => listed("missing".to_string(), manager.missing()?, u64::to_string),
        ("list_storage", [storage]) => {
            listed(format!("storage {storage}"), manager.blocks_on(*storage as u32)?, u64::to_string)
        }
        ("list_places", [id]) => listed(format!("places {id}"), manager.places(*id)?, u32::to_string),
        ("level", [id]) => {
            let level = manager.level(*id)?.map_or("none".to_string(), |it| it.to_string());
            format!("level {id}; {level}")
        }
        ("retired", [node]) => {
            format!("retired {node}; {}", if manager.retired(*node as u32)? { "yes" } else { "no" })
        }
        ("calls", _) => format!("calls {}", manager.calls()?),
        ("rounds", _) => format!("rounds {}", manager.rounds()?),
        _ => panic!("no call is named {name}"),
    })
}

fn main() -> Result<(), Box<dyn std::error::Error>> {
    let words: Vec<String> = env::args().skip(1).collect();
    if words == ["version"] {
        println!("{}", puljemrod::version());
        return Ok(());
    }
    let mut options = Options::default();
    let Options { shards, work, invalidate, pend, nodes, storages, .. } = &mut options;
    for (field, word) in [shards, work, invalidate, pend, nodes, storages].into_iter().zip(&words[1..]) {
        *field = word.parse()?;
    }
    let (mut manager, mut refused) = (opened(&options)?, Refused::default());
    let mut output = BufWriter::new(io::stdout().lock());
    let (mut input, mut line) = (io::stdin().lock(), Vec::new());
    while input.read_until(b'\n', &mut line)? > 0 {
        let whole = line.strip_suffix(b"\n").unwrap_or(&line);
        let answer = if words[0] == "typed" {
            let mut words = std::str::from_utf8(whole)?.split(' ');
            let name = words.next().unwrap_or("");
            let numbers: Vec<u64> = words.map(str::parse).collect::<Result<_, _>>()?;
            writeln!(output, "{}", refused.typed(&mut manager, name, &numbers))?;
            refused.text(&mut manager)?
        } else {
            refused.line(&mut manager, whole)?
        };
        output.write_all(&answer)?;
        output.write_all(b"\n")?;
        line.clear();
    }
    output.flush()?;
    eprintln!("{} calls and {} texts were refused for memory", refused.calls, refused.texts);
    Ok(())
}
