//! Reads the replicas on a storage, a line `BLOCK GENERATION LENGTH` each, and writes the storage's
//! full report as a line of the tool.
use anyhow::bail;
use bm_base::{BlockId, Call, Entry, Event, Gen, Stamp, StorageId};
use bm_lines::line_of;

const STORAGE: StorageId = StorageId(11);

#[test]
fn main(rt: HostRuntime) -> anyhow::Result<()> {
    let mut entries = Vec::new(rt.alloc());
    for line in rt.lines(rt.alloc()) {
        let line = line?;
        match entry_of(line.as_str()) {
            Some(entry) => entries.push(entry)?,
            None => bail!("not BLOCK GENERATION LENGTH: {line}"),
        }
    }
    let report = Event::full_report(rt.alloc(), STORAGE, entries.as_slice())?;
    let line = line_of(rt.alloc(), &Call::Apply(report))?;
    println!(rt; "{line}")?;
    Ok(())
}

fn entry_of(line: &str) -> Option<Entry> {
    let mut words = line.split_whitespace();
    let id = BlockId(words.next()?.parse().ok()?);
    let stamp = Stamp {
        generation: Gen(words.next()?.parse().ok()?),
        len: words.next()?.parse().ok()?,
    };
    Some(Entry::one(id, stamp))
}
