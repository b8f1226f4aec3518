//! The line tool in Rust: answers each line of standard input by a line of standard output. Its
//! arguments are shards, work, invalidate, pend, nodes and storages, in this order; the last ones
//! may be left out.

use puljemrod::{Manager, Options};
use std::env;
use std::error::Error;
use std::io::{self, BufRead, BufWriter, Write};
use std::process::ExitCode;

fn answer_lines() -> Result<(), Box<dyn Error>> {
    let mut options = Options::default();
    let Options { shards, work, invalidate, pend, nodes, storages, .. } = &mut options;
    let fields = [shards, work, invalidate, pend, nodes, storages];
    for (field, word) in fields.into_iter().zip(env::args().skip(1)) {
        *field = word.parse()?;
    }
    let mut manager = Manager::open(&options)?;
    let mut output = BufWriter::new(io::stdout().lock());
    let (mut input, mut line) = (io::stdin().lock(), Vec::new());
    while input.read_until(b'\n', &mut line)? > 0 {
        output.write_all(&manager.line(line.strip_suffix(b"\n").unwrap_or(&line))?)?;
        output.write_all(b"\n")?;
        line.clear();
    }
    Ok(output.flush()?)
}

fn main() -> ExitCode {
    match answer_lines() {
        Ok(()) => ExitCode::SUCCESS,
        Err(error) => {
            eprintln!("lines: {error}");
            ExitCode::FAILURE
        }
    }
}
