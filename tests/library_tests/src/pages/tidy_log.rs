//! Reads lines of the tool in any form, and writes each in canonical form, which is read faster. A
//! line that asks for no call is reported on standard error.
use bm_lines::{call_of, line_of};

#[test]
fn main(rt: HostRuntime) -> anyhow::Result<()> {
    for line in rt.lines(rt.alloc()) {
        let line = line?;
        match call_of(rt.alloc(), line.as_bytes())? {
            Some(call) => {
                let canonical = line_of(rt.alloc(), &call)?;
                println!(rt; "{canonical}")?;
            }
            None => eprintln!(rt; "no call: {line}")?,
        }
    }
    Ok(())
}
