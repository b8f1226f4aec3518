// Lines that ask for no call, and lines up to the limit of 4,194,304 bytes.
use crate::rows::{EXAMPLE_CONFIG, NOTHING, Row, is_answered};
use std::alloc::AllocError;

const ROW: Row = Row {
    name: "bad_and_long_lines",
    config: EXAMPLE_CONFIG,
    before: NOTHING,
    script: "",
    answers: "refused 20 BadLine
refused 20 BadLine
refused 20 BadLine
refused 21 LongLine
round 1
round 2
",
};

const THREE_BAD_LINES: &str = r#"{
{"op":"fly"}
{"op":"dead","node":4294967296}
"#;

const ROUND: &str = "\n{\"op\":\"round\"}";

/// The parts of the script, each with the number of spaces after it: one line is a byte too long,
/// and the next has the greatest length.
const PARTS: [(&str, usize); 3] = [
    (THREE_BAD_LINES, 4_194_305),
    (ROUND, 4_194_304 - 14),
    (ROUND, 0),
];

#[test]
fn bad_and_long_lines(rt: HostRuntime) -> Result<(), AllocError> {
    let alloc = rt.alloc();
    let mut input = Vec::new(alloc);
    for (text, spaces) in PARTS.as_slice() {
        push_part(&mut input, text, *spaces)?;
    }
    is_answered(&rt, alloc, &ROW, input.as_slice(), 3, 2);
    Ok(())
}

fn push_part(input: &mut Vec<u8>, text: &str, spaces: usize) -> Result<(), AllocError> {
    input.extend_from_slice(text.as_bytes())?;
    for _ in 0..spaces {
        input.push(b' ')?;
    }
    Ok(())
}
