// Lines as people write them, a line that grows too long, and answers as they are printed.
use bm_base::{Answer, Call, Done, Refusal};
use bm_lines::{LINE_END, Line, MAX_LINE, answer_line, call_of, line_end, line_of};
use std::alloc::Global;
use std::process::Abort;

fn is_tidied(rt: &impl Abort, alloc: Global, line: &str, tidy: &str) {
    match call_of(alloc, line.as_bytes()).expect(rt, "memory") {
        Some(call) => {
            let written = line_of(alloc, &call).expect(rt, "memory");
            assert!(rt; written.as_str() == tidy);
        }
        None => assert!(rt; false),
    }
}

// Fields in any order, spaces and further fields: the written line has the order of the table.
#[test]
fn a_line_as_people_write_it(rt: HostRuntime) {
    is_tidied(
        &rt,
        rt.alloc(),
        " { \"repl\" : 3, \"len\":10, \"x\":[null], \"gen\":1, \"id\":7, \"op\":\"add\" }\r",
        "{\"op\":\"add\",\"id\":7,\"gen\":1,\"len\":10,\"repl\":3}",
    );
}

/// Checks that an answer is printed as this line.
fn is_printed(rt: &impl Abort, alloc: Global, answer: &Answer, line: &str) {
    let printed = answer_line(alloc, &Call::Round, answer).expect(rt, "memory");
    assert!(rt; printed.as_str() == line, "{line}");
}

#[test]
fn answers_as_they_are_printed(rt: HostRuntime) {
    let done = Answer::Done(Done {
        added: 2,
        removed: 1,
    });
    is_printed(&rt, rt.alloc(), &done, "ok 2 1");
    let refused = Answer::Refused(Refusal::StillStored);
    is_printed(&rt, rt.alloc(), &refused, "refused 7 StillStored");
}

fn add(rt: &impl Abort, line: &mut Line, bytes: &[u8]) {
    line.add(bytes).expect(rt, "memory");
}

fn add_spaces(rt: &impl Abort, alloc: Global, line: &mut Line) {
    let spaces = vec![in alloc; b' '; MAX_LINE - 1].expect(rt, "memory");
    add(rt, line, spaces.as_slice());
}

// A line that grows past the limit holds no bytes, but it is not empty.
#[test]
fn a_line_that_grows_too_long(rt: HostRuntime) {
    let mut line = Line::new(rt.alloc());
    assert!(&rt; line.is_empty());
    add(&rt, &mut line, b"{}");
    assert!(&rt; line.bytes.as_slice() == b"{}".as_slice());
    add_spaces(&rt, rt.alloc(), &mut line);
    assert!(&rt; line.is_long && line.bytes.is_empty() && !line.is_empty());
    line.clear();
    assert!(&rt; line.is_empty());
    drop(line);
    assert!(&rt; line_end(b"{}\n{}\n") == Some(2));
    assert!(&rt; LINE_END == 10);
}
