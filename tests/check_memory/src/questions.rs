// The answers of a manager to all questions, as text.

use crate::answers::ask;
use crate::short_calls::ShortCall;
use bm_manager::Manager;
use std::alloc::Global;
use std::sync::Wait;
use std::thread::Threads;

/// Questions about the manager as a whole; about nodes 1 to 6, whose storages are 11 to 61 if they
/// exist; and about blocks 1 to 11.
static QUESTIONS: [ShortCall; 40] = [
    ShortCall::Calls,
    ShortCall::Rounds,
    ShortCall::Replicas,
    ShortCall::Corrupt,
    ShortCall::Excess,
    ShortCall::Missing,
    ShortCall::Retired(1),
    ShortCall::BlocksOn(11),
    ShortCall::Retired(2),
    ShortCall::BlocksOn(21),
    ShortCall::Retired(3),
    ShortCall::BlocksOn(31),
    ShortCall::Retired(4),
    ShortCall::BlocksOn(41),
    ShortCall::Retired(5),
    ShortCall::BlocksOn(51),
    ShortCall::Retired(6),
    ShortCall::BlocksOn(61),
    ShortCall::Places(1),
    ShortCall::Level(1),
    ShortCall::Places(2),
    ShortCall::Level(2),
    ShortCall::Places(3),
    ShortCall::Level(3),
    ShortCall::Places(4),
    ShortCall::Level(4),
    ShortCall::Places(5),
    ShortCall::Level(5),
    ShortCall::Places(6),
    ShortCall::Level(6),
    ShortCall::Places(7),
    ShortCall::Level(7),
    ShortCall::Places(8),
    ShortCall::Level(8),
    ShortCall::Places(9),
    ShortCall::Level(9),
    ShortCall::Places(10),
    ShortCall::Level(10),
    ShortCall::Places(11),
    ShortCall::Level(11),
];

/// Whether these are the answers to all questions. Replaces `text` by the answers.
pub fn shows<R: Eprint + Threads + Wait + Sync>(
    rt: &R,
    alloc: Global,
    manager: &mut Manager,
    expected: &str,
    text: &mut String,
) -> bool {
    ask_all(rt, alloc, manager, text) && text.as_str() == expected
}

/// Replaces `text` by the answers to all questions. Whether there is memory for them.
pub fn ask_all<R: Eprint + Threads + Wait + Sync>(
    rt: &R,
    alloc: Global,
    manager: &mut Manager,
    text: &mut String,
) -> bool {
    let mut is_written = true;
    text.clear();
    for short in &QUESTIONS {
        is_written = ask(rt, alloc, manager, *short, text).is_ok() && is_written;
    }
    is_written
}
