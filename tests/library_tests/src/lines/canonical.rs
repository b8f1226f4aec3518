// Canonical lines, which are read without `serde_json`, other lines of calls, lines that are nearly
// canonical, and lines that ask for no call.
use bm_lines::{call_of, canonical_call};
use std::alloc::Global;
use std::process::Abort;

static CANONICAL: [&'static str; 13] = [
    "{\"op\":\"add\",\"id\":0,\"gen\":1,\"len\":64,\"repl\":2}",
    "{\"op\":\"received\",\"storage\":4294967295,\"id\":7,\"gen\":1,\"len\":64}",
    "{\"op\":\"deleted\",\"storage\":11,\"id\":18446744073709551615}",
    "{\"op\":\"corrupt\",\"storage\":11,\"id\":7}",
    "{\"op\":\"delete\",\"id\":7}",
    "{\"op\":\"set_replication\",\"id\":7,\"repl\":3}",
    "{\"op\":\"restamp\",\"id\":7,\"gen\":2,\"len\":65}",
    "{\"op\":\"list_places\",\"id\":7}",
    "{\"op\":\"level\",\"id\":7}",
    "{\"op\":\"report\",\"storage\":11,\"blocks\":[]}",
    "{\"op\":\"report\",\"storage\":11,\"blocks\":[[7,1,64],[8,10,2,65]]}",
    "{\"op\":\"heartbeat\",\"node\":1,\"remaining\":[]}",
    "{\"op\":\"heartbeat\",\"node\":1,\"remaining\":[[11,5],[12,0]]}",
];

static IN_ANOTHER_FORM: [&'static str; 9] = [
    "{\"op\":\"delete\", \"id\":7}",
    "{\"op\":\"delete\",\"id\":7}\r",
    "{\"op\":\"delete\",\"id\":7,\"x\":0}",
    "{\"op\":\"received\",\"id\":7,\"storage\":11,\"gen\":1,\"len\":64}",
    "{\"op\":\"report\",\"storage\":1,\"blocks\":[[7,7,1,64]]}",
    "{\"op\":\"heartbeat\",\"node\":1,\"remaining\":[[11, 5]]}",
    "{\"op\":\"register\",\"node\":1,\"rack\":2, \"storages\":[11,12]}",
    "{\"id\":\"x\",\"op\":\"delete\",\"id\":7}",
    "{\"op\":\"delete\",\"id\":7,\"x\":[{\"id\":[8,-1,1e308,\"\\n\"]},true,false,null]}",
];

static NEARLY_CANONICAL: [&'static str; 15] = [
    "{\"op\":\"delete\",\"id\":07}",
    "{\"op\":\"delete\",\"id\":}",
    "{\"op\":\"delete\",\"id\":18446744073709551616}",
    "{\"op\":\"delete\",\"id\":7}}",
    "{\"op\":\"delete\",\"id\":7",
    "{\"op\":\"level\"}",
    "{\"op\":\"set_replication\",\"id\":7,\"repl\":4294967296}",
    "{\"op\":\"report\",\"storage\":1,\"blocks\":[[7,1,64],]}",
    "{\"op\":\"report\",\"storage\":1,\"blocks\":[[7,8,1,64,0]]}",
    "{\"op\":\"heartbeat\",\"node\":1,\"remaining\":[[4294967296,5]]}",
    "{\"op\":\"delete\",\"id\":7,\"id\":\"x\"}",
    "{\"op\":\"delete\",\"id\":7,\"x\":[{\"id\":[8,-1,1e309]}]}",
    "{\"op\":\"delete\",\"id\":7,\"x\":[{\"id\":[8,-1]]}",
    "{\"op\":\"delete\",\"id\":7} 7",
    "[{\"op\":\"delete\",\"id\":7}]",
];

static NO_CALL: [&'static str; 7] = [
    "",
    "7",
    "{\"op\":\"fly\"}",
    "{\"op\":\"retired\",\"node\":4294967296}",
    "{\"op\":\"delete\",\"id\":18446744073709551616}",
    "{\"op\":\"report\",\"storage\":1,\"blocks\":[[7,1]]}",
    "{\"op\":\"round\"",
];

/// Whether a call is read from a line, and whether the line is read as a canonical one.
fn is_read(rt: &impl Abort, alloc: Global, line: &str) -> (bool, bool) {
    let read = call_of(alloc, line.as_bytes())
        .expect(rt, "memory")
        .is_some();
    let canonical = canonical_call(alloc, line.as_bytes())
        .expect(rt, "memory")
        .is_some();
    (read, canonical)
}

fn check(rt: &impl Abort, alloc: Global, lines: &[&str], must: (bool, bool)) {
    for line in lines {
        assert!(rt; is_read(rt, alloc, line) == must, "at {line}");
    }
}

#[test]
fn lines_are_read_in_their_form(rt: HostRuntime) {
    check(&rt, rt.alloc(), CANONICAL.as_slice(), (true, true));
    check(&rt, rt.alloc(), IN_ANOTHER_FORM.as_slice(), (true, false));
    check(&rt, rt.alloc(), NEARLY_CANONICAL.as_slice(), (false, false));
    check(&rt, rt.alloc(), NO_CALL.as_slice(), (false, false));
}
