"""Random lines by hypothesis for the bindings, and a program that compares a driver with the model.

    scripts/support/fuzz_binding.py [--examples N] [--seed N] COMMAND..

The command is a driver of a binding: it reads lines on standard input and prints the answer of
each, on a manager of its own. In its words {shards}, {work}, {invalidate}, {pend}, {nodes} and
{storages} stand for the options, and a manager without them has the standard ones. A difference is
reduced by hypothesis to few lines, which are printed. Without a seed every run has the same lines.

It needs python3-hypothesis; `fuzz` in fuzz.py starts it.
"""

import argparse
import json
import subprocess
import sys
from pathlib import Path

import hypothesis
from hypothesis import HealthCheck, Phase, given, settings
from hypothesis import strategies as st

sys.path.insert(0, str(Path(__file__).resolve().parents[2]))
from model.lines import CALLS, MAX_LINE, answered
from model.state import Limits, State
from random_lines import FREE_BYTES, ODD_LINES

STANDARD = {"shards": 1, "work": 2, "invalidate": 1000, "pend": 100, "nodes": 256, "storages": 4096}

# How often each operation is drawn; an operation that is left out, once.
WEIGHTS = {"register": 3, "received": 6, "report": 3, "add": 3, "round": 4, "heartbeat": 2}

# How often each kind of line is drawn.
KINDS = ["call"] * 40 + ["odd"] * 3 + ["bytes"] * 2 + ["long"]

# Few numbers, so that most calls meet nodes, storages and blocks that are known.
NODES, STORAGES = [1, 2, 3, 2**32 - 1], [11, 12, 21, 31, 32, 2**32 - 1]
BLOCKS, LENGTHS = [7, 8, 9, 2**64 - 1], [64, 64, 64, 65]

# Three nodes with free bytes, and two blocks, of which one wants more replicas.
SET_UP = [
    *[b'{"op":"register","node":%d,"rack":%d,"storages":[%d]}' % it for it in ((1, 1, 11), (2, 1, 21), (3, 2, 31))],
    *[b'{"op":"heartbeat","node":%d,"remaining":[[%d,1000]]}' % it for it in ((1, 11), (2, 21), (3, 31))],
    *[b'{"op":"add","id":%d,"gen":1,"len":64,"repl":2}' % it for it in (7, 8)],
    *[b'{"op":"received","storage":%d,"id":%d,"gen":1,"len":64}' % it for it in ((11, 7), (11, 8), (31, 8))],
]


class Long(bytes):
    """A line at the limit, or one byte longer, which is shown in short."""

    def __new__(cls, more):
        return super().__new__(cls, b'{"op":"list_missing"}'.ljust(MAX_LINE + more))

    def __repr__(self):
        return f"Long({len(self) - MAX_LINE})"


one_of = st.sampled_from

item = st.tuples(one_of(BLOCKS), st.integers(1, 2), one_of(LENGTHS))

run = st.tuples(one_of(BLOCKS), one_of(BLOCKS[:3]), st.integers(1, 2), one_of(LENGTHS))

FIELDS = {
    "node": one_of(NODES),
    "rack": st.integers(1, 2),
    "storages": st.lists(one_of(STORAGES), max_size=2),
    "remaining": st.lists(st.tuples(one_of(STORAGES), one_of(sorted({it for of in FREE_BYTES for it in of}))), max_size=2),
    "storage": one_of(STORAGES),
    "id": one_of(BLOCKS),
    "gen": st.integers(1, 3),
    "len": one_of(LENGTHS),
    "repl": one_of([1, 2, 2, 3, 0, 17]),
    "blocks": st.lists(item | run, max_size=4),
}


def joined(parts):
    return {name: value for part in parts for name, value in part.items()}


def line_of(op, fields):
    return json.dumps({"op": op, **fields}, separators=(",", ":")).encode()


def line_with(op):
    fields = {key: FIELDS[key] for key, _ in CALLS[op][1:]}
    return st.fixed_dictionaries(fields).map(lambda given: line_of(op, given))


calls = one_of([op for op in CALLS for _ in range(WEIGHTS.get(op, 1))]).flatmap(line_with)

queries = one_of([op for op in CALLS if op.startswith("list_") or op in ("level", "retired")]).flatmap(line_with)

LINES = {
    "call": calls,
    "odd": one_of(ODD_LINES),
    "bytes": st.binary(max_size=20).map(lambda text: text.replace(b"\n", b"\r")),
    "long": st.integers(0, 1).map(Long),
}

lines = one_of(KINDS).flatmap(LINES.get)

scripts = st.tuples(one_of([[], SET_UP]), st.lists(lines, min_size=1, max_size=60)).map(lambda it: it[0] + it[1])

options = st.fixed_dictionaries({
    "shards": one_of([1, 3, 64]),
    "work": one_of([2, 1, 1000]),
    "invalidate": one_of([1000, 1, 2]),
    "pend": one_of([100, 1, 2]),
})

# With few numbers, only small limits are reached.
limits = st.fixed_dictionaries({"nodes": one_of([256, 1, 3, 65_536]), "storages": one_of([4_096, 2, 4, 1_048_576])})


def how_to_run(examples, seed):
    """A decorator: this number of examples, the same in every run or drawn by a seed."""
    chosen = settings(
        max_examples=examples, derandomize=seed is None, database=None, deadline=None,
        phases=(Phase.generate, Phase.shrink), suppress_health_check=list(HealthCheck), report_multiple_bugs=False,
    )
    return chosen, (lambda test: test) if seed is None else hypothesis.seed(seed)


def limits_of(options):
    return Limits(**{name: options[name] for name in Limits._fields if name in options})


def answers_of_model(options, lines):
    state, answers = State(limits_of(options)), []
    for line in lines:
        state, answer = answered(state, line)
        answers.append(answer.encode())
    return answers


def answers_of_driver(command, options, lines):
    """The answers of a driver, with one more line if it fails."""
    for name, value in options.items():
        command = [word.replace(f"{{{name}}}", str(value)) for word in command]
    text = b"".join(line + b"\n" for line in lines)
    ended = subprocess.run(command, input=text, capture_output=True, timeout=60)
    answers = ended.stdout.split(b"\n")
    last = answers.pop()
    if ended.returncode or last:
        answers.append(b"%sstatus %d, %s" % (last, ended.returncode, ended.stderr[-500:]))
    return answers


def difference(options, lines, found, wanted):
    at = next((at for at, both in enumerate(zip(found, wanted)) if both[0] != both[1]), min(len(found), len(wanted)))
    script = "".join(f"    {line!r}\n" for line in lines[: at + 1])
    of_each = (repr(answers[at][:1000]) if at < len(answers) else "none" for answers in (found, wanted))
    return f"{options}\n{script}answer: {next(of_each)}\nmodel:  {next(of_each)}"


def compare(command, examples, seed):
    chosen, seeded = how_to_run(examples, seed)
    drawn = [of for name, of in (("{shards}", options), ("{nodes}", limits)) if name in command]

    @seeded
    @chosen
    @given(st.tuples(st.just(STANDARD), *drawn).map(joined), scripts)
    def is_answered_alike(options, lines):
        found, wanted = answers_of_driver(command, options, lines), answers_of_model(options, lines)
        assert found == wanted, difference(options, lines, found, wanted)

    is_answered_alike()


def main():
    parser = argparse.ArgumentParser(description=__doc__.splitlines()[0])
    parser.add_argument("--examples", type=int, default=100)
    parser.add_argument("--seed", type=int)
    parser.add_argument("command", nargs=argparse.REMAINDER)
    given = parser.parse_args()
    try:
        compare(given.command, given.examples, given.seed)
    except AssertionError as error:
        sys.exit(f"DIFFERS {error}")
    print(f"{given.examples} scripts alike")


if __name__ == "__main__":
    main()
