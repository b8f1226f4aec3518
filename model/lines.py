"""The lines: what a line asks for, and the line that answers it (FORMATS, "Input", "Output")."""

import json
import math

from model import events, queries
from model.rounds import commands, whole_round
from model.state import REFUSALS, Refused, need

MAX_LINE = 4_194_304
MAX_LINES = 2**20
MAX_BYTES = 2**30
MAX_DEPTH = 127
PIECE = 65_536


class TooMuch(Exception):
    """More bytes or lines than a run may have."""


# From bytes to lines


def lines_of(read):
    """Each line without its end. `read(n)` answers the next bytes, at most n.

    A last line without an end counts, unless it is empty. Of a line that is too long, the rest is
    not kept.
    """
    byte_count = line_count = 0
    rest = b""
    while piece := read(PIECE):
        byte_count += len(piece)
        piece = piece[: len(piece) - max(0, byte_count - MAX_BYTES)]
        *whole, rest = (rest + piece).split(b"\n")
        for line in whole:
            line_count += 1
            if line_count > MAX_LINES:
                raise TooMuch
            yield line
        if byte_count > MAX_BYTES or (line_count == MAX_LINES and rest):
            raise TooMuch
        rest = rest[: MAX_LINE + 1]
    if rest:
        yield rest


# From a line to a call


class Pairs(list):
    """The pairs of an object as they are written, with every key that is written twice."""


def value_of(line):
    """The value that `serde_json` reads of the line, or a refusal.

    Python's `json` takes more than `serde_json`: NaN and its like, numbers past the floats, single
    halves of surrogate pairs, and deeply nested values.
    """
    try:
        value = json.loads(
            line.decode(),
            object_pairs_hook=Pairs,
            parse_int=whole_number,
            parse_float=fraction,
            parse_constant=no_number,
        )
    except (ValueError, RecursionError):
        raise Refused("BadLine") from None
    return plain(value, 1)


def whole_number(text):
    """The number of a `u64`. A number with a sign, or from 2^64 on, counts as a fraction."""
    is_short = len(text) <= len(str(2**64))
    if not text.startswith("-") and is_short and int(text) < 2**64:
        return int(text)
    return fraction(text)


def fraction(text):
    number = float(text)
    need(math.isfinite(number), "BadLine")
    return number


def no_number(_):
    raise Refused("BadLine")


def plain(value, depth):
    """The value with dictionaries for objects: of a key that is written twice the last counts."""
    if isinstance(value, str):
        need(not any("\ud800" <= letter <= "\udfff" for letter in value), "BadLine")
    if not isinstance(value, list):
        return value
    need(depth <= MAX_DEPTH, "BadLine")
    if isinstance(value, Pairs):
        pairs = [(plain(key, depth), plain(item, depth + 1)) for key, item in value]
        return dict(pairs)
    return [plain(item, depth + 1) for item in value]


def number(value):
    """A whole number below 2^64; true and false are numbers to Python alone."""
    need(type(value) is int, "BadLine")
    return value


def small(value):
    need(number(value) < 2**32, "BadLine")
    return value


def list_of(item):
    def read(value):
        need(isinstance(value, list), "BadLine")
        return [item(one) for one in value]

    return read


def remaining(value):
    need(isinstance(value, list) and len(value) == 2, "BadLine")
    return small(value[0]), number(value[1])


def report_item(value):
    need(isinstance(value, list) and len(value) in (3, 4), "BadLine")
    return [number(one) for one in value]


NODE = ("node", small)
STORAGE = ("storage", small)
BLOCK = ("id", number)
STAMP = (("gen", number), ("len", number))
WANTED = ("repl", small)

# For each `op` its call and its fields.
EVENTS = {
    "register": (events.register, NODE, ("rack", small), ("storages", list_of(small))),
    "drain": (events.drain, NODE),
    "undrain": (events.undrain, NODE),
    "heartbeat": (events.heartbeat, NODE, ("remaining", list_of(remaining))),
    "dead": (events.dead, NODE),
    "storage_failed": (events.storage_failed, STORAGE),
    "add": (events.add, BLOCK, *STAMP, WANTED),
    "delete": (events.delete, BLOCK),
    "set_replication": (events.set_replication, BLOCK, WANTED),
    "restamp": (events.restamp, BLOCK, *STAMP),
    "received": (events.received, STORAGE, BLOCK, *STAMP),
    "deleted": (events.deleted, STORAGE, BLOCK),
    "corrupt": (events.corrupt, STORAGE, BLOCK),
    "report": (events.report, STORAGE, ("blocks", list_of(report_item))),
}

QUERIES = {
    "list_replicas": (queries.list_replicas,),
    "list_corrupt": (queries.list_corrupt,),
    "list_excess": (queries.list_excess,),
    "list_missing": (queries.list_missing,),
    "list_storage": (queries.list_storage, STORAGE),
    "list_places": (queries.list_places, BLOCK),
    "level": (queries.level, BLOCK),
    "retired": (queries.retired, NODE),
}

CALLS = {**EVENTS, "round": (whole_round,), **QUERIES}

# The first item of a query's answer, before its field if it has one.
FIRST_WORDS = {
    "list_replicas": "replicas",
    "list_corrupt": "corrupt",
    "list_excess": "excess",
    "list_missing": "missing",
    "list_storage": "storage",
    "list_places": "places",
    "level": "level",
    "retired": "retired",
}


def call_of(line):
    """The `op` of a line and its fields in the order of the table; further fields are ignored."""
    need(len(line) <= MAX_LINE, "LongLine")
    value = value_of(line)
    need(isinstance(value, dict), "BadLine")
    op = value.get("op")
    need(isinstance(op, str) and op in CALLS, "BadLine")
    _, *fields = CALLS[op]
    need(all(key in value for key, _ in fields), "BadLine")
    return op, [read(value[key]) for key, read in fields]


# From a call to its answer


def answered(state, line):
    """The state after a line, and its answer. What is refused changes nothing."""
    try:
        op, fields = call_of(line)
        after, result = called(state, op, fields)
    except Refused as refused:
        return state, refusal_text(refused)
    return after, text_of(op, fields, result)


def called(state, op, fields):
    """The state after a call, and its result: two counts, a round, or the items of a query."""
    call = CALLS[op][0]
    if op in EVENTS:
        return events.applied(state, call, fields)
    if op in QUERIES:
        return state, call(state, *fields)
    return call(state)


def text_of(op, fields, result):
    if op in EVENTS:
        added, removed = result
        return f"ok {added} {removed}"
    if op in QUERIES:
        return joined([(FIRST_WORDS[op], *fields), *result])
    return joined([("round", result.number), *commands(result)])


def refusal_text(refused):
    name = str(refused)
    return f"refused {REFUSALS[name]} {name}"


def joined(items):
    """Words of an item are parted by a space, items by a semicolon and a space."""
    return "; ".join(" ".join(map(str, item)) for item in items)
