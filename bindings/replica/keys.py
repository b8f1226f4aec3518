"""The keys of one manager in etcd, and what all programs that use them have to agree on."""

import json

from access import Stop
from store import absent, get, put

# The version of what is under a prefix: the keys, their values, and which lines of the log count.
LAYOUT = 2


class Keys:
    """The keys of one manager."""

    def __init__(self, prefix="/puljemrod/"):
        if not prefix.endswith("/"):
            raise Stop(f"the prefix {prefix!r} has no / at its end")
        self.prefix = prefix
        # Answers by writer and number of a line; commands by node and number of the round's line;
        # hashes by number of a line; replicas by name; sessions by writer.
        self.log, self.answers, self.hashes, self.commands, self.replicas, self.sessions = (
            f"{prefix}{name}/"
            for name in ("log", "answers", "hashes", "commands", "replicas", "sessions")
        )
        # Who leads; up to which log key the output is written; the manager's options; the version
        # of the layout; the number of the newest writer; who alone may append.
        self.leader, self.done, self.options, self.layout, self.writers, self.turn = (
            f"{prefix}{name}"
            for name in ("leader", "done", "options", "layout", "writers", "turn")
        )
        # Whether rounds wait for blocks.
        self.safe_mode = f"{prefix}safe_mode"

    def answers_to(self, writer):
        return f"{self.answers}{writer}/"


def numbered(prefix, number):
    return f"{prefix}{number:016d}"


def number_of(key):
    try:
        return int(key.rsplit("/", 1)[1][:16])
    except ValueError:
        raise Stop(f"a key that has no number: {key}") from None


def agree_on_layout(store, keys, writes=True):
    """The first program under a prefix writes the layout down; one with another does not start.
    Keys without a layout are of version 1. An account of writers may only read what is there."""
    compares = [absent(keys.layout), absent(keys.options), absent(keys.writers)]
    outcome = store.transact(compares, [], [get(keys.layout)])
    if outcome.succeeded and writes:
        own = put(keys.layout, str(LAYOUT))
        outcome = store.transact(compares, [own], [get(keys.layout)])
    if not outcome.succeeded:
        found = outcome.ranges[0].entries
        stored = found[0].value.decode() if found else "1"
        if stored != str(LAYOUT):
            raise Stop(f"what is below {keys.prefix} has layout {stored}, and this program "
                       f"uses layout {LAYOUT}")


def agree_on_options(store, keys, options):
    """The first replica writes the options down; another one with others does not start."""
    # Replicas of layout 1 compare nothing else.
    own = json.dumps({"layout": LAYOUT, **options}, sort_keys=True)
    outcome = store.transact([absent(keys.options)], [put(keys.options, own)], [get(keys.options)])
    if not outcome.succeeded:
        stored = outcome.ranges[0].entries[0].value.decode()
        if stored != own:
            raise Stop(f"the replicas run with the options {stored}, not {own}")
