"""Runs a replica until a signal comes, or until it cannot go on."""

import signal
import time

from http_page import Page
from keys import Keys, Stop, agree_on_layout, agree_on_options
from leader import Leadership
from log import read
from puljemrod import Fault, Manager, OutOfMemory, TooMuch, named_library
from state import Replica
from store import Store, StoreError

# The options that answers depend on: they have to be the same for all replicas.
SHARED = {"work": 2, "invalidate": 1000, "pend": 100}

# These too. Only the library takes others, and version 1 knows none of them: so they are written
# down only if they are others.
LIMITS = {"nodes": 256, "storages": 4_096}


def reason_of(fault):
    if isinstance(fault, OutOfMemory):
        return f"out of memory ({fault}); on a machine with more it reads the log again"
    if isinstance(fault, TooMuch):
        return f"the log is too long for a replica over the line tool: {fault}"
    return f"the manager has ended: {fault}"


def shared_options(words):
    options = {name: getattr(words, name) for name in (*SHARED, *LIMITS)}
    others = [name for name, value in LIMITS.items() if options[name] != value]
    if others and not words.library and (words.tool or not named_library()):
        raise Stop(f"--{others[0]} {options[others[0]]} needs the library: the line tool has "
                   f"{LIMITS[others[0]]}")
    return {name: value for name, value in options.items() if name in SHARED or name in others}


def joined(words, keys, say):
    """The replica and its part in the lead, once all options are accepted and it has its name."""
    options = shared_options(words)
    given = {**options, "shards": words.shards, "workers": words.workers}
    replica = Replica(Manager(words.tool, words.library, **given), keys, say)
    leadership = Leadership(
        replica, words.name, words.etcd, words.lease, words.interval, words.keep,
        words.safe_mode, words.extension
    )
    store = Store(words.etcd)
    agree_on_layout(store, keys)
    leadership.join()
    try:
        agree_on_options(store, keys, options)
    except (Stop, StoreError) as error:
        leadership.end(str(error))
        raise
    return replica, leadership


def run(words, say):
    keys = Keys(words.prefix)
    page = Page(words.http) if words.http else None
    replica, leadership = joined(words, keys, say)
    for number in (signal.SIGTERM, signal.SIGINT):
        signal.signal(number, lambda *_: replica.stopped.set())
    leadership.start()
    if page:
        page.start(replica, leadership, words.pend)
    say(f"reads the log below {keys.log}")
    try:
        for entry in read(Store(words.etcd), keys, say):
            leadership.read_at = time.monotonic()
            if replica.stopped.is_set():
                break
            if entry:
                replica.apply(*entry)
            if page:
                page.take()
    except Fault as fault:
        leadership.finish()
        replica.stop(reason_of(fault))
    except (Stop, StoreError) as error:
        replica.stop(str(error))
    replica.stopped.set()
    leadership.end(replica.why)
    say(f"stops after log key {replica.applied}" + (f": {replica.why}" if replica.why else ""))
    return 1 if replica.why else 0
