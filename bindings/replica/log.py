"""The log: numbered keys in the store without gaps, each a batch (batches.py). One that appends
puts the next key; a replica reads all keys in order."""

import contextlib
import time

from batches import BATCH
from keys import Stop, number_of, numbered
from store import LeaseGone, Store, StoreError, Unreachable, absent, after, created, delete, get
from store import modified, present, put

# Seconds for which a writer tries to append before it takes the turn; for which a dead one keeps
# it, at least; after which others look whether it is free.
RACE, HOLD, LOOK = 0.5, 5, 0.02


class Fenced(Exception):
    """What the writer of a transaction held is lost: etcd refused the transaction."""


def position_of(entry):
    """The value of `done`: a log key, and how many of its values are written. All before it are."""
    return tuple(int(word) for word in entry.value.split()) if entry else (1, 0)


def last_index(store, keys):
    """The number of the last log key, 0 if there is none."""
    index, _ = position_of(store.value(keys.done))
    found = store.range(numbered(keys.log, index), after(keys.log), count_only=True)
    return index - 1 + found.count


class Tail:
    """The end of the log, for one that appends. `last` is the number of the last key, or a
    guess."""

    def __init__(self, store, keys, last=0):
        self.store, self.keys, self.last = store, keys, last
        # When the key of the turn was created, if this writer has it, and its lease. When it was
        # created by another writer.
        self.turn = self.lease = self.held = 0

    def put(self, value, guard, puts=(), keeps_turn=False):
        """Tries to put a value after the last key of the log, and other values with it; returns
        whether they are there. Raises `Fenced` if only the guard can have refused them."""
        keys, last = self.keys, self.last
        key, before = numbered(keys.log, last + 1), numbered(keys.log, last)
        compares = [absent(key), created(keys.turn, self.turn), *guard]
        if last:
            compares.append(present(before))
        outcome = self.store.transact(
            compares,
            [put(key, value), *puts, *([delete(keys.turn)] * bool(self.turn and not keeps_turn))],
            [get(key, after(keys.log), count_only=True), get(before, keys_only=True),
             get(keys.turn)],
        )
        if outcome.succeeded or not outcome.certain and self.is_there(key, value):
            self.last = last + 1
            self.turn *= keeps_turn
            return True
        newer, guess, holder = outcome.ranges
        self.held = holder.entries[0].created if holder.entries else 0
        if newer.count:
            self.last += newer.count
        elif last and not guess.entries:
            self.last = last_index(self.store, keys)
        elif self.held == self.turn:
            raise Fenced("etcd refused a batch, since its writer lost the right to it")
        if self.held != self.turn:
            self.turn = 0
        return False

    def is_there(self, key, value):
        """Whether a transaction succeeded whose answer was lost."""
        found = self.store.value(key)
        return found is not None and found.value == value

    def append(self, value, guard=(), puts=(), waits=True):
        """Puts a value after the last key of the log and returns its number. A small value is put
        sooner than a large one, so a writer that has lost for a while takes the turn. One that does
        not wait gets 0 if others are first."""
        since = time.monotonic()
        while not self.put(value, guard, puts):
            is_late = time.monotonic() - since > RACE
            if self.turn:
                continue
            if not waits and (self.held or is_late):
                return 0
            if is_late:
                self.take_turn(HOLD)
            elif self.held:
                self.wait_for_turn()
        return self.last

    def append_together(self, values, guard=(), puts=()):
        """Puts values under consecutive keys of the log, in this writer's turn, and other values
        with the last one. Starts over if the turn is lost, and then asks for a longer one."""
        hold = HOLD
        while True:
            if not self.turn:
                self.take_turn(hold)
                hold *= 2
            with contextlib.suppress(LeaseGone):
                if all(self.put_one_of(values, at, guard, puts) for at in range(len(values))):
                    return self.last
                continue
            self.turn = 0

    def put_one_of(self, values, at, guard, puts):
        is_last = at + 1 == len(values)
        self.store.keep_alive(self.lease)
        return self.put(values[at], guard, puts if is_last else (), keeps_turn=not is_last)

    def wait_for_turn(self):
        while self.store.value(self.keys.turn):
            time.sleep(LOOK)

    def take_turn(self, seconds):
        """Takes the turn once it is free. While its key is there nobody else appends. The key is
        under a lease, and goes if this writer dies."""
        while not self.turn:
            self.wait_for_turn()
            lease = self.store.grant(seconds)
            try:
                outcome = self.store.transact(
                    [absent(self.keys.turn)], [put(self.keys.turn, "", lease)],
                    [get(self.keys.turn)],
                )
            except LeaseGone:
                continue
            if outcome.succeeded:
                self.turn, self.lease = outcome.revision, lease
            else:
                for holder in outcome.ranges[0].entries:
                    if holder.lease == lease:
                        # The answer to the transaction was lost.
                        self.turn, self.lease = holder.created, lease


# Keys in one answer, if their values are small and if they may be full batches. etcd sends some
# megabytes a second.
MANY, FEW = 32, 4


def follow(store, prefix, revision=0, say=print, dense=False):
    """Yields the entries below a prefix: first those that exist, by key, then new ones as they
    come. With a revision it yields only those that come after it. It yields None after each second
    without any; the caller may then send that there are more. While etcd does not answer it goes on
    trying. `dense` keys are numbered without gaps: a range spans no more of them than it asks
    for."""
    start, last, more, limit = prefix, 0, not revision, FEW
    away = False
    while True:
        try:
            while more:
                end = numbered(prefix, last + 1 + limit) if dense else after(prefix)
                entries, _, revision = store.range(start, end, limit=limit)
                yield from entries
                # There may be others after the first gap.
                full = len(entries) == limit
                more, dense = full or dense, full and dense
                if entries:
                    start, last = entries[-1].key + "\0", number_of(entries[-1].key)
                    size = sum(len(entry.value) for entry in entries)
                    limit = MANY if size < BATCH // 8 else FEW
            for changes in store.watch(prefix, after(prefix), revision + 1):
                if away:
                    away = False
                    say("etcd answers again")
                if changes is None:
                    is_behind = yield None
                    if is_behind:
                        # Another server may have more.
                        store.leave()
                        break
                    continue
                entries, revision = changes[0], max(revision, changes[1])
                yield from entries
        except Unreachable as error:
            # The range may be too large for the time.
            limit = 1
            if not away:
                say(str(error))
                away = True
            yield None


def is_behind(store, keys, index, newest):
    """Whether the log has more keys than were read. The last of these must still be as it was."""
    try:
        entries = store.range(
            numbered(keys.log, index), after(keys.log), limit=2, keys_only=True
        ).entries
    except StoreError:
        return False
    if not index:
        return bool(entries)
    if not entries or number_of(entries[0].key) > index or entries[0].modified < newest:
        raise Stop(f"the store has gone back: log key {index} was read, and is not there")
    return len(entries) > 1


def read(store, keys, say=print):
    """Yields the number and the value of each log key, in order from the first; None after each
    second without any. Stops at a gap, at a changed key, and if the store has gone back."""
    checks = Store(store.access)
    index = newest = 0
    entries = follow(store, keys.log, say=say, dense=True)
    behind = None
    while True:
        entry = entries.send(behind)
        behind = None
        if entry is None:
            behind = is_behind(checks, keys, index, newest)
            yield None
            continue
        number = number_of(entry.key)
        if number > index + 1:
            raise Stop(f"a gap in the log: key {index + 1} is missing before {number}")
        old = entry.modified <= newest
        if old and number <= index:
            # Delivered again after the connection was lost.
            continue
        if old or number <= index or entry.value is None or entry.version != 1:
            raise Stop(f"log key {number} was changed after it was written")
        index, newest = number, entry.modified
        yield index, entry.value
