"""The leader: one replica at a time holds a lease of etcd, and writes the output of all.

Its key exists as long as the lease, and every transaction of a leader compares when that key was
created. So a deposed leader can write nothing, however late it notices: no clock takes part. Each
transaction also moves `done`, the position up to which the output is written. So every value is
written once, and a new leader goes on where the old one ended."""

import json
import threading
import time

from batches import LEADER, Batch, value_of
from keys import Stop, number_of, numbered
from log import Fenced, Tail, position_of
from name import Name
from safe_mode import SafeMode
from store import ANSWER, LeaseGone, Refused, Store, StoreError, absent, after, created, get
from store import modified, put

# Seconds between two turns of the keeper. Seconds after which a leader whose reader hangs gives
# way.
TURN, HANG = 0.25, 60
# Seconds in which a leader whose manager has ended writes the output that it still has.
FINISH = 10
# Bytes and values of one transaction: etcd takes 1.5 MiB and 128 operations.
MOST_BYTES, MOST_VALUES = (1 << 20) + (1 << 16), 100
# The most hashes that are read at once.
HASHES = 1_000


class Leadership:
    """What the keeper and the publisher of a replica share."""

    def __init__(self, replica, name, servers, lease, interval, keep, share=0, extension=0):
        self.replica, self.keys, self.say = replica, replica.keys, replica.say
        self.servers = servers
        self.store = Store(servers, max(1, min(ANSWER, lease // 3)))
        self.publishing = Store(servers)
        self.name = Name(self.store, self.keys, name, lease)
        self.interval, self.keep = interval, keep
        self.safe_mode = SafeMode(replica, self.name, servers, share, extension)
        # When this replica's key as the leader was created; 0 if it does not lead.
        self.epoch = 0
        # Set once the lease is gone: then the publisher lets etcd decide.
        self.doubt = False
        self.read_at = time.monotonic()
        self.confirmed = 0
        self.status_at = 0
        # The next round is due at `round_at`; those up to `sent_round` were sent.
        self.round_at, self.sent_round = 0, -1
        # Answers and commands are written under a lease, and go when it runs out: nothing has to
        # delete them. Each lease takes what is written in a part of the time.
        self.keep_lease = self.keep_until = 0
        self.keep_part = max(1, keep // 1440)
        self.threads = [threading.Thread(target=self.run, args=(turn,), daemon=True)
                        for turn in (self.keep_turn, self.publish_turn, self.count_turn)]

    def run(self, turn):
        silent = None
        while not self.replica.stopped.is_set():
            try:
                turn()
                silent = None
            except LeaseGone:
                self.keep_until = 0
            except StoreError as error:
                if silent != type(error):
                    silent = type(error)
                    self.say(str(error))
                self.replica.stopped.wait(TURN)
            except Exception as error:
                self.replica.stop(str(error) if isinstance(error, Stop) else repr(error))

    # The keeper.

    def keep_turn(self):
        # A leader that reads no further gives way to another one.
        hangs = time.monotonic() - self.read_at > HANG
        try:
            if not self.name.lease:
                self.name.take(self.status())
            elif not (hangs and self.epoch):
                self.store.keep_alive(self.name.lease)
            self.look(hangs)
            self.safe_mode.read(self.store, lambda shown: self.status(safe_mode=shown))
            self.write_status()
        except LeaseGone:
            self.name.lease = None
            self.doubt = True
        self.replica.stopped.wait(TURN)

    def look(self, hangs):
        """Reads who leads, what is written and the leader's hashes; leads if nobody does."""
        keys, replica = self.keys, self.replica
        start = numbered(keys.hashes, self.confirmed + 1)
        outcome = self.store.transact(
            [], [get(keys.leader), get(keys.done), get(start, after(keys.hashes), HASHES)]
        )
        leader, done, hashes = outcome.ranges
        position = position_of(done.entries[0] if done.entries else None)
        with replica.changed:
            applied, lines = replica.applied, replica.lines
        for entry in hashes.entries:
            number = number_of(entry.key)
            if number > lines:
                break
            replica.confirm(number, entry.value.decode())
            self.confirmed = number
        if not self.epoch:
            replica.written(position)
        # A leader must have applied all that is answered, and agree with its hashes.
        ready = applied + 1 >= position[0] and hashes.count <= HASHES and not hangs
        holder = leader.entries[0] if leader.entries else None
        if holder is None and ready and not self.epoch:
            own = json.dumps({"name": self.name.text})
            outcome = self.store.transact(
                [absent(keys.leader)], [put(keys.leader, own, self.name.lease)], [get(keys.leader)]
            )
            if outcome.succeeded:
                self.lead(outcome.revision)
                return
            holder = outcome.ranges[0].entries[0] if outcome.ranges[0].entries else None
        own = holder is not None and holder.lease == self.name.lease
        if own and not self.epoch:
            # The answer to the transaction was lost.
            self.lead(holder.created)
        elif self.epoch and not (own and holder.created == self.epoch):
            self.doubt = True

    def lead(self, epoch):
        self.say(f"leads, epoch {epoch}")
        with self.replica.changed:
            self.epoch, self.doubt, self.done = epoch, False, None
            self.replica.changed.notify_all()

    def write_status(self):
        if time.monotonic() - self.status_at < 1:
            return
        self.status_at = time.monotonic()
        self.name.write(self.status())

    def status(self, stopped=None, safe_mode=None):
        replica = self.replica
        with replica.changed:
            status = {"name": self.name.text, "leads": bool(self.epoch), "applied": replica.applied,
                      "lines": replica.lines, "hashed": replica.hashed[0],
                      "hash": replica.hashed[1],
                      "safe_mode": safe_mode or self.safe_mode.shown}
        return json.dumps({**status, "stopped": stopped} if stopped else status)

    def count_turn(self):
        self.safe_mode.count(self.epoch)
        self.replica.stopped.wait(TURN)

    # The publisher.

    def publish_turn(self):
        replica = self.replica
        with replica.changed:
            if not self.epoch or not (self.doubt or replica.outputs):
                replica.changed.wait(min(TURN, max(self.round_in(), 0.01)))
        if not self.epoch:
            return
        try:
            if self.done is None:
                self.begin()
            if self.round_in() <= 0:
                self.append_round()
            values, position = replica.next_output(MOST_BYTES, MOST_VALUES)
            if self.doubt or position > replica.position:
                self.publish(values, position)
        except Fenced as fenced:
            self.say(f"leads no more: {fenced}")
            self.epoch = 0

    def begin(self):
        """Reads up to where the leaders before wrote."""
        found = self.publishing.value(self.keys.done)
        self.done = found.modified if found else 0
        self.replica.written(position_of(found))
        self.round_at = time.monotonic() + self.interval
        self.sent_round = -1

    def guard(self):
        return [created(self.keys.leader, self.epoch)]

    def publish(self, values, position):
        keys = self.keys
        outcome = self.publishing.transact(
            [*self.guard(), modified(keys.done, self.done)],
            [*self.puts(values), put(keys.done, "%d %d" % position)],
            [get(keys.leader), get(keys.done)],
        )
        if outcome.succeeded:
            self.done = outcome.revision
            self.doubt = False
            self.replica.written(position)
            return
        holder, done = (found.entries[0] if found.entries else None for found in outcome.ranges)
        if holder is None or holder.created != self.epoch:
            raise Fenced(f"etcd refused {len(values)} values, since the lease was lost")
        # Only this replica can have moved it: the answer to an earlier transaction was lost.
        self.done = done.modified
        self.replica.written(position_of(done))

    def puts(self, values):
        if time.monotonic() > self.keep_until:
            self.grant_keep_lease()
        for key, value in values:
            yield put(key, value, 0 if key.startswith(self.keys.hashes) else self.keep_lease)

    def grant_keep_lease(self):
        now = time.monotonic()
        self.keep_lease = self.publishing.grant(self.keep + self.keep_part)
        self.keep_until = now + self.keep_part

    def round_in(self):
        """Seconds until a round is due, the one before was applied, and safe mode is off."""
        waits = self.replica.rounds <= self.sent_round or not self.safe_mode.is_off()
        if not self.interval or not self.epoch or waits:
            return TURN
        return self.round_at - time.monotonic()

    def append_round(self):
        with self.replica.changed:
            count, last = self.replica.rounds, self.replica.applied
        value = value_of(Batch(LEADER, count, b'{"op":"round"}\n'))
        tail = Tail(self.publishing, self.keys, last)
        if tail.append(value, self.guard(), waits=False):
            self.sent_round = count
            self.round_at = time.monotonic() + self.interval
        else:
            self.round_at = time.monotonic() + TURN

    # Start and end.

    def join(self):
        """Refuses times that etcd does not take, and takes the name of this replica."""
        try:
            self.grant_keep_lease()
        except Refused as error:
            raise Stop(f"--keep {self.keep}: {error}") from None
        self.name.take_first(self.status(), self.say)

    def start(self):
        for thread in self.threads:
            thread.start()

    def finish(self):
        """Waits until the output of all that was applied is written, if this replica leads."""
        replica = self.replica
        with replica.changed:
            replica.changed.wait_for(lambda: not (self.epoch and replica.outputs), FINISH)

    def end(self, why):
        """Gives the lease up, so that another replica leads at once, and leaves the reason, unless
        another replica has the name, or etcd takes nothing from this one."""
        for thread in self.threads:
            if thread.ident:
                thread.join(5)
        self.epoch = 0
        try:
            self.name.leave(Store(self.servers), why and self.status(why))
        except (Stop, StoreError) as error:
            if str(error) != why:
                self.say(str(error))
