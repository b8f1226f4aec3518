"""Safe mode: after a start of the cluster the leader appends no round until a share of the known
blocks has a live replica, and some time has passed since. That is a policy of when a round comes:
no answer to a line depends on it.

The state is a key of etcd: `on` or `off`. A replica that starts knows it once it has seen another
one alive that knows it. If none of these is left, the cluster starts: safe mode begins. The status
of a replica is there until its lease has run out, so only one that is written again is alive."""

import json
import time

from access import Stop
from keys import Keys, agree_on_layout
from store import Store, after, created, get, has_lease, has_value, modified, put

ON, OFF = "on", "off"

# Seconds between two counts at least, and this number of times as long as a count takes.
LOOK, PART = 1, 10


class SafeMode:
    """What one replica knows of safe mode. The keeper reads the state. Another thread counts, which
    may take long."""

    def __init__(self, replica, name, servers, share, extension):
        self.replica, self.name, self.store = replica, name, Store(servers)
        self.key, self.others = replica.keys.safe_mode, replica.keys.replicas
        self.share, self.extension = share, extension
        # For the status: None until this replica knows the state; then whether it is on, and what
        # a leader has counted.
        self.shown = None
        # The revision at which this replica first read the statuses of others.
        self.since = 0
        # The lease of the name under which the state was read last, the state, and when it was
        # written. While a replica has no lease, another one may begin safe mode.
        self.read_with, self.state, self.written = None, ON, 0
        # Since when the share is reached, and when the next count is due.
        self.reached, self.count_at = None, 0

    def is_off(self):
        return self.state == OFF and self.read_with == self.name.lease

    def read(self, store, status):
        """Reads the state. `status` makes the status of a replica that knows what it is given."""
        lease = self.name.lease
        if self.is_off() or lease is None:
            return
        outcome = store.transact([], [get(self.others, after(self.others)), get(self.key)])
        statuses, states = (found.entries for found in outcome.ranges)
        stored = states[0] if states else None
        written = stored.modified if stored else 0
        if not self.shown:
            self.since = self.since or outcome.revision
            knowing = [it for it in statuses if it.lease and it.key != self.name.key
                       and json.loads(it.value).get("safe_mode")]
            if not knowing:
                self.begin(store, lease, written, status)
            if not any(it.modified > self.since for it in knowing):
                return
        state = stored.value.decode() if stored else ON
        if state == OFF or not self.shown:
            self.shown = {"on": state != OFF}
        self.state, self.written, self.read_with = state, written, lease

    def begin(self, store, lease, written, status):
        """Safe mode begins, unless another replica was first. Whoever reads that also reads that
        this one knows it."""
        shown = {"on": True}
        own = put(self.name.key, status(shown), lease)
        guard = [modified(self.key, written), has_lease(self.name.key, lease)]
        if store.transact(guard, [put(self.key, ON), own]).succeeded:
            self.shown = shown
            self.replica.say("the cluster starts: safe mode begins")

    def count(self, epoch):
        """Ends safe mode if that is due. The epoch is that of a leader, or 0."""
        if not epoch:
            self.reached, self.count_at = None, 0
        elif self.read_with == self.name.lease and self.state == ON and self.is_due():
            why = described(self.shown) if self.share else "--safe-mode is 0"
            guard = [created(self.replica.keys.leader, epoch), modified(self.key, self.written)]
            if self.store.transact(guard, [put(self.key, OFF)]).succeeded:
                self.replica.say(f"safe mode ends: {why}")

    def is_due(self):
        """Whether the share is reached, and the extension has passed since."""
        now = time.monotonic()
        if not self.share or now < self.count_at:
            return not self.share
        counts = self.replica.counts()
        self.count_at = now + max(LOOK, PART * (time.monotonic() - now))
        if not counts:
            return False
        live, known = counts["live"], counts["known"]
        is_reached = known > 0 and live >= self.share * known
        self.reached = (self.reached or now) if is_reached else None
        left = max(0, self.reached + self.extension - now) if is_reached else None
        # It may have been ended by hand meanwhile.
        if self.state == ON:
            self.shown = {"on": True, "share": self.share, **counts, "left": left}
        return left == 0


def described(shown):
    """What was counted, in words."""
    if "known" not in shown:
        return "no leader has counted blocks"
    blocks = "no block is known"
    if shown["known"]:
        blocks = f"{shown['live']} of {shown['known']} known blocks have a live replica"
        if shown["left"] is None:
            blocks += f" (awaited: {shown['share']:.6g} of them)"
    if shown["left"]:
        blocks += f", {shown['left']:.0f} s are left"
    return f"{blocks}; {shown['reported']} of {shown['nodes']} DataNodes have reported"


def state_in(store, keys, replicas):
    """The state with what the leader has counted, as a status has it."""
    stored = store.value(keys.safe_mode)
    if not stored or stored.value.decode() == OFF:
        return {"on": False}
    counted = [it["safe_mode"] for it in replicas if it["leads"] and it.get("safe_mode")]
    return next((it for it in counted if it["on"]), {"on": True})


def leave(words, _):
    """Ends safe mode by hand."""
    keys, store = Keys(words.prefix), Store(words.etcd)
    agree_on_layout(store, keys, writes=False)
    outcome = store.transact(
        [has_value(keys.safe_mode, ON)], [put(keys.safe_mode, OFF)], [get(keys.safe_mode)]
    )
    if not outcome.succeeded and not outcome.ranges[0].entries:
        raise Stop("no replica has started yet, so there is no safe mode to end")
    print("safe mode has ended" if outcome.succeeded else "safe mode was off already")
    return 0
