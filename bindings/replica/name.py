"""The name of a replica, which it has as long as it is alive: its status is under its lease."""

import time

from keys import Stop
from store import LeaseGone, Refused, get, has_lease, put

# Seconds between two looks whether the name is free, and that etcd may take to remove a key whose
# lease has run out.
LOOK, GRACE = 0.25, 5


class Name:
    def __init__(self, store, keys, text, seconds):
        self.store, self.text, self.seconds = store, text, seconds
        self.key = keys.replicas + text
        self.lease = None

    def take_first(self, status, say):
        """Takes the name when the program starts. A dead replica has it until its lease has run
        out. One that is alive writes its status each second, or at least keeps its lease; then this
        one does not start."""
        first = found = self.store.value(self.key)
        if found and found.lease:
            say("waits for the lease of another replica with this name")
            # A new leader among the servers of etcd prolongs all leases.
            until = time.monotonic() + 2 * self.store.granted(found.lease) + GRACE
        while found and found.lease and found.modified == first.modified:
            if time.monotonic() > until:
                break
            time.sleep(LOOK)
            found = self.store.value(self.key)
        while not self.lease:
            try:
                self.take(status)
            except LeaseGone:
                continue
            except Refused as error:
                raise Stop(f"--lease {self.seconds}: {error}") from None

    def take(self, status):
        """Puts the status under a new lease, if no other replica's is there."""
        lease = self.store.grant(self.seconds)
        outcome = self.store.transact(
            [has_lease(self.key, 0)], [put(self.key, status, lease)], [get(self.key)]
        )
        if not outcome.succeeded and outcome.ranges[0].entries[0].lease != lease:
            self.store.revoke(lease)
            raise Stop(f"another replica runs under the name {self.text}")
        self.lease = lease

    def write(self, status):
        outcome = self.store.transact(
            [has_lease(self.key, self.lease)], [put(self.key, status, self.lease)]
        )
        if not outcome.succeeded:
            raise LeaseGone("the lease of the name has run out")

    def leave(self, store, status=None):
        """Gives the name up. A last status stays, unless another replica has the name."""
        for lease in (self.lease or 0, 0) if status else ():
            if store.transact([has_lease(self.key, lease)], [put(self.key, status)]).succeeded:
                break
        if self.lease:
            store.revoke(self.lease)
