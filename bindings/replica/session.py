"""The session of a writer: its number, how many of its lines are in the log, and the SHA-256 of
these lines. The store has the last two under the session's key. They change in the transaction that
appends lines, so they are those of the log whenever the writer dies."""

import hashlib

from store import StoreError, has_value, modified, put


class Session:
    def __init__(self, keys, number):
        self.number, self.key = number, f"{keys.sessions}{number}"
        self.lines, self.hash = 0, hashlib.sha256()
        # From which revision on there may be answers.
        self.revision = 0

    def value(self):
        return f"{self.lines} {self.hash.hexdigest()}"

    def take(self, block):
        """Counts whole lines. Returns what a transaction that appends them compares, and puts."""
        guard = has_value(self.key, self.value())
        self.lines += block.count(b"\n")
        self.hash.update(block)
        return [guard], [put(self.key, self.value())]

    def skip(self, store, lines):
        """Takes the lines that are in the log from the input: they have to be its first ones."""
        found = store.value(self.key)
        if not found:
            raise StoreError(f"there is no session {self.number}")
        stored = found.value.decode()
        count = int(stored.split()[0])
        while self.lines < count and (block := lines.block(count - self.lines)):
            self.take(block)
        if self.value() != stored:
            raise StoreError(f"the input is not that of session {self.number}: its first lines are "
                             f"not the {count} lines that this session has in the log")


def new_session(store, keys):
    """A session with a number of its own."""
    while True:
        found = store.value(keys.writers)
        session = Session(keys, int(found.value) + 1 if found else 1)
        outcome = store.transact(
            [modified(keys.writers, found.modified if found else 0)],
            [put(keys.writers, str(session.number)), put(session.key, session.value())],
        )
        if outcome.succeeded:
            session.revision = outcome.revision
            return session
