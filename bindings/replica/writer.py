"""A writer: gathers lines into batches, appends them to the log, and gives the answers in order."""

import contextlib
import os
import select
import time
from collections import deque

from batches import BATCH, LONGEST, Batch, headed, parts_of, value_of
from keys import agree_on_layout
from log import Fenced, Tail, follow, last_index, position_of
from session import Session, new_session
from store import Compacted, Store, StoreError

# Seconds for which lines are gathered.
GATHER = 0.005
# Seconds without etcd after which a writer that has begun gives up.
PATIENCE = 60
# Seconds of silence after which answers that are written but do not come count as gone.
MISSED = 10


class Lines:
    """The input. Every line ends with a line feed."""

    def __init__(self, source):
        self.source, self.text, self.ended = source, bytearray(), False

    def read(self, seconds=None):
        """Whether more input or its end came within some time."""
        if self.ended or not select.select([self.source], [], [], seconds)[0]:
            return False
        piece = os.read(self.source, 1 << 16)
        self.ended = not piece
        if self.ended and self.text and not self.text.endswith(b"\n"):
            piece = b"\n"
        self.text += piece
        return True

    def block(self, most=None):
        """Whole lines, at most a number of them and a batch; or the first bytes of one longer line;
        or nothing at the end."""
        while b"\n" not in self.text and len(self.text) <= LONGEST and self.read():
            pass
        until = time.monotonic() + GATHER
        while len(self.text) < BATCH and (left := until - time.monotonic()) > 0 and self.read(left):
            pass
        end = self.text.rfind(b"\n", 0, BATCH) + 1 or self.text.find(b"\n") + 1
        block = self.cut(end) if end or not self.text else self.long_line()
        if len(block) > LONGEST:
            return block[:LONGEST] + b"\n"
        if most and block.count(b"\n") > most:
            rest = block.split(b"\n", most)[-1]
            self.text[:0] = rest
            return block.removesuffix(rest)
        return block

    def cut(self, end):
        block = bytes(self.text[:end])
        del self.text[:end]
        return block

    def long_line(self):
        """The first bytes of a line that is longer than the limit. Drops the rest of it."""
        block = self.cut(LONGEST) + b"\n"
        while True:
            end = self.text.find(b"\n") + 1
            self.cut(end or len(self.text))
            if end or not self.read():
                return block


class Writer:
    """Appends the lines of a session, and gives their answers."""

    def __init__(self, servers, keys, say, number=None):
        self.keys, self.say = keys, say
        self.store, self.answers_store = Store(servers), Store(servers)
        agree_on_layout(self.store, keys)
        self.session = new_session(self.store, keys) if number is None else Session(keys, number)
        self.tail = Tail(self.store, keys, last_index(self.store, keys))
        self.appended = self.answered = 0
        self.store.patience = PATIENCE

    def skip(self, lines):
        """Takes the lines that are in the log already from the input."""
        self.session.skip(self.store, lines)
        self.appended = self.session.lines

    def append(self, block):
        """Appends whole lines; returns when they are in the log."""
        number = self.session.number
        guard, puts = self.session.take(block)
        try:
            if block.find(b"\n") + 1 == len(block) > BATCH:
                parts = parts_of(number, self.appended, block[:-1])
                self.tail.append_together([value_of(part) for part in parts], guard, puts)
            else:
                self.tail.append(value_of(Batch(number, self.appended, block)), guard, puts)
        except Fenced:
            raise StoreError(f"another program writes session {number}") from None
        self.appended = self.session.lines

    def due(self):
        """If some answers in the store were not seen: the number of lines that have answers there,
        and a revision by which these were written. Else zeros."""
        appended, last = self.appended, self.tail.last
        with contextlib.suppress(StoreError):
            done = self.answers_store.value(self.keys.done)
            if self.answered < appended and position_of(done)[0] > last:
                return appended, done.modified
        return 0, 0

    def answers(self):
        """Yields the answers of this session in order, in pieces; None at times."""
        revision = self.session.revision
        while True:
            try:
                yield from self.answers_from(revision)
            except Compacted:
                # What was missed is still there by its keys.
                revision = 0

    def answers_from(self, revision):
        parts = deque()
        lines = by = missed = looked_at = 0
        other = None
        prefix = self.keys.answers_to(self.session.number)
        entries = follow(self.answers_store, prefix, revision, say=self.say)
        while True:
            entry = entries.send(other)
            other = None
            if entry and self.answered < lines and by < entry.modified:
                raise self.gone(lines)
            if time.monotonic() - looked_at >= 1:
                looked_at = time.monotonic()
                lines, by = self.due()
                missed = missed + 1 if lines and not entry else 0
                if missed == MISSED:
                    raise self.gone(lines)
                # Another server may have what does not come from this one.
                other = missed > 0 or None
            if not (entry and entry.value):
                yield None
                continue
            header, text = headed(entry.value)
            if header["count"] > self.answered:
                raise self.gone(header["count"])
            if header["count"] < self.answered or header["part"] != len(parts):
                continue
            parts.append(text)
            if len(parts) == header["parts"]:
                whole = b"".join(parts)
                parts.clear()
                self.answered += whole.count(b"\n")
                yield whole

    def gone(self, count):
        return StoreError(f"the answers from line {self.answered + 1} to line {count} of writer "
                          f"{self.session.number} are kept no longer")
