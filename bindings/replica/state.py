"""A replica: makes the calls of the log, and keeps its output until that is in the store.

All that it computes is a function of the log and of the manager's options. It computes the lines
that are taken from each writer, the answers, the commands, and the hash of lines and answers."""

import hashlib
import threading
from collections import deque

from batches import BATCH, LEADER, Taken, batch_of, with_header
from census import Census
from keys import Stop, numbered
from puljemrod import Fault

# Lines between two hashes.
HASH_EVERY = 1_000


def parted(key, header, text):
    """A text as values of at most a batch. Keys after the first have the part's number."""
    parts = max(1, -(-len(text) // BATCH))
    for part in range(parts):
        name = f"{key}.{part:04d}" if part else key
        piece = text[part * BATCH : (part + 1) * BATCH]
        yield name, with_header({**header, "part": part, "parts": parts}, piece)


def commands_of(answer):
    """The commands of each node in a round's answer, a line for each command."""
    nodes = {}
    for command in answer.decode().split("; ")[1:]:
        nodes.setdefault(int(command.split(" ", 2)[1]), []).append(command + "\n")
    return {node: "".join(commands).encode() for node, commands in nodes.items()}


class Replica:
    """The state of a replica. `changed` guards what follows it."""

    def __init__(self, manager, keys, say):
        self.manager = manager
        self.keys = keys
        self.say = say
        self.taken = Taken()
        self.hash = hashlib.sha256()
        # Held while calls are made, so that what is counted is of one state.
        self.calling, self.census = threading.Lock(), Census()
        self.stopped = threading.Event()
        self.why = None
        # What else sees the lines and their answers.
        self.watch = None

        self.changed = threading.Condition()
        # The last log key and the number of lines whose calls were made.
        self.applied = self.lines = 0
        self.rounds = 0
        # The last hash, with the number of lines; and those that no leader has confirmed.
        self.hashed = (0, "")
        self.unconfirmed = {}
        # The output from `position` on: a log key, and how many of its values are in the store
        # already.
        self.outputs = deque()
        self.position = (1, 0)

    def stop(self, why):
        with self.changed:
            self.why = self.why or why
            self.stopped.set()
            self.changed.notify_all()

    def apply(self, index, value):
        """Makes the calls of a log key."""
        batch = batch_of(value)
        count, text = self.taken.take(batch)
        with self.calling:
            answers = self.manager.lines(text) if text else b""
            self.census.take(text, answers)
        self.hash.update(text)
        self.hash.update(answers)
        if self.watch:
            self.watch(text, answers)
        lines = text.count(b"\n")
        with self.changed:
            first = self.lines + 1
            self.lines += lines
            self.applied = index
            self.rounds = self.taken.next.get(LEADER, 0)
            crossed = self.lines // HASH_EVERY > (first - 1) // HASH_EVERY
            if crossed:
                self.hashed = (self.lines, self.hash.hexdigest())
                self.unconfirmed[self.lines] = self.hashed[1]
            if index >= self.position[0]:
                values = list(self.output(batch, count, first, answers)) if lines else []
                if crossed:
                    values.append((numbered(self.keys.hashes, self.lines), self.hashed[1]))
                self.outputs.append((index, values))
            self.changed.notify_all()

    def counts(self):
        """How many blocks are known and have a live replica, and how many DataNodes are alive and
        have reported. None if the manager gives no answer: the next line shows why."""
        census = self.census
        with self.calling:
            try:
                missing = self.manager.lines(b'{"op":"list_missing"}\n').count(b"; ")
            except Fault:
                return None
            return {"live": census.blocks - missing, "known": census.blocks,
                    "reported": len(census.reported), "nodes": len(census.nodes)}

    def output(self, batch, count, first, answers):
        """The keys and values that the leader writes: commands before the answers."""
        if answers.startswith(b"round ") or b"\nround " in answers:
            for number, answer in enumerate(answers.split(b"\n")[:-1], first):
                if answer.startswith(b"round "):
                    yield from self.commands(number, answer)
        header = {"writer": batch.writer, "count": count, "line": first}
        yield from parted(numbered(self.keys.answers_to(batch.writer), first), header, answers)

    def commands(self, number, answer):
        for node, text in commands_of(answer).items():
            key = numbered(f"{self.keys.commands}{node}/", number)
            yield from parted(key, {"node": node, "line": number}, text)

    def written(self, position):
        """Drops the output before a position, which is in the store."""
        with self.changed:
            self.position = max(self.position, position)
            while self.outputs and self.outputs[0][0] < self.position[0]:
                self.outputs.popleft()
            self.changed.notify_all()

    def next_output(self, most_bytes, most_values):
        """The values that come next, and the position behind them."""
        values, size, position = [], 0, self.position
        with self.changed:
            for index, output in self.outputs:
                start = position[1] if index == position[0] else 0
                for number in range(start, len(output)):
                    key, value = output[number]
                    size += len(key) + len(value)
                    if values and (size > most_bytes or len(values) == most_values):
                        return values, position
                    values.append((key, value))
                    position = (index, number + 1)
                position = (index + 1, 0)
        return values, position

    def confirm(self, lines, reported):
        """Compares a leader's hash, of lines that this replica has applied, with its own."""
        with self.changed:
            own = self.unconfirmed.pop(lines, None)
            for old in [it for it in self.unconfirmed if it < lines]:
                del self.unconfirmed[old]
        if own != reported:
            raise Stop(f"another hash than the leader's at line {lines}: this replica and the "
                       f"leader read or answered differently ({own} here, {reported} there)")
