"""A batch: the value of a log key, and which of its lines count.

A batch is a header in JSON, a line feed, and the lines, each ended by a line feed. The header has
the writer's number and the count of the first line, which is how many lines of this writer come
before it. A line longer than a batch is parted over consecutive keys; their headers have `part` and
`parts`."""

import json
from collections import namedtuple

# The most bytes of lines, or of answers, in one value. etcd takes requests of 1.5 MiB.
BATCH = 1 << 20
# More bytes of a line than these change nothing: the manager answers `refused 21 LongLine`.
LONGEST = 4_194_304 + 1
MOST_PARTS = -(-LONGEST // BATCH)

# The writer of the leader's rounds.
LEADER = 0

Batch = namedtuple("Batch", "writer count text part parts", defaults=(0, 0))


def with_header(header, text):
    return json.dumps(header, separators=(",", ":")).encode() + b"\n" + text


def headed(value):
    """The header and the text of a value."""
    first, _, text = value.partition(b"\n")
    return json.loads(first), text


def value_of(batch):
    header = {"writer": batch.writer, "count": batch.count}
    if batch.parts:
        header.update(part=batch.part, parts=batch.parts)
    return with_header(header, batch.text)


def parts_of(writer, count, line):
    """The batches of a line that is longer than one."""
    line = line[:LONGEST]
    parts = -(-len(line) // BATCH)
    for part in range(parts):
        yield Batch(writer, count, line[part * BATCH : (part + 1) * BATCH], part, parts)


def batch_of(value):
    """The batch, or None for a value that is none."""
    try:
        header, text = headed(value)
        batch = Batch(
            header["writer"], header["count"], text, header.get("part", 0), header.get("parts", 0)
        )
    except (ValueError, KeyError, TypeError, AttributeError, RecursionError):
        return None
    numbers = (batch.writer, batch.count, batch.part, batch.parts)
    if any(type(number) is not int or number < 0 for number in numbers):
        return None
    if batch.parts:
        fits = batch.part < batch.parts <= MOST_PARTS and b"\n" not in text
    else:
        fits = text.endswith(b"\n")
    return batch if fits else None


class Taken:
    """The lines that were taken from each writer. A replica takes a writer's next line and no
    other. So a line that is sent again is taken once, and lines are taken in the writer's order.
    Parts of a line that do not follow one another in the log are dropped: so at most one line is
    kept, whoever dies."""

    def __init__(self):
        self.next = {}
        # The first parts of a line, which the last log keys have.
        self.parts = []

    def take(self, batch):
        """Takes the writer's next lines from the next log key, which may have no batch. Returns the
        count of the first, and the text."""
        parts, self.parts = self.parts, []
        if not batch:
            return 0, b""
        at = self.next.get(batch.writer, 0)
        if batch.parts:
            return at, self.take_part(batch, at, parts if batch.part else [])
        skip = at - batch.count
        lines = batch.text.count(b"\n")
        if not 0 <= skip < lines:
            return at, b""
        text = batch.text.split(b"\n", skip)[-1] if skip else batch.text
        self.next[batch.writer] = batch.count + lines
        return at, text

    def take_part(self, batch, at, parts):
        of_line = (batch.writer, at, batch.parts)
        parts = [*parts, batch]
        if [(it.writer, it.count, it.parts) for it in parts] != [of_line] * (batch.part + 1):
            return b""
        if len(parts) < batch.parts:
            self.parts = parts
            return b""
        self.next[batch.writer] = at + 1
        return b"".join(part.text for part in parts) + b"\n"
