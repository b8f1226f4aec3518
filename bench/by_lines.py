"""The workload of bench/plain as lines for the tool, so that the manager can be measured without
cargo. The times are the tool's: they include reading each line and writing its answer."""

import statistics
import sys
from pathlib import Path

sys.path.insert(0, str(Path(__file__).resolve().parents[1] / "scripts/support"))
from running_tool import RunningTool

NODES, STORAGES, NODES_OF_RACK, STORAGES_OF_NODE = 256, 1024, 16, 4

FIRST_BLOCK = 1 << 30

STAMP = b'"gen":1001,"len":134217728'

DEAD = 17

MASK = (1 << 64) - 1

ROUND = b'{"op":"round"}'


def mix_bits(number):
    """The generator SplitMix64."""
    spread = (number * 0x9E3779B97F4A7C15 + 0x123456789ABCDEF1) & MASK
    once = (spread ^ spread >> 30) * 0xBF58476D1CE4E5B9 & MASK
    twice = (once ^ once >> 27) * 0x94D049BB133111EB & MASK
    return twice ^ twice >> 31


def storages_of(i):
    """The storages of block i: one, and two on different nodes of another rack."""
    bits = mix_bits(i)
    first = bits % 256
    rack = (first // 16 + 1 + (bits >> 8) % 256 % 15) % 16
    second = (bits >> 16) % 16
    third = (second + 1 + (bits >> 20) % 256 % 15) % 16
    nodes = (first, rack * 16 + second, rack * 16 + third)
    return [4 * node + (bits >> shift) % 4 for node, shift in zip(nodes, (32, 34, 36))]


def shuffle(items, seed):
    begun = seed * 0x100000001
    for at in range(len(items) - 1, 0, -1):
        chosen = mix_bits(begun + at & MASK) % (at + 1)
        items[at], items[chosen] = items[chosen], items[at]


def storages_of_node(node):
    return range(STORAGES_OF_NODE * node, STORAGES_OF_NODE * (node + 1))


def registrations():
    for node in range(NODES):
        storages = ",".join(map(str, storages_of_node(node))).encode()
        words = (node, node // NODES_OF_RACK, storages)
        yield b'{"op":"register","node":%d,"rack":%d,"storages":[%s]}' % words


def add(number):
    return b'{"op":"add","id":%d,%s,"repl":3}' % (number, STAMP)


def received(number, storage):
    return b'{"op":"received","storage":%d,"id":%d,%s}' % (storage, number, STAMP)


def deleted(number, storage):
    return b'{"op":"deleted","storage":%d,"id":%d}' % (storage, number)


def heartbeat(node, free):
    items = b",".join(b"[%d,%d]" % item for item in zip(storages_of_node(node), free))
    return b'{"op":"heartbeat","node":%d,"remaining":[%s]}' % (node, items)


def reports(blocks, is_shuffled):
    """A full report of each storage, as a line: its blocks by ascending number, or in an order of
    the storage's own."""
    held = [[] for _ in range(STORAGES)]
    for i in range(blocks):
        for storage in storages_of(i):
            held[storage].append(FIRST_BLOCK + i)
    made = []
    for storage, numbers in enumerate(held):
        if is_shuffled:
            shuffle(numbers, storage + 1)
        items = b",".join(b"[%d,1001,134217728]" % number for number in numbers)
        made.append(b'{"op":"report","storage":%d,"blocks":[%s]}' % (storage, items))
    shuffle(made, 99)
    return made


def drawn_replicas(blocks, count):
    """Blocks at equal distances, each with one of its storages."""
    distance = blocks // max(count, 1)
    drawn = []
    for k in range(count):
        storage = storages_of(k * distance)[mix_bits(k + 77) % 3]
        drawn.append((FIRST_BLOCK + k * distance, storage))
    shuffle(drawn, 4242)
    return drawn


def often(blocks):
    """How often each step is done: passes of reports, cycles of notices, heartbeats, questions."""
    if blocks < 10_000:
        return 2, 1, 2_000, 10_000
    return (9 if blocks < 500_000 else 4), (7 if blocks < 500_000 else 3), 200_000, 1_000_000


class Bench:
    def __init__(self, tool, blocks):
        self.tool = RunningTool(tool)
        self.blocks = blocks
        self.figures = {}
        self.tool.feed(list(registrations()))

    def put_rate(self, figure, count, seconds):
        if seconds > 0:
            self.figures[figure] = count / seconds

    def put_millis(self, figure, seconds):
        self.figures[figure] = 1_000 * seconds

    def put_reports(self, passes):
        own_order, ascending = reports(self.blocks, True), reports(self.blocks, False)
        replicas = 3 * self.blocks
        self.put_rate("b_first_replicas_per_s", replicas, self.tool.feed(own_order))
        for figure, turns in (
            ("a_full_replicas_per_s", (own_order, own_order)),
            ("a_full_rising_replicas_per_s", (ascending, ascending)),
            ("a_full_other_order_replicas_per_s", (own_order, ascending)),
        ):
            times = [self.tool.feed(turns[at % 2]) for at in range(passes)]
            self.put_rate(figure, replicas, statistics.median_high(times[1:]))

    def put_notices(self, cycles):
        drawn = drawn_replicas(self.blocks, self.blocks * 3 // 10)
        gone = [deleted(*it) for it in drawn]
        shuffle(drawn, 777)
        back = [received(*it) for it in drawn]
        times = [(self.tool.feed(gone), self.tool.feed(back)) for _ in range(cycles)]
        for figure, its in zip(("c_deleted_per_s", "c_received_per_s"), zip(*times)):
            self.put_rate(figure, len(drawn), statistics.median_high(its))

    def put_places(self, questions):
        drawn = (FIRST_BLOCK + mix_bits(k) % self.blocks for k in range(questions))
        lines = [b'{"op":"list_places","id":%d}' % number for number in drawn]
        times = [self.tool.ask_all(lines)[1] for _ in range(5)]
        self.put_rate("f_places_per_s", questions, statistics.median_high(times))

    def put_heartbeats(self, beats):
        times = []
        for turn in range(6):
            lines = []
            for k in range(beats):
                node = mix_bits(k) % NODES
                free = (1 << 42) + (node << 20) + (turn * 1000 + (k >> 8)) * 7
                lines.append(heartbeat(node, range(free, free + STORAGES_OF_NODE)))
            times.append(self.tool.feed(lines))
        self.put_rate("d_heartbeats_per_s", beats, statistics.median_high(times))

    def put_rounds(self):
        """Rounds. Each storage has 4 TiB free and some more bytes, which its number draws."""
        free = [(1 << 42) + (mix_bits(it << 32 | 1) >> 24) for it in range(STORAGES)]
        beats = [[free[it] for it in storages_of_node(node)] for node in range(NODES)]
        self.tool.feed([heartbeat(*it) for it in enumerate(beats)])
        times = [self.tool.ask(ROUND)[1] for _ in range(20)]
        self.put_millis("e_idle_round_ms", statistics.median_high(times))
        self.put_millis("e_dead_ms", self.tool.feed([b'{"op":"dead","node":%d}' % DEAD]))
        self.put_millis("e_round1_ms", self.tool.ask(ROUND)[1])
        rounds = [self.tool.ask(ROUND) for _ in range(9)]
        times = [seconds for answer, seconds in rounds if b"; copy " in answer]
        if times:
            self.put_millis("e_rounds2to10_ms", statistics.median_high(times))

    def put_memory(self):
        """The memory of a tool that got its replicas one by one."""
        held = self.tool.resident_bytes()
        for first in range(0, self.blocks, 100_000):
            lines = []
            for i in range(first, min(first + 100_000, self.blocks)):
                number = FIRST_BLOCK + i
                lines += [add(number), *(received(number, it) for it in storages_of(i))]
            self.tool.feed(lines)
        grown = self.tool.resident_bytes() - held
        self.figures["mem_rss_bytes_per_replica"] = grown / (3 * self.blocks)


def figures_by_lines(tool, blocks):
    """The figures by name: times of one run, and the memory of another."""
    passes, cycles, beats, questions = often(blocks)
    calls, memory = Bench(tool, blocks), Bench(tool, blocks)
    lines = [add(FIRST_BLOCK + i) for i in range(blocks)]
    calls.put_rate("add_per_s", blocks, calls.tool.feed(lines))
    calls.put_reports(passes)
    calls.put_notices(cycles)
    calls.put_places(questions)
    calls.put_heartbeats(beats)
    calls.put_rounds()
    calls.tool.end()
    memory.put_memory()
    memory.tool.end()
    return {**calls.figures, **memory.figures}
