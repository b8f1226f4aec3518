"""What the log shows of the cluster: nodes, racks, free bytes, known blocks, copies on their way,
the last rounds. All of it follows from the lines and their answers, without a query."""

import json
import re
from array import array
from collections import deque, namedtuple

# `line` is that of the last heartbeat, 0 before the first.
Node = namedtuple("Node", "number rack drains storages free line")
Rack = namedtuple("Rack", "number nodes storages free")
Round = namedtuple("Round", "number line copies deletes")

# Most lines are canonical, and these are read faster than by `json`.
OF_BLOCK = re.compile(
    rb'\{"op":"(add|delete|restamp|received|deleted|corrupt|set_replication)"'
    rb'(?:,"storage":(\d+))?,"id":(\d+)(?:,"gen":\d+,"len":\d+)?(?:,"repl":\d+)?\}'
)
# How a report begins that is mostly canonical, and what such a report has next to its numbers.
REPORT, REST = b'{"op":"report","storage":', b'{"op":"report""storage":"blocks":}'
COPY = re.compile(rb"; copy \d+ (\d+) \d+ \d+ \d+ (\d+)")
# The rounds that are kept. A report is searched for this number of awaited copies; for more of them
# it is read as a whole.
ROUNDS, SEARCHED = 20, 8


class Facts:
    def __init__(self, pend):
        # Rounds for which a copy is awaited.
        self.pend = pend
        self.lines = 0
        # Nodes by number, those first that have sent nothing for longest. The free bytes on the
        # storages of each node; the node of each storage.
        self.nodes, self.racks, self.free_of, self.node_of = {}, {}, {}, {}
        self.storages = self.free = self.draining = 0
        # The known blocks, and some that are deleted, which are in `deleted` too.
        self.blocks, self.deleted = array("Q"), set()
        # Copies on their way: the round by target and block, by block and target; by round all.
        self.awaited_on, self.awaited_of, self.commanded = {}, {}, {}
        # The last rounds; the number of all, and what they have commanded.
        self.rounds = deque(maxlen=ROUNDS)
        self.round_count = self.copies = self.deletes = 0

    def known(self):
        return len(self.blocks) - len(self.deleted)

    def take(self, text, answers):
        """Takes lines and their answers. Both end with a line feed."""
        for line, answer in zip(text.split(b"\n"), answers.split(b"\n")[:-1]):
            self.lines += 1
            if answer.startswith(b"ok "):
                self.take_event(line)
            elif answer.startswith(b"round "):
                self.take_round(answer)

    def take_event(self, line):
        if found := OF_BLOCK.fullmatch(line):
            op, storage, block = found.groups()
            call = {"op": op.decode(), "storage": storage and int(storage), "id": int(block)}
        elif line.startswith(REPORT) and self.search(line):
            return
        else:
            call = json.loads(line.decode())
        # Other events change nothing here.
        if take := getattr(self, f"take_{call['op']}", None):
            take(call)

    # Nodes.

    def take_register(self, call):
        number, storages = call["node"], call["storages"]
        self.free_of[number] = dict.fromkeys(storages, 0)
        self.node_of.update(dict.fromkeys(storages, number))
        self.nodes[number] = Node(number, call["rack"], False, 0, 0, 0)
        self.add_to_rack(call["rack"], 1, 0, 0)
        self.change(number, storages=len(storages))

    def take_heartbeat(self, call):
        number, free = call["node"], self.free_of[call["node"]]
        free.update(call["remaining"])
        self.change(number, free=sum(free.values()), line=self.lines)
        # It becomes the last one.
        self.nodes[number] = self.nodes.pop(number)

    def take_drain(self, call):
        self.drain(call["node"], True)
        for storage in self.free_of[call["node"]]:
            self.await_none_on(storage)

    def take_undrain(self, call):
        self.drain(call["node"], False)

    def take_storage_failed(self, call):
        storage = call["storage"]
        self.await_none_on(storage)
        number = self.node_of.pop(storage)
        free = self.free_of[number]
        del free[storage]
        self.change(number, storages=len(free), free=sum(free.values()))

    def take_dead(self, call):
        number = call["node"]
        for storage in self.free_of[number]:
            self.await_none_on(storage)
            del self.node_of[storage]
        self.drain(number, False)
        self.change(number, storages=0, free=0)
        self.add_to_rack(self.nodes.pop(number).rack, -1, 0, 0)
        del self.free_of[number]

    def drain(self, number, drains):
        self.draining += drains - self.nodes[number].drains
        self.nodes[number] = self.nodes[number]._replace(drains=drains)

    def change(self, number, **changed):
        """Changes a node, and the sums of its rack and of all."""
        old = self.nodes[number]
        new = self.nodes[number] = old._replace(**changed)
        storages, free = new.storages - old.storages, new.free - old.free
        self.storages += storages
        self.free += free
        self.add_to_rack(new.rack, 0, storages, free)

    def add_to_rack(self, number, nodes, storages, free):
        old = self.racks.get(number, Rack(number, 0, 0, 0))
        new = Rack(number, old.nodes + nodes, old.storages + storages, old.free + free)
        if new.nodes:
            self.racks[number] = new
        else:
            del self.racks[number]

    # Blocks.

    def take_add(self, call):
        if call["id"] in self.deleted:
            self.deleted.remove(call["id"])
        else:
            self.blocks.append(call["id"])

    def take_delete(self, call):
        self.deleted.add(call["id"])
        self.await_none_of(call["id"])

    def take_restamp(self, call):
        self.await_none_of(call["id"])

    def take_received(self, call):
        self.has_arrived(call["id"], call["storage"])

    def take_report(self, call):
        storage, items = call["storage"], call["blocks"]
        single = {item[0] for item in items if len(item) == 3}
        runs = [item[:2] for item in items if len(item) == 4]
        for block in list(self.awaited_on.get(storage, ())):
            if block in single or any(first <= block <= last for first, last in runs):
                self.has_arrived(block, storage)

    def search(self, line):
        """Searches a report, which may have a megabyte, for a few copies; returns whether it has
        done so. A report with runs has more commas in an item."""
        if line.translate(None, b"0123456789,[]") != REST:
            return False
        storage = int(line[len(REPORT) : line.index(b",", len(REPORT))])
        blocks = list(self.awaited_on.get(storage, ()))
        has_runs = line.count(b",") != 3 * line.count(b"[") - 2
        if blocks and (has_runs or len(blocks) > SEARCHED):
            return False
        for block in blocks:
            if b"[%d," % block in line:
                self.has_arrived(block, storage)
        return True

    # Copies on their way.

    def take_round(self, answer):
        number = int(answer.split(b";", 1)[0].split()[1])
        for block, target in self.commanded.pop(number - self.pend, ()):
            if self.awaited_on.get(target, {}).get(block) == number - self.pend:
                self.has_arrived(block, target)
        copies = [(int(block), int(target)) for block, target in COPY.findall(answer)]
        for block, target in copies:
            self.awaited_on.setdefault(target, {})[block] = number
            self.awaited_of.setdefault(block, {})[target] = number
        if copies:
            self.commanded[number] = copies
        done = Round(number, self.lines, len(copies), answer.count(b"; delete "))
        self.rounds.append(done)
        self.round_count += 1
        self.copies += done.copies
        self.deletes += done.deletes

    def has_arrived(self, block, target):
        """A copy is not awaited any more, if it was."""
        if block in self.awaited_on.get(target, ()):
            for copies, key, other in (
                (self.awaited_on, target, block), (self.awaited_of, block, target)
            ):
                copies[key].pop(other)
                if not copies[key]:
                    del copies[key]

    def await_none_on(self, target):
        for block in list(self.awaited_on.get(target, ())):
            self.has_arrived(block, target)

    def await_none_of(self, block):
        for target in list(self.awaited_of.get(block, ())):
            self.has_arrived(block, target)

    # The scan of levels.

    def next_blocks(self, at, count):
        """The next known blocks of a scan, and where it goes on. Deleted ones are dropped."""
        found = []
        for _ in range(count):
            if at == len(self.blocks):
                break
            block = self.blocks[at]
            if block in self.deleted:
                self.deleted.remove(block)
                last = self.blocks.pop()
                if at < len(self.blocks):
                    self.blocks[at] = last
            else:
                found.append(block)
                at += 1
        return found, at
