"""The loop of a NameNode: events come in, a round is made at each tick of a clock, and its commands
go out. The cluster is simulated in this process: examples/stories/README.md, "A whole loop".

    python3 name_node.py [SECONDS]     the time between two ticks; 0.02 if it is left out
"""

import json
import sys
import time
from collections import deque

from puljemrod import Manager

TICKS, SILENT_TICKS, TICKS_OF_REPORTS = 12, 2, 3

CAPACITY, GENERATION, LENGTH, WANTED = 100, 1, 10, 3

# The racks of the nodes, and the blocks on their disks. Node 4 has disk 41.
NODES = {1: (1, [1, 2, 3]), 2: (1, [1, 2, 4]), 3: (2, [1, 3, 4]), 4: (2, [2, 3, 4])}


class Refused(Exception):
    """The answer is a refusal, which has changed nothing."""


class DataNode:
    def __init__(self, node, rack, blocks):
        self.node, self.rack, self.blocks, self.disk = node, rack, set(blocks), 10 * node + 1

    def registration(self):
        register = {"op": "register", "node": self.node, "rack": self.rack, "storages": [self.disk]}
        return [register, self.heartbeat(), self.report()]

    def heartbeat(self):
        free = CAPACITY - LENGTH * len(self.blocks)
        return {"op": "heartbeat", "node": self.node, "remaining": [[self.disk, free]]}

    def report(self):
        blocks = [[block, GENERATION, LENGTH] for block in sorted(self.blocks)]
        return {"op": "report", "storage": self.disk, "blocks": blocks}

    def store(self, block):
        self.blocks.add(block)
        stamp = {"gen": GENERATION, "len": LENGTH}
        return {"op": "received", "storage": self.disk, "id": block, **stamp}

    def erase(self, block):
        self.blocks.discard(block)
        return {"op": "deleted", "storage": self.disk, "id": block}


class Cluster:
    """The DataNodes, and what they have sent."""

    def __init__(self):
        self.nodes = {node: DataNode(node, *words) for node, words in NODES.items()}
        self.sent = deque()

    def tick(self, tick):
        """Node 4 is away from tick 2 to tick 6, and node 2 restarts at tick 8."""
        self.alive = [it for it in self.nodes.values() if it.node != 4 or not 2 <= tick <= 6]
        if tick == 8:
            self.sent += self.nodes[2].registration()
        for node in self.alive:
            self.sent.append(node.heartbeat())
            if tick % TICKS_OF_REPORTS == 1:
                self.sent.append(node.report())

    def carry_out(self, tick, command):
        """Makes a copy or a delete, and sends the notice. One command gets lost."""
        kind, *numbers = command
        if kind == "copy":
            node, block, _, _, source, target = map(int, numbers)
            print(f"  node {node} copies block {block} from storage {source} to storage {target}")
            self.sent.append(self.nodes[target // 10].store(block))
        else:
            node, storage, block = map(int, numbers)
            is_lost = (tick, block) == (7, 3)
            lost = ": lost" if is_lost else ""
            print(f"  node {node} deletes block {block} from storage {storage}{lost}")
            if not is_lost:
                self.sent.append(self.nodes[node].erase(block))


class NameNode:
    def __init__(self, manager, blocks):
        """All blocks are added before anything is reported."""
        self.manager, self.seen, self.in_safe_mode = manager, {}, True
        for block in blocks:
            self.add(block)

    def call(self, line):
        """The items of an answer, each a list of words."""
        answer = [item.split() for item in self.manager.line(json.dumps(line)).split("; ")]
        if answer[0][0] == "refused":
            raise Refused(answer[0][2])
        return answer

    def add(self, block):
        self.call({"op": "add", "id": block, "gen": GENERATION, "len": LENGTH, "repl": WANTED})

    def take(self, tick, event, cluster):
        """Takes an event. One of an unknown node is refused, and it has to register."""
        node = event.get("node") or event["storage"] // 10
        try:
            self.call(event)
            if node not in self.seen:
                print(f"node {node} registers")
            self.seen[node] = tick
        except Refused as why:
            if str(why) == "UnknownNode":
                cluster.sent += cluster.nodes[node].registration()
            elif str(why) == "NodeKnown":
                print(f"node {node} restarts")
            elif str(why) != "UnknownStorage":
                raise

    def bury(self, tick):
        """Nodes that have been silent for too long are dead."""
        for node in [node for node, last in self.seen.items() if tick - last >= SILENT_TICKS]:
            del self.seen[node]
            self.call({"op": "dead", "node": node})
            print(f"node {node} is dead")

    def round(self):
        """The commands of a round, once the first reports have shown every block."""
        missing = self.call({"op": "list_missing"})[1:]
        self.in_safe_mode = self.in_safe_mode and missing != []
        if self.in_safe_mode:
            return []
        (_, number), *commands = self.call({"op": "round"})
        excess = self.call({"op": "list_excess"})[1:]
        print(f"round {number}: {len(missing)} missing, {len(excess)} in excess")
        return commands


def main(seconds):
    cluster, start = Cluster(), time.monotonic()
    with Manager() as manager:
        name_node = NameNode(manager, [1, 2, 3, 4])
        for tick in range(1, TICKS + 1):
            time.sleep(max(0, start + tick * seconds - time.monotonic()))
            if tick == 5:
                name_node.add(5)
                cluster.sent.append(cluster.nodes[1].store(5))
            cluster.tick(tick)
            while cluster.sent:
                name_node.take(tick, cluster.sent.popleft(), cluster)
            name_node.bury(tick)
            for command in name_node.round():
                cluster.carry_out(tick, command)
        for block in [1, 2, 3, 4, 5]:
            _, *places = name_node.call({"op": "list_places", "id": block})
            print(f"block {block}: storages", *sum(places, []))


if __name__ == "__main__":
    main(float(sys.argv[1]) if len(sys.argv) > 1 else 0.02)
