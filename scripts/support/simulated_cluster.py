"""What `simulate` shows, by the model of model/ and plain lists: the placement, the incidents,
and DataNodes that send one copy after another and receive one after another. Times are in
microseconds."""

from dataclasses import dataclass, field

from model import events
from model.rounds import whole_round
from model.state import State

LENGTH = 2**27

STAMP = (1, LENGTH)


class Dice:
    """The generator PCG-XSH-RR 64/32 of https://www.pcg-random.org. A number below a count is drawn
    by Stephen Canon's method, https://github.com/apple/swift/pull/39143."""

    STREAM = 54

    def __init__(self, seed):
        self.state = 0
        self.word()
        self.state += seed
        self.word()

    def word(self):
        old = self.state
        self.state = (old * 6364136223846793005 + 2 * self.STREAM + 1) % 2**64
        mixed, turn = (old ^ old >> 18) >> 27 & 0xFFFFFFFF, old >> 59
        return mixed >> turn | mixed << 32 - turn & 0xFFFFFFFF

    def below(self, count):
        """A number below the count: the upper half of a word's product with the count, and a carry
        from the next word's."""
        number, rest = divmod(self.word() * count, 2**32)
        carries = rest > 2**32 - count and rest + (self.word() * count >> 32) >= 2**32
        return number + carries


@dataclass
class Words:
    """The options of `simulate`, as its help has them."""

    nodes: int = 30
    racks: int = 3
    storages: int = 2
    blocks: int = 3000
    replication: int = 3
    seed: int = 1
    bandwidth: int = 50
    interval: int = 3
    rounds: int = 40
    at: int = 5
    corrupt: int = 0
    lose: list = field(default_factory=list)
    drain: list = field(default_factory=list)

    def words(self):
        numbers = {name: it for name, it in vars(self).items() if isinstance(it, int)}
        if not self.corrupt:
            del numbers["corrupt"]
        given = [("lose", it) for it in self.lose] + [("drain", it) for it in self.drain]
        return [word for name, it in [*numbers.items(), *given] for word in (f"--{name}", str(it))]


class SimulatedCluster:
    def __init__(self, asked):
        self.asked, self.dice, self.state = asked, Dice(asked.seed), State()
        self.sends, self.receives = {}, {}
        self.on_way, self.deletes = [], []
        self.order, self.times = 0, [0]
        for node in range(asked.nodes):
            self.state = events.register(self.state, node, node % asked.racks, self.storages_of(node))
        for block in range(asked.blocks):
            self.place(block)
        self.report_what_is_free()
        self.rows = [self.take_round(number) for number in range(1, asked.rounds + 1)]

    def storages_of(self, node):
        return [node * self.asked.storages + place for place in range(self.asked.storages)]

    def place(self, block):
        self.state = events.add(self.state, block, *STAMP, self.asked.replication)
        nodes, storages = [], []
        for _ in range(min(self.asked.replication, self.asked.nodes)):
            node = self.next_node(self.dice.below(self.asked.nodes), nodes)
            nodes.append(node)
            storages.append(self.storages_of(node)[self.dice.below(self.asked.storages)])
        for storage in storages:
            self.state = events.received(self.state, storage, block, *STAMP)

    def next_node(self, start, nodes):
        """The node of the next replica. The second replica is on another rack than the first, and
        the third on the rack of the second, if there is such a node."""
        racks = [node % self.asked.racks for node in nodes]
        free = [node for node in [*range(start, self.asked.nodes), *range(start)] if node not in nodes]
        suited = free
        if len(nodes) == 1:
            suited = [node for node in free if node % self.asked.racks != racks[0]]
        elif len(nodes) == 2:
            suited = [node for node in free if node % self.asked.racks == racks[1]]
        return (suited or free)[0]

    def report_what_is_free(self):
        """Sends heartbeats with the free bytes. Each disk has capacity for twice its share of the
        replicas, and for 4 TiB at least."""
        storages = self.asked.nodes * self.asked.storages
        capacity = max(2 * -(-self.asked.blocks * self.asked.replication // storages), 2**15) * LENGTH
        self.free = dict.fromkeys(range(storages), capacity)
        for _, storage in self.state.replicas:
            self.free[storage] -= LENGTH
        self.send_heartbeats()

    def send_heartbeats(self):
        for node in self.state.nodes:
            free = [(it, self.free[it]) for it in self.state.storages_of(node)]
            self.state = events.heartbeat(self.state, node, free)

    def go_wrong(self):
        """Loses what is to be lost, each node and disk once; then good replicas are found
        corrupt."""
        lost = [word.split(":") for word in self.asked.lose]
        named = {kind: {int(it) for of, it in lost if of == kind} for kind in ("rack", "node", "storage")}
        dead = [it for it in range(self.asked.nodes) if it in named["node"] or it % self.asked.racks in named["rack"]]
        for node in dead:
            self.state = events.dead(self.state, node)
        for storage in sorted(named["storage"] & self.state.storages.keys()):
            self.state = events.storage_failed(self.state, storage)
        for node in sorted(set(self.asked.drain) & self.state.nodes.keys()):
            self.state = events.drain(self.state, node)
        self.find_corrupt()

    def find_corrupt(self):
        first, corrupt = self.dice.below(self.asked.blocks), self.asked.corrupt
        for number in range(corrupt):
            block = (first + number * self.asked.blocks // corrupt) % self.asked.blocks
            good = sorted(at for at, it in self.state.replicas_of(block).items() if it.tag == "good")
            if good:
                self.state = events.corrupt(self.state, good[self.dice.below(len(good))], block)

    def next_time(self):
        """The time of the next round. Intervals pass until fewer copies are on their way than a
        round may command, at least one interval."""
        interval, most = self.asked.interval * 10**6, max(self.state.limits.work * len(self.state.nodes), 1)
        time = self.times[-1] + interval
        while sum(end > time for end, _, _ in self.on_way) >= most:
            time += interval
        return time

    def take_round(self, number):
        if number == self.asked.at:
            self.go_wrong()
        if number > self.asked.at:
            self.times.append(self.next_time())
        now = self.times[-1]
        for due in sorted(it for it in self.on_way if it[0] <= now):
            self.on_way.remove(due)
            self.state = events.received(self.state, due[2].target, due[2].block, *due[2].stamp)
        for _, storage, block in self.deletes:
            self.state = events.deleted(self.state, storage, block)
            self.free[storage] += LENGTH
        self.send_heartbeats()
        self.state, done = whole_round(self.state)
        for copy in sorted(done.transfers, key=lambda it: it.node):
            self.send(copy, now)
        self.deletes = sorted(done.deletes)
        return [number, *self.counts(), len(done.transfers), len(done.deletes), 0]

    def send(self, copy, now):
        if any((it.block, it.target) == (copy.block, copy.target) for _, _, it in self.on_way):
            return
        target = self.state.storages[copy.target].node
        takes = -(-LENGTH // self.asked.bandwidth)
        self.sends[copy.node] = max(now, self.sends.get(copy.node, 0)) + takes
        self.receives[target] = max(now, self.receives.get(target, 0)) + takes
        self.on_way.append((max(self.sends[copy.node], self.receives[target]), self.order, copy))
        self.order += 1
        self.free[copy.target] -= LENGTH

    def counts(self):
        found = [self.state.level(block) for block in self.state.blocks]
        replicas = self.state.replicas.values()
        excess, corrupt = sum(it.excess for it in replicas), sum(it.is_corrupt for it in replicas)
        return [*map(found.count, range(5)), len(self.state.pending), excess, corrupt]
