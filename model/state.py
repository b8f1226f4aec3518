"""What the manager knows, and the words that its rules use (RULES, "State").

A state is a value: an event or a round makes a new one, so a refused call leaves the old one as it
is. Replicas and transfers are kept as RULES has them, by pairs (block number, storage number).
"""

from collections import defaultdict
from dataclasses import dataclass, field
from functools import cached_property
from typing import NamedTuple

LAST = 2**64 - 1

REFUSALS = {
    "UnknownNode": 1,
    "NodeKnown": 2,
    "UnknownStorage": 3,
    "StorageKnown": 4,
    "UnknownBlock": 5,
    "BlockKnown": 6,
    "StillStored": 7,
    "BadReplication": 8,
    "OldGeneration": 9,
    "TooMany": 10,
    "NotItsStorage": 11,
    "RoundsSpent": 12,
    "CallsSpent": 13,
    "BadLine": 20,
    "LongLine": 21,
}


class Refused(Exception):
    """The first check of a call that fails, by its name."""


def need(is_so, refusal):
    if not is_so:
        raise Refused(refusal)


class Limits(NamedTuple):
    work: int = 2
    invalidate: int = 1000
    pend: int = 100
    nodes: int = 256
    storages: int = 4_096


class Node(NamedTuple):
    rack: int
    drains: bool


class Storage(NamedTuple):
    node: int
    free: int


class Stamp(NamedTuple):
    generation: int
    length: int


class Block(NamedTuple):
    stamp: Stamp
    wanted: int


class Replica(NamedTuple):
    tag: str  # good, stale, bad or stray
    excess: bool = False
    ordered: bool = False

    @property
    def is_usable(self):
        """Good, without an excess mark."""
        return self.tag == "good" and not self.excess

    @property
    def is_corrupt(self):
        """Stale or bad."""
        return self.tag in ("stale", "bad")


@dataclass(frozen=True)
class State:
    """At first all sets are empty; the counts begin at `first_round` and `first_call`."""

    limits: Limits = Limits()
    nodes: dict = field(default_factory=dict)  # node: Node
    storages: dict = field(default_factory=dict)  # storage: Storage
    blocks: dict = field(default_factory=dict)  # block: Block
    replicas: dict = field(default_factory=dict)  # (block, storage): Replica
    pending: dict = field(default_factory=dict)  # (block, target): the round of its command
    last_round: int = 0
    calls: int = 0

    @cached_property
    def replicas_by_block(self):
        """For each block number that has replicas, known or not, these by storage."""
        found = defaultdict(dict)
        for (block, storage), replica in self.replicas.items():
            found[block][storage] = replica
        return dict(found)

    def replicas_of(self, block):
        return self.replicas_by_block.get(block, {})

    def rack_of(self, storage):
        return self.nodes[self.storages[storage].node].rack

    def is_on_draining_node(self, storage):
        return self.nodes[self.storages[storage].node].drains

    def storages_of(self, node):
        return {number for number, storage in self.storages.items() if storage.node == node}

    def usable(self, block):
        """The storages with a usable replica of the block."""
        return {at for at, replica in self.replicas_of(block).items() if replica.is_usable}

    def live(self, block):
        """Usable, on a node that does not drain."""
        return {at for at in self.usable(block) if not self.is_on_draining_node(at)}

    def drained(self, block):
        """Usable, on a node that drains."""
        return {at for at in self.usable(block) if self.is_on_draining_node(at)}

    def has_enough_live(self, block):
        """Whether at least the wanted number of replicas is live."""
        return len(self.live(block)) >= self.blocks[block].wanted

    def has_several_racks(self):
        """Whether the alive nodes are on two racks or more; draining nodes count."""
        return len({node.rack for node in self.nodes.values()}) >= 2

    def level(self, block):
        """0 to 4, or None; the first condition that holds decides (RULES, "Levels")."""
        live, drained = self.live(block), self.drained(block)
        wanted = self.blocks[block].wanted
        if len(live) >= wanted:
            is_on_one_rack = len({self.rack_of(at) for at in live}) == 1
            return 3 if wanted > 1 and is_on_one_rack and self.has_several_racks() else None
        if not live and not drained:
            return 4
        if len(live) <= 1:
            return 0
        return 1 if 3 * len(live) < wanted else 2
