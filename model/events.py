"""The events (RULES, "Events" and "Reports").

Each function has the name of its event. It makes the checks of its row in their order, and answers
the state after it, but for the number of accepted calls, which `applied` adds to.
"""

from dataclasses import replace

from model.state import LAST, Block, Node, Replica, Stamp, Storage, need

MAX_ITEMS = 65_536
MAX_NAMED = 1_048_576
MAX_WANTED = 16


def applied(state, event, fields):
    """The state after an event, and how many replicas are there only after it, and only before."""
    after = event(state, *fields)
    need(state.calls < LAST, "CallsSpent")
    added = len(after.replicas.keys() - state.replicas.keys())
    removed = len(state.replicas.keys() - after.replicas.keys())
    return replace(after, calls=state.calls + 1), (added, removed)


# Nodes and storages


def register(state, node, rack, storages):
    """The node is alive, on its rack, not draining; its listed storages are known, nothing free."""
    need(node not in state.nodes, "NodeKnown")
    is_listed_twice = len(set(storages)) < len(storages)
    need(not is_listed_twice and not set(storages) & state.storages.keys(), "StorageKnown")
    need(len(state.nodes) < state.limits.nodes, "TooMany")
    need(len(state.storages) + len(storages) <= state.limits.storages, "TooMany")
    new = {storage: Storage(node, free=0) for storage in storages}
    return replace(
        state,
        nodes={**state.nodes, node: Node(rack, drains=False)},
        storages={**state.storages, **new},
    )


def dead(state, node):
    """The node and its storages leave. Transfers that it is to send stay."""
    need(node in state.nodes, "UnknownNode")
    left = without_storages(state, state.storages_of(node))
    return replace(left, nodes=without_key(state.nodes, node))


def storage_failed(state, storage):
    """The storage leaves; its node stays, even with no storage left."""
    need(storage in state.storages, "UnknownStorage")
    return without_storages(state, {storage})


def without_storages(state, gone):
    """These storages leave, with the replicas there and the transfers to them."""
    return replace(
        without_transfers_to(state, gone),
        storages={at: storage for at, storage in state.storages.items() if at not in gone},
        replicas={pair: it for pair, it in state.replicas.items() if pair[1] not in gone},
    )


def without_transfers_to(state, targets):
    pending = {pair: at for pair, at in state.pending.items() if pair[1] not in targets}
    return replace(state, pending=pending)


def without_key(items, key):
    return {other: item for other, item in items.items() if other != key}


def heartbeat(state, node, remaining):
    """Each listed storage has the listed free bytes; the last item of a storage counts."""
    need(node in state.nodes, "UnknownNode")
    need(all(storage in state.storages for storage, _ in remaining), "UnknownStorage")
    is_its_own = all(state.storages[storage].node == node for storage, _ in remaining)
    need(is_its_own, "NotItsStorage")
    listed = {storage: Storage(node, free) for storage, free in remaining}
    return replace(state, storages={**state.storages, **listed})


def drain(state, node):
    """The node drains, and the transfers to its storages leave; without effect if it does."""
    need(node in state.nodes, "UnknownNode")
    if state.nodes[node].drains:
        return state
    return with_draining(without_transfers_to(state, state.storages_of(node)), node, True)


def undrain(state, node):
    """The node does not drain."""
    need(node in state.nodes, "UnknownNode")
    return with_draining(state, node, False)


def with_draining(state, node, drains):
    changed = state.nodes[node]._replace(drains=drains)
    return replace(state, nodes={**state.nodes, node: changed})


# Blocks


def add(state, block, generation, length, wanted):
    """The block is known, with this stamp and number of wanted replicas."""
    need(block not in state.blocks, "BlockKnown")
    need(not state.replicas_of(block), "StillStored")  # of an unknown block all are stray
    need(1 <= wanted <= MAX_WANTED, "BadReplication")
    new = Block(Stamp(generation, length), wanted)
    return replace(state, blocks={**state.blocks, block: new})


def delete(state, block):
    """The block is not known. Its replicas become stray, lose excess marks, keep ordered marks."""
    need(block in state.blocks, "UnknownBlock")
    changed = with_replicas_changed(state, block, lambda it: Replica("stray", False, it.ordered))
    return replace(
        without_transfers_of(changed, block), blocks=without_key(state.blocks, block)
    )


def with_replicas_changed(state, block, change):
    changed = {(block, at): change(it) for at, it in state.replicas_of(block).items()}
    return replace(state, replicas={**state.replicas, **changed})


def without_transfers_of(state, block):
    pending = {pair: at for pair, at in state.pending.items() if pair[0] != block}
    return replace(state, pending=pending)


def set_replication(state, block, wanted):
    need(block in state.blocks, "UnknownBlock")
    need(1 <= wanted <= MAX_WANTED, "BadReplication")
    changed = state.blocks[block]._replace(wanted=wanted)
    return replace(state, blocks={**state.blocks, block: changed})


def restamp(state, block, generation, length):
    """The block has the new stamp. Good replicas become stale, others keep their tags; all lose
    excess marks and keep ordered marks. Its transfers leave."""
    need(block in state.blocks, "UnknownBlock")
    need(generation > state.blocks[block].stamp.generation, "OldGeneration")

    def outdated(replica):
        tag = "stale" if replica.tag == "good" else replica.tag
        return Replica(tag, False, replica.ordered)

    changed = with_replicas_changed(state, block, outdated)
    new = state.blocks[block]._replace(stamp=Stamp(generation, length))
    return replace(without_transfers_of(changed, block), blocks={**state.blocks, block: new})


# Replicas


def received(state, storage, block, generation, length):
    need(storage in state.storages, "UnknownStorage")
    return entered(state, storage, {block: Stamp(generation, length)})


def deleted(state, storage, block):
    """The replica, if it is there, leaves."""
    need(storage in state.storages, "UnknownStorage")
    return replace(state, replicas=without_key(state.replicas, (block, storage)))


def corrupt(state, storage, block):
    """The replica, if it is there, becomes bad, loses its excess mark, keeps its ordered mark."""
    need(storage in state.storages, "UnknownStorage")
    need(block in state.blocks, "UnknownBlock")
    replica = state.replicas.get((block, storage))
    if replica is None:
        return state
    bad = {(block, storage): Replica("bad", False, replica.ordered)}
    return replace(state, replicas={**state.replicas, **bad})


def report(state, storage, items):
    """Replicas on the storage of numbers that are not named leave; each named one is entered."""
    need(storage in state.storages, "UnknownStorage")
    need(len(items) <= MAX_ITEMS, "TooMany")
    need(sum(named_count(item) for item in items) <= MAX_NAMED, "TooMany")
    stamps = last_stamps(items)
    kept = {
        pair: replica
        for pair, replica in state.replicas.items()
        if pair[1] != storage or pair[0] in stamps
    }
    return entered(replace(state, replicas=kept), storage, stamps)


def run(item):
    """The block numbers that an item names: one, or those from `from` to `to`, ascending."""
    first, last = item[0], item[-3]
    return range(first, last + 1)


def named_count(item):
    return max(0, item[-3] - item[0] + 1)


def last_stamps(items):
    """For each named number the stamp of its last item counts."""
    return {block: Stamp(*item[-2:]) for item in items for block in run(item)}


def entered(state, storage, stamps):
    """The state after a replica of each of these blocks was entered on the storage.

    Each replica of such a block on another storage of the same node leaves. The pending transfer
    of the block to this storage leaves; one to another storage of the same node stays.
    """
    others = state.storages_of(state.storages[storage].node) - {storage}
    kept = {
        pair: replica
        for pair, replica in state.replicas.items()
        if not (pair[0] in stamps and pair[1] in others)
    }
    new = {
        (block, storage): entered_replica(state, storage, block, stamp)
        for block, stamp in stamps.items()
    }
    pending = {
        pair: at
        for pair, at in state.pending.items()
        if not (pair[0] in stamps and pair[1] == storage)
    }
    return replace(state, replicas={**kept, **new}, pending=pending)


def entered_replica(state, storage, block, stamp):
    """It has no ordered mark, and an excess mark exactly if the replica of the block on this
    storage had one and the tag is now good."""
    before = state.replicas.get((block, storage))
    if block not in state.blocks:
        return Replica("stray")
    if before is not None and before.tag == "bad":
        return Replica("bad")
    if stamp != state.blocks[block].stamp:
        return Replica("stale")
    return Replica("good", excess=before is not None and before.excess)
