"""The queries (RULES, "Queries"). Each answers the items of its line behind the first, in order."""

from model.state import need


def list_replicas(state):
    return [(*pair, replica.tag) for pair, replica in sorted(state.replicas.items())]


def list_corrupt(state):
    return sorted(pair for pair, replica in state.replicas.items() if replica.is_corrupt)


def list_excess(state):
    return sorted(pair for pair, replica in state.replicas.items() if replica.excess)


def list_missing(state):
    """The known blocks at level 4."""
    return sorted((block,) for block in state.blocks if state.level(block) == 4)


def list_storage(state, storage):
    """The block numbers of all replicas on the storage."""
    need(storage in state.storages, "UnknownStorage")
    return sorted((block,) for block, at in state.replicas if at == storage)


def list_places(state, block):
    """The storages of the good replicas, with or without an excess mark, on any node."""
    need(block in state.blocks, "UnknownBlock")
    replicas = state.replicas_of(block)
    return sorted((at,) for at, replica in replicas.items() if replica.tag == "good")


def level(state, block):
    need(block in state.blocks, "UnknownBlock")
    found = state.level(block)
    return [("none" if found is None else found,)]


def retired(state, node):
    """Yes if the node drains, and each block with a drained replica there has enough live."""
    need(node in state.nodes, "UnknownNode")
    return [("yes" if is_retired(state, node) else "no",)]


def is_retired(state, node):
    held = {
        block
        for (block, storage), replica in state.replicas.items()
        if state.storages[storage].node == node and replica.is_usable
    }
    return state.nodes[node].drains and all(state.has_enough_live(block) for block in held)
