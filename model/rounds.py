"""A round, step by step (RULES, "A round, step by step")."""

from collections import Counter
from dataclasses import dataclass, replace
from typing import NamedTuple

from model.state import LAST, Stamp, need


class Wish(NamedTuple):
    """A wish for one copy of a block. Tuples are ordered by level, then block number."""

    level: int
    block: int


class Transfer(NamedTuple):
    """The last three are kept for the check alone."""

    block: int
    stamp: Stamp
    node: int  # that of the source
    source: int
    target: int
    level: int
    held: set  # the holders when it was chosen
    target_class: int


@dataclass(frozen=True)
class Round:
    """What a round commands, and how many transfers it no longer awaits."""

    number: int
    transfers: list
    deletes: list  # (node, storage, block)
    expired: int


def whole_round(state):
    """The state after a round, and the round."""
    need(state.last_round < LAST, "RoundsSpent")
    need(state.calls < LAST, "CallsSpent")
    begun_state = begun(state)
    marked = with_excess_marked(without_unordered_excess(begun_state))
    chosen = transfers(marked)
    deleted = deletes(marked)
    done = Round(
        number=marked.last_round,
        transfers=chosen,
        deletes=deleted,
        expired=len(state.pending) - len(begun_state.pending),
    )
    return ended(marked, done), done


def begun(state):
    """Step 1: the number is one more. A pending transfer of round t leaves if r - t >= pend."""
    number = state.last_round + 1
    pending = {
        pair: at for pair, at in state.pending.items() if not number - at >= state.limits.pend
    }
    return replace(state, last_round=number, pending=pending)


# Step 2: excess marks


def without_unordered_excess(state):
    """Each excess mark of a replica without an ordered mark is dropped."""
    replicas = {
        pair: it if it.ordered else it._replace(excess=False)
        for pair, it in state.replicas.items()
    }
    return replace(state, replicas=replicas)


def with_excess_marked(state):
    """Each known block with more live replicas than wanted gets a mark for each too many."""
    replicas = dict(state.replicas)
    for block in state.blocks:
        for storage in excess(state, block):
            replicas[block, storage] = replicas[block, storage]._replace(excess=True)
    return replace(state, replicas=replicas)


def excess(state, block):
    """One by one, the first of the candidates gets a mark, and is no candidate then."""
    candidates = state.live(block)
    chosen = []
    while len(candidates) > state.blocks[block].wanted:
        first = min(candidates, key=lambda at: excess_order(state, candidates, at))
        chosen.append(first)
        candidates = candidates - {first}
    return chosen


def excess_order(state, candidates, storage):
    """First one whose rack holds two or more of the remaining candidates, itself included; then
    one whose storage has fewer free bytes; then the greater storage number."""
    rack = state.rack_of(storage)
    on_rack = sum(state.rack_of(other) == rack for other in candidates)
    return (0 if on_rack >= 2 else 1, state.storages[storage].free, -storage)


# Step 3: wishes


def wishes(state):
    """In order of level, then block number."""
    found = []
    for block in state.blocks:
        level = state.level(block)
        found += [Wish(level, block)] * wished_count(state, block, level)
    return sorted(found)


def wished_count(state, block, level):
    awaited = len(pending_targets(state, block))
    if level in (0, 1, 2):
        return max(0, state.blocks[block].wanted - len(state.live(block)) - awaited)
    if level == 3:
        return 1 if awaited == 0 else 0
    return 0


def pending_targets(state, block):
    return {target for number, target in state.pending if number == block}


# Step 4: transfers


def transfers(state):
    """T: each wish in order appends one transfer, or is dropped."""
    chosen = []
    for wish in wishes(state):
        chosen += transfer_for(state, chosen, wish)
    return chosen


def transfer_for(state, chosen, wish):
    """The wish's transfer, in a list. The list is empty if T has `work` transfers for each alive
    node, draining ones included, or if there is no source or no target."""
    if len(chosen) >= state.limits.work * len(state.nodes):
        return []
    source = least_source(state, chosen, wish)
    if source is None:
        return []
    target = least_target(state, chosen, wish)
    if target is None:
        return []
    held = holders(state, chosen, wish.block)
    return [
        Transfer(
            block=wish.block,
            stamp=state.blocks[wish.block].stamp,
            node=state.storages[source].node,
            source=source,
            target=target,
            level=wish.level,
            held=held,
            target_class=class_of(state, held, target),
        )
    ]


def least_source(state, chosen, wish):
    """A live or drained replica, whose node is the source of fewer transfers in T than its limit.

    First is one on a node that drains; then one whose node is the source of fewer transfers in T;
    then the lesser node number, then the lesser storage number.
    """
    sends = Counter(transfer.node for transfer in chosen)
    found = []
    for storage in state.live(wish.block) | state.drained(wish.block):
        node = state.storages[storage].node
        drains = state.nodes[node].drains
        if sends[node] < stream_limit(wish.level, drains):
            found.append((0 if drains else 1, sends[node], node, storage))
    return min(found)[-1] if found else None


def stream_limit(level, drains):
    return 4 if level == 0 or drains else 2


def least_target(state, chosen, wish):
    """First is the lower class; then more free bytes less sent; then the lesser storage number."""
    length = state.blocks[wish.block].stamp.length
    sent = bytes_sent(chosen)
    excluded = excluded_nodes(state, chosen, wish.block)
    held = holders(state, chosen, wish.block)
    found = []
    for number, storage in state.storages.items():
        if (
            length + sent[number] <= storage.free
            and not state.nodes[storage.node].drains
            and storage.node not in excluded
            and not (wish.level == 3 and would_not_spread(state, held, number))
        ):
            left = storage.free - sent[number]
            found.append((class_of(state, held, number), -left, number))
    return min(found)[-1] if found else None


def bytes_sent(chosen):
    """For each storage the sum of the lengths of the transfers in T to it."""
    sent = Counter()
    for transfer in chosen:
        sent[transfer.target] += transfer.stamp.length
    return sent


def targets(state, chosen, block):
    """The targets of the block's transfers, pending or in T."""
    in_chosen = {transfer.target for transfer in chosen if transfer.block == block}
    return pending_targets(state, block) | in_chosen


def excluded_nodes(state, chosen, block):
    """Those with a storage that holds a replica of the block, whatever tag and marks, or is the
    target of a transfer of the block."""
    storages = set(state.replicas_of(block)) | targets(state, chosen, block)
    return {state.storages[storage].node for storage in storages}


def holders(state, chosen, block):
    """The storages of the live replicas, and the targets of transfers. Drained ones are none."""
    return state.live(block) | targets(state, chosen, block)


def would_not_spread(state, held, storage):
    """If all holders are on one rack, the storage has to be on another."""
    return {state.rack_of(holder) for holder in held} == {state.rack_of(storage)}


def class_of(state, held, storage):
    """0 or 1, by the table of RULES."""
    racks = {state.rack_of(holder) for holder in held}
    is_on_their_rack = state.rack_of(storage) in racks
    if len(racks) == 1:
        return 1 if is_on_their_rack else 0
    if len(held) == 2 and len(racks) == 2:
        return 0 if is_on_their_rack else 1
    return 0


# Steps 5 and 6: deletes, and the end


def deletes(state):
    """For each node, draining or not, the first `invalidate` deletable replicas by storage, then
    block number; in order of nodes."""
    found = sorted(
        (state.storages[storage].node, storage, block)
        for (block, storage), replica in state.replicas.items()
        if is_deletable(state, block, replica)
    )
    counts = Counter()
    commanded = []
    for delete in found:
        counts[delete[0]] += 1
        if counts[delete[0]] <= state.limits.invalidate:
            commanded.append(delete)
    return commanded


def is_deletable(state, block, replica):
    """Whether a round may command the delete. The transfers of T do not count as live replicas."""
    if replica.ordered:
        return False
    if replica.tag == "stray" or replica.excess:
        return True
    return replica.is_corrupt and state.has_enough_live(block)


def ended(state, done):
    """Commanded replicas get an ordered mark and stay; the transfers of T become pending."""
    ordered = {
        (block, storage): state.replicas[block, storage]._replace(ordered=True)
        for _, storage, block in done.deletes
    }
    awaited = {(transfer.block, transfer.target): done.number for transfer in done.transfers}
    return replace(
        state,
        replicas={**state.replicas, **ordered},
        pending={**state.pending, **awaited},
        calls=state.calls + 1,
    )


def commands(done):
    """Step 7: for each node by number its copies in the order of T, then its deletes."""
    copies = [
        ("copy", it.node, it.block, *it.stamp, it.source, it.target) for it in done.transfers
    ]
    everything = copies + [("delete", *it) for it in done.deletes]
    return sorted(everything, key=lambda command: command[1])
