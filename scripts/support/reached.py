"""What the random scripts of scripts/checks/model reach, counted by name."""

from collections import Counter

from model.lines import CALLS
from model.rounds import stream_limit
from model.state import REFUSALS

# What the scripts of a run have to reach. No run makes enough calls to spend the rounds and calls.
HAS_TO_REACH = [
    *[f"refused {it}" for name, it in REFUSALS.items() if name not in ("RoundsSpent", "CallsSpent")],
    *[f"{op} answered" for op in CALLS],
    *[f"level {it}" for it in (0, 1, 2, 3, 4, "none")],
    *[f"retired {it}" for it in ("yes", "no")],
    *[f"copy at level {level}" for level in range(4)],
    *[f"target of class {it}, holders on one rack" for it in (0, 1)],
    *[f"target of class {it}, two holders on two racks" for it in (0, 1)],
    *[f"target of class 0, {it}" for it in ("no holders", "holders on several racks")],
    *[f"delete of a {it} replica" for it in ("stray", "good", "stale", "bad")],
    "level 3, and all nodes on other racks drain",
    "copy from a draining node",
    *[f"source of {limit} copies, its limit" for limit in (2, 4)],
    "the limit of copies of a round",
    "the limit of deletes of a node",
    "transfers expired",
    "transfers ended by a drain",
    "transfer that arrived",
    "transfer kept while another storage of its node received",
    "report with a run",
    "report with an empty run",
    "report with a repeated number",
    "bad replica entered again",
    "excess replica entered again as good",
    "excess replica entered again as stale",
    "replica moved to another storage of its node",
    "node registered again",
    "delete that keeps an ordered mark",
    "restamp that takes an excess mark",
    "line in another form than the canonical one",
]


class Reached(Counter):
    def __init__(self):
        super().__init__()
        self.were_alive = set()

    def missing(self):
        return [name for name in HAS_TO_REACH if not self[name]]

    def note_refusal(self, answer):
        self[" ".join(answer.split()[:2])] += 1

    def note(self, before, after, op, fields, result):
        """Notes an accepted call, by the states before and after it and its result."""
        self[f"{op} answered"] += 1
        if op in ("level", "retired"):
            self[f"{op} {result[0][0]}"] += 1
        if op == "level" and result[0][0] == 3:
            racks = {node.rack for node in before.nodes.values() if not node.drains}
            self["level 3, and all nodes on other racks drain"] += len(racks) == 1
        if op == "register":
            self["node registered again"] += fields[0] in self.were_alive
            self.were_alive.add(fields[0])
        elif op == "round":
            self.note_copies(before, result)
            self.note_deletes(before, result)
        elif op == "drain":
            self["transfers ended by a drain"] += len(before.pending) - len(after.pending)
        elif op == "received":
            self.note_entries(before, after, fields[0], {fields[1]})
        elif op == "report":
            self.note_items(fields[1])
            self.note_entries(before, after, fields[0], {block for block, _ in after.replicas})
        elif op == "delete":
            replicas = after.replicas_of(fields[0]).values()
            self["delete that keeps an ordered mark"] += any(it.ordered for it in replicas)
        elif op == "restamp":
            replicas = before.replicas_of(fields[0]).values()
            self["restamp that takes an excess mark"] += any(it.excess for it in replicas)

    def note_copies(self, before, done):
        sends = Counter(transfer.node for transfer in done.transfers)
        for transfer in done.transfers:
            drains = before.nodes[transfer.node].drains
            limit = stream_limit(transfer.level, drains)
            self[f"copy at level {transfer.level}"] += 1
            self["copy from a draining node"] += drains
            self[f"target of class {transfer.target_class}, {shape(before, transfer.held)}"] += 1
            self[f"source of {limit} copies, its limit"] += sends[transfer.node] == limit
        most = before.limits.work * len(before.nodes)
        self["the limit of copies of a round"] += 0 < len(done.transfers) == most
        self["transfers expired"] += done.expired

    def note_deletes(self, before, done):
        for _, storage, block in done.deletes:
            self[f"delete of a {before.replicas[block, storage].tag} replica"] += 1
        counts = Counter(node for node, _, _ in done.deletes)
        self["the limit of deletes of a node"] += before.limits.invalidate in counts.values()

    def note_items(self, items):
        runs = [item for item in items if len(item) == 4]
        self["report with a run"] += any(it[0] < it[1] for it in runs)
        self["report with an empty run"] += any(it[0] > it[1] for it in runs)
        numbers = [number for it in items for number in range(it[0], it[-3] + 1)]
        self["report with a repeated number"] += len(set(numbers)) < len(numbers)

    def note_entries(self, before, after, storage, blocks):
        others = after.storages_of(after.storages[storage].node) - {storage}
        for block in blocks:
            was, now = before.replicas.get((block, storage)), after.replicas.get((block, storage))
            if was and now and was.tag == "bad":
                self["bad replica entered again"] += 1
            if was and now and was.excess:
                self[f"excess replica entered again as {now.tag}"] += 1
            gone = before.pending.keys() - after.pending.keys()
            self["transfer that arrived"] += (block, storage) in gone
            for other in others if now else ():
                self["replica moved to another storage of its node"] += (
                    (block, other) in before.replicas
                )
                self["transfer kept while another storage of its node received"] += (
                    (block, other) in after.pending
                )


def shape(state, held):
    """The class of a block's holders, as the table of classes has it."""
    racks = {state.rack_of(holder) for holder in held}
    if not held:
        return "no holders"
    if len(racks) == 1:
        return "holders on one rack"
    return "two holders on two racks" if len(held) == 2 else "holders on several racks"
