"""The report on a cluster once more, from the model's state: its text and its JSON value.

It follows docs/CLUSTERS.md, not the crates.
"""

import sys
from pathlib import Path

sys.path.insert(0, str(Path(__file__).resolve().parents[2]))
from model.lines import answered
from model.queries import is_retired
from model.state import State

LEVELS = {
    0: "highest",
    1: "very_under_replicated",
    2: "under_replicated",
    3: "badly_distributed",
    4: "missing",
    None: "none",
}
TAGS = ("good", "stale", "bad", "stray")
FIRST = 10


class Known:
    """A cluster after lines, which are bytes, with the names of the import's tables."""

    def __init__(self, lines, names="", files=""):
        self.state, self.notes = State(), []
        given = lines.split(b"\n")
        for number, line in enumerate(given[:-1] if given[-1] == b"" else given, 1):
            self.state, answer = answered(self.state, line)
            if answer.startswith("refused"):
                self.notes.append(f"line {number}: {answer}\n")
        self.hosts, self.racks, self.storages = {}, {}, {}
        for row in names.splitlines():
            kind, number, name, other, other_name = row.split("\t")
            if kind == "node":
                self.hosts[int(number)] = name
                self.racks[int(other)] = other_name
            else:
                self.storages[int(number)] = name
        self.places, self.paths = {}, []
        for row in files.splitlines():
            path, index, block = row.rsplit("\t", 2)
            self.places[int(block)] = (path, int(index))
            if path not in self.paths:
                self.paths.append(path)

    def length(self, block):
        known = self.state.blocks.get(block)
        return known.stamp.length if known else 0

    def amount(self, blocks):
        """The number of these blocks, and their bytes."""
        blocks = list(blocks)
        return len(blocks), sum(map(self.length, blocks))

    def levels(self):
        """By level, its blocks, ascending."""
        found = {name: [] for name in LEVELS.values()}
        for block in sorted(self.state.blocks):
            found[LEVELS[self.state.level(block)]].append(block)
        return found

    def tags(self):
        """By tag, the block of each replica."""
        found = {tag: [] for tag in TAGS}
        for (block, _), replica in sorted(self.state.replicas.items()):
            found[replica.tag].append(block)
        return found

    def held(self, storages):
        """The block of each replica on these storages."""
        return [block for (block, storage) in self.state.replicas if storage in storages]

    def free(self, storages):
        return sum(self.state.storages[it].free for it in storages)

    def standing_of(self, node):
        if is_retired(self.state, node):
            return "retired"
        return "draining" if self.state.nodes[node].drains else "live"

    def missing(self):
        return self.levels()["missing"]

    def urgent(self):
        """The blocks that want copies, with their levels."""
        levels = self.levels()
        return [(block, LEVELS[level]) for level in range(4) for block in levels[LEVELS[level]]]

    def files_with(self, blocks):
        """By path, how many of these blocks the file has, in the order of the table."""
        held = [self.places[block][0] for block in blocks if block in self.places]
        return {path: held.count(path) for path in self.paths if path in held}

    def lost_files(self):
        return self.files_with(self.missing())

    def endangered_files(self):
        found, lost = self.files_with(self.levels()["highest"]), self.lost_files()
        return {path: count for path, count in found.items() if path not in lost}


def per_mille(part, total):
    return part * 1000 // total if total else 0


def share(part, total):
    """A part in per cent, to a tenth."""
    tenths = per_mille(part, total)
    return f"{tenths // 10}.{tenths % 10}%"


def text_of(known, most=FIRST):
    """The lines of the report."""
    state, lines = known.state, []
    total = len(state.replicas)

    def hold(what, storages):
        count, size = known.amount(known.held(storages))
        part = share(count, total)
        lines.append(f"{what} replicas {count} bytes {size} {part} remaining {known.free(storages)}")

    def amounts(groups, prefix=""):
        all_of = sum(map(len, groups.values()))
        for name, blocks in groups.items():
            count, size = known.amount(blocks)
            lines.append(f"{prefix}{name} {count} bytes {size} {share(count, all_of)}")

    def end_of(block):
        if block not in known.places:
            return ""
        path, index = known.places[block]
        return f" index {index} file {path}"

    lines += [f"calls {state.calls}", f"rounds {state.last_round}", f"nodes {len(state.nodes)}"]
    for node in sorted(state.nodes):
        rack, storages = state.nodes[node].rack, sorted(state.storages_of(node))
        host, rack = known.hosts.get(node, node), known.racks.get(rack, rack)
        hold(f"node {host} rack {rack} {known.standing_of(node)} storages {len(storages)}", storages)
        for storage in storages:
            hold(f"storage {known.storages.get(storage, storage)}", [storage])
    count, size = known.amount(state.blocks)
    lines.append(f"blocks {count} bytes {size}")
    amounts(known.levels(), "level ")
    lines.append("replicas {} bytes {}".format(*known.amount(block for block, _ in state.replicas)))
    amounts(known.tags())
    lines.append(f"excess {sum(it.excess for it in state.replicas.values())}")
    lines.append(f"transfers {len(state.pending)}")
    lines += [f"missing block {block}{end_of(block)}" for block in known.missing()[:most]]
    lines += [f"urgent block {block} level {level}{end_of(block)}" for block, level in known.urgent()[:most]]
    if known.paths:
        for what, files in (("lost", known.lost_files()), ("endangered", known.endangered_files())):
            lines.append(f"{what} files {len(files)}")
            lines += [f"{what} blocks {n} file {path}" for path, n in list(files.items())[:most]]
    return "".join(f"{line}\n" for line in lines)


def json_of(known, most=FIRST):
    """The report as a value of JSON."""
    state, all_replicas = known.state, len(known.state.replicas)

    def amount(blocks):
        return dict(zip(("count", "bytes"), known.amount(blocks)))

    def parts(groups):
        total = sum(map(len, groups.values()))
        return {name: {**amount(it), "per_mille": per_mille(len(it), total)} for name, it in groups.items()}

    def holding(storages):
        count, size = known.amount(known.held(storages))
        part = per_mille(count, all_replicas)
        return {"replicas": count, "bytes": size, "per_mille": part, "remaining": known.free(storages)}

    def placed(block):
        path, index = known.places.get(block, (None, None))
        return {"file": path, "index": index}

    def node_of(node):
        rack, storages = state.nodes[node].rack, sorted(state.storages_of(node))
        return {
            "node": node,
            "host": known.hosts.get(node),
            "rack": rack,
            "rack_name": known.racks.get(rack),
            "state": known.standing_of(node),
            **holding(storages),
            "storages": [{"storage": it, "name": known.storages.get(it), **holding([it])} for it in storages],
        }

    def files(found):
        if not known.paths:
            return None
        first = [{"path": path, "blocks": count} for path, count in list(found.items())[:most]]
        return {"count": len(found), "files": first}

    return {
        "calls": state.calls,
        "rounds": state.last_round,
        "nodes": [node_of(node) for node in sorted(state.nodes)],
        "blocks": {**amount(state.blocks), "levels": parts(known.levels())},
        "replicas": {
            **amount(block for block, _ in state.replicas),
            **parts(known.tags()),
        },
        "excess": sum(it.excess for it in state.replicas.values()),
        "transfers": len(state.pending),
        "missing_blocks": [{"block": it, **placed(it)} for it in known.missing()[:most]],
        "urgent_blocks": [{"block": it, "level": level, **placed(it)} for it, level in known.urgent()[:most]],
        "lost_files": files(known.lost_files()),
        "endangered_files": files(known.endangered_files()),
    }
