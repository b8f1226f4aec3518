"""Says which lines `./puljemrod import` has to write of a text of fsck, which tables of names and
of files, and what it has to say at its end.

All is computed from the cluster and from what its text shows, and never from the text itself.
"""

import json
import re
from dataclasses import dataclass

from fsck_cluster import (
    CORRUPT,
    DEFAULT_RACK,
    DRAINING,
    ENTERING,
    IN_MAINTENANCE,
    LIVE,
    Block,
    Cluster,
    File,
    Fsck,
    Node,
    Replica,
    Version,
    is_corrupt,
    is_under_replicated,
    mark_of,
    names_storages,
    places,
    printed_count,
    shown_files,
    unlisted_files,
)

# The marks of replicas that fsck counts as live.
LIVE_MARKS = (LIVE, "STALE_NODE", "STALE_BLOCK_CONTENT")

# The largest number of replicas in a `report` line, and the largest replication of the tool.
REPORT_LIMIT = 65_536
MOST_REPLICAS = 16

SKIP_ERASURE_CODED = "erasure-coded"
SKIP_REPLICATION = "replication-over-16"
SKIP_OPEN = "open"
SKIP_SNAPSHOTS = "snapshots"


@dataclass(frozen=True)
class Import:
    """The options of `./puljemrod import`; `nodes` says that a text of nodes is given."""

    nodes: bool = False
    remaining: int = 1 << 40
    unclear: str = "omit"
    skip: frozenset[str] = frozenset()


class Refused(Exception):
    """The text has something that the import does not take with these options."""


@dataclass(frozen=True)
class Taken:
    """A block that the import takes, with its wanted replicas and the listed ones."""

    block: Block
    wanted: int
    replicas: list[Replica]
    corrupt: list[Replica]


def wanted(block: Block, file: File, version: Version) -> int:
    """The file's replication where the text prints it, else the number of the block's line and at
    least 1."""
    prints_target = any(
        is_under_replicated(it, file, version) for it in file.blocks if it.is_complete
    )
    if version >= (3, 0) or prints_target:
        return file.replication
    return max(1, printed_count(block, file, version))


def claims_live(replica: Replica, block: Block, file: File, call: Fsck) -> bool:
    """Whether the text may count the replica as live: by its mark, or because it has none and fsck
    does not call the block corrupt."""
    if call.details:
        return mark_of(replica, call) in LIVE_MARKS
    return not is_corrupt(block, file, call.version)


def is_unclear(block: Block, file: File, call: Fsck) -> bool:
    """Whether more replicas claim to be live than are. Without -maintenance, -replicaDetails marks
    a replica in maintenance as live, and fsck does not count it."""
    listed = places(block, file, call.version)
    number = printed_count(block, file, call.version)
    return sum(claims_live(replica, block, file, call) for replica in listed) > number


def kind_of(file: File, call: Fsck) -> str:
    """The first kind that the file has of those that the tool has no lines for, or no word."""
    if file.policy:
        return SKIP_ERASURE_CODED
    if file.is_open:
        return SKIP_OPEN
    if "/.snapshot/" in file.path:
        return SKIP_SNAPSHOTS
    numbers = [wanted(block, file, call.version) for block in file.blocks]
    if call.version >= (3, 0):
        numbers.append(file.replication)
    return SKIP_REPLICATION if max(numbers, default=0) > MOST_REPLICAS else ""


def is_skipped(file: File, call: Fsck, options: Import) -> bool:
    """Whether the file is left out; refuses it if its kind is not to be left out."""
    kind = kind_of(file, call)
    if kind and kind not in options.skip:
        raise Refused(f"{file.path} is of the kind {kind}")
    return bool(kind)


def taken_block(block: Block, file: File, call: Fsck) -> Taken:
    listed = places(block, file, call.version)
    all_are = is_corrupt(block, file, call.version)
    bad = [
        replica
        for replica in listed
        if all_are or (call.details and mark_of(replica, call) == CORRUPT)
    ]
    return Taken(block, wanted(block, file, call.version), listed, bad)


def taken_blocks(cluster: Cluster, call: Fsck, options: Import) -> list[Taken]:
    """The blocks in the order of the text. Skipped files and omitted blocks leave no trace."""
    found: list[Taken] = []
    numbers: set[int] = set()
    for file in shown_files(cluster, call):
        if is_skipped(file, call, options):
            continue
        for block in file.blocks:
            if block.number in numbers:
                raise Refused(f"block {block.number} was named before")
            numbers.add(block.number)
            if options.unclear == "good" or not is_unclear(block, file, call):
                found.append(taken_block(block, file, call))
    return found


class Numbering:
    """Racks, nodes and storages with their numbers from 1, in dictionaries by their names."""

    def __init__(self, cluster: Cluster, call: Fsck, options: Import):
        self.has_storages = names_storages(call)
        self.knows_racks = call.racks or options.nodes
        self.racks: dict[str, int] = {}
        self.nodes: dict[str, tuple[int, Node]] = {}
        self.storages: dict[str, tuple[int, Node]] = {}
        self.blocks = taken_blocks(cluster, call, options)
        alive = [node for node in cluster.nodes if node.is_alive] if options.nodes else []
        for node in alive:
            self.add_node(node)
        for replica in (replica for it in self.blocks for replica in it.replicas):
            self.add_place(replica, options)
        for node in alive:
            if not self.storages_of(node):
                self.storages[node.address] = (len(self.storages) + 1, node)

    def rack(self, node: Node) -> str:
        return node.rack if self.knows_racks else DEFAULT_RACK

    def storage_name(self, replica: Replica) -> str:
        storage = replica.storage
        return storage.name if self.has_storages else storage.node.address

    def storage(self, replica: Replica) -> int:
        return self.storages[self.storage_name(replica)][0]

    def storages_of(self, node: Node) -> list[int]:
        return [number for number, on in self.storages.values() if on.address == node.address]

    def add_node(self, node: Node) -> None:
        self.racks.setdefault(self.rack(node), len(self.racks) + 1)
        self.nodes.setdefault(node.address, (len(self.nodes) + 1, node))

    def add_place(self, replica: Replica, options: Import) -> None:
        node = replica.storage.node
        if options.nodes and node.address not in self.nodes:
            raise Refused(f"the text of the nodes has no live node {node.address}")
        self.add_node(node)
        name = self.storage_name(replica)
        self.storages.setdefault(name, (len(self.storages) + 1, node))


def line(**fields: object) -> str:
    return json.dumps(fields, separators=(",", ":"))


def node_lines(numbering: Numbering, options: Import) -> list[str]:
    lines = []
    for number, node in numbering.nodes.values():
        rack = numbering.racks[numbering.rack(node)]
        storages = numbering.storages_of(node)
        lines.append(line(op="register", node=number, rack=rack, storages=storages))
    for number, node in numbering.nodes.values():
        storages = numbering.storages_of(node)
        free = node.free // len(storages) if options.nodes else options.remaining
        lines.append(line(op="heartbeat", node=number, remaining=[[it, free] for it in storages]))
    return lines


def report_lines(numbering: Numbering) -> list[str]:
    """A report of each storage, followed by the replicas past the limit of a report."""
    held: dict[int, list[Block]] = {number: [] for number, _ in numbering.storages.values()}
    for taken in numbering.blocks:
        for replica in taken.replicas:
            held[numbering.storage(replica)].append(taken.block)
    lines = []
    for number, blocks in held.items():
        items = [[block.number, block.stamp, block.length] for block in blocks]
        lines.append(line(op="report", storage=number, blocks=items[:REPORT_LIMIT]))
        for block, stamp, length in items[REPORT_LIMIT:]:
            lines.append(line(op="received", storage=number, id=block, gen=stamp, len=length))
    return lines


def drain_lines(numbering: Numbering, call: Fsck, options: Import) -> list[str]:
    """The nodes that drain: by the text of the nodes, or by the mark of a replica."""
    marked = {
        replica.storage.node.address
        for it in numbering.blocks
        for replica in it.replicas
        if call.details
    }
    return [
        line(op="drain", node=number)
        for number, node in numbering.nodes.values()
        if node.admin in DRAINING and (options.nodes or node.address in marked)
    ]


def expected(cluster: Cluster, call: Fsck, options: Import = Import()) -> list[str]:
    """The lines that the import has to write, or `Refused` is raised."""
    numbering = Numbering(cluster, call, options)
    lines = node_lines(numbering, options)
    for it in numbering.blocks:
        block = it.block
        lines.append(
            line(op="add", id=block.number, gen=block.stamp, len=block.length, repl=it.wanted)
        )
    lines += report_lines(numbering)
    for it in numbering.blocks:
        for replica in it.corrupt:
            storage = numbering.storage(replica)
            lines.append(line(op="corrupt", storage=storage, id=it.block.number))
    return lines + drain_lines(numbering, call, options)


def printed(name: str) -> str:
    """A name as it is printed: each control character and each backslash by its number."""
    return re.sub(r"[\x00-\x1f\x7f-\x9f\\]", lambda it: f"\\x{ord(it[0]):02x}", name)


def names(cluster: Cluster, call: Fsck, options: Import = Import()) -> list[str]:
    """The table of names that the import has to write."""
    numbering = Numbering(cluster, call, options)
    lines = []
    for number, node in numbering.nodes.values():
        rack = numbering.rack(node)
        row = ["node", str(number), node.address, str(numbering.racks[rack]), rack]
        lines.append("\t".join(printed(it) for it in row))
    for name, (number, node) in numbering.storages.items():
        row = ["storage", str(number), name, str(numbering.nodes[node.address][0]), node.address]
        lines.append("\t".join(printed(it) for it in row))
    return lines


def file_rows(cluster: Cluster, call: Fsck, options: Import = Import()) -> list[str]:
    """The table of files that the import has to write: path, index in the file and number of each
    taken block."""
    taken = {it.block.number for it in taken_blocks(cluster, call, options)}
    return [
        f"{printed(file.path)}\t{index}\t{block.number}"
        for file in shown_files(cluster, call)
        if not is_skipped(file, call, options)
        for index, block in enumerate(file.blocks)
        if block.number in taken
    ]


# What the import says of each kind of file that is left out, in this order, of one and of several.
KIND_NOTES = {
    SKIP_ERASURE_CODED: ("erasure coded file left out", "erasure coded files left out"),
    SKIP_REPLICATION: (
        "file with more than 16 replicas left out",
        "files with more than 16 replicas left out",
    ),
    SKIP_OPEN: ("file that is being written left out", "files that are being written left out"),
    SKIP_SNAPSHOTS: ("file in a snapshot left out", "files in snapshots left out"),
}

UNCLEAR = " with more places than live replicas "

MAINTAINED = (
    "replica on a node in maintenance taken as live",
    "replicas on nodes in maintenance taken as live",
)


def notes(cluster: Cluster, call: Fsck, options: Import = Import()) -> list[str]:
    """What the import has to say at its end: a number and what it counts, if it is not 0."""
    files = shown_files(cluster, call)
    skipped = [kind_of(file, call) for file in files if is_skipped(file, call, options)]
    counts = [(skipped.count(kind), words) for kind, words in KIND_NOTES.items()]
    unclear = sum(
        is_unclear(block, file, call)
        for file in files
        if not is_skipped(file, call, options)
        for block in file.blocks
    )
    done = UNCLEAR + ("taken with each place as good" if options.unclear == "good" else "left out")
    counts.append((unclear, ("block" + done, "blocks" + done)))
    marks = [
        mark_of(replica, call) if call.details else LIVE
        for taken in taken_blocks(cluster, call, options)
        for replica in taken.replicas
        if replica not in taken.corrupt
    ]
    maintained = marks.count(ENTERING) + marks.count(IN_MAINTENANCE)
    counts.append((maintained, MAINTAINED))
    found = [f"{count} {several if count > 1 else one}" for count, (one, several) in counts if count]
    unlisted = len(unlisted_files(cluster, call))
    if unlisted:
        files = "1 file being written is" if unlisted == 1 else f"{unlisted} files being written are"
        found.append(f"{files} not in the text")
    if call.path != "/":
        found.append("the text is of one path alone, and not of /")
    return found
