"""A model of a cluster, for texts of `hdfs fsck` and for the lines that `./puljemrod import` makes
of them.

`fsck_text.py` prints a cluster as Hadoop does, `fsck_lines.py` says what the import has to write.
Both come from the cluster alone: no line is computed from a text.

What Hadoop counts is written from memory of its sources (NamenodeFsck, BlockManager and
BlockPlacementPolicyDefault of 2.6, 2.7, 2.10, 3.3 and 3.4). It was never compared with a running
cluster. A function whose form is uncertain says so.
"""

from collections import Counter
from collections.abc import Iterator
from dataclasses import dataclass
from datetime import datetime

Version = tuple[int, int]

DEFAULT_RACK = "/default-rack"

# States of a replica, and of a node that is not in service, by the words of -replicaDetails.
LIVE = "LIVE"
CORRUPT = "CORRUPT"
EXCESS = "EXCESS"
DECOMMISSIONED = "DECOMMISSIONED"
DECOMMISSIONING = "DECOMMISSIONING"
ENTERING = "ENTERING MAINTENANCE"
IN_MAINTENANCE = "IN MAINTENANCE"
IN_SERVICE = ""

DRAINING = (DECOMMISSIONED, DECOMMISSIONING)
OUT_OF_SERVICE = (DECOMMISSIONED, DECOMMISSIONING, ENTERING, IN_MAINTENANCE)


@dataclass(frozen=True)
class Node:
    """A DataNode; its capacities are in bytes."""

    address: str
    hostname: str
    rack: str = DEFAULT_RACK
    admin: str = IN_SERVICE
    is_stale: bool = False
    is_alive: bool = True
    capacity: int = 1 << 42
    used: int = 1 << 38
    free: int = 1 << 40
    upgrade_domain: str = "undefined"


@dataclass(frozen=True)
class Storage:
    """A storage of a node. Its content is stale until its first report after a failover."""

    name: str
    node: Node
    kind: str = "DISK"
    is_stale: bool = False


@dataclass(frozen=True)
class Replica:
    """A replica is good (LIVE), corrupt or in excess; in a group it has the index of its unit."""

    storage: Storage
    state: str = LIVE
    unit: int = 0


@dataclass(frozen=True)
class Block:
    """A block, or an erasure coded group; replicas of an unfinished block are expected ones."""

    number: int
    stamp: int
    length: int
    replicas: tuple[Replica, ...] = ()
    is_complete: bool = True


@dataclass(frozen=True)
class File:
    """A file. The path of a file in a snapshot has `.snapshot` and the snapshot's name in it."""

    path: str
    blocks: tuple[Block, ...] = ()
    replication: int = 3
    policy: str = ""
    is_open: bool = False


@dataclass(frozen=True)
class Cluster:
    """A cluster; directories need to be listed only where they are empty."""

    pool: str
    nodes: tuple[Node, ...]
    files: tuple[File, ...]
    directories: tuple[str, ...] = ()
    symlinks: tuple[str, ...] = ()
    default_replication: int = 3
    minimal_replication: int = 1


@dataclass(frozen=True)
class Fsck:
    """A call of `hdfs fsck PATH -files -blocks -locations` with further options."""

    version: Version
    at: datetime
    path: str = "/"
    racks: bool = False
    details: bool = False
    open_files: bool = False
    snapshots: bool = False
    maintenance: bool = False
    domains: bool = False


def counted_as(replica: Replica) -> str:
    """The state by which BlockManager counts a replica: corruption first, then the node."""
    if replica.state == CORRUPT:
        return CORRUPT
    return replica.storage.node.admin or replica.state


def counts(block: Block) -> Counter[str]:
    return Counter(counted_as(replica) for replica in block.replicas)


def live(block: Block) -> int:
    return counts(block)[LIVE]


def total(block: Block, version: Version) -> int:
    """The replicas that count against the wanted number: from 2.8 on also those out of service."""
    found = counts(block)
    if version < (2, 8):
        return found[LIVE]
    return found[LIVE] + sum(found[state] for state in OUT_OF_SERVICE)


def units(policy: str) -> tuple[int, int]:
    """Data and parity units of a policy such as RS-6-3-1024k."""
    _, data, parity, _ = policy.rsplit("-", 3)
    return int(data), int(parity)


def target(file: File) -> int:
    """The wanted replicas of a block, or internal blocks of a group (full groups only)."""
    return sum(units(file.policy)) if file.policy else file.replication


def minimum(file: File, cluster: Cluster) -> int:
    return units(file.policy)[0] if file.policy else cluster.minimal_replication


def is_corrupt(block: Block, file: File, version: Version) -> bool:
    """Whether fsck calls the block CORRUPT. Before 3.0 a block without any replica is too."""
    corrupt = counts(block)[CORRUPT]
    if not block.is_complete:
        return False
    if file.policy:
        return corrupt > 0 and live(block) < units(file.policy)[0]
    return corrupt == len(block.replicas) and (corrupt > 0 or version < (3, 0))


def located(block: Block, file: File, version: Version) -> list[Replica]:
    """The replicas that a client may read: without corrupt ones unless the block is corrupt."""
    if not block.is_complete:
        return list(block.replicas)
    with_corrupt = is_corrupt(block, file, version)
    return [
        replica
        for replica in block.replicas
        if (with_corrupt or replica.state != CORRUPT)
        and replica.storage.node.admin != IN_MAINTENANCE
    ]


def has_no_replica(block: Block, file: File, version: Version) -> bool:
    if version < (2, 8):
        return not located(block, file, version)
    if file.policy:
        return total(block, version) < units(file.policy)[0]
    return total(block, version) == 0


def is_missing(block: Block, file: File, version: Version) -> bool:
    """Whether the block's line has ` MISSING!`. From 3.0 on a corrupt block is not missing."""
    is_called_corrupt = version >= (3, 0) and is_corrupt(block, file, version)
    return has_no_replica(block, file, version) and not is_called_corrupt


def is_under_replicated(block: Block, file: File, version: Version) -> bool:
    few = total(block, version) < target(file)
    if version < (2, 8):
        return few and live(block) > 0
    return few and not has_no_replica(block, file, version)


def places(block: Block, file: File, version: Version) -> list[Replica]:
    """The replicas that the block's line lists: readable ones in 2.7, all from 2.8 on."""
    if version < (2, 8):
        return located(block, file, version)
    if is_missing(block, file, version) and not file.policy:
        return []
    return list(block.replicas)


def printed_count(block: Block, file: File, version: Version) -> int:
    """The number of the block's line: that of its places in 2.6, of its live replicas since
    then."""
    return len(places(block, file, version)) if version < (2, 7) else live(block)


def names_storages(call: Fsck) -> bool:
    """Whether a place has the name of its storage; 2.6 names the node alone."""
    return call.version >= (2, 7) and not call.racks


def racks_of(cluster: Cluster) -> set[str]:
    return {node.rack for node in cluster.nodes if node.is_alive}


def lacking_racks(block: Block, file: File, cluster: Cluster, version: Version) -> int:
    """The number of racks that the placement policy misses. A block without any replica misses
    all of them, by the source; no text with such a line was at hand."""
    available = len(racks_of(cluster))
    used = len({it.storage.node.rack for it in located(block, file, version)})
    wanted = target(file) if file.policy else min(2, file.replication)
    if available <= 1 or (version >= (2, 8) and used >= available):
        return 0
    return max(0, wanted - used)


class Symlink:
    """A symbolic link, of which fsck prints the path alone."""


Tree = dict[str, "Tree | File | Symlink"]


def tree_of(cluster: Cluster, call: Fsck) -> Tree:
    """The files by the parts of their paths; snapshots only where they are asked for."""
    root: Tree = {}
    leaves = [(path, {}) for path in cluster.directories]
    leaves += [(path, Symlink()) for path in cluster.symlinks]
    leaves += [(file.path, file) for file in cluster.files]
    for path, leaf in leaves:
        *parents, name = path.strip("/").split("/")
        folder = root
        for parent in parents:
            folder = folder.setdefault(parent, {})
        folder.setdefault(name, leaf)
    return root if call.snapshots else without_snapshots(root)


def without_snapshots(tree: Tree) -> Tree:
    return {
        name: without_snapshots(entry) if isinstance(entry, dict) else entry
        for name, entry in tree.items()
        if name != ".snapshot"
    }


def entries_below(path: str, tree: Tree) -> Iterator[tuple[str, object]]:
    """A directory's snapshots, the directory itself and its entries by the bytes of their names."""
    below = path.rstrip("/") + "/"
    if ".snapshot" in tree:
        yield from entries_below(below + ".snapshot", tree[".snapshot"])
    yield path, None
    for name in sorted(tree.keys() - {".snapshot"}, key=str.encode):
        entry = tree[name]
        if isinstance(entry, dict):
            yield from entries_below(below + name, entry)
        else:
            yield below + name, entry


def entries(cluster: Cluster, call: Fsck) -> Iterator[tuple[str, object]]:
    """What fsck visits, in its order: a path with None (a directory), a Symlink or a File."""
    tree = tree_of(cluster, call)
    for name in [it for it in call.path.split("/") if it]:
        tree = tree[name]
    if isinstance(tree, dict):
        yield from entries_below(call.path, tree)
    else:
        yield call.path, tree


def is_shown(file: File, call: Fsck) -> bool:
    return call.open_files or not file.is_open


def shown_files(cluster: Cluster, call: Fsck) -> list[File]:
    """The files of the text in its order."""
    found = [entry for _, entry in entries(cluster, call) if isinstance(entry, File)]
    return [file for file in found if is_shown(file, call)]


def unlisted_files(cluster: Cluster, call: Fsck) -> list[File]:
    """The files that fsck counts and does not list."""
    found = [entry for _, entry in entries(cluster, call) if isinstance(entry, File)]
    return [file for file in found if not is_shown(file, call)]


def announced(file: File) -> list[Block]:
    """The blocks that the heading counts: not a last one of length 0 that is being written."""
    return [block for block in file.blocks if block.is_complete or block.length > 0]


def mark_of(replica: Replica, call: Fsck) -> str:
    """The word of -replicaDetails. A node out of service hides that its replica is corrupt."""
    node = replica.storage.node
    if node.admin in DRAINING or (node.admin and call.maintenance):
        return node.admin
    if replica.state != LIVE:
        return replica.state
    if node.is_stale:
        return "STALE_NODE"
    return "STALE_BLOCK_CONTENT" if replica.storage.is_stale else LIVE
