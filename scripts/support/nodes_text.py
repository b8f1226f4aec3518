"""Prints the nodes of a cluster as `hdfs dfsadmin -report` does.

The forms are written from memory of Hadoop's DFSAdmin and DatanodeInfo in 2.7, 2.10, 3.3 and 3.4.
They were never compared with a running cluster. A function whose form is uncertain says so.
"""

from collections import Counter
from datetime import datetime

from fsck_cluster import (
    CORRUPT,
    DECOMMISSIONED,
    DECOMMISSIONING,
    DEFAULT_RACK,
    ENTERING,
    IN_MAINTENANCE,
    IN_SERVICE,
    Cluster,
    Fsck,
    Node,
    Version,
    counts,
    has_no_replica,
    live,
)
from fsck_text import java_date

# The words of `hdfs dfsadmin -report` for these states of a node.
ADMIN_WORDS = {
    IN_SERVICE: "Normal",
    DECOMMISSIONED: "Decommissioned",
    DECOMMISSIONING: "Decommission in progress",
    ENTERING: "Entering maintenance",
    IN_MAINTENANCE: "In maintenance",
}


def size_words(size: int) -> str:
    """A size with a binary prefix, as Hadoop's `StringUtils.byteDesc` prints it."""
    if size < 1024:
        return f"{size} B"
    power = (size.bit_length() - 1) // 10
    if size % 1024**power and f"{size / 1024**power:.2f}".startswith("1024"):
        power += 1
    unit, prefix = 1024**power, "KMGTPE"[power - 1]
    number = f"{size / unit:.2f}" if size % unit else f"{size // unit}"
    return f"{number} {prefix}B"


def amount(name: str, size: int) -> str:
    return f"{name}: {size} ({size_words(size)})\n"


def node_words(node: Node, replicas: int, version: Version, at: datetime) -> str:
    """The part of one node; a dead node has no capacity any more. The words for maintenance are
    uncertain in their capitals."""
    capacity, used, free = (node.capacity, node.used, node.free) if node.is_alive else (0, 0, 0)
    rack = "" if node.rack == DEFAULT_RACK else f"Rack: {node.rack}\n"
    words = (
        f"Name: {node.address} ({node.hostname})\nHostname: {node.hostname}\n{rack}"
        f"Decommission Status : {ADMIN_WORDS[node.admin]}\n"
        + amount("Configured Capacity", capacity)
        + amount("DFS Used", used)
        + amount("Non DFS Used", capacity - used - free)
        + amount("DFS Remaining", free)
        + f"DFS Used%: {used * 100 / capacity if capacity else 100:.2f}%\n"
        f"DFS Remaining%: {free * 100 / capacity if capacity else 0:.2f}%\n"
        "Configured Cache Capacity: 0 (0 B)\nCache Used: 0 (0 B)\nCache Remaining: 0 (0 B)\n"
        f"Cache Used%: 100.00%\nCache Remaining%: 0.00%\nXceivers: {int(node.is_alive)}\n"
        f"Last contact: {java_date(at)}\n"
    )
    if version >= (3, 0):
        words += f"Last Block Report: {java_date(at)}\nNum of Blocks: {replicas}\n"
    return words + "\n\n"


def section(name: str, nodes: list[Node], cluster: Cluster, call: Fsck) -> str:
    """Nodes of one state. A node that drains or is in maintenance is among the live ones too."""
    if not nodes:
        return ""
    held = Counter(
        replica.storage.node.address
        for file in cluster.files
        for block in file.blocks
        for replica in block.replicas
    )
    parts = [node_words(node, held[node.address], call.version, call.at) for node in nodes]
    return f"{name} datanodes ({len(nodes)}):\n\n" + "".join(parts)


def replicated_words(cluster: Cluster, call: Fsck) -> str:
    """The numbers of replicated blocks, which 2.x prints without a heading and a tab. In which
    versions the last two numbers are there is uncertain."""
    version = call.version
    blocks = {
        block.number: (block, file)
        for file in cluster.files
        for block in file.blocks
        if block.is_complete and not file.policy
    }.values()
    low = sum(live(block) < file.replication for block, file in blocks)
    corrupt = sum(counts(block)[CORRUPT] > 0 for block, _ in blocks)
    lost = [file.replication for block, file in blocks if has_no_replica(block, file, version)]
    lines = [
        f"Under replicated blocks: {low}\n",
        f"Blocks with corrupt replicas: {corrupt}\n",
        f"Missing blocks: {len(lost)}\n",
        f"Missing blocks (with replication factor 1): {lost.count(1)}\n",
    ]
    if version >= (3, 0):
        lines.append("Low redundancy blocks with highest priority to recover: 0\n")
    if version >= (2, 9):
        lines.append("Pending deletion blocks: 0\n")
    if version < (3, 0):
        return "".join(lines)
    return "Replicated Blocks:\n" + "".join("\t" + line for line in lines)


GROUP_WORDS = (
    "Erasure Coded Block Groups: \n"
    "\tLow redundancy block groups: 0\n"
    "\tBlock groups with corrupt internal blocks: 0\n"
    "\tMissing block groups: 0\n"
    "\tLow redundancy blocks with highest priority to recover: 0\n"
    "\tPending deletion blocks: 0\n"
)


def capacity_words(alive: list[Node]) -> str:
    """The first lines; capacity and free bytes of nodes out of service are not in the sums."""
    serving = [node for node in alive if not node.admin]
    outside = [node for node in alive if node.admin]
    used = sum(node.used for node in alive)
    free = sum(node.free for node in serving)
    capacity = sum(node.capacity for node in serving) + sum(node.used for node in outside)
    present = used + free
    return (
        amount("Configured Capacity", capacity)
        + amount("Present Capacity", present)
        + amount("DFS Remaining", free)
        + amount("DFS Used", used)
        + f"DFS Used%: {used * 100 / present if present else 0:.2f}%\n"
    )


def write_nodes(cluster: Cluster, call: Fsck) -> str:
    """What `hdfs dfsadmin -report` prints; of `call` only the version and the time count."""
    alive = [node for node in cluster.nodes if node.is_alive]
    dead = [node for node in cluster.nodes if not node.is_alive]
    words = capacity_words(alive) + replicated_words(cluster, call)
    if call.version >= (3, 0):
        words += GROUP_WORDS
    words += "\n" + "-" * 49 + "\n"
    words += section("Live", alive, cluster, call) + section("Dead", dead, cluster, call)
    sections = {DECOMMISSIONING: "Decommissioning"}
    if call.version >= (3, 0):
        sections |= {ENTERING: "Entering maintenance", IN_MAINTENANCE: "In maintenance"}
    for state, name in sections.items():
        nodes = [node for node in alive if node.admin == state]
        words += section(name, nodes, cluster, call)
    return words
