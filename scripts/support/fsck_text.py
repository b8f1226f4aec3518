"""Prints a cluster as `hdfs fsck PATH -files -blocks -locations` does.

The forms are written from memory of Hadoop's NamenodeFsck in 2.6, 2.7, 2.10, 3.3 and 3.4, where no
difference between 3.3 and 3.4 is known. They were never compared with a running cluster. A function
whose form is uncertain says so.
"""

import struct
from collections import Counter
from dataclasses import dataclass, field, replace
from datetime import datetime

from fsck_cluster import (
    DECOMMISSIONED,
    DECOMMISSIONING,
    ENTERING,
    IN_MAINTENANCE,
    LIVE,
    OUT_OF_SERVICE,
    Block,
    Cluster,
    File,
    Fsck,
    Replica,
    Symlink,
    Version,
    announced,
    counts,
    entries,
    is_corrupt,
    is_missing,
    is_shown,
    is_under_replicated,
    lacking_racks,
    live,
    mark_of,
    minimum,
    names_storages,
    places,
    printed_count,
    racks_of,
    target,
    total,
)


def single(number: float) -> float:
    """The nearest value of Java's `float`."""
    return struct.unpack("f", struct.pack("f", number))[0]


def java_float(number: float) -> str:
    """A number from 0 as Java's `Float.toString` prints it: by the fewest digits that no other
    float shares. Before Java 19 a few numbers have one digit more."""
    if number == 0:
        return "0.0"
    short = next(it for it in (f"{number:.{n}e}" for n in range(9)) if single(float(it)) == number)
    digits, exponent = short.split("e")
    if 1e-3 <= number < 1e7:
        decimals = len(digits.replace(".", "")) - 1 - int(exponent)
        return f"{float(short):.{max(1, decimals)}f}"
    return f"{digits if '.' in digits else digits + '.0'}E{int(exponent)}"


def ratio(part: int, whole: int) -> float:
    return single(single(part) / single(whole))


def percent(part: int, whole: int) -> str:
    return f" ({java_float(ratio(part * 100, whole))} %)"


def java_date(at: datetime) -> str:
    return at.strftime("%a %b %d %H:%M:%S UTC %Y")


def place_words(replica: Replica, call: Fsck) -> str:
    storage, node = replica.storage, replica.storage.node
    if call.racks:
        place = f"{node.rack}/{node.address}"
    elif not names_storages(call):
        place = node.address
    else:
        place = f"DatanodeInfoWithStorage[{node.address},{storage.name},{storage.kind}]"
    mark = f"({mark_of(replica, call)})" if call.details else ""
    domain = f"(ud={node.upgrade_domain})" if call.domains else ""
    return place + mark + domain


def list_words(block: Block, file: File, call: Fsck) -> str:
    """A list of places. In a group, the number of each internal block precedes its place."""
    listed = places(block, file, call.version) if block.is_complete else block.replicas
    words = []
    for replica in listed:
        is_unit = file.policy and block.is_complete
        unit = f"blk_{block.number + replica.unit}:" if is_unit else ""
        words.append(unit + place_words(replica, call))
    return f"[{', '.join(words)}]"


def block_words(block: Block, file: File, call: Fsck) -> str:
    """The rest of a block's line after its length; `repl=` of 2.6 counts the places, that of 2.7
    the live replicas."""
    is_lost = is_missing(block, file, call.version)
    missing = " MISSING!" if is_lost else ""
    if is_lost and not file.policy:
        return missing
    listed = list_words(block, file, call)
    if call.version < (2, 8):
        return f" repl={printed_count(block, file, call.version)} {listed}"
    return f"{missing} Live_repl={live(block)}  {listed}"


def under_words(block: Block, file: File, call: Fsck) -> str:
    """The end of the line ` Under replicated ..`. With -maintenance the source has a comma
    after the number of replicas that enter maintenance; that form is uncertain."""
    found = counts(block)
    if call.version < (2, 8):
        return f"{found[LIVE]} replica(s)."
    words = (
        f"{found[LIVE]} live replica(s), {found[DECOMMISSIONED]} decommissioned replica(s), "
        f"{found[DECOMMISSIONING]} decommissioning replica(s)"
    )
    if not call.maintenance:
        return words + "."
    return (
        f"{words}{found[ENTERING]}, entering maintenance replica(s) and "
        f"{found[IN_MAINTENANCE]} in maintenance replica(s)."
    )


@dataclass
class Sums:
    """What fsck adds up, for replicated files or for erasure coded ones."""

    files: int = 0
    size: int = 0
    blocks: int = 0
    open_files: int = 0
    open_size: int = 0
    open_blocks: int = 0
    replicas: int = 0
    wanted: int = 0
    enough: int = 0
    below_minimum: int = 0
    over: int = 0
    under: int = 0
    badly_placed: int = 0
    lacking: int = 0
    missing: int = 0
    missing_size: int = 0
    corrupt: int = 0
    corrupt_size: int = 0
    corrupt_files: int = 0
    states: Counter[str] = field(default_factory=Counter)

    def is_healthy(self) -> bool:
        return self.missing == 0 and self.corrupt == 0

    def share(self, part: int) -> str:
        """A part of all blocks, with its percentage where there are blocks."""
        return f"{part}{percent(part, self.blocks) if self.blocks else ''}"

    def add_open(self, file: File) -> None:
        self.open_files += 1
        self.open_size += sum(block.length for block in file.blocks)
        self.open_blocks += len(announced(file))

    def add_file(self, file: File) -> None:
        self.files += 1
        self.size += sum(block.length for block in file.blocks)
        self.blocks += len(announced(file))

    def add_block(self, block: Block, file: File, cluster: Cluster, version: Version) -> None:
        number = total(block, version)
        self.replicas += number
        self.wanted += target(file)
        self.states += counts(block)
        self.over += live(block) > target(file)
        self.enough += number >= minimum(file, cluster)
        self.below_minimum += number < minimum(file, cluster)
        self.badly_placed += lacking_racks(block, file, cluster, version) > 0
        if is_under_replicated(block, file, version):
            self.under += 1
            self.lacking += target(file) - number
        if is_missing(block, file, version):
            self.missing += 1
            self.missing_size += block.length
        if is_corrupt(block, file, version):
            self.corrupt += 1
            self.corrupt_size += block.length


class FsckWriter:
    """Prints one text; the methods follow the order of the text. Those that end in `_text` are
    called in turn: `first_text`, `entry_text` of each entry, `end_text`."""

    def __init__(self, cluster: Cluster, call: Fsck):
        if call.version < (2, 8) and (call.details or call.domains or call.maintenance):
            raise ValueError("2.6 and 2.7 have no such option")
        self.cluster = cluster
        self.call = call
        self.out: list[str] = []
        self.directories = 0
        self.symlinks = 0
        self.replicated = Sums()
        self.erasure_coded = Sums()

    def text(self) -> str:
        files = "".join(self.entry_text(path, it) for path, it in entries(self.cluster, self.call))
        return self.first_text() + files + self.end_text()

    def first_text(self) -> str:
        who = "hdfs (auth:SIMPLE) from /192.0.2.1"
        at = java_date(self.call.at)
        return f"FSCK started by {who} for path {self.call.path} at {at}\n"

    def entry_text(self, path: str, entry: object) -> str:
        self.out = []
        self.progress()
        if entry is None:
            self.say(f"{path} <dir>\n")
            self.directories += 1
        elif isinstance(entry, Symlink):
            self.say(f"{path} <symlink>\n")
            self.symlinks += 1
        else:
            self.file(entry)
        return "".join(self.out)

    def end_text(self) -> str:
        self.out = []
        if self.call.version < (3, 0):
            self.summary_2()
        else:
            self.summary_3()
        self.say(f"FSCK ended at {java_date(self.call.at)} in 7 milliseconds\n")
        state = "HEALTHY" if self.is_healthy() else "CORRUPT"
        self.say(f"\n\nThe filesystem under path '{self.call.path}' is {state}\n")
        return "".join(self.out)

    def is_healthy(self) -> bool:
        """Nothing is missing and no block is called corrupt; too few replicas do no harm."""
        return self.replicated.is_healthy() and self.erasure_coded.is_healthy()

    def say(self, text: str) -> None:
        self.out.append(text)

    def progress(self) -> None:
        """An empty line before the first entry and each thousandth in 3.x; the number of entries
        between two such lines is uncertain (100 or 1,000)."""
        files = self.replicated.files + self.erasure_coded.files
        seen = self.directories + self.symlinks + files
        if self.call.version >= (3, 0) and seen % 1000 == 0:
            self.say("\n")

    def file(self, file: File) -> None:
        sums = self.erasure_coded if file.policy else self.replicated
        if not is_shown(file, self.call):
            sums.add_open(file)
            return
        sums.add_file(file)
        self.heading(file, sums)
        checked = [
            block for block in announced(file) if block.is_complete or self.call.version < (2, 8)
        ]
        before = replace(sums)
        for block in checked:
            self.problems(block, file)
            sums.add_block(block, file, self.cluster, self.call.version)
        self.end_of_file(sums, before)
        self.blocks(file, checked)

    def heading(self, file: File, sums: Sums) -> None:
        """In 2.x the heading of each hundredth file is followed by a line end."""
        kind = ""
        if self.call.version >= (3, 0):
            kind = f"replicated: replication={file.replication}, "
            if file.policy:
                kind = f"erasure-coded: policy={file.policy}, "
        size = sum(block.length for block in file.blocks)
        state = ", OPENFORWRITE" if file.is_open else ""
        self.say(f"{file.path} {size} bytes, {kind}{len(announced(file))} block(s){state}: ")
        if self.call.version < (3, 0) and sums.files % 100 == 0:
            self.say("\n")

    def name(self, block: Block) -> str:
        return f"{self.cluster.pool}:blk_{block.number}_{block.stamp}"

    def problems(self, block: Block, file: File) -> None:
        version = self.call.version
        if is_corrupt(block, file, version):
            pool = f"CORRUPT blockpool {self.cluster.pool}"
            self.say(f"\n{file.path}: {pool} block blk_{block.number}\n")
        if is_under_replicated(block, file, version):
            found = under_words(block, file, self.call)
            self.say(
                f" Under replicated {self.name(block)}. Target Replicas is {target(file)}"
                f" but found {found}\n"
            )
        lacking = lacking_racks(block, file, self.cluster, version)
        if lacking:
            racks = f" Total number of racks in the cluster: {len(racks_of(self.cluster))}"
            self.say(
                f" Replica placement policy is violated for {self.name(block)}. Block should be"
                f" additionally replicated on {lacking} more rack(s)."
                f"{racks if version >= (2, 8) else ''}\n"
            )

    def end_of_file(self, sums: Sums, before: Sums) -> None:
        """What the file has lost, or OK. In 2.x the word CORRUPT counts as no loss here."""
        missing, corrupt = sums.missing - before.missing, sums.corrupt - before.corrupt
        if missing or corrupt:
            sums.corrupt_files += 1
        if missing:
            size = sums.missing_size - before.missing_size
            self.say(f" MISSING {missing} blocks of total size {size} B\n")
        if corrupt and self.call.version >= (3, 0):
            size = sums.corrupt_size - before.corrupt_size
            self.say(f" CORRUPT {corrupt} blocks of total size {size} B\n")
        is_lossy = missing or (corrupt and self.call.version >= (3, 0))
        if not is_lossy and sums.under == before.under and sums.badly_placed == before.badly_placed:
            self.say(" OK\n")

    def blocks(self, file: File, checked: list[Block]) -> None:
        """The lines of the blocks. The line of a block that is being written has no line end of
        its own, so no empty line follows it. Whether 2.10 has that line is uncertain."""
        for index, block in enumerate(checked):
            words = block_words(block, file, self.call)
            self.say(f"{index}. {self.name(block)} len={block.length}{words}\n")
        last = file.blocks[-1] if file.blocks else None
        if last and not last.is_complete and last not in checked:
            listed = list_words(last, file, self.call)
            self.say(
                f"\nUnder Construction Block:\n{len(checked)}. {self.name(last)} len={last.length}"
                f" Expected_repl={len(last.replicas)}  {listed}"
            )
        self.say("\n")

    def summary_2(self) -> None:
        """Whether 2.7 counts blocks below the minimal replication is uncertain."""
        sums = self.replicated
        self.say(f"Status: {'HEALTHY' if sums.is_healthy() else 'CORRUPT'}\n")
        self.say(f" Total size:\t{sums.size} B{self.open_size(sums)}\n")
        self.say(f" Total dirs:\t{self.directories}\n")
        self.say(f" Total files:\t{sums.files}\n")
        self.say(f" Total symlinks:\t\t{self.symlinks}{self.open_files(sums)}\n")
        self.validated(sums, "block")
        self.losses_2(sums)
        self.shares(sums, BLOCK_SHARES)
        self.say(f" Default replication factor:\t{self.cluster.default_replication}\n")
        self.say(f" Average block replication:\t{self.average(sums)}\n")
        self.say(f" Corrupt blocks:\t\t{sums.corrupt}\n")
        self.lacking(sums, " Missing replicas:\t\t")
        self.out_of_service(sums, ("DecommissionedReplicas", "DecommissioningReplicas"))
        live_nodes = sum(node.is_alive for node in self.cluster.nodes)
        self.say(f" Number of data-nodes:\t\t{live_nodes}\n")
        self.say(f" Number of racks:\t\t{len(racks_of(self.cluster))}\n")

    def summary_3(self) -> None:
        """Since which version of 3.x the numbers of queued blocks are there is uncertain."""
        self.say(f"\nStatus: {'HEALTHY' if self.is_healthy() else 'CORRUPT'}\n")
        live_nodes = sum(node.is_alive for node in self.cluster.nodes)
        self.say(f" Number of data-nodes:\t{live_nodes}\n")
        self.say(f" Number of racks:\t\t{len(racks_of(self.cluster))}\n")
        self.say(f" Total dirs:\t\t\t{self.directories}\n")
        self.say(f" Total symlinks:\t\t{self.symlinks}\n")
        self.replicated_3()
        self.erasure_coded_3()

    def replicated_3(self) -> None:
        sums = self.replicated
        self.say("\nReplicated Blocks:\n")
        self.say(f" Total size:\t{sums.size} B{self.open_size(sums)}\n")
        self.say(f" Total files:\t{sums.files}{self.open_files(sums)}\n")
        self.validated(sums, "block")
        minimal = f"  MINIMAL BLOCK REPLICATION:\t{self.cluster.minimal_replication}\n"
        self.losses_3(sums, "UNDER MIN REPL'D BLOCKS", "BLOCKS", minimal)
        self.shares(sums, BLOCK_SHARES)
        self.say(f" Default replication factor:\t{self.cluster.default_replication}\n")
        self.say(f" Average block replication:\t{self.average(sums)}\n")
        self.say(f" Missing blocks:\t\t{sums.missing}\n")
        self.say(f" Corrupt blocks:\t\t{sums.corrupt}\n")
        self.lacking(sums, " Missing replicas:\t\t")
        self.out_of_service(sums, ("DecommissionedReplicas", "DecommissioningReplicas"))
        self.say(" Blocks queued for replication:\t0\n")

    def erasure_coded_3(self) -> None:
        sums = self.erasure_coded
        self.say("\nErasure Coded Block Groups:\n")
        self.say(f" Total size:\t{sums.size} B{self.open_size(sums)}\n")
        self.say(f" Total files:\t{sums.files}{self.open_files(sums)}\n")
        self.validated(sums, "block group")
        self.losses_3(sums, "UNDER MIN ERASURE-CODED BLOCKS", "BLOCK GROUPS", "")
        self.shares(sums, GROUP_SHARES)
        self.say(f" Average block group size:\t{self.average(sums)}\n")
        self.say(f" Missing block groups:\t\t{sums.missing}\n")
        self.say(f" Corrupt block groups:\t\t{sums.corrupt}\n")
        self.lacking(sums, " Missing internal blocks:\t")
        names = ("Decommissioned internal blocks", "Decommissioning internal blocks")
        self.out_of_service(sums, names)
        self.say(" Blocks queued for replication:\t0\n")

    def open_size(self, sums: Sums) -> str:
        return f" (Total open files size: {sums.open_size} B)" if sums.open_size else ""

    def open_files(self, sums: Sums) -> str:
        """In 2.x these words follow the number of symlinks."""
        return f" (Files currently being written: {sums.open_files})" if sums.open_files else ""

    def validated(self, sums: Sums, kind: str) -> None:
        words = f" Total {kind}s (validated):\t{sums.blocks}"
        if sums.blocks:
            words += f" (avg. {kind} size {sums.size // sums.blocks} B)"
        if sums.open_blocks:
            kind = "file blocks" if kind == "block" else "file block groups"
            words += f" (Total open {kind} (not validated): {sums.open_blocks})"
        self.say(words + "\n")

    def losses_2(self, sums: Sums) -> None:
        if not sums.corrupt_files and not sums.below_minimum:
            return
        self.say(STARS)
        if sums.below_minimum:
            self.say(f"  UNDER MIN REPL'D BLOCKS:\t{sums.share(sums.below_minimum)}\n")
            self.say(f"  dfs.namenode.replication.min:\t{self.cluster.minimal_replication}\n")
        if sums.corrupt_files:
            self.say(f"  CORRUPT FILES:\t{sums.corrupt_files}\n")
            if sums.missing_size:
                self.say(f"  MISSING BLOCKS:\t{sums.missing}\n")
                self.say(f"  MISSING SIZE:\t\t{sums.missing_size} B\n")
            if sums.corrupt:
                self.say(f"  CORRUPT BLOCKS: \t{sums.corrupt}\n")
        self.say(STARS)

    def losses_3(self, sums: Sums, below: str, kind: str, minimal: str) -> None:
        """The words for groups below their minimum are uncertain."""
        if not sums.corrupt_files and not sums.below_minimum:
            return
        self.say(STARS)
        if sums.below_minimum:
            self.say(f"  {below}:\t{sums.share(sums.below_minimum)}\n{minimal}")
        if sums.corrupt_files:
            self.say(f"  CORRUPT FILES:\t{sums.corrupt_files}\n")
            if sums.missing_size:
                self.say(f"  MISSING {kind}:\t{sums.missing}\n")
                self.say(f"  MISSING SIZE:\t\t{sums.missing_size} B\n")
            if sums.corrupt:
                self.say(f"  CORRUPT {kind}: \t{sums.corrupt}\n")
                self.say(f"  CORRUPT SIZE:\t\t{sums.corrupt_size} B\n")
        self.say(STARS)

    def shares(self, sums: Sums, names: tuple[str, ...]) -> None:
        parts = (sums.enough, sums.over, sums.under, sums.badly_placed)
        for name, part in zip(names, parts):
            self.say(f" {name}{sums.share(part)}\n")

    def average(self, sums: Sums) -> str:
        return java_float(ratio(sums.replicas, sums.blocks)) if sums.blocks else "0.0"

    def lacking(self, sums: Sums, name: str) -> None:
        share = percent(sums.lacking, sums.wanted) if sums.replicas else ""
        self.say(f"{name}{sums.lacking}{share}\n")

    def out_of_service(self, sums: Sums, names: tuple[str, str]) -> None:
        """2.7 prints none of these lines, since it does not count such replicas."""
        if self.call.version < (2, 8):
            return
        names += ("EnteringMaintenanceReplicas", "InMaintenanceReplicas")
        for name, state in zip(names, OUT_OF_SERVICE):
            if sums.states[state]:
                self.say(f" {name}:\t{sums.states[state]}\n")


STARS = "  ********************************\n"

BLOCK_SHARES = (
    "Minimally replicated blocks:\t",
    "Over-replicated blocks:\t",
    "Under-replicated blocks:\t",
    "Mis-replicated blocks:\t\t",
)

GROUP_SHARES = (
    "Minimally erasure-coded block groups:\t",
    "Over-erasure-coded block groups:\t",
    "Under-erasure-coded block groups:\t",
    "Unsatisfactory placement block groups:\t",
)


def write_fsck(cluster: Cluster, call: Fsck) -> str:
    """What `hdfs fsck` prints on standard output. The NameNode sends no line end after the last
    line, and the client prints one. The line `Connecting to namenode via ..` goes to standard
    error, so it is absent."""
    return FsckWriter(cluster, call).text()
