"""The snapshot of a state: its text, and the state of a text (SNAPSHOTS). A state has one text, and
every other text is refused."""

import re

from model.events import MAX_WANTED
from model.state import LAST, Block, Limits, Node, Replica, Stamp, State, Storage

FACTOR = 1_099_511_628_211

LAST_SMALL = 2**32 - 1

MOST = Limits(work=1_000, invalidate=1_000_000, pend=1_000_000, nodes=65_536, storages=1_048_576)


class Fault(Exception):
    """Why a text is no snapshot: a name, and the number of the line, from 1 on."""

    def __init__(self, name, line):
        super().__init__(f"{name}, line {line}")
        self.name, self.line = name, line


# From a state to its text


def saved(state):
    body = b"".join(line.encode() + b"\n" for line in lines_of(state))
    return body + b'{"end":%d,"sum":%d}\n' % (len(held_numbers(state)), sum_after(0, body))


def held_numbers(state):
    """The numbers of which something is held: blocks, replicas, pending transfers."""
    of_replicas, of_pending = ({block for block, _ in it} for it in (state.replicas, state.pending))
    return sorted(state.blocks.keys() | of_replicas | of_pending)


def sum_after(total, text):
    for byte in text:
        total = (total * FACTOR + byte) % 2**64
    return total


def lines_of(state):
    """All lines but the last."""
    limits = "".join(f',"{name}":{limit}' for name, limit in state.limits._asdict().items())
    yield f'{{"snapshot":1{limits},"round":{state.last_round},"calls":{state.calls}}}'
    for number, node in sorted(state.nodes.items()):
        own = [(at, state.storages[at].free) for at in sorted(state.storages_of(number))]
        drains = "true" if node.drains else "false"
        first = f'{{"node":{number},"rack":{node.rack},"drains":{drains}'
        yield f'{first},"storages":{list_of(map(pair, own))}}}'
    targets = {}
    for (block, target), commanded in sorted(state.pending.items()):
        targets.setdefault(block, []).append((target, commanded))
    for number in held_numbers(state):
        replicas = list_of(item(*it) for it in sorted(state.replicas_of(number).items()))
        more = f',"pending":{list_of(map(pair, targets[number]))}' if number in targets else ""
        yield f'{beginning(number, state.blocks.get(number))},"replicas":{replicas}{more}}}'


def beginning(number, block):
    if block is None:
        return f'{{"stray":{number}'
    (generation, length), wanted = block
    return f'{{"block":{number},"gen":{generation},"len":{length},"repl":{wanted}'


def list_of(items):
    return f"[{','.join(items)}]"


def pair(numbers):
    return "[%d,%d]" % numbers


def item(storage, replica):
    words = [replica.tag] if replica.is_corrupt else []
    words += [word for word in ("excess", "ordered") if getattr(replica, word)]
    return list_of([str(storage), *(f'"{word}"' for word in words)]) if words else str(storage)


# From a text to its state

NUMBER = rb"(0|[1-9][0-9]*)"

PAIR = rb"\[" + NUMBER + rb"," + NUMBER + rb"\]"

# A storage alone, or in a list with at least one word.
ITEM = (
    NUMBER
    + rb"|\["
    + NUMBER
    + rb'(?=,)(?:,"(stale|bad)")?(?:,"(excess)")?(?:,"(ordered)")?\]'
)


def list_like(item):
    bare = re.sub(rb"\((?!\?)", b"(?:", item)
    return rb"\[((?:(?:" + bare + rb")(?:,(?:" + bare + rb"))*)?)\]"


COUNTED = [name.encode() for name in (*Limits._fields, "round", "calls")]

COUNTS = re.compile(
    rb'\{"snapshot":1' + b"".join(b',"' + it + b'":' + NUMBER for it in COUNTED) + rb"\}"
)

NODE = re.compile(
    rb'\{"node":' + NUMBER + rb',"rack":' + NUMBER
    + rb',"drains":(true|false),"storages":' + list_like(PAIR) + rb"\}"
)

BLOCK = re.compile(
    rb'\{(?:"stray":' + NUMBER
    + rb'|"block":' + NUMBER + rb',"gen":' + NUMBER + rb',"len":' + NUMBER + rb',"repl":' + NUMBER
    + rb'),"replicas":' + list_like(ITEM) + rb'(?:,"pending":(?!\[\])' + list_like(PAIR) + rb")?\}"
)

END = re.compile(rb'\{"end":' + NUMBER + rb',"sum":' + NUMBER + rb"\}")


def loaded(text):
    """The state of a text, or a fault."""
    *lines, rest = text.split(b"\n")
    reader = Reader()
    for number, line in enumerate(lines, 1):
        try:
            reader.take(line)
        except Fault as fault:
            raise Fault(fault.name, number) from None
    if not reader.has_ended:
        raise Fault("Unfinished", len(lines) + 1)
    if rest:
        raise Fault("TrailingBytes", len(lines) + 1)
    return reader.state


def need(is_so, fault):
    if not is_so:
        raise Fault(fault, 0)


def number(digits, most=LAST):
    need(len(digits) <= 20 and int(digits) <= most, "BadLine")
    return int(digits)


def pairs(text):
    return [(number(at, LAST_SMALL), number(it)) for at, it in re.findall(PAIR, text)]


def ascend(numbers):
    return all(one < next_one for one, next_one in zip(numbers, numbers[1:]))


class Reader:
    """Takes a line after the other. The checks of a line come in the sequence of the page."""

    def __init__(self):
        self.state = None
        self.node = self.block = -1
        self.blocks = 0
        self.sum = 0
        self.has_ended = False

    def take(self, line):
        need(not self.has_ended, "TrailingBytes")
        if self.state is None:
            self.take_counts(COUNTS.fullmatch(line))
        elif found := END.fullmatch(line):
            self.take_end(*map(number, found.groups()))
        elif found := NODE.fullmatch(line):
            need(self.block < 0, "BadLine")
            self.take_node(*found.groups())
        else:
            found = BLOCK.fullmatch(line)
            need(found, "BadLine")
            self.take_block(*found.groups())
        self.sum = sum_after(self.sum, line + b"\n")

    def take_counts(self, found):
        counts = [int(it) for it in found.groups()] if found else [LAST + 1]
        need(max(counts) <= LAST, "NoSnapshot")
        *limits, last_round, calls = counts
        need(all(1 <= it <= most for it, most in zip(limits, MOST)), "BadConfig")
        self.state = State(Limits(*limits), last_round=last_round, calls=calls)

    def take_node(self, node, rack, drains, storages):
        node, rack, own = number(node, LAST_SMALL), number(rack, LAST_SMALL), pairs(storages)
        state = self.state
        need(node > self.node, "NotAscending")
        need(ascend([at for at, _ in own]), "BadOrder")
        need(not any(at in state.storages for at, _ in own), "StorageKnown")
        need(len(state.nodes) < state.limits.nodes, "TooMany")
        need(len(state.storages) + len(own) <= state.limits.storages, "TooMany")
        self.node = node
        state.nodes[node] = Node(rack, drains == b"true")
        state.storages.update((at, Storage(node, free)) for at, free in own)

    def take_block(self, stray, block, generation, length, wanted, items, targets):
        state, block_number = self.state, number(stray or block)
        known = None if stray else Block(
            Stamp(number(generation), number(length)), number(wanted, LAST_SMALL)
        )
        replicas = [replica(*it.groups(), known) for it in re.finditer(ITEM, items)]
        pending = pairs(targets or b"")
        holders, to = [at for at, _ in replicas], [at for at, _ in pending]
        need(block_number > self.block, "NotAscending")
        need(known or replicas, "NothingHeld")
        need(not known or 1 <= known.wanted <= MAX_WANTED, "BadReplication")
        need(all(at in state.storages for at in holders + to), "UnknownStorage")
        need(ascend(holders) and ascend(to), "BadOrder")
        need(len({state.storages[at].node for at in holders}) == len(holders), "NodeTwice")
        need(known or all(it.tag == "stray" for _, it in replicas), "WrongTag")
        need(all(it.tag == "good" or not it.excess for _, it in replicas), "WrongExcess")
        need(known or not pending, "UnknownBlock")
        need(all(commanded <= state.last_round for _, commanded in pending), "FutureRound")
        self.block = block_number
        self.blocks += 1
        if known:
            state.blocks[block_number] = known
        state.replicas.update(((block_number, at), it) for at, it in replicas)
        state.pending.update(((block_number, at), commanded) for at, commanded in pending)

    def take_end(self, blocks, total):
        need(blocks == self.blocks, "WrongCount")
        need(total == self.sum, "WrongSum")
        self.has_ended = True


def replica(plain, storage, tag, excess, ordered, known):
    tag = tag.decode() if tag else "good" if known else "stray"
    return number(plain or storage, LAST_SMALL), Replica(tag, bool(excess), bool(ordered))
