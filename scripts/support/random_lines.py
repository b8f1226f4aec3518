"""Random scripts of lines for the line tool, each drawn from its seed, with the answers that the
model of model/ gives."""

import json
import random

from model.lines import MAX_LINE, call_of, called, refusal_text, text_of
from model.state import Limits, Refused, State

GREATEST_NUMBER = 2**64 - 1

GREATEST_SMALL = 2**32 - 1

# The most bytes of a line that is sent again with damage.
SHORT = 2_000

# Each option with the values that are drawn.
OPTIONS = {
    "shards": [1, 2, 3, 5, 17, 64],
    "workers": [1, 2, 4, 16],
    "work": [1, 1, 2, 3, 1000],
    "invalidate": [1, 2, 3, 5, 1_000_000],
    "pend": [1, 2, 3, 5, 1_000_000],
}

# How often each call is drawn, or each method that makes several. `obey` obeys a command of a
# round.
WEIGHTS = {
    "obey": 24,
    "round": 12,
    "received": 14,
    "report": 8,
    "heartbeat": 6,
    "deleted": 5,
    "corrupt": 5,
    "drain": 3,
    "undrain": 3,
    "drain_all_racks_but_one": 0.6,
    "dead": 1.5,
    "storage_failed": 1.5,
    "register": 3,
    "add": 6,
    "delete": 2.5,
    "set_replication": 5,
    "restamp": 2,
    "add_again": 1,
    "level": 6,
    "list_places": 2,
    "list_storage": 1,
    "retired": 3,
    "odd": 5,
}

LENGTHS = [[10], [1, 10], [0, 1, 5, 10], [7, 2**63, GREATEST_NUMBER]]

FREE_BYTES = [
    [0, 10, 20],
    [1000],
    [1000, 1000, 2000],
    [0, 5, 20, 100, 1000],
    [2**63, GREATEST_NUMBER],
]

LISTS = ["list_replicas", "list_corrupt", "list_excess", "list_excess", "list_missing"]

# Texts of values, of which a reader of JSON takes some and refuses others.
ODD_VALUES = [
    *["0", "-0", "-0.0", "-1", "1.0", "1e0", "01", "1.", ".5", "+1", "-", "0x10", "1e", "1e+"],
    *["1e400", "-1e400", "1e-400", "0e999", "1e308", "1.8e308", "1e99999999999", "0e99999999999"],
    *["NaN", "Infinity", "-Infinity", "9" * 309, "9" * 308, "-" + "9" * 400, "1" + "0" * 25],
    *["1" + "0" * 400 + "e-200", "0." + "0" * 400 + "1e500", "18446744073709551616", "1 2"],
    *["true", "false", "null", "tru", "nul", "True", "None", "[1,]", "[,1]", "[1 2]", '{"a"}'],
    *['{"a":1,}', "{a:1}", "'a'", "/**/1", "[[1]", "[1]]", '"a', '{"a":1 "b":2}', '{1:1}'],
    *['"\\ud800"', '"\\udc00"', '"\\ud83d\\ude00"', '"\\ud83dx"', '"\\ud83d\\u0041"', '"\\u12"'],
    *['"\\x41"', '"\t"', '"\x7f"', '"\x00"', '"\\u0000"', '"\\/\\b\\f"', '"é"', '"\u2028"'],
    *['{"\\ud800":1,"\\ud800":2}', '{"a":1e400,"a":1}', '{"":{"":[]}}', "", "\x0b1", "\ufeff1"],
    *["[" * depth + inside + "]" * depth for depth in (125, 126, 127) for inside in ("", "1")],
    *["[" * depth + "{}" + "]" * depth for depth in (125, 126)],
    *['{"a":' * depth + "1" + "}" * depth for depth in (126, 127)],
    "[" * 5000,
]

# Lines that ask for no call, or only just.
ODD_LINES = [
    *[b"", b" ", b"\r", b"\t", b"{}", b"[]", b"null", b'"op"', b"7", b"{", b"}", b"\xff"],
    *[b'{"op":"fly"}', b'{"op":1}', b'{"op":null}', b'{"op":["round"]}', b'{"op":"Round"}'],
    *[b'{"op":"round"', b'{"op":"round"}}', b'{"op":"round",}', b'["op","round"]'],
    *[b'{"OP":"round"}', b'{"op":"round"}{"op":"round"}', b'"{\\"op\\":\\"round\\"}"'],
    *[b'{"op":"round"}\x00', b'\xef\xbb\xbf{"op":"round"}', b'{"op":"round","x":"\xc3\x28"}'],
    *[b'{"op":"round","x":"\xed\xa0\x80"}', b'{"op":"round","x":"\xc0\xaf"}'],
    b'{"op":"round"}\x0c',
    b'{"op":"list_missing","x":"\xf0\x9f\x98\x80"}',
    b'{"op":"register","node":4294967296,"rack":1,"storages":[]}',
    b'{"op":"register","node":1,"rack":4294967296,"storages":[]}',
    b'{"op":"register","node":1,"rack":1,"storages":[4294967296]}',
    b'{"op":"register","node":1,"rack":1,"storages":{}}',
    b'{"op":"register","node":1,"rack":1,"storages":[[1]]}',
    b'{"op":"heartbeat","node":1,"remaining":[[1]]}',
    b'{"op":"heartbeat","node":1,"remaining":[[1,2,3]]}',
    b'{"op":"heartbeat","node":1,"remaining":[1,2]}',
    b'{"op":"heartbeat","node":1,"remaining":[[1,18446744073709551616]]}',
    b'{"op":"add","id":18446744073709551616,"gen":1,"len":1,"repl":1}',
    b'{"op":"add","id":1,"gen":1,"len":1,"repl":4294967296}',
    b'{"op":"add","id":true,"gen":1,"len":1,"repl":1}',
    b'{"op":"report","storage":1,"blocks":[[1,1]]}',
    b'{"op":"report","storage":1,"blocks":[[1,1,1,1,1]]}',
    b'{"op":"report","storage":1,"blocks":[[1,1,"1"]]}',
    b'{"op":"report","storage":1,"blocks":[1,1,1]}',
    b'{"op":"report","storage":4294967296,"blocks":[]}',
]


class Script:
    """A script, its options, and the answers of the model.

    Lines are drawn by the state of the model, so that most of them are accepted and have an effect.
    What they reach is noted in `reached`.
    """

    def __init__(self, seed, reached):
        self.random = random.Random(seed)
        self.options = self.draw_options()
        known = {name: self.options[name] for name in Limits._fields if name in self.options}
        self.state = State(Limits(**known))
        self.lines = []
        self.answers = []
        self.reached = reached
        reached.were_alive = set()
        self.draw_cluster()
        if self.chance(0.8):
            self.set_up()
        for _ in range(self.random.choice([20, 60, 100, 160])):
            self.draw()
        self.show_all()

    # Drawing

    def chance(self, part):
        return self.random.random() < part

    def one_of(self, items):
        return self.random.choice(sorted(items))

    def known_or_not(self, known, others):
        """Mostly one of the known numbers; at times one of the others, which may be unknown."""
        return self.one_of(known) if known and self.chance(0.93) else self.random.choice(others)

    def draw_options(self):
        return {name: self.random.choice(of) for name, of in OPTIONS.items() if self.chance(0.7)}

    def draw_cluster(self):
        """Draws the numbers of nodes, with their racks and storages, and of blocks."""
        node_count = self.random.choice([1, 2, 3, 3, 4, 5, 6, 6, 8, 8, 12, 20, 40])
        numbers = self.random.sample(range(1, 10 * node_count + 10), node_count)
        if self.chance(0.1):
            numbers[0] = self.random.choice([0, GREATEST_SMALL])
        storages = iter(self.random.sample(range(1, 1000), 3 * node_count))
        rack_count = self.random.choice([1, 2, 2, 3, 4, 6])
        counts = self.random.choice([[1], [1, 2], [0, 1, 2, 3]])
        on_rack_0 = self.random.choice([0, 0, 0.6])
        self.racks = {
            node: 0 if self.chance(on_rack_0) else self.random.randrange(rack_count)
            for node in numbers
        }
        self.storages_of = {
            node: [next(storages) for _ in range(self.random.choice(counts))] for node in numbers
        }
        self.all_storages = [it for listed in self.storages_of.values() for it in listed] + [1000]
        block_count = self.random.choice([2, 5, 12, 25, 40])
        first = self.random.choice([0, 1, 100, 100, 2**32 - 3, GREATEST_NUMBER + 1 - block_count])
        self.block_numbers = range(first, first + block_count)
        self.wanted = self.random.choice([[1, 2, 3], [3], [2, 3], [2, 3, 6, 7], [1, 3, 9, 16]])
        self.lengths = self.random.choice(LENGTHS)
        self.free_bytes = self.random.choice(FREE_BYTES)
        self.stamp_is_kept = self.chance(0.7)

    def draw(self):
        kinds = dict(WEIGHTS)
        kinds["register"] += 12 * self.missing_part(self.racks, self.state.nodes)
        kinds["add"] += 15 * self.missing_part(self.block_numbers, self.state.blocks)
        kind = self.random.choices(list(kinds), kinds.values())[0]
        getattr(self, kind, lambda: self.ask(kind))()
        if self.chance(0.1):
            self.ask(self.random.choice(LISTS))

    def missing_part(self, numbers, known):
        return len([number for number in numbers if number not in known]) / len(numbers)

    # Sending a line

    def ask(self, op, **fields):
        canonical = json.dumps({"op": op, **fields}, separators=(",", ":"))
        text = self.other_form(op, fields) if self.chance(0.15) else canonical
        if text != canonical:
            self.reached["line in another form than the canonical one"] += 1
        self.send(text.encode())

    def send(self, line):
        assert b"\n" not in line
        before = self.state
        try:
            op, fields = call_of(line)
            self.state, result = called(before, op, fields)
        except Refused as refused:
            answer = refusal_text(refused)
            self.reached.note_refusal(answer)
        else:
            answer = text_of(op, fields, result)
            self.reached.note(before, self.state, op, fields, result)
        self.lines.append(line)
        self.answers.append(answer)

    def other_form(self, op, fields):
        """The value of the canonical line, or almost that value, written in another form."""
        pairs = [(json.dumps(key), json.dumps(value)) for key, value in fields.items()]
        pairs.append(('"op"', json.dumps(op)))
        self.random.shuffle(pairs)
        form = self.random.randrange(6)
        if form == 0:
            pairs.insert(0, ('"\\u006fp"', '"fly"'))
        elif form == 1:
            pairs = [(key, '"x"') for key, _ in pairs[:2]] + pairs
        elif form == 2:
            pairs.append(pairs[0] if self.chance(0.5) else (pairs[0][0], "7"))
        elif form == 3:
            pairs = [(key.replace("o", "\\u006F").replace("d", "\\u0064"), it) for key, it in pairs]
        elif form == 4:
            pairs.insert(self.random.randrange(len(pairs)), ('"x"', self.random.choice(ODD_VALUES)))
        space = self.random.choice(["", "", " ", "\t", " \r"])
        inner = f"{space},{space}".join(f"{key}{space}:{space}{value}" for key, value in pairs)
        return f"{space}{{{space}{inner}{space}}}{space}"

    def odd(self):
        """Sends a line that asks for nothing, is broken, or is at a limit."""
        kind = self.random.randrange(42)
        if kind < 16:
            self.send(self.random.choice(ODD_LINES))
        elif kind < 24:
            value = self.random.choice(ODD_VALUES)
            self.send(f'{{"op":"list_missing","x":{value}}}'.encode())
        elif kind < 28:
            value = self.random.choice(ODD_VALUES)
            self.send(f'{{"op":"level","id":{value}}}'.encode())
        elif kind < 38 and self.lines:
            self.send(self.damaged(self.random.choice(self.lines)[:SHORT]))
        elif kind < 41:
            self.too_many()
        else:
            self.send(b'{"op":"list_missing"}'.ljust(MAX_LINE + self.random.choice([0, 1])))

    def damaged(self, line):
        """A line with a byte less, or with one more that is no digit."""
        at = self.random.randrange(len(line) + 1)
        if self.chance(0.5):
            return line[:at] + line[at + 1 :]
        byte = self.random.choice(b' ,:[]{}"\\-.eE\xff\x00ax')
        return line[:at] + bytes([byte]) + line[at:]

    def too_many(self):
        """Sends a call past a limit."""
        kind = self.random.randrange(12)
        storage = self.known_or_not(self.state.storages, self.all_storages)
        if kind == 0:
            self.ask("report", storage=storage, blocks=[[9, 8, 1, 1]] * 65_537)
        elif kind < 4:
            self.ask("report", storage=storage, blocks=[[0, GREATEST_NUMBER, 1, 1]])
        elif kind < 8:
            half = 524_288
            blocks = [[0, half - 1, 1, 1], [1, half, 1, 1], [9, 9, 1, 1]]
            self.ask("report", storage=storage, blocks=blocks)
        elif kind < 11:
            node = self.random.choice(list(self.racks))
            self.ask("register", node=node, rack=1, storages=list(range(2000, 2000 + 4097)))
        else:
            for node in range(5000, 5000 + 257):
                self.ask("register", node=node, rack=node % 3, storages=[])

    # Nodes and storages

    def register(self):
        away = [node for node in self.racks if node not in self.state.nodes]
        node = self.known_or_not(away, list(self.racks))
        storages = list(self.storages_of[node])
        if self.chance(0.05):
            storages.append(self.random.choice(self.all_storages))
        rack = self.racks[node] if self.chance(0.9) else self.random.randrange(4)
        self.ask("register", node=node, rack=rack, storages=storages)

    def heartbeat(self):
        node = self.known_or_not(self.state.nodes, list(self.racks))
        storages = sorted(self.state.storages_of(node))
        listed = [storage for storage in storages if self.chance(0.8)]
        if listed and self.chance(0.1):
            listed.append(listed[0])
        if self.chance(0.06):
            listed.insert(0, self.known_or_not(self.state.storages, self.all_storages))
        remaining = [[storage, self.random.choice(self.free_bytes)] for storage in listed]
        self.ask("heartbeat", node=node, remaining=remaining)

    def ask_of_node(self, op, nodes):
        self.ask(op, node=self.known_or_not(nodes, [*self.racks, 999]))

    def draining(self):
        return [node for node, it in self.state.nodes.items() if it.drains]

    def drain(self):
        self.ask_of_node("drain", self.state.nodes)

    def drain_all_racks_but_one(self):
        """Drains all nodes of all racks but one. After a round it undrains them, so that most
        rounds have nodes to copy to."""
        racks = {node: it.rack for node, it in self.state.nodes.items()}
        kept = self.random.choice(sorted(racks.values()) or [0])
        nodes = [node for node in racks if racks[node] != kept]
        for op in ("drain", "undrain"):
            for node in nodes:
                self.ask(op, node=node)
            for block in self.block_numbers[:12]:
                self.ask("level", id=block)
            self.ask("round")

    def undrain(self):
        self.ask_of_node("undrain", self.draining() if self.chance(0.8) else self.state.nodes)

    def retired(self):
        self.ask_of_node("retired", self.draining() or self.state.nodes)

    def dead(self):
        self.ask_of_node("dead", self.state.nodes)

    def ask_of_storage(self, op, storages, **fields):
        self.ask(op, storage=self.known_or_not(storages, self.all_storages), **fields)

    def storage_failed(self):
        self.ask_of_storage("storage_failed", self.state.storages)

    def list_storage(self):
        self.ask_of_storage("list_storage", self.state.storages)

    # Blocks

    def add(self):
        unknown = [it for it in self.block_numbers if it not in self.state.blocks]
        block = self.known_or_not(unknown, self.block_numbers)
        wanted = self.random.choice(self.wanted if self.chance(0.95) else [0, 17, GREATEST_SMALL])
        self.ask("add", id=block, gen=1, len=self.length_of(block), repl=wanted)

    def length_of(self, block):
        """Mostly the same length for a block, so that runs have the stamps of the blocks that they
        name."""
        if self.stamp_is_kept:
            return self.lengths[0]
        return self.lengths[block % len(self.lengths)]

    def ask_of_block(self, op, **fields):
        block = self.known_or_not(self.state.blocks, self.block_numbers)
        self.ask(op, id=block, **fields)

    def delete(self):
        self.ask_of_block("delete")

    def set_replication(self):
        wanted = self.random.choice([*self.wanted, 1, 2, 5] if self.chance(0.95) else [0, 17])
        self.ask_of_block("set_replication", repl=wanted)

    def restamp(self):
        block = self.known_or_not(self.state.blocks, self.block_numbers)
        known = self.state.blocks.get(block)
        generation = known.stamp.generation + self.random.choice([1, 1, 1, 2, 0]) if known else 1
        self.ask("restamp", id=block, gen=generation, len=self.random.choice(self.lengths))

    def add_again(self):
        """Deletes a block, with a pending transfer if there is one, removes its replicas, and adds
        it again."""
        awaited = {block for block, _ in self.state.pending} & self.state.blocks.keys()
        block = self.known_or_not(awaited or self.state.blocks, self.block_numbers)
        self.ask("delete", id=block)
        for storage in sorted(self.state.replicas_of(block)):
            self.ask("deleted", storage=storage, id=block)
        self.ask("add", id=block, gen=1, len=self.length_of(block), repl=self.wanted[-1])
        storage = self.known_or_not(self.state.storages, self.all_storages)
        self.ask_of_replica(storage, block)
        self.ask("round")

    def level(self):
        self.ask_of_block("level")

    def list_places(self):
        self.ask_of_block("list_places")

    # Replicas

    def stamp_for(self, block):
        """The block's stamp, or the one that it would get; at times another."""
        known = self.state.blocks.get(block)
        generation, length = known.stamp if known else (1, self.length_of(block))
        if self.chance(0.06):
            return generation + 1, length
        if self.chance(0.04):
            return generation, self.random.choice([length ^ 1, *self.lengths])
        return generation, length

    def ask_of_replica(self, storage, block):
        generation, length = self.stamp_for(block)
        self.ask("received", storage=storage, id=block, gen=generation, len=length)

    def received(self):
        """Sends a notice for any storage; at times for another storage of the node that a transfer
        goes to."""
        storage = self.known_or_not(self.state.storages, self.all_storages)
        block = self.known_or_not(self.state.blocks, self.block_numbers)
        if self.state.pending and self.chance(0.15):
            block, target = self.one_of(self.state.pending)
            storage = self.one_of(self.state.storages_of(self.state.storages[target].node))
        self.ask_of_replica(storage, block)

    def deleted(self):
        self.ask_of_pair("deleted")

    def corrupt(self):
        self.ask_of_pair("corrupt")

    def ask_of_pair(self, op):
        storage = self.known_or_not(self.state.storages, self.all_storages)
        block = self.random.choice(self.block_numbers)
        if self.state.replicas and self.chance(0.85):
            block, storage = self.one_of(self.state.replicas)
        self.ask(op, storage=storage, id=block)

    def obey(self):
        """Obeys a command, a delete or a copy; takes a round if there is none."""
        ordered = [pair for pair, it in self.state.replicas.items() if it.ordered]
        if ordered and self.chance(0.4):
            block, storage = self.one_of(ordered)
            self.ask("deleted", storage=storage, id=block)
        elif self.state.pending:
            block, storage = self.one_of(self.state.pending)
            self.ask_of_replica(storage, block)
        else:
            self.ask("round")

    def report(self):
        """Reports mostly what is on the storage, with a few changes."""
        storage = self.known_or_not(self.state.storages, self.all_storages)
        on_it = {block for block, at in self.state.replicas if at == storage}
        named = {block for block in on_it if self.chance(0.9)}
        named |= {block for block in self.block_numbers if self.chance(0.08)}
        self.ask("report", storage=storage, blocks=self.items_of(named))

    def items_of(self, named):
        """Items for these numbers. Neighbours with one stamp are in a run; some numbers come
        twice."""
        items = []
        for block in sorted(named):
            stamp = self.stamp_for(block)
            last = items[-1] if items else None
            if last and last[-3] == block - 1 and tuple(last[-2:]) == stamp and self.chance(0.8):
                items[-1] = [last[0], block, *stamp]
            else:
                items.append([block, *stamp])
        for item in list(items):
            if self.chance(0.06):
                again = [item[0], *self.stamp_for(item[0])]
                items.insert(self.random.randrange(len(items) + 1), again)
        if self.chance(0.1):
            items.insert(self.random.randrange(len(items) + 1), [9, 8, 1, 10])
        if self.chance(0.2):
            self.random.shuffle(items)
        return items

    # Beginning and end

    def set_up(self):
        """Registers the nodes, adds most blocks, and reports replicas of them."""
        for node in self.racks:
            self.ask("register", node=node, rack=self.racks[node], storages=self.storages_of[node])
            remaining = [[it, self.random.choice(self.free_bytes)] for it in self.storages_of[node]]
            if self.chance(0.9):
                self.ask("heartbeat", node=node, remaining=remaining)
        for block in self.block_numbers:
            if self.chance(0.8):
                wanted = self.random.choice(self.wanted)
                self.ask("add", id=block, gen=1, len=self.length_of(block), repl=wanted)
        placed = {storage: set() for storage in self.state.storages}
        for block in self.block_numbers:
            for storage in self.drawn_storages(block):
                placed[storage].add(block)
        for storage in placed:
            self.ask("report", storage=storage, blocks=self.items_of(placed[storage]))

    def drawn_storages(self, block):
        known = self.state.blocks.get(block)
        wanted = known.wanted if known else 1
        count = max(0, wanted + self.random.choice([-2, -1, -1, 0, 0, 1, 2]))
        nodes = self.random.sample(list(self.racks), min(count, len(self.racks)))
        listed = [self.state.storages_of(node) for node in nodes]
        return [self.one_of(storages) for storages in listed if storages]

    def show_all(self):
        """Asks for all that can be seen of the state; rounds show which transfers are pending."""
        for block in self.block_numbers:
            self.ask("level", id=block)
        for node in sorted(self.racks):
            self.ask("retired", node=node)
        for _ in range(3):
            for op in LISTS:
                self.ask(op)
            self.ask("round")
