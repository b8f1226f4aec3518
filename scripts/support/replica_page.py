"""What a replica serves by HTTP is compared with the model's state after the same lines."""

import json
import random
import re
import socket
import subprocess
import sys
import threading
import time
import types
import urllib.error
import urllib.request
from collections import Counter

from checking import TOP, want
from replica_cluster import Manager, free_ports, wait_for

sys.path.insert(0, str(TOP))
import facts
import http_page
from access import Stop
from facts import Facts
from http_page import Page
from model.lines import answered
from model.state import Limits, State
from puljemrod import Library, OutOfMemory

# Rounds for which a copy is awaited: some arrive, some are given up.
PEND = 3
NODES, BLOCKS = 8, 40


def random_lines(count, seed, rounds=0.08):
    """Lines of all events. Some are refused, some are spelled otherwise."""
    draw = random.Random(seed)
    gens = Counter()

    def line(op, **fields):
        text = json.dumps({"op": op, **fields}, separators=(",", ":"))
        if draw.random() < 0.15:
            spelled = [("op", json.dumps(op)), *((name, json.dumps(value)) for name, value in fields.items())]
            draw.shuffle(spelled)
            # Of equal keys the last counts.
            first = ("".join(f'"{name}":{draw.randrange(9)},' for name in fields))
            text = " {" + first + ", ".join(f'"{name}": {value}' for name, value in spelled) + ',"more":[]}\r'
        return text.encode().replace(b'"op": "', b'"\\u006fp": "') + b"\n"

    def pair(node):
        return [10 * node, 10 * node + 1]

    for node in range(1, NODES + 1):
        yield line("register", node=node, rack=1 + node % 3, storages=pair(node))
        yield line("heartbeat", node=node, remaining=[[storage, draw.randrange(10**6)] for storage in pair(node)])
    for _ in range(count - 2 * NODES):
        block, node = draw.randrange(1, BLOCKS + 1), draw.randrange(1, NODES + 1)
        storage = draw.choice(pair(node))
        kind = draw.choices(
            ["round", "add", "received", "report", "heartbeat", "register", "dead", "storage_failed", "drain", "undrain",
             "delete", "restamp", "corrupt", "deleted", "set_replication", "level", "bad"],
            [100 * rounds, 20, 40, 4, 8, 6, 1, 1, 2, 3, 4, 4, 4, 4, 3, 4, 2],
        )[0]
        stamp = {"gen": 1 + gens[block], "len": 100 * block}
        if kind == "round":
            yield line("round")
        elif kind == "add":
            gens[block] = 0
            yield line("add", id=block, gen=1, len=100 * block, repl=draw.choice([1, 2, 3, 3]))
        elif kind == "received":
            yield line("received", storage=storage, id=block, **stamp)
        elif kind == "report":
            first = draw.randrange(1, BLOCKS)
            items = [[block, stamp["gen"], stamp["len"]], [first, first + draw.randrange(-1, 5), 1, 100]]
            yield line("report", storage=storage, blocks=draw.sample(items, draw.randrange(3)))
        elif kind == "heartbeat":
            yield line("heartbeat", node=node, remaining=[[draw.choice(pair(node)), draw.randrange(10**6)] for _ in range(draw.randrange(4))])
        elif kind == "register":
            yield line("register", node=node, rack=1 + node % 3, storages=pair(node))
        elif kind in ("dead", "drain", "undrain"):
            yield line(kind, node=node)
        elif kind == "storage_failed":
            yield line(kind, storage=storage)
        elif kind == "restamp":
            gens[block] += 1
            yield line(kind, id=block, gen=1 + gens[block], len=100 * block)
        elif kind in ("delete", "level"):
            yield line(kind, id=block)
        elif kind in ("corrupt", "deleted"):
            yield line(kind, storage=storage, id=block)
        elif kind == "set_replication":
            yield line(kind, id=block, repl=draw.choice([1, 2, 3]))
        else:
            yield b"nonsense\n"


class Seen:
    """What the model says of lines: its state, the last heartbeats, and the rounds."""

    def __init__(self, limits):
        self.state, self.lines = State(limits), 0
        self.heartbeats, self.rounds = {}, []

    def take(self, line):
        old = self.state
        self.state, answer = answered(old, line.removesuffix(b"\n"))
        self.lines += 1
        for node in [it for it in self.heartbeats if it not in self.state.nodes]:
            del self.heartbeats[node]
        if answer.startswith("ok ") and b"heartbeat" in line:
            self.heartbeats[json.loads(line)["node"]] = self.lines
        if answer.startswith("round "):
            commands = [item.split()[0] for item in answer.split("; ")[1:]]
            self.rounds.append((self.state.last_round, self.lines, commands.count("copy"), commands.count("delete")))
        return answer.encode() + b"\n"

    def nodes(self):
        state = self.state
        for number, node in state.nodes.items():
            storages = [it.free for it in state.storages.values() if it.node == number]
            yield number, (number, node.rack, node.drains, len(storages), sum(storages), self.heartbeats.get(number, 0))

    def racks(self):
        sums = {}
        for _, (_, rack, _, storages, free, _) in self.nodes():
            old = sums.get(rack, (rack, 0, 0, 0))
            sums[rack] = rack, old[1] + 1, old[2] + storages, old[3] + free
        return sums

    def metrics(self):
        """The values that follow from the state, by the names of metrics."""
        state = self.state
        levels = Counter(state.level(block) for block in state.blocks)
        return {
            "lines_total": self.lines,
            "rounds_total": state.last_round,
            "num_live_data_nodes": len(state.nodes),
            "num_decommissioning_data_nodes": sum(node.drains for node in state.nodes.values()),
            "racks": len(self.racks()),
            "storages": len(state.storages),
            "capacity_remaining_bytes": sum(it.free for it in state.storages.values()),
            "blocks": len(state.blocks),
            "pending_replication_blocks": len({block for block, _ in state.pending}),
            "copies_total": sum(it[2] for it in self.rounds),
            "deletes_total": sum(it[3] for it in self.rounds),
            "last_round_copies": self.rounds[-1][2],
            "last_round_deletes": self.rounds[-1][3],
        }, {
            **{f"blocks_at_level {level}": levels[level] for level in range(5)},
            "under_replicated_blocks": sum(levels[level] for level in range(5)),
            "missing_blocks": levels[4],
            "corrupt_blocks": len({block for (block, _), it in state.replicas.items() if it.is_corrupt}),
            "excess_blocks": sum(it.excess for it in state.replicas.values()),
        }


def values_follow_from_lines():
    """After each line, what is kept of all lines is what the model's state has."""
    most, searched = Counter(), facts.SEARCHED
    for seed in range(4):
        facts.SEARCHED = seed % 3
        seen, kept = Seen(Limits(pend=PEND)), Facts(PEND)
        for line in random_lines(500, seed):
            kept.take(line, seen.take(line))
            state, what = seen.state, f"seed {seed}, line {seen.lines}, {line}"
            want(dict(kept.nodes) == dict(seen.nodes()), f"{what}: nodes {kept.nodes}, not {dict(seen.nodes())}")
            want(kept.racks == seen.racks(), f"{what}: racks {kept.racks}")
            totals = len(state.storages), sum(it.free for it in state.storages.values()), sum(it.drains for it in state.nodes.values())
            want((kept.storages, kept.free, kept.draining) == totals, f"{what}: {kept.storages}, {kept.free}, {kept.draining}, not {totals}")
            known = [block for block in kept.blocks if block not in kept.deleted]
            want(sorted(known) == sorted(state.blocks) and kept.known() == len(known), f"{what}: blocks {known}")
            pending = {(block, target): at for target, blocks in kept.awaited_on.items() for block, at in blocks.items()}
            want(pending == state.pending, f"{what}: copies on their way {pending}, not {state.pending}")
            want(set(kept.awaited_of) == {block for block, _ in state.pending}, f"{what}: by block {kept.awaited_of}")
            want([*map(tuple, kept.rounds)] == seen.rounds[-facts.ROUNDS:], f"{what}: rounds {kept.rounds}")
            sums = kept.round_count, kept.copies, kept.deletes
            want(sums == (len(seen.rounds), *(sum(it[at] for it in seen.rounds) for at in (2, 3))), f"{what}: of all rounds {sums}")
            if seen.lines % 7 == 0:
                blocks, _ = kept.next_blocks(0, 1000)
                want(sorted(blocks) == sorted(state.blocks) and not kept.deleted, f"{what}: scanned {blocks}")
            most["pending"] = max(most["pending"], len(pending))
            most["draining"] = max(most["draining"], kept.draining)
        order = [it.line for it in kept.nodes.values() if it.line]
        want(order == sorted(order), "the nodes are not in the order of their heartbeats")
    facts.SEARCHED = searched
    want(most["pending"] > 5 and most["draining"] > 1, f"the lines have few cases: {most}")


class Answers(Library):
    """A library in place of the real one, which counts queries. `levels` has those of blocks."""

    def __init__(self, levels):
        self.levels, self.asked, self.refuses = levels, Counter(), False

    def answer(self, block):
        if self.refuses:
            raise OutOfMemory("refused")
        answers = []
        for line in block.splitlines():
            call = json.loads(line)
            self.asked[call["op"]] += 1
            answers.append(b"level %d; %s" % (call["id"], self.levels[call["id"]]) if call["op"] == "level" else call["op"].encode())
        return b"".join(answer + b"\n" for answer in answers)


def page_of(levels, leads, address=None):
    """The page of a replica that reads no log. It is served only at an address."""
    page, engine = Page(address or "127.0.0.1:0"), Answers(levels)
    if not address:
        page.server.server_close()
    page.facts = Facts(PEND)
    manager = types.SimpleNamespace(engine=engine, lines=engine.answer)
    stopped = types.SimpleNamespace(is_set=lambda: False)
    page.replica = types.SimpleNamespace(manager=manager, applied=5, lines=0, rounds=0, stopped=stopped, why=None)
    page.leadership = types.SimpleNamespace(epoch=leads, name=types.SimpleNamespace(text='<r"1>'))
    page.begin_scan()
    for block in levels:
        page.facts.take_add({"id": block})
    return page, engine


def queries_are_bounded():
    """Values are taken once a second. A leader asks a bounded number of queries each time, and no
    list that iterates over many blocks; a follower asks for these once a minute."""
    names = (b"none", b"0", b"1", b"2", b"3", b"4")
    for leads in (True, False):
        for count in (500, 25_000):
            levels = {block: names[block % 7 % 6] for block in range(1, count + 1)}
            page, engine = page_of(levels, leads)
            most = http_page.LEVELS if leads else http_page.LEVELS_OF_FOLLOWER
            lists = count <= http_page.FEW_BLOCKS
            takes = -(-count // most)
            for number in range(1, takes + 1):
                page.take()
                page.take()
                want(engine.asked["level"] == min(number * most, count), f"{engine.asked} with take {number}")
                asked = number if lists else 0 if leads else 1
                want(engine.asked["list_corrupt"] == engine.asked["list_excess"] == asked, f"{engine.asked} with take {number}")
                want((page.levels is None) == (number < takes), f"{page.levels} with take {number}")
                page.due = 0
            found = Counter(levels.values())
            want(page.levels.counts == tuple(found[name] for name in names[1:]), f"{page.levels}, not {found}")
            engine.refuses = True
            page.take()
            want(page.snapshot.blocks == count, "out of memory ends the values")
            if not lists and not leads:
                engine.refuses, page.due, page.lists_due = False, 0, 0
                page.take()
                want(engine.asked["list_excess"] == 2, "the lists are not taken after a minute")


def unhealthy_replicas_say_why():
    page, _ = page_of({}, True)
    now = time.monotonic()

    def health():
        answer = page.answer("/health")
        return answer.status, answer.body.decode()

    want(health() == (503, "etcd has not answered yet\n"), f"{health()}")
    page.overview, page.answered_at = http_page.Overview("r2", 5, []), now
    want(health() == (200, "healthy\n"), f"{health()}")
    page.overview = http_page.Overview(None, 5, [])
    want(health() == (503, "no replica leads\n"), f"{health()}")
    page.overview = http_page.Overview("r2", 9, [])
    for ago, key, status in ((5, 9, 200), (11, 5, 200), (11, 6, 503)):
        page.seen.clear()
        page.seen.append((now - ago, key))
        want(health()[0] == status and (status == 200 or "log key 6 was there" in health()[1]), f"{health()}")
    page.seen.clear()
    page.answered_at = now - 30
    want(health()[0] == 503 and "etcd has not answered for 30 seconds" in health()[1], f"{health()}")
    page.why = "no server of etcd answers"
    want(health() == (503, "etcd is not reached: no server of etcd answers\n"), f"{health()}")
    want(page.answer("/").status == page.answer("/metrics").status == 503, "there are values")
    page.take()
    text = page.answer("/").body.decode()
    want("&lt;r&quot;1&gt;" in text and '<r"1>' not in text, "a name is not quoted")
    want("etcd is not reached" in text, "the page hides a fault")
    want(page.answer("/") is page.answer("/"), "the page is rendered again")
    page.due = 0
    old = page.answer("/")
    page.take()
    want(page.answer("/") is not old, "the page is of old values")
    want(page.answer("/x").status == 404, "another path is answered")
    for on in (False, True):
        page.overview = http_page.Overview("r2", 5, [], {"on": on, "live": 2, "known": 3, "share": 0.5, "left": 9, "reported": 1, "nodes": 4})
        text = page.answer("/").body.decode()
        want(on == ("safe mode, so no rounds: 2 of 3 known blocks have a live replica, 9 s are left" in text), f"in safe mode: {on}")
        want(f'puljemrod_safe_mode{{replica="<r\\"1>"}} {int(on)}\n' in page.answer("/metrics").body.decode(), f"in safe mode: {on}")
    page.why, page.overview = None, http_page.Overview("r2", 5, [])
    page.watch(b'{"op":"dead","node":1}\n', b"ok 0 0\n")
    want(health()[0] == 503 and "there are no newer values: KeyError(1)" in health()[1], f"{health()}")


def promtool_accepts_metrics():
    levels = {block: b"0" for block in range(9)}
    page, _ = page_of(levels, True)
    for line in random_lines(200, 1):
        page.facts.take(line, b"round 1; delete 1 10 7\n" if b"round" in line else b"refused 20 BadLine\n")
    page.take()
    page.overview = http_page.Overview("r1", 5, [])
    text = page.answer("/metrics").body.decode()
    names = re.findall("^# TYPE (\\w+) ", text, re.MULTILINE)
    want(len(set(names)) == len(names) == text.count("# HELP ") > 20, f"the metrics are {names}")
    checked = subprocess.run(["promtool", "check", "metrics"], input=text, text=True, capture_output=True)
    want(checked.returncode == 0 and not checked.stdout + checked.stderr, f"it printed: {checked.stdout}{checked.stderr}")


def addresses_are_checked():
    taken = socket.create_server(("127.0.0.1", 0))
    port = taken.getsockname()[1]
    for text in ("", "8080", ":8080", "a:b", "127.0.0.1", "127.0.0.1:70000", "127.0.0.1:80/x", "u@127.0.0.1:80", f"127.0.0.1:{port}"):
        try:
            Page(text).server.server_close()
        except Stop as error:
            want(f"--http {text}: " in str(error), f"{error}")
        else:
            want(False, f"{text!r} is accepted")
    taken.close()


def rendering_is_brief():
    """While Python renders a page, no line is answered: the largest one takes 10 milliseconds of
    CPU time at most."""
    page, _ = page_of({block: b"0" for block in range(http_page.LEVELS)}, True)
    count, now = 8 * http_page.ROWS, time.time()
    for node in range(count):
        page.facts.take_register({"node": node, "rack": node, "storages": [2 * node, 2 * node + 1]})
    for node in reversed(range(count)):
        page.facts.take_heartbeat({"node": node, "remaining": [[2 * node, 10**15 + node]]})
    for number in range(facts.ROUNDS):
        page.facts.take_round(b"round %d; copy 1 2 3 4 5 6" % number)
    for number in range(page.points.maxlen):
        page.points.append(http_page.Point(now - 10 * (page.points.maxlen - number), 1000 * number, (1, 2, 3, 4, number), number))
    status = {"name": "r1", "leads": True, "lines": 5, "applied": 5, "hash": "ab" * 32}
    page.overview = http_page.Overview("r1", 5, [status])
    seconds = []
    for _ in range(8):
        page.due = 0
        page.take()
        start = time.thread_time()
        page.answer("/metrics")
        text = page.answer("/").body.decode()
        seconds.append(time.thread_time() - start)
    want(text.count("<tr>") < 2 * http_page.ROWS + 50, f"{text.count('<tr>')} rows")
    want(f"<tr><td>{count - 1}</td>" in text and "These are 256 of 2,048." in text, "other nodes than those that are silent")
    want(min(seconds) < 0.01, f"it takes {1e3 * min(seconds):.1f} ms")


def get(port, path):
    try:
        with urllib.request.urlopen(f"http://127.0.0.1:{port}{path}", timeout=10) as answer:
            return answer.status, answer.read().decode()
    except urllib.error.HTTPError as error:
        return error.code, error.read().decode()
    except OSError:
        return 0, ""


def requests_are_bounded():
    """Clients that send nothing hold others up for a moment, and bad requests end nothing."""
    patience, http_page.PATIENCE = http_page.PATIENCE, 1.5
    (port,) = free_ports(1)
    page, _ = page_of({}, True, f"127.0.0.1:{port}")
    http_page.PATIENCE = patience
    page.take()
    thread = threading.Thread(target=page.server.serve_forever, args=(0.01,), daemon=True)
    thread.start()
    try:
        silent = [socket.create_connection(("127.0.0.1", port)) for _ in range(http_page.REQUESTS - 1)]
        want(get(port, "/metrics")[0] == 200, "no answer next to silent clients")
        silent += [socket.create_connection(("127.0.0.1", port)) for _ in range(20)]
        # The server takes connections in order.
        get(port, "/metrics")
        served = sum("process_request" in thread.name for thread in threading.enumerate())
        want(served <= http_page.REQUESTS, f"{served} requests at a time")
        wait_for("an answer after silent clients", lambda: get(port, "/metrics")[0] == 200, 5)
        for request in (b"POST / HTTP/1.0\r\n\r\n", b"nonsense\r\n\r\n", b"GET " + b"x" * 70_000 + b"\r\n\r\n"):
            with socket.create_connection(("127.0.0.1", port)) as link:
                link.sendall(request)
                want(b" 200 " not in link.recv(100), f"{request[:20]} is answered")
        want(get(port, "/metrics")[0] == 200, "no answer after bad requests")
        for link in silent:
            link.close()
    finally:
        page.server.shutdown()
        page.server.server_close()


# Over etcd.


def metrics_of(port, replica):
    """The values by names; a label that is no replica's is part of the name."""
    found = {}
    for name, labels, value in re.findall(r"^puljemrod_(\w+)\{(.*)\} (\S+)$", get(port, "/metrics")[1], re.MULTILINE):
        first, _, rest = labels.partition(",")
        want(first == f'replica="{replica}"', f"labels {labels}")
        found[name + "".join(f" {it}" for it in re.findall(r'"(\d+)"', rest))] = float(value)
    return found


def values_are_the_model_s(servers, tool, folder, over_library=()):
    """A replica serves what the model says of the lines in the log, and its health. Over the tool
    it asks no queries."""
    manager = Manager(servers, tool, "page", folder)
    ports = dict(zip(("r1", "r2"), free_ports(2)))
    options = {"r1": (), "r2": over_library}
    try:
        for name, port in ports.items():
            manager.replica(name, "--interval", "0", "--pend", str(PEND), "--http", f"127.0.0.1:{port}", *options[name])
        lines = list(random_lines(300, 3))
        manager.write(lines)
        seen = Seen(Limits(pend=PEND))
        for _, batch in manager.taken():
            for line in batch:
                seen.take(line)
        of_lines, of_queries = seen.metrics()
        want(seen.lines == len(lines), f"{seen.lines} lines are in the log")
        for name, port in ports.items():
            asks = bool(options[name])

            def is_current():
                found = metrics_of(port, name)
                return found.get("levels_line" if asks else "lines_total") == len(lines) and found.get("lists_line", len(lines)) == len(lines) and found

            found = wait_for(f"{name} serves all lines", is_current)
            wanted = {**of_lines, **(of_queries if asks else {})}
            got = {key: value for key, value in found.items() if key in {**of_lines, **of_queries}}
            want(got == wanted, f"{name}: {got}, not {wanted}")
            want(wait_for(f"{name} is healthy", lambda: get(port, "/health") == (200, "healthy\n")), "")
            want(found["lag_log_keys"] == found["lag_lines"] == 0, f"{name} is behind")
            parts = ["<td>r1</td>", "<td>r2</td>", *(f"<td>{number}</td>" for number in seen.state.nodes)]
            text = wait_for(f"the page has {parts}", lambda: all(part in (text := get(port, "/")[1]) for part in parts) and text)
            want(not re.search(r"src=|https?:|<script", text), "the page needs something else")
        leads = {name: metrics_of(port, name)["leader"] for name, port in ports.items()}
        want(leads == {name: name == manager.leader() for name in ports}, f"the leaders are {leads}")
        servers.processes[0].pause()
        wait_for("etcd is not reached", lambda: get(ports["r1"], "/health")[0] == 503 and "etcd" in get(ports["r1"], "/health")[1])
        want(get(ports["r1"], "/")[0] == 200, "there is no page while etcd is away")
    finally:
        servers.processes[0].go_on()
        manager.end()
