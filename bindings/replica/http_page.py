"""What a replica serves by HTTP: a page, metrics for Prometheus, and whether it is healthy.

Values are taken between lines, at most once a second, by the thread that makes the calls; it leaves
them as a snapshot. Another thread reads etcd once a second. Requests only read what both have left,
and what is rendered of it is kept until there are newer values."""

import contextlib
import http.server
import json
import socket
import socketserver
import threading
import time
from collections import Counter, deque, namedtuple
from itertools import islice
from urllib.parse import urlsplit

from access import Stop
from facts import Facts
from log import last_index
from puljemrod import Library, OutOfMemory, TextOwed
from rendered import metrics, page
from safe_mode import state_in
from store import Store, StoreError, after

# Seconds between two snapshots or readings of etcd, between two points of the chart, and of all of
# the chart.
EVERY, POINT, HOUR = 1, 10, 3_600
# Levels that a leader asks for each snapshot, in some 3 milliseconds; and a follower, whose delay
# nobody sees.
LEVELS, LEVELS_OF_FOLLOWER = 500, 10_000
# The lists of corrupt and excess replicas iterate over all blocks. Up to this number of blocks they
# are taken with each snapshot. Above it a leader does not ask, and a follower once in some seconds.
FEW_BLOCKS, LISTS = 10_000, 60
# Seconds after which a log key should be applied.
LATE = 10
# Rows of a table of nodes or racks.
ROWS = 256
# Requests at a time, and seconds that one may take.
REQUESTS, PATIENCE = 8, 3

Levels = namedtuple("Levels", "counts line seconds")
Lists = namedtuple("Lists", "corrupt excess line")
Snapshot = namedtuple(
    "Snapshot",
    "time leads applied lines rounds nodes draining storages free blocks pending copies deletes "
    "last_rounds some_nodes some_racks racks levels lists asks",
)
Overview = namedtuple("Overview", "leader last replicas safe_mode", defaults=[{"on": False}])
Point = namedtuple("Point", "time lines levels copies")
Answer = namedtuple("Answer", "status kind body")

PLAIN, HTML = "text/plain; charset=utf-8", "text/html; charset=utf-8"
PROMETHEUS = "text/plain; version=0.0.4; charset=utf-8"


def address_of(text):
    try:
        parts = urlsplit(f"//{text}")
        host, port = parts.hostname, parts.port
    except ValueError:
        host = port = None
    if not host or port is None or parts.netloc != text or "@" in text:
        raise Stop(f"--http {text}: write ADDRESS:PORT")
    return host, port


class Server(http.server.ThreadingHTTPServer):
    """Takes some requests at a time, and closes the connections of others."""

    request_queue_size = 4 * REQUESTS

    def __init__(self, address, handler):
        self.free = threading.BoundedSemaphore(REQUESTS)
        self.address_family = socket.AF_INET6 if ":" in address[0] else socket.AF_INET
        super().__init__(address, handler)

    def server_bind(self):
        # Without the look-up of the host's name.
        socketserver.TCPServer.server_bind(self)

    def process_request(self, request, client):
        if self.free.acquire(blocking=False):
            super().process_request(request, client)
        else:
            self.shutdown_request(request)

    def process_request_thread(self, request, client):
        try:
            super().process_request_thread(request, client)
        finally:
            self.free.release()

    def handle_error(self, *_):
        """A client that goes away is no fault."""


class Page:
    """What one replica serves."""

    def __init__(self, address):
        """Takes the port, before the replica has a part in anything."""
        self.snapshot = self.overview = self.why = self.fault = None
        # When etcd has answered last.
        self.answered_at = None
        self.due = self.lists_due = 0
        self.levels, self.lists = None, None
        self.points, self.seen = deque(maxlen=HOUR // POINT + 1), deque()
        self.rendered, self.rendering = {}, threading.Lock()
        this = self

        class Handler(http.server.BaseHTTPRequestHandler):
            server_version, sys_version, timeout = "replica", "", PATIENCE

            def do_GET(self):
                answer = this.answer(urlsplit(self.path).path)
                self.send_response(answer.status)
                self.send_header("Content-Type", answer.kind)
                self.send_header("Content-Length", str(len(answer.body)))
                self.send_header("Cache-Control", "no-store")
                self.send_header("Content-Security-Policy",
                                 "default-src 'none'; style-src 'unsafe-inline'")
                self.end_headers()
                if self.command == "GET":
                    self.wfile.write(answer.body)

            do_HEAD = do_GET

            def log_message(self, *_):
                pass

        try:
            self.server = Server(address_of(address), Handler)
        except OSError as error:
            raise Stop(f"--http {address}: {error.strerror or error}") from None

    def start(self, replica, leadership, pend):
        self.replica, self.leadership = replica, leadership
        self.facts = Facts(pend)
        self.begin_scan()
        replica.watch = self.watch
        self.store = Store(leadership.servers, 1, 3)
        for work in (self.server.serve_forever, self.poll):
            threading.Thread(target=work, daemon=True).start()

    # The thread that makes the calls.

    def watch(self, text, answers):
        """Takes lines and their answers. A fault here ends the page's values, and no replica."""
        try:
            self.facts.take(text, answers)
        except Exception as error:
            self.fault, self.replica.watch = f"there are no newer values: {error!r}", None

    def take(self):
        """Takes values, unless the last ones are younger than a second."""
        if self.fault or time.monotonic() < self.due:
            return
        leads, facts = bool(self.leadership.epoch), self.facts
        # Each query is a line of the tool, whose lines are limited.
        asks = isinstance(self.replica.manager.engine, Library)
        if asks:
            with contextlib.suppress(OutOfMemory, TextOwed):
                self.scan(LEVELS if leads else LEVELS_OF_FOLLOWER)
                self.take_lists(leads)
        self.snapshot = Snapshot(
            time.time(), leads, self.replica.applied, facts.lines, facts.round_count,
            len(facts.nodes), facts.draining, facts.storages, facts.free, facts.known(),
            len(facts.awaited_of), facts.copies, facts.deletes, tuple(facts.rounds),
            tuple(islice(facts.nodes.values(), ROWS)), tuple(islice(facts.racks.values(), ROWS)),
            len(facts.racks), self.levels, self.lists, asks,
        )
        self.due = time.monotonic() + EVERY

    def begin_scan(self):
        self.at, self.counts, self.began = 0, Counter(), (self.facts.lines, time.monotonic())

    def scan(self, count):
        """Asks for the levels of some known blocks. A scan of all of them gives the counts."""
        blocks, at = self.facts.next_blocks(self.at, count)
        if blocks:
            asked = b"".join(b'{"op":"level","id":%d}\n' % block for block in blocks)
            answers = self.replica.manager.lines(asked).decode().split("\n")[:-1]
            self.counts.update(answer.rsplit(" ", 1)[1] for answer in answers)
        self.at = at
        if self.at == len(self.facts.blocks):
            line, start = self.began
            counts = tuple(self.counts[str(level)] for level in range(5))
            self.levels = Levels(counts, line, time.monotonic() - start)
            self.begin_scan()

    def take_lists(self, leads):
        if self.facts.known() > FEW_BLOCKS:
            if leads or time.monotonic() < self.lists_due:
                return
            self.lists_due = time.monotonic() + LISTS
        asked = b'{"op":"list_corrupt"}\n{"op":"list_excess"}\n'
        corrupt, excess = self.replica.manager.lines(asked).split(b"\n")[:2]
        blocks = {item.split(b" ", 1)[0] for item in corrupt.split(b"; ")[1:]}
        self.lists = Lists(len(blocks), excess.count(b"; "), self.facts.lines)

    # The thread that reads etcd.

    def poll(self):
        while True:
            try:
                self.overview, now = self.read_etcd(), time.monotonic()
                self.why, self.answered_at = None, now
                self.seen.append((now, self.overview.last))
                # The first one becomes the last that is old enough.
                while len(self.seen) > 1 and self.seen[1][0] <= now - LATE:
                    self.seen.popleft()
            except (StoreError, Stop) as error:
                self.why = str(error)
            self.add_point()
            time.sleep(EVERY)

    def read_etcd(self):
        keys, store = self.replica.keys, self.store
        leader = store.value(keys.leader)
        entries = store.range(keys.replicas, after(keys.replicas)).entries
        replicas = [json.loads(entry.value) for entry in entries]
        return Overview(
            json.loads(leader.value)["name"] if leader else None, last_index(store, keys), replicas,
            state_in(store, keys, replicas),
        )

    def add_point(self):
        it = self.snapshot
        if it and not (self.points and it.time < self.points[-1].time + POINT):
            self.points.append(Point(it.time, it.lines, it.levels and it.levels.counts, it.copies))

    # The threads of requests.

    def answer(self, path):
        reasons = self.reasons()
        if path == "/health":
            text = "; ".join(reasons) or "healthy"
            return Answer(503 if reasons else 200, PLAIN, f"{text}\n".encode())
        if path not in ("/", "/metrics"):
            return Answer(404, PLAIN, b"there are /, /health and /metrics\n")
        values, overview = self.snapshot, self.overview
        if not values:
            return Answer(503, PLAIN, b"no values yet\n")
        with self.rendering:
            of_values, of_overview, answer = self.rendered.get(path, (None, None, None))
            if of_values is not values or of_overview is not overview:
                name = self.leadership.name.text
                if path == "/":
                    text = page(values, overview, name, reasons, tuple(self.points), HOUR)
                else:
                    text = metrics(values, overview, name)
                answer = Answer(200, HTML if path == "/" else PROMETHEUS, text.encode())
                self.rendered[path] = values, overview, answer
        return answer

    def reasons(self):
        """Why this replica is not healthy."""
        found, now = [self.fault] * bool(self.fault), time.monotonic()
        if self.replica.stopped.is_set():
            found.append(f"it stops: {self.replica.why or 'by a signal'}")
        if self.why:
            found.append(f"etcd is not reached: {self.why}")
        elif self.answered_at is None:
            found.append("etcd has not answered yet")
        elif now - self.answered_at > LATE:
            found.append(f"etcd has not answered for {now - self.answered_at:.0f} seconds")
        elif not self.overview.leader:
            found.append("no replica leads")
        at, last = self.seen[0] if self.seen else (now, 0)
        if at <= now - LATE and last > self.replica.applied:
            found.append(f"it is behind: log key {last} was there {now - at:.0f} seconds ago, and "
                         f"{self.replica.applied} is applied")
        return found
