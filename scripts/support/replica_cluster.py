"""Servers of etcd, replicas and writers on loopback, in a folder of their own, and what is in the
store afterwards."""

import contextlib
import hashlib
import json
import os
import random
import shutil
import signal
import socket
import subprocess
import sys
import tempfile
import threading
import time
from pathlib import Path

from checking import TOP, Failed, want

REPLICA = TOP / "bindings/replica/replica"
sys.path[:0] = [str(REPLICA.parent), str(TOP / "bindings/python")]
from access import Access, Account, Stop, context_of
from keys import Keys
from store import Store, StoreError, after


# A variable of each process that was started in a scratch folder; its value is the folder.
MARK = "PULJEMROD_SCRATCH"
ENDED = threading.Event()


def wait_for(what, is_so, seconds=20):
    """Waits until `is_so` answers something true, and returns that."""
    until = time.monotonic() + seconds
    while not (found := is_so()):
        if time.monotonic() > until or ENDED.is_set():
            raise Failed(f"not within {seconds} seconds: {what}")
        time.sleep(0.02)
    return found


def marked(folder):
    """The processes that were started in a scratch folder, whoever is their parent."""
    mark = f"{MARK}={folder}".encode()
    for path in Path("/proc").glob("[0-9]*/environ"):
        with contextlib.suppress(OSError):
            if mark in path.read_bytes().split(b"\0"):
                yield int(path.parent.name)


@contextlib.contextmanager
def scratch(seconds=0):
    """A scratch folder. It is removed at the end, also after a signal or `seconds` seconds, and the
    processes that were started in it are killed."""

    def ends(number, _):
        raise Failed(f"not within {seconds} seconds" if number == signal.SIGALRM else "ended by a signal")

    for number in (signal.SIGTERM, signal.SIGALRM):
        signal.signal(number, ends)
    with tempfile.TemporaryDirectory(ignore_cleanup_errors=True) as name:
        os.environ[MARK] = name
        signal.alarm(seconds)
        try:
            yield Path(name)
        finally:
            signal.alarm(0)
            # From here on other threads start nothing.
            ENDED.set()
            while left := list(marked(name)):
                for process in left:
                    with contextlib.suppress(ProcessLookupError):
                        os.kill(process, signal.SIGKILL)
                time.sleep(0.2)


def free_ports(count):
    links = [socket.create_server(("127.0.0.1", 0)) for _ in range(count)]
    ports = [link.getsockname()[1] for link in links]
    for link in links:
        link.close()
    return ports


class Process:
    """A child process with its output in a file."""

    def __init__(self, command, path, stdin=subprocess.DEVNULL, stdout=None, env=None):
        self.path, self.words = path, command
        want(not ENDED.is_set(), "the scratch folder is no more")
        with open(path, "ab") as printed:
            self.child = subprocess.Popen(
                [str(word) for word in command], stdin=stdin, stdout=stdout or printed,
                stderr=printed, env={**os.environ, **(env or {})},
            )

    def printed(self):
        return self.path.read_text(errors="replace")

    def send(self, number):
        if self.child.poll() is None:
            os.kill(self.child.pid, number)

    def pause(self):
        self.send(signal.SIGSTOP)

    def go_on(self):
        self.send(signal.SIGCONT)

    def kill(self):
        self.send(signal.SIGKILL)
        self.child.wait()

    def ended(self, seconds=20):
        """Waits until the process ends by itself, and returns its status."""
        try:
            return self.child.wait(seconds)
        except subprocess.TimeoutExpired:
            raise Failed(f"{self.path.name} did not end; it printed: {self.printed()[-300:]}") from None


class Servers:
    """The servers of one etcd. With a folder of certificates, as SCALING makes them, they talk by
    TLS, with those of the first server."""

    def __init__(self, folder, count, *options, tls=None):
        self.folder, self.options, self.tls = folder, options, tls
        ports, scheme = free_ports(2 * count), "https" if tls else "http"
        self.urls = [f"{scheme}://127.0.0.1:{port}" for port in ports[:count]]
        self.peers = [f"{scheme}://127.0.0.1:{port}" for port in ports[count:]]
        if tls:
            for kind, mine, ca in (("", "e1", "ca"), ("peer-", "p1", "peers")):
                self.options += (f"--{kind}cert-file", tls / f"{mine}.crt",
                                 f"--{kind}key-file", tls / f"{mine}.key",
                                 f"--{kind}trusted-ca-file", tls / f"{ca}.crt",
                                 f"--{kind}client-cert-auth")
        self.processes = [None] * count
        for number in range(count):
            self.start(number)
        self.clients = threading.local()
        wait_for("etcd answers", self.answers)

    @property
    def store(self):
        """A client for the thread that asks for it: checks run next to each other."""
        if not hasattr(self.clients, "store"):
            self.clients.store = Store(self.access())
        return self.clients.store

    def access(self, user=None, urls=None):
        """The access for this process, with the account of a user if there is one."""
        if not self.tls:
            return Access(urls or self.urls)
        context = context_of(*(self.tls / name for name in ("ca.crt", "client.crt", "client.key")))
        account = user and Account(user, (self.tls / f"{user}.password").read_text().strip())
        return Access(urls or self.urls, context, account)

    def access_words(self, word, **changed):
        """The options by which a program reaches servers with TLS. Some are changed, or left out if
        they are None."""
        if not self.tls:
            return []
        user = "writer" if word == "write" else "replica"
        files = {"cacert": "ca.crt", "cert": "client.crt", "key": "client.key",
                 "password_file": f"{user}.password"}
        words = {name: self.tls / path for name, path in files.items()}
        words = {**words, "user": user, **changed}
        return [f"--{name.replace('_', '-')}={value}" for name, value in words.items() if value]

    def start(self, number):
        name = f"etcd{number}"
        cluster = ",".join(f"etcd{it}={peer}" for it, peer in enumerate(self.peers))
        self.processes[number] = Process(
            ["etcd", "--name", name, "--data-dir", self.folder / name,
             "--listen-client-urls", self.urls[number],
             "--advertise-client-urls", self.urls[number],
             "--listen-peer-urls", self.peers[number],
             "--initial-advertise-peer-urls", self.peers[number],
             "--initial-cluster", cluster, *self.options],
            self.folder / f"{name}.log",
        )

    def answers(self):
        try:
            return self.store.range("x")
        except StoreError:
            return None
        except Stop:
            # It answers that this account may not.
            return True

    def leading(self):
        """Waits until a server leads, and returns its number."""
        return wait_for("a server leads", lambda: [it for it in range(len(self.urls)) if self.leads(it)])[0]

    def leads(self, number):
        try:
            access = self.access(urls=[self.urls[number]])
            answer, _ = Store(access, 1, 0).call("maintenance/status", {})
        except StoreError:
            return False
        return answer.get("leader") == answer["header"]["member_id"]

    def end(self):
        for process in self.processes:
            process.go_on()
            process.kill()


class Manager:
    """The replicas and writers of one prefix."""

    def __init__(self, servers, tool, prefix, folder):
        self.servers, self.tool, self.folder = servers, tool, folder
        self.keys = Keys(f"/{prefix}/")
        self.prefix = prefix
        self.store = Store(servers.access("root"))
        self.processes = {}

    def words(self, word, urls=None, **changed):
        return [sys.executable, "-B", REPLICA, word, "--etcd", ",".join(urls or self.servers.urls),
                "--prefix", self.keys.prefix, *self.servers.access_words(word, **changed)]

    def replica(self, name, *options, tool=None, lease=2, urls=None):
        words = self.words("run", urls) + ["--name", name]
        if "--library" not in options:
            words += ["--tool", tool or self.tool]
        words += ["--lease", str(lease), "--interval", "0.5", "--safe-mode", "0", *options]
        process = Process(words, self.folder / f"{self.prefix}-{name}.log")
        self.processes[name] = process
        return process

    def writer(self, name, lines=None, *options, urls=None):
        """A writer of lines. Without lines its input stays open."""
        path = self.folder / f"{self.prefix}-{name}"
        source = subprocess.PIPE
        if lines is not None:
            path.with_suffix(".in").write_bytes(b"".join(lines))
            source = open(path.with_suffix(".in"), "rb")
        with open(path.with_suffix(".out"), "wb") as target:
            process = Process(self.words("write", urls) + list(options),
                              path.with_suffix(".log"), source, target)
        process.output = path.with_suffix(".out")
        self.processes[name] = process
        return process

    def write(self, lines, *options, seconds=20):
        """Writes some lines, and returns their answers."""
        writer = self.writer(f"writer{len(self.processes)}", lines, *options)
        want(writer.ended(seconds) == 0, f"a writer failed: {writer.printed()[-300:]}")
        return writer.output.read_bytes().splitlines(keepends=True)

    def leader(self):
        """The name of the replica that leads."""
        try:
            found = self.store.value(self.keys.leader)
        except StoreError:
            return None
        return json.loads(found.value)["name"] if found else None

    def status(self):
        printed = subprocess.run(self.words("status") + ["--json"], capture_output=True, timeout=20)
        want(printed.returncode == 0, f"no status: {printed.stderr.decode()}")
        return json.loads(printed.stdout)

    def all_is_answered(self):
        status = self.status()
        return status["answered"] == status["log"]

    def has_stopped(self, name, why):
        """Waits until the replica has ended with status 1, for a reason with these words."""
        process = self.processes[name]
        want(process.ended() == 1, f"status {process.child.returncode}")
        want(why in process.printed(), f"it printed: {process.printed()[-300:]}")

    def end_in_order(self):
        """Ends the rounds, and waits until all of the log is answered."""
        for process in self.processes.values():
            process.send(signal.SIGTERM)
        for process in self.processes.values():
            process.ended()
        last = self.replica("last", "--interval", "0")

        def reads():
            want(last.child.poll() is None, f"the last replica ended: {last.printed()[-300:]}")
            return "reads the log" in last.printed()

        wait_for("the last replica reads", reads, 40)
        wait_for("all is answered", self.all_is_answered, 60)
        last.send(signal.SIGTERM)
        want(last.ended() == 0, f"the last replica failed: {last.printed()[-300:]}")

    def end(self):
        for process in self.processes.values():
            process.go_on()
            process.kill()

    # What is in the store.

    def all(self, prefix):
        start, entries, more = prefix, [], True
        while more:
            found = self.store.range(start, after(prefix), limit=16)
            entries += found.entries
            more = found.count > len(found.entries)
            if more:
                start = entries[-1].key + "\0"
        return entries

    def taken(self):
        """For each log key its writer and the lines that count, by the rules of SCALING."""
        counts, parts, line_begun = {}, [], None
        for number, entry in enumerate(self.all(self.keys.log), 1):
            want(int(entry.key.rsplit("/", 1)[1]) == number, f"{entry.key} is key {number}")
            header, _, text = entry.value.partition(b"\n")
            header = json.loads(header)
            writer, count, lines = header["writer"], header["count"], []
            if "parts" in header:
                line = writer, count, header["parts"]
                if header["part"] == 0:
                    parts, line_begun = [], line
                elif line != line_begun or header["part"] != len(parts):
                    parts, line_begun = [], None
                    yield writer, lines
                    continue
                parts.append(text)
                text = b"".join(parts) + b"\n" if len(parts) == header["parts"] else b""
            else:
                line_begun = None
            for line in text.splitlines(keepends=True):
                if count == counts.get(writer, 0):
                    lines.append(line)
                    counts[writer] = count + 1
                count += 1
            yield writer, lines

    def lines_taken(self, number):
        """The lines that count of one writer."""
        return [line for writer, batch in self.taken() if writer == number for line in batch]

    def compare(self, options=()):
        """The answers, commands and hashes in the store are those of one run of the tool on the
        lines of the log. Returns the answers that each writer must get."""
        taken = list(self.taken())
        lines = [line for _, batch in taken for line in batch]
        run = subprocess.run([self.tool, *options], input=b"".join(lines), capture_output=True,
                             timeout=60)
        want(run.returncode == 0, f"the tool ended with status {run.returncode}")
        answers = run.stdout.splitlines(keepends=True)
        want(len(answers) == len(lines), f"{len(answers)} answers to {len(lines)} lines")

        at, of_writers, hash_, hashes, commands = 0, {}, hashlib.sha256(), {}, {}
        for writer, batch in taken:
            printed = answers[at : at + len(batch)]
            of_writers.setdefault(writer, []).extend(printed)
            hash_.update(b"".join(batch))
            hash_.update(b"".join(printed))
            for number, answer in enumerate(printed, at + 1):
                words = answer.decode().rstrip("\n").split("; ")
                if words[0].startswith("round "):
                    for command in words[1:]:
                        key = (int(command.split()[1]), number)
                        commands.setdefault(key, []).append(command + "\n")
            if at // 1000 < (at + len(batch)) // 1000:
                hashes[at + len(batch)] = hash_.hexdigest()
            at += len(batch)

        self.compare_answers(answers)
        found = {}
        for entry in self.all(self.keys.commands):
            node, number = entry.key.removeprefix(self.keys.commands).split("/")
            want(entry.version == 1, f"{entry.key} was written {entry.version} times")
            key = (int(node), int(number[:16]))
            found[key] = found.get(key, "") + entry.value.partition(b"\n")[2].decode()
        want(found == {key: "".join(printed) for key, printed in commands.items()},
             "the commands are not those of the rounds")
        stored = {int(entry.key.rsplit("/", 1)[1]): entry.value.decode()
                  for entry in self.all(self.keys.hashes)}
        want(stored == hashes, "the hashes are not those of the log")
        return of_writers

    def compare_answers(self, answers):
        at, pieces, stored = 0, [], []
        for entry in self.all(self.keys.answers):
            want(entry.version == 1, f"{entry.key} was written {entry.version} times")
            header, _, text = entry.value.partition(b"\n")
            header = json.loads(header)
            writer = entry.key.removeprefix(self.keys.answers).split("/")[0]
            want(writer == str(header["writer"]), f"{entry.key} has answers to writer {writer}")
            stored.append((header["line"], header["part"], header, entry, text))
        for *_, header, entry, text in sorted(stored, key=lambda it: it[:2]):
            want(header["line"] == at + 1, f"answers from {header['line']} on follow {at}")
            want(header["part"] == len(pieces), f"{entry.key} is out of order")
            pieces.append(text)
            if len(pieces) == header["parts"]:
                printed = b"".join(pieces).splitlines(keepends=True)
                pieces = []
                want(printed == answers[at : at + len(printed)], f"other answers behind line {at}")
                at += len(printed)
        want(at == len(answers), f"{at} of {len(answers)} lines are answered")


def lines_of(count, seed, base=0):
    """Lines for the tool. With base 0 they begin with 20 nodes. Block numbers are past the base."""
    draw = random.Random(seed)
    storages = [100 + 2 * node + side for node in range(1, 21) for side in (0, 1)]
    lines = []

    def add(op, **fields):
        lines.append(json.dumps({"op": op, **fields}, separators=(",", ":")).encode() + b"\n")

    if not base:
        for node in range(1, 21):
            pair = [100 + 2 * node, 101 + 2 * node]
            add("register", node=node, rack=1 + node % 4, storages=pair)
            add("heartbeat", node=node, remaining=[[storage, 10**12] for storage in pair])
    block = base
    while len(lines) < count:
        old = draw.randrange(base + 1, block + 2)
        kind = draw.choices(["add", "received", "deleted", "corrupt", "delete", "level", "places"],
                            [30, 30, 8, 3, 3, 13, 13])[0]
        if kind == "add":
            block += 1
            add("add", id=block, gen=1, len=block % 1000, repl=3)
            for storage in draw.sample(storages, 2):
                add("received", storage=storage, id=block, gen=1, len=block % 1000)
        elif kind == "received":
            add("received", storage=draw.choice(storages), id=old, gen=1, len=old % 1000)
        elif kind in ("deleted", "corrupt"):
            add(kind, storage=draw.choice(storages), id=old)
        else:
            add("list_places" if kind == "places" else kind, id=old)
    return lines[:count]


def feed(writer, lines, seconds):
    """Writes lines in small pieces, evenly over some seconds."""
    pieces = [b"".join(lines[at : at + 50]) for at in range(0, len(lines), 50)]
    start = time.monotonic()
    for number, piece in enumerate(pieces):
        time.sleep(max(0, start + seconds * number / len(pieces) - time.monotonic()))
        writer.child.stdin.write(piece)
        writer.child.stdin.flush()
    writer.child.stdin.close()


def session_of(writer):
    """The number of a writer's session."""
    return int(writer.printed().split("session ")[1].split()[0])


def etcd_is_there():
    return all(map(shutil.which, ("etcd", "etcdctl", "openssl")))


def options_of_library(path, folder):
    """The options of a replica over the shared library. That is made below the folder, of the
    library for C."""
    if not path:
        return ()
    dist = folder / "dist"
    subprocess.run([TOP / "scripts/build_library", path, dist], capture_output=True, check=True)
    return "--library", dist / "libpuljemrod.so"
