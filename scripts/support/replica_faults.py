"""Replicas over etcd under faults drawn from a seed. Writers are killed, interrupted and continued,
on the same, a longer and another input. Replicas and servers are killed and paused, and the store
is compacted. Then each session's lines are in the log once, and the answers are those of one run of
a tool."""

import contextlib
import random
import signal
import subprocess
import threading
import time
from collections import Counter

from checking import want
from replica_cluster import Manager, Process, feed, lines_of, session_of, wait_for
from batches import BATCH, headed
from store import StoreError

LEASE = 2
NAMES = ("r1", "r2", "r3")


class Run:
    """A writer of a session, which takes its input in small pieces for some seconds."""

    def __init__(self, manager, name, lines, number, seconds, refused=False):
        options = ["--session", str(number)] if number else []
        self.process = manager.writer(name, None, *options)
        self.refused, self.signals = refused, set()
        self.feeder = threading.Thread(target=self.feed, args=(lines, seconds), daemon=True)
        self.feeder.start()

    def feed(self, lines, seconds):
        with contextlib.suppress(OSError):
            feed(self.process, lines, seconds)
        with contextlib.suppress(OSError):
            self.process.child.stdin.close()

    def is_alive(self):
        return self.process.child.poll() is None

    def has_begun(self):
        return "session " in self.process.printed() or not self.is_alive()

    def stop(self, number):
        # Before its first line Python itself may print a traceback.
        if number != signal.SIGKILL:
            wait_for("a writer begins", self.has_begun, 40)
        self.signals.add(number)
        self.process.go_on()
        self.process.send(number)
        self.process.ended()

    def check(self):
        """What a writer that has ended has printed, and its status."""
        status, printed = self.process.ended(60), self.process.printed()
        want("Traceback" not in printed, f"a writer printed {printed[-800:]}")
        # Python handles no signal at its very end.
        allowed = {0, 1, *(128 + number for number in self.signals), *(-number for number in self.signals)}
        want(status in allowed, f"status {status}: {printed[-300:]}")
        want(status < 2 or "--session" in printed or "before it had a session" in printed, f"it printed {printed[-300:]}")
        if self.refused:
            want(self.process.output.read_bytes() == b"", "another input was answered")
            reasons = ("the input is not that of session", "no server of etcd answers")
            want(status == 1 and any(it in printed for it in reasons), f"status {status}: {printed[-300:]}")
        return status


class Session:
    """The input of a session, and the runs that wrote it."""

    def __init__(self, lines):
        self.lines, self.number, self.runs = lines, None, []

    def run(self):
        return self.runs[-1]


class Faults:
    def __init__(self, seed, servers, tool, folder, seconds, lines, each=200):
        self.draw, self.seed, self.servers, self.seconds = random.Random(seed), seed, servers, seconds
        self.manager = Manager(servers, tool, f"faults{seed}", folder)
        # How many lines a session begins with, and how many are left for new ones.
        self.each, self.left = each, lines
        self.sessions, self.refused, self.started = [], [], 0

    # The replicas.

    def start_replica(self, name):
        self.manager.replica(name, "--shards", str(self.draw.randrange(1, 6)), lease=LEASE)

    def leader_or_any(self):
        leader = self.manager.leader()
        return leader if leader in NAMES and self.draw.random() < 0.7 else self.draw.choice(NAMES)

    def revive(self):
        """Starts replicas again that have stopped because a compaction came first, because another
        one had the name meanwhile, or by a signal before their first line."""
        for name in NAMES:
            process = self.manager.processes[name]
            if process.child.poll() is not None:
                printed = process.printed()
                reasons = ("compacted beyond what was read", "another replica runs under the name", "no server of etcd answers", "KeyboardInterrupt")
                want(any(it in printed for it in reasons), f"{name} has stopped: {printed[-300:]}")
                process.path.write_text("")
                self.start_replica(name)

    def kill_replica(self):
        name = self.leader_or_any()
        self.manager.processes[name].kill()
        self.start_replica(name)
        return name

    def end_replica(self):
        name = self.leader_or_any()
        self.manager.processes[name].send(signal.SIGINT)
        if self.manager.processes[name].ended() != 1:
            self.start_replica(name)
        return name

    def pause_replica(self):
        name = self.leader_or_any()
        self.manager.processes[name].pause()
        time.sleep(self.draw.uniform(0.5, 1.5 * LEASE))
        self.manager.processes[name].go_on()
        return name

    def copy_name(self):
        """A second replica with a name that is in use does not start."""
        name = self.draw.choice(NAMES)
        first = self.manager.processes[name]
        self.started += 1
        copy = Process(first.words, self.manager.folder / f"copy{self.started}.log")
        with contextlib.suppress(subprocess.TimeoutExpired):
            want(copy.child.wait(2 * LEASE) == 1, f"a second {name} ended with {copy.child.returncode}")
        copy.kill()
        return name

    # The servers.

    def kill_server(self):
        number = self.draw.randrange(len(self.servers.urls))
        self.servers.processes[number].kill()
        time.sleep(self.draw.uniform(0, 1))
        self.servers.start(number)
        return number

    def kill_all_servers(self):
        for process in self.servers.processes:
            process.kill()
        for number in range(len(self.servers.urls)):
            self.servers.start(number)
        return "all"

    def pause_server(self):
        number = self.draw.randrange(len(self.servers.urls))
        self.servers.processes[number].pause()
        time.sleep(self.draw.uniform(0.3, 3))
        self.servers.processes[number].go_on()
        return number

    def compact(self):
        try:
            revision = self.servers.store.range("x").revision
            self.servers.store.call("kv/compaction", {"revision": revision})
        except StoreError as error:
            return error
        return revision

    # The writers.

    def new_lines(self, count):
        """More lines for a session. Some have a line that is parted."""
        self.left -= count
        base = 0 if not self.sessions else 1_000_000 * (len(self.sessions) + self.started + 1)
        lines = lines_of(count, self.draw.randrange(1 << 30), base)
        if self.draw.random() < 0.3:
            size = self.draw.choice([BATCH - 40, BATCH + 1, 2 * BATCH + 7])
            lines[count // 2] = b'{"op":"level","id":7,"pad":"' + b"x" * size + b'"}\n'
        return lines

    def start(self, session, lines, refused=False, seconds=None):
        self.started += 1
        seconds = self.draw.uniform(0, 4) if seconds is None else seconds
        run = Run(self.manager, f"w{self.started}", lines, session.number, seconds, refused)
        if not refused:
            session.runs.append(run)
        return run

    def begin_session(self):
        if self.left < self.each:
            return "none"
        session = Session(self.new_lines(self.each))
        self.sessions.append(session)
        run = self.start(session, session.lines)
        wait_for("a session", run.has_begun, 40)
        if "session " not in run.process.printed():
            # No server has answered.
            self.sessions.remove(session)
            return "none"
        session.number = session_of(run.process)
        return session.number

    def some_session(self):
        return self.draw.choice(self.sessions) if self.sessions else None

    def stop_writer(self):
        """Stops a writer by a signal, and goes on at once, or later."""
        session = self.some_session()
        if not session:
            return "none"
        number = self.draw.choice([signal.SIGKILL, signal.SIGINT, signal.SIGINT, signal.SIGTERM])
        session.run().stop(number)
        session.run().check()
        if self.draw.random() < 0.7:
            self.go_on_with(session)
        return session.number, number.name

    def go_on_with(self, session):
        if self.left >= self.each and self.draw.random() < 0.3:
            session.lines = session.lines + self.new_lines(self.each // 2)
        self.start(session, session.lines)

    def go_on(self):
        session = self.some_session()
        if not session or session.run().is_alive():
            return "none"
        self.go_on_with(session)
        return session.number

    def pause_writer(self):
        session = self.some_session()
        if not session:
            return "none"
        session.run().process.pause()
        time.sleep(self.draw.uniform(0.1, 1))
        session.run().process.go_on()
        return session.number

    def double_writer(self):
        """A second writer of a session that has a writer: one of both is refused."""
        session = self.some_session()
        if not session:
            return "none"
        self.start(session, session.lines)
        return session.number

    def other_input(self):
        """Another input is refused, and nothing of it is in the log."""
        session = self.some_session()
        stored = session and self.manager.store.value(f"{self.manager.keys.sessions}{session.number}")
        count = int(stored.value.split()[0]) if stored else 0
        if not count:
            return "none"
        at = self.draw.randrange(count)
        lines = session.lines[:at]
        if self.draw.random() < 0.7:
            lines += [b'{"op":"list_missing","other":%d}\n' % at] + session.lines[at + 1 :]
        self.refused.append(self.start(session, lines, refused=True, seconds=0))
        return session.number, at

    # The run.

    def strike(self):
        # So the n-th fault is the same in each run, whatever came before.
        self.draw = random.Random(f"{self.seed} {len(self.schedule)}")
        time.sleep(self.draw.uniform(0, 0.4))
        faults = {self.begin_session: 4, self.stop_writer: 6, self.go_on: 4, self.other_input: 3, self.double_writer: 1,
                  self.pause_writer: 1, self.kill_replica: 3, self.end_replica: 1, self.pause_replica: 2, self.copy_name: 1,
                  self.kill_server: 1, self.kill_all_servers: 1, self.pause_server: 1, self.compact: 2}
        fault = self.draw.choices(list(faults), faults.values())[0]
        start = time.monotonic()
        try:
            what = fault()
        except StoreError as error:
            what = error
        self.schedule.append(f"{start - self.since:.1f} {fault.__name__} {what}")
        self.counts[fault.__name__] += what != "none"

    def run(self, tool):
        """Compares the answers with those of a tool."""
        self.schedule, self.counts, self.since = [], Counter(), time.monotonic()
        try:
            for name in NAMES:
                self.start_replica(name)
            self.begin_session()
            while time.monotonic() < self.since + self.seconds:
                self.strike()
                self.revive()
            self.end_writers()
            self.compare(tool)
        except Exception as error:
            print(f"seed {self.seed}, {self.seconds} seconds:", *self.schedule, sep="\n    ", flush=True)
            raise error
        finally:
            self.manager.end()

    def end_writers(self):
        """Each session goes on until all of its input is answered."""
        wait_for("etcd answers", self.servers.answers, 60)
        for session in self.sessions:
            for run in session.runs:
                if run.is_alive() and run is not session.run():
                    run.stop(signal.SIGTERM)
            for _ in range(5):
                if session.run().check() == 0:
                    break
                self.revive()
                self.start(session, session.lines, seconds=0)
            want(session.run().check() == 0, f"session {session.number} does not end: {session.run().process.printed()[-300:]}")
        for run in (*self.refused, *(run for session in self.sessions for run in session.runs)):
            run.check()

    def compare(self, tool):
        self.manager.end_in_order()
        self.manager.tool = tool
        answers = self.manager.compare()
        in_log = Counter()
        for entry in self.manager.all(self.manager.keys.log):
            header, text = headed(entry.value)
            in_log[header["writer"]] += text.count(b"\n")
        for session in self.sessions:
            lines = self.manager.lines_taken(session.number)
            want(lines == session.lines, f"other lines of session {session.number} count")
            long_lines = sum(len(line) > BATCH for line in session.lines)
            want(in_log[session.number] == len(lines) - long_lines, f"{in_log[session.number]} lines of session {session.number} are in the log")
            printed = session.run().process.output.read_bytes()
            want(printed == b"".join(answers[session.number]), f"session {session.number} was answered otherwise")
        print(f"seed {self.seed}: {len(self.sessions)} sessions, {sum(len(it.lines) for it in self.sessions)} lines, "
              + ", ".join(f"{name} {count}" for name, count in sorted(self.counts.items())), flush=True)
