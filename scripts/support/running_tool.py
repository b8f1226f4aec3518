"""A running line tool, which is asked one line after another, and the CPU time that this takes."""

import os
import subprocess
import threading
import time
from pathlib import Path

from checking import Failed, want


class RunningTool:
    def __init__(self, path, *options):
        self.running = subprocess.Popen(
            [path, *options], stdin=subprocess.PIPE, stdout=subprocess.PIPE, bufsize=0
        )
        self.rest = b""

    def processor_seconds(self):
        """The CPU seconds of the process's first thread; with one worker it has no other."""
        words = Path(f"/proc/{self.running.pid}/schedstat").read_text().split()
        return int(words[0]) / 1e9

    def resident_bytes(self):
        words = Path(f"/proc/{self.running.pid}/statm").read_text().split()
        return int(words[1]) * os.sysconf("SC_PAGE_SIZE")

    def is_waiting(self):
        state = Path(f"/proc/{self.running.pid}/stat").read_text().rsplit(")", 1)[1].split()[0]
        return state == "S"

    def answers(self, count):
        """Reads this number of answers."""
        pieces, found = [self.rest], self.rest.count(b"\n")
        while found < count:
            piece = os.read(self.running.stdout.fileno(), 1 << 20)
            if not piece:
                raise Failed("the tool ended")
            pieces.append(piece)
            found += piece.count(b"\n")
        *answers, self.rest = b"".join(pieces).split(b"\n", count)
        return answers

    def send(self, lines):
        view = memoryview(b"".join(line + b"\n" for line in lines))
        while view:
            view = view[os.write(self.running.stdin.fileno(), view) :]

    def ask_all(self, lines):
        """Sends these lines; returns the answers, and the CPU seconds until the tool waits for
        more."""
        before = self.processor_seconds()
        sender = threading.Thread(target=self.send, args=(lines,))
        sender.start()
        answers = self.answers(len(lines))
        sender.join()
        while not self.is_waiting():
            time.sleep(0.001)
        return answers, self.processor_seconds() - before

    def ask(self, line):
        answers, seconds = self.ask_all([line])
        return answers[0], seconds

    def feed(self, lines):
        """Sends lines that must each be answered by `ok`; returns the CPU seconds."""
        answers, seconds = self.ask_all(lines)
        for answer in answers:
            want(answer.startswith(b"ok "), f"{answer!r}")
        return seconds

    def end(self):
        self.running.stdin.close()
        self.running.stdout.close()
        self.running.wait()
