"""Appends the lines of standard input, and prints the answers. A run that is cut off says how to go
on."""

import os
import signal
import sys
import threading
import time

from keys import Keys, Stop
from store import StoreError
from writer import Lines, Writer

# Seconds without an answer after which the user hears of it.
SILENCE = 10


def write(words, say):
    writer = None

    def end(number, _):
        name = signal.Signals(number).name
        say(f"{name}: {how_to_go_on(writer)}" if writer else f"{name}, before it had a session")
        os._exit(128 + number)

    for number in (signal.SIGINT, signal.SIGTERM):
        signal.signal(number, end)
    if sys.stdin is None:
        raise Stop("standard input is closed")
    writer = Writer(words.etcd, Keys(words.prefix), say, words.session)
    say(f"session {writer.session.number}")
    lines = Lines(sys.stdin.fileno())
    if words.session is not None:
        writer.skip(lines)
    try:
        print_answers(writer, append_all(writer, lines), say)
    except (Stop, StoreError) as error:
        say(f"{error}")
        say(how_to_go_on(writer))
        return 1
    return 0


def how_to_go_on(writer):
    appended = max(writer.appended, writer.answered)
    return (f"at least {appended} lines are in the log, {writer.answered} are answered; the same "
            f"input with `--session {writer.session.number}` goes on")


def append_all(writer, lines):
    """Appends the rest of the input in a thread. Returns a list that gets None once all is in the
    log, or an error."""
    ended = []

    def append():
        try:
            while block := lines.block():
                writer.append(block)
            ended.append(None)
        except Exception as error:
            ended.append(error)

    threading.Thread(target=append, daemon=True).start()
    return ended


def print_answers(writer, ended, say):
    silent_since = time.monotonic()
    for answers in writer.answers():
        if answers:
            sys.stdout.buffer.write(answers)
            sys.stdout.flush()
        if ended and ended[0]:
            raise ended[0]
        if ended and writer.answered >= writer.appended:
            return
        if answers or writer.answered == writer.appended:
            silent_since = time.monotonic()
        elif time.monotonic() - silent_since > SILENCE:
            silent_since = time.monotonic()
            say(f"no answer for {SILENCE} seconds: is there a leader (`replica status`)?")
