"""Random calls by hypothesis on `Manager` of bindings/python, compared with the model.

    scripts/support/fuzz_python.py [--examples N] [--seed N] --library PATH | --tool PATH

The library is one that is linked with refused_malloc.c. The calls are lines and blocks of lines
from several threads, queries of several threads at once, and interrupts at any step of the
binding's code. Managers are closed, called after that, and made again from the log of all lines so
far. The library is also refused allocations. A difference is reduced by hypothesis to few calls,
which are printed.

It needs python3-hypothesis; `fuzz` in fuzz.py starts it.
"""

import argparse
import ctypes
import sys
from collections import Counter
from concurrent.futures import ThreadPoolExecutor
from pathlib import Path

from hypothesis import strategies as st
from hypothesis.stateful import RuleBasedStateMachine, initialize, rule, run_state_machine_as_test

sys.path.insert(0, str(Path(__file__).resolve().parents[2]))
sys.path.insert(0, str(Path(__file__).resolve().parents[2] / "bindings/python"))
from fuzz_binding import SET_UP, how_to_run, limits, limits_of, lines, one_of, options, queries
from interrupts import interrupted_at
from model.lines import answered
from model.state import LAST, State
from puljemrod import Fault, Manager, OutOfMemory, TextOwed

THREADS = 3

# What the calls have to reach, in a run of the usual length.
HAS_TO_REACH = ["ok", "round", "copy", "refused 20", "interrupted", "a restart", "a close", "queries at once"]
HAS_TO_REACH_IN_LIBRARY = [
    *["delete", "refused 10", "refused 12", "refused 13", "refused 21"],
    *["OutOfMemory", "TextOwed", "no memory for a manager"],
]

blocks = st.lists(lines, min_size=1, max_size=4)

threads = one_of(range(THREADS))


def text_of(lines):
    return b"".join(line + b"\n" for line in lines)


def want_alike(found, wanted):
    assert found == wanted, f"{found!r} in place of {wanted!r}"


class Calls(RuleBasedStateMachine):
    """A manager with the lines that it has taken, and the state of the model after them. `engine`
    names the engine of all managers."""

    engine, reached = None, Counter()

    def __init__(self):
        super().__init__()
        self.workers = [ThreadPoolExecutor(1) for _ in range(THREADS)]

    @initialize(options=options, limits=limits, is_set_up=st.booleans(), first_round=one_of([0, LAST - 2]), first_call=one_of([0, LAST - 30]))
    def start(self, options, limits, is_set_up, first_round, first_call):
        self.options, first = dict(options), {}
        if "library" in self.engine:
            first = {"first_round": first_round, "first_call": first_call}
            self.options.update(limits)
        self.state = State(limits_of(self.options), last_round=first.get("first_round", 0), calls=first.get("first_call", 0))
        self.options.update(first)
        self.log, self.answers, self.last = [], [], b""
        self.manager = Manager(**self.engine, **self.options)
        if is_set_up:
            self.takes(self.manager.lines(text_of(SET_UP)), SET_UP)

    def teardown(self):
        if hasattr(self, "manager"):
            self.manager.close()
        for worker in self.workers:
            worker.shutdown()

    # The model

    def states_after(self, lines):
        """The states of the model after each line, with the answers."""
        state, found = self.state, []
        for line in lines:
            state, answer = answered(state, line)
            found.append((state, answer.encode()))
        return found

    def take(self, lines):
        """The model takes these lines; returns their answers."""
        after = self.states_after(lines)
        answers = [answer for _, answer in after]
        if lines:
            self.state, self.last = after[-1]
            self.log += lines
            self.answers += answers
        for words in (part.split() for answer in answers for part in answer.decode().split("; ")):
            self.reached[" ".join(words[: 1 + (words[0] == "refused")])] += 1
        return text_of(answers)

    def takes(self, found, lines):
        want_alike(found, self.take(lines))

    # Calls

    @rule(line=lines, thread=threads)
    def ask_line(self, line, thread):
        try:
            text = line.decode()
        except UnicodeDecodeError:
            return self.ask_block([line], thread)
        found = self.workers[thread].submit(self.manager.line, text).result()
        self.takes(found.encode() + b"\n", [line])

    @rule(block=blocks, thread=threads)
    def ask_block(self, block, thread):
        self.takes(self.workers[thread].submit(self.manager.lines, text_of(block)).result(), block)

    @rule(of_each=st.lists(queries, min_size=THREADS, max_size=THREADS))
    def ask_at_once(self, of_each):
        """No query changes the state, so that each answer is that of the state before."""
        block = [text_of([line] * 5) for line in of_each]
        running = [worker.submit(self.manager.lines, text) for worker, text in zip(self.workers, block)]
        for line, it in zip(of_each, running):
            self.takes(it.result(), [line] * 5)
        if "library" in self.engine:
            assert self.manager.engine.retry() in self.answers[-5 * THREADS :]
        self.last = None
        self.reached["queries at once"] += 1

    @rule(line=lines, shards=one_of([1, 2, 64]), thread=threads)
    def close(self, line, shards, thread):
        """A closed manager answers nothing. A new one reads the log."""
        self.workers[thread].submit(self.manager.close).result()
        calls = [lambda: self.manager.lines(text_of([line])), lambda: self.manager.line("")]
        if "library" in self.engine:
            calls += [self.manager.engine.retry, self.manager.engine.calls]
        for call in calls:
            try:
                call()
            except Fault as fault:
                want_alike(str(fault), "the manager is closed")
            else:
                raise AssertionError("a closed manager answers")
        self.manager.close()
        self.reached["a close"] += 1
        self.start_again(shards)

    def start_again(self, shards):
        self.options["shards"] = shards
        self.manager = Manager(**self.engine, **self.options)
        want_alike(self.manager.lines(text_of(self.log)), text_of(self.answers))
        self.last = self.answers[-1] if self.answers else b""
        self.reached["a restart"] += 1

    @rule(block=blocks, step=st.integers(1, 400))
    def interrupt(self, block, step):
        """An interrupted call leaves the manager in a state that its rules know."""
        try:
            found = interrupted_at(step, lambda: self.manager.lines(text_of(block)))
        except KeyboardInterrupt:
            self.reached["interrupted"] += 1
            self.after_interrupt_of_library(block) if "library" in self.engine else self.after_interrupt_of_tool(block)
        else:
            self.takes(found, block)

    def after_interrupt_of_library(self, block):
        """Some first lines were taken. `retry` has the answer to the last one, and `calls` counts
        the accepted events and rounds."""
        last, calls = self.manager.engine.retry(), self.manager.engine.calls()
        before = (self.state, self.last)
        fitting = [at for at, after in enumerate([before, *self.states_after(block)]) if after[0].calls == calls]
        answers = [before[1], *(answer for _, answer in self.states_after(block))]
        assert fitting, f"{calls} calls are accepted"
        assert before[1] is None or any(last == answers[at] for at in fitting), f"the last answer is {last!r}"
        self.take(block[: fitting[0]])
        self.last = b""

    def after_interrupt_of_tool(self, block):
        """It goes on with all lines taken or none, or every later call says why it does not."""
        try:
            shown = self.manager.lines(b'{"op":"list_replicas"}\n{"op":"round"}\n')
        except Fault as fault:
            assert "a call was interrupted" in str(fault), str(fault)
        else:
            asked = [b'{"op":"list_replicas"}', b'{"op":"round"}']
            either = [text_of(answer for _, answer in self.states_after(it + asked)[-2:]) for it in ([], block)]
            assert shown in either, f"{shown!r} is neither of {either!r}"
        self.manager.close()
        self.start_again(self.options["shards"])


class CallsOfLibrary(Calls):
    def refuse(self, first, count):
        ctypes.CDLL(self.engine["library"]).refuse_allocations(ctypes.c_long(first), ctypes.c_long(count))

    @rule(block=blocks, first=st.integers(1, 12), count=one_of([1, 2, 1000]))
    def refuse_memory(self, block, first, count):
        """A line without memory changes nothing, or counts and its text is owed."""
        self.refuse(first, count)
        try:
            found, fault = self.manager.lines(text_of(block)), None
        except Fault as it:
            found, fault = it.answers, it
        finally:
            self.refuse(1, 0)
        answered_lines = found.count(b"\n")
        self.takes(found, block[:answered_lines])
        left = block[answered_lines:]
        if fault is None:
            want_alike(left, [])
        elif isinstance(fault, TextOwed):
            self.reached["TextOwed"] += 1
            self.takes(self.manager.engine.retry() + b"\n", left[:1])
        else:
            assert type(fault) is OutOfMemory, repr(fault)
            self.reached["OutOfMemory"] += 1
            if self.last is not None:
                want_alike(self.manager.engine.retry(), self.last)
            self.takes(self.manager.lines(text_of(left)), left)

    @rule(first=one_of([1, 2, 3, 5, 8, 13, 21]))
    def open_without_memory(self, first):
        self.refuse(first, 1)
        try:
            Manager(**self.engine, **self.options).close()
        except OutOfMemory:
            self.reached["no memory for a manager"] += 1
        finally:
            self.refuse(1, 0)


def main():
    parser = argparse.ArgumentParser(description=__doc__.splitlines()[0])
    parser.add_argument("--examples", type=int, default=100)
    parser.add_argument("--seed", type=int)
    parser.add_argument("--library")
    parser.add_argument("--tool")
    given = parser.parse_args()
    machine = CallsOfLibrary if given.library else Calls
    machine.engine = {"library": given.library} if given.library else {"tool": given.tool}
    chosen, seeded = how_to_run(given.examples, given.seed)
    run_state_machine_as_test(seeded(machine), settings=chosen)
    names = HAS_TO_REACH + (HAS_TO_REACH_IN_LIBRARY if given.library else [])

    missing = [name for name in names if not machine.reached[name]]
    if missing:
        sys.exit(f"DIFFERS the calls never reach {', '.join(missing)}")
    print(f"{given.examples} scripts of calls alike")


if __name__ == "__main__":
    main()
