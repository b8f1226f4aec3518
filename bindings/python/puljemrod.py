"""The block manager for Python: a line goes in, its answer comes out (docs/FORMATS.md).

    >>> with Manager() as manager:
    ...     manager.line('{"op":"register","node":1,"rack":1,"storages":[11]}')
    ...     manager.line('{"op":"add","id":7,"gen":1,"len":64,"repl":3}')
    ...     manager.line('{"op":"level","id":7}')
    ...     manager.line('nonsense')
    'ok 0 0'
    'ok 0 0'
    'level 7; 4'
    'refused 20 BadLine'

`./puljemrod build library` makes the library that is called in this process. Without it the line
tool is a child process: `./puljemrod build`.
"""

import ctypes
import difflib
import functools
import os
import secrets
import select
import subprocess
import tempfile
import threading
from pathlib import Path

__version__ = "2.0.0"

# The engines, below the top of the repository.
LIBRARY, TOOL = "dist/libpuljemrod.so", "crates/bm_tool/out/bm_tool"

# What one run of the tool reads at most.
MOST_LINES, MOST_BYTES = 1 << 20, 1 << 30

MEMORY_FAULT = "bm_tool: memory fault"

NO_ENGINE = ("there is no engine: give library= or PULJEMROD_LIBRARY, or tool=; "
             "in the repository `./puljemrod build library` makes both")

# Codes of the library.
OK, MEMORY, CLOSED, NO_TEXT = 0, 14, 32, 34

STANDARD = {"shards": 1, "work": 2, "invalidate": 1000, "pend": 100, "nodes": 256, "storages": 4_096}

# The greatest value of each option. The least is 1, or 0 for those of `FROM_0`.
GREATEST = {"shards": 64, "workers": 16, "work": 1_000, "invalidate": 1_000_000, "pend": 1_000_000}
FROM_0 = dict.fromkeys(("first_round", "first_call", "secret"), 2**64 - 1)
OF_LIBRARY = {**GREATEST, "nodes": 65_536, "storages": 1_048_576, **FROM_0}


class Fault(Exception):
    """A line has no answer; the text is the reason. If the engine is the tool, the manager has
    ended and its state is lost."""


class OutOfMemory(Fault):
    """Memory was refused. The lines before were answered. If the engine is the library, this one
    changed nothing."""


class TooMuch(Fault):
    """The next lines are past the limit of the tool. They were not read."""


class TextOwed(Fault):
    """The line is answered, but memory was refused for the text of the answer. `Library.retry`
    makes it."""


def of_repository(path):
    """A built file of the repository, or None. A copy of this file in another folder has no
    repository: whatever happens to be in a folder near it is not run."""
    folder = Path(__file__).resolve().parent
    file = folder.parent.parent / path
    return file if folder.match("bindings/python") and file.exists() else None


def of_package():
    """The library of an installed package, or None. It is in the package's own folder."""
    file = Path(__file__).with_name("libpuljemrod.so")
    return file if Path(__file__).name == "__init__.py" and file.exists() else None


def named_library():
    """The library that the environment names, or the package's, or the repository's, or None."""
    return os.environ.get("PULJEMROD_LIBRARY") or of_package() or of_repository(LIBRARY)


def named(options, known):
    """The options, if each has a known name. The fault of another one has the nearest."""
    for name in options:
        if name not in known:
            nearest = difflib.get_close_matches(name.lower(), known, 1)
            raise TypeError(f"no option is called {name}; "
                            f"{''.join(f'do you mean {it}? ' for it in nearest)}"
                            f"There are {', '.join(known)}")
    return options


def checked(options, greatest):
    """The options, if the engine has each of them and it is a number in its range."""
    for name, value in named(options, greatest).items():
        if not isinstance(value, int) or isinstance(value, bool):
            raise TypeError(f"{name} is not a whole number: {value!r}")
        least = 0 if name in FROM_0 else 1
        if not least <= value <= greatest[name]:
            raise Fault(f"{name} is outside its range, {least:,} to {greatest[name]:,}: {value}")
    return options


def one_step(call):
    """Makes a call on an engine one step: other threads wait until it has ended. A signal handler
    that runs in the middle of a call cannot wait for it."""

    @functools.wraps(call)
    def step(self, *words):
        with self.owner:
            if self.turn.locked():
                raise Fault("a signal handler cannot call a manager in the middle of a call")
            with self.turn:
                return call(self, *words)

    return step


class Engine:
    """What answers lines, one call at a time."""

    def __init__(self):
        self.owner, self.turn = threading.RLock(), threading.Lock()

    def __enter__(self):
        return self

    def __exit__(self, *_):
        self.close()


class Manager:
    """One block manager. Several threads may call it: each call is one step, so that a block of
    lines is answered with no other line between them, and the other threads wait.

    Its engine is the library, or the line tool as a child process. A path names the engine; without
    one it is the library if that is built, else the tool. `options` are those of the tool: shards,
    workers, work, invalidate, pend. The library also takes nodes and storages, the most that there
    may be at a time, and first_round, first_call and secret; it works with one thread.

    A call may be interrupted: Ctrl-C raises KeyboardInterrupt, or Python has no memory. Then the
    library has taken some first lines of the call, each as a whole, and goes on. The tool has
    taken all lines or none and goes on, or every later call raises a `Fault`."""

    def __init__(self, tool=None, library=None, **options):
        named(options, ("tool", "library", *OF_LIBRARY))
        if not tool and not library:
            library, tool = named_library(), of_repository(TOOL)
        if library:
            self.engine = Library(library, **options)
        elif tool:
            self.engine = Pipe(tool, options)
        else:
            raise Fault(NO_ENGINE)

    def line(self, text):
        """The answer to one line, both without a line end."""
        block = text.encode()
        if b"\n" in block:
            raise ValueError("a line contains no line feed")
        return self.engine.answer(block + b"\n").decode().removesuffix("\n")

    def lines(self, block):
        """The answers to a block of lines. Both are bytes, and each line ends with a line feed."""
        if block and not block.endswith(b"\n"):
            raise ValueError("the last line has no line feed")
        return self.engine.answer(block)

    def close(self):
        """Returns the memory. It may be called again."""
        self.engine.close()

    def __enter__(self):
        return self

    def __exit__(self, *_):
        self.close()


class Handle(ctypes.Structure):
    """`struct puljemrod`."""

    _fields_ = [("at", ctypes.c_void_p), ("is_open", ctypes.c_bool)]


class Options(ctypes.Structure):
    """`struct puljemrod_options`."""

    _fields_ = [
        *[(name, ctypes.c_uint32) for name in ("shards", "work", "invalidate", "pend")],
        *[(name, ctypes.c_uint64) for name in ("first_round", "first_call", "secret")],
        *[(name, ctypes.c_uint32) for name in ("nodes", "storages")],
    ]


def load(path):
    """The functions of the library with their types."""
    handle, size = ctypes.POINTER(Handle), ctypes.c_size_t
    types = {
        "version": [],
        "open": [handle, ctypes.POINTER(Options)],
        "line": [handle, ctypes.c_char_p, size, ctypes.POINTER(size)],
        "text": [handle, ctypes.POINTER(size)],
        "answer": [handle, size, ctypes.c_void_p, size],
        "calls": [handle, ctypes.POINTER(ctypes.c_uint64)],
        "close": [handle],
    }
    try:
        library = ctypes.CDLL(str(path))
        for name, arguments in types.items():
            function = getattr(library, f"puljemrod_{name}")
            function.argtypes = arguments
            function.restype = size if name == "answer" else ctypes.c_uint32
    except (OSError, AttributeError) as error:
        raise Fault(f"the library cannot be loaded: {error}") from None
    if version_of(library).split(".")[0] != __version__.split(".")[0]:
        raise Fault(f"the library has version {version_of(library)}, this file {__version__}")
    return library


def version_of(library):
    number = library.puljemrod_version()
    return f"{number // 1_000_000}.{number // 1_000 % 1_000}.{number % 1_000}"


def version(library=None):
    """The version of the library that `Manager(library=library)` calls, as "2.0.0"."""
    path = library or named_library()
    if not path:
        raise Fault(NO_ENGINE)
    return version_of(load(path))


class Library(Engine):
    """One block manager in this process. Several threads may call it: each call is one step.

    Options are shards, work, invalidate, pend, nodes, storages, first_round and first_call.
    `workers` is ignored, since the calling thread does all work. A `secret` is drawn if none is
    given: only the time of a call depends on it.

    An interrupt (KeyboardInterrupt, MemoryError) comes before or after a line, never within it. A
    line that was taken counts, and `retry` has its answer. `calls` shows whether it was taken, if
    it is an accepted event or round; any other line can be sent again."""

    def __init__(self, path, **options):
        super().__init__()
        options = {**STANDARD, "secret": secrets.randbits(64), **checked(options, OF_LIBRARY)}
        options.pop("workers", None)
        self.library, self.handle, self.len = load(path), Handle(), ctypes.c_size_t()
        code = self.library.puljemrod_open(self.handle, Options(**options))
        if code == MEMORY:
            raise OutOfMemory("no memory for a new manager")
        if code != OK:
            raise Fault(f"the library refuses the options: code {code}")

    @one_step
    def line(self, line):
        """The answer to one line, both bytes without a line end."""
        return self.answered(line)

    @one_step
    def answer(self, block):
        """The answers to whole lines. Both are bytes, and each line ends with a line feed. A fault
        has the answers before it in `answers`."""
        answers = []
        for line in block.split(b"\n")[:-1]:
            try:
                answers.append(self.answered(line) + b"\n")
            except Fault as fault:
                fault.answers = b"".join(answers)
                raise
        return b"".join(answers)

    @one_step
    def retry(self):
        """The answer to the last line that was taken, again or after `TextOwed`."""
        return self.text(self.library.puljemrod_text(self.handle, self.len))

    @one_step
    def calls(self):
        """The number of accepted events and rounds, counted from `first_call`. This is a call too,
        with an empty answer: ask `retry` first."""
        calls = ctypes.c_uint64()
        if self.library.puljemrod_calls(self.handle, calls) == CLOSED:
            raise Fault("the manager is closed")
        return calls.value

    @one_step
    def close(self):
        """Returns the memory. It may be called again."""
        self.library.puljemrod_close(self.handle)

    def answered(self, line):
        return self.text(self.library.puljemrod_line(self.handle, line, len(line), self.len))

    def text(self, code):
        if code == CLOSED:
            raise Fault("the manager is closed")
        if code == MEMORY:
            raise OutOfMemory("memory was refused; nothing is changed")
        if code == NO_TEXT:
            raise TextOwed("the line is answered; memory was refused for its text")
        text = ctypes.create_string_buffer(self.len.value)
        self.library.puljemrod_answer(self.handle, 0, text, self.len.value)
        return text.raw


class Pipe(Engine):
    """The line tool as a child process. It cannot go on past its limit, since its state would be
    lost: a block that would pass it raises `TooMuch`, and the lines before stay answered.

    An exception between the first byte written and the last one read ends it, and every later call
    raises a `Fault`. Otherwise the answers left in the pipe would be taken for those of the next
    lines."""

    def __init__(self, tool, options):
        super().__init__()
        checked(options, GREATEST)
        words = [word for name, value in options.items() for word in (f"--{name}", str(value))]
        self.errors = tempfile.TemporaryFile()
        try:
            # In a session of its own, so that Ctrl-C does not end it before its user.
            self.child = subprocess.Popen(
                [tool, *words], bufsize=0, stdin=subprocess.PIPE, stdout=subprocess.PIPE,
                stderr=self.errors, start_new_session=True,
            )
        except OSError as error:
            raise Fault(f"the tool cannot be started: {error}") from None
        os.set_blocking(self.child.stdin.fileno(), False)
        self.lines = self.bytes = 0
        # Why it has ended: the exception, and its text.
        self.ended = None

    @one_step
    def answer(self, block):
        if self.ended:
            self.refuse()
        lines, size = self.lines + block.count(b"\n"), self.bytes + len(block)
        if lines > MOST_LINES or size > MOST_BYTES:
            raise TooMuch(f"one run of the tool reads at most {MOST_LINES:,} lines and "
                          f"{MOST_BYTES:,} bytes")
        try:
            # From here to the last answer it counts as ended, whatever exception comes, and when.
            self.ended = Fault, "the manager has ended: a call was interrupted, and its state is lost"
            answers = self.exchange(block, lines - self.lines)
            self.lines, self.bytes, self.ended = lines, size, None
        except BaseException:
            if self.ended:
                self.end()
            raise
        return answers

    def exchange(self, block, left):
        """Writes lines and reads this number of answers."""
        source, target = self.child.stdout.fileno(), self.child.stdin.fileno()
        ready = select.poll()
        ready.register(source, select.POLLIN)
        ready.register(target, select.POLLOUT)
        rest, answers = memoryview(block), []
        # The tool reads no further until its answers are taken, so one loop serves both pipes.
        while left:
            for end, _ in ready.poll():
                if end == source:
                    piece = os.read(source, 1 << 20)
                    if not piece:
                        self.ended = self.fault()
                        self.refuse()
                    answers.append(piece)
                    left -= piece.count(b"\n")
                else:
                    try:
                        rest = rest[os.write(target, rest[: 1 << 16]):]
                    except BlockingIOError:
                        continue
                    except BrokenPipeError:
                        rest = rest[:0]
                    if not rest:
                        ready.unregister(target)
        return b"".join(answers)

    def refuse(self):
        kind, why = self.ended
        raise kind(why)

    def fault(self):
        """Why the tool ended of itself."""
        status = self.child.wait()
        self.errors.seek(0)
        text = self.errors.read().decode(errors="replace").strip()
        if MEMORY_FAULT in text:
            return OutOfMemory, text
        return Fault, text or f"the tool ended with status {status}"

    @one_step
    def close(self):
        """Ends the tool. It may be called again."""
        self.ended = Fault, "the manager is closed"
        self.end()

    def end(self):
        self.child.kill()
        self.child.wait()
        for stream in (self.child.stdin, self.child.stdout, self.errors):
            stream.close()
