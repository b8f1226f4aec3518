"""Functions that the checks on built programs share."""

import contextlib
import functools
import os
import re
import runpy
import shutil
import subprocess
import sys
import tempfile
from pathlib import Path

TOP = Path(__file__).resolve().parents[2]

EXAMPLES = TOP / "examples"

# The line tool with one shard and one worker, with fewer workers than shards, and with more: no
# answer depends on it.
SHARDS_AND_WORKERS = [
    ["--shards", "1", "--workers", "1"],
    ["--shards", "3", "--workers", "2"],
    ["--shards", "5", "--workers", "4"],
    ["--shards", "2", "--workers", "16"],
]


class Failed(Exception):
    """A check found something wrong; the text is the reason."""


def announce(text):
    """Says on standard error what takes long, before it begins."""
    print(text, file=sys.stderr, flush=True)


def want(is_so, why):
    if not is_so:
        raise Failed(why)


def code_blocks(page):
    """The blocks of a page's text that are indented by four columns."""
    blocks = re.findall(r"(?:^    .*\n)+", page, re.MULTILINE)
    return [re.sub(r"^    ", "", block, flags=re.MULTILINE) for block in blocks]


def block_that_begins(page, start):
    found = [block for block in code_blocks(page) if block.startswith(start)]
    want(len(found) == 1, f"{len(found)} blocks begin with {start!r}")
    return found[0]


def python_with(module):
    """The path of a Python that can import a module: this one, or Debian's. None if neither can."""
    for path in filter(None, map(shutil.which, (sys.executable, "/usr/bin/python3"))):
        if subprocess.run([path, "-c", f"import {module}"], stderr=subprocess.DEVNULL).returncode == 0:
            return path
    return None


class Report:
    """Prints a line for each check, and at the end how many passed, failed and were skipped. With
    the environment variable CHECKS_ONLY only checks whose name contains its text count."""

    def __init__(self):
        self.passed = 0
        self.failed = 0
        self.skipped = 0
        self.only = os.environ.get("CHECKS_ONLY", "")

    def check(self, name, body, *arguments):
        if self.only not in name:
            return
        try:
            body(*arguments)
        except Exception as error:
            self.failed += 1
            why = str(error) if isinstance(error, Failed) else repr(error)
            print(f"FAILED {name}: {why}", flush=True)
        else:
            self.passed += 1
            print(f"passed {name}", flush=True)

    def skip(self, name, why):
        if self.only not in name:
            return
        self.skipped += 1
        print(f"skipped {name}: {why}", flush=True)

    def end(self):
        skipped = f", {self.skipped} skipped" if self.skipped else ""
        print(f"{self.passed} passed, {self.failed} failed{skipped}")
        sys.exit(1 if self.failed else 0)


def uses_in(path):
    """The dependencies that a file as crates.txt lists, by the names of those that have them."""
    lines = [line.split(":") for line in path.read_text().splitlines() if line and not line.startswith("#")]
    return {head.split()[0]: uses.split() for head, uses in lines}


USES = uses_in(TOP / "crates.txt")


def below_crate(crate):
    """The crates of this repository below a crate, each after those that it uses."""
    found = []
    for it in USES[crate]:
        if it in USES:
            found += [name for name in [*below_crate(it), it] if name not in found]
    return found


def sources(crate):
    return [path for it in [*below_crate(crate), crate] for path in (TOP / "crates" / it / "src").rglob("*.rt")]


@functools.cache
def program(crate):
    """The path of the program of a crate, which is built only if it is missing. One that was built
    from other sources would be checked in vain, so it fails."""
    path = TOP / "crates" / crate / "out" / crate
    if not path.exists():
        announce(f"{crate} is not built: proves and builds it first")
        quiet = dict.fromkeys(["stdin", "stdout", "stderr"], subprocess.DEVNULL)
        subprocess.run(["rt", "run"], cwd=TOP / "crates" / crate, **quiet)
    why = why_outdated(crate, path) if path.exists() else "it cannot be built"
    if why:
        end_without_program(crate, why)
    return str(path)


def end_without_program(name, why):
    print(f"FAILED program of {name}: {why}")
    print("0 passed, 1 failed")
    sys.exit(1)


def why_outdated(crate, path):
    """Why a program is not of the sources, or None. If `./puljemrod build` left a stamp of this
    program, the sums of the stamp decide. Otherwise, as after `rt ci`, no source may be newer."""
    script = runpy.run_path(str(TOP / "puljemrod"))
    state = script["state_of"](crate)
    if state != script["NOT_BUILT"]:
        return None if state == script["CURRENT"] else f"{state}: see ./puljemrod build"
    newest = max(sources(crate), key=lambda it: it.stat().st_mtime)
    is_newer = newest.stat().st_mtime > path.stat().st_mtime
    return f"it was built before {newest.relative_to(TOP)} changed: see ./puljemrod build" if is_newer else None


@functools.cache
def toolchain():
    """The folder of the toolchain."""
    return Path(ended_well(["rt", "doc"]).decode().strip()).parent


def libraries_below(crate):
    """The libraries of this repository below a crate, as `rt ci` builds them, by their names."""
    return {it: TOP / "crates" / it / "out/rlib" / f"{it}.rlib" for it in below_crate(crate)}


def words_of_library(crate):
    """The words by which the prover reads a library of this repository in the current folder, over
    the built libraries below it."""
    kit, below = toolchain(), libraries_below(crate)
    words = ["--crate-name", crate, "src/lib.rt"]
    for name in ["std", *USES[crate]]:
        words += ["--extern", f"{name}={below.get(name, kit / f'rlibs/{name}.rlib')}"]
    for path in [kit / "rlibs", *(it.parent for it in below.values())]:
        words += ["-L", f"dependency={path}"]
    return [*words, "--antt-project", kit / "rattle/logic/antt-project.json", "--links", f"{crate}="]


def words_of_proof(jobs):
    return ["--logic-built", toolchain() / "logic_built", "--jobs", jobs]


def copied_crate(crate, folder):
    """Copies what is proved of a crate into an empty folder."""
    for part in ("src", "specs", "proofs"):
        if (TOP / "crates" / crate / part).is_dir():
            shutil.copytree(TOP / "crates" / crate / part, Path(folder) / part)


def proof_of_functions(crate, functions, folder):
    """The ended proof of these functions alone, of a crate in this folder, over the built
    libraries."""
    only = [word for it in functions for word in ("--only", it)]
    words = [toolchain() / "bin/rattle", "check", *words_of_library(crate), *words_of_proof(1), *only]
    both = {"stdout": subprocess.PIPE, "stderr": subprocess.STDOUT, "text": True, "errors": "replace"}
    return subprocess.run([*map(str, words)], cwd=folder, stdin=subprocess.DEVNULL, timeout=1800, **both)


def unproved_goals(function, output):
    """The goals of a function that the prover reports as not proved. Functions that call each other
    have one folder of proofs, `+NAME`."""
    searched = re.findall(rf"^fn \S+::{re.escape(function)}: no proof: .*`search` did not prove (.*)$", output, re.MULTILINE)
    module, _, name = re.escape(function.replace("::", "/")).rpartition("/")
    folder = rf"\./proofs/{module}/(?:{name}|\+\w+)"
    answered = re.findall(rf"^{folder}/\w+\.antt:\d+:\d+: error: (`\S+`)", output, re.MULTILINE)
    return re.findall(r"`(\S+?)`", " ".join([*searched, *answered]))


def ended_well(command, folder=TOP):
    ended = subprocess.run([*map(str, command)], cwd=folder, capture_output=True, timeout=3600)
    want(ended.returncode == 0, f"{command[:2]} ends with {ended.returncode}: {ended.stdout[-500:]!r}, {ended.stderr[-500:]!r}")
    return ended.stdout


def library(compiler="llvm", crate="puljemrod"):
    """The static library by one of the two compilers, `llvm` or `rattle`.

    After an `rt ci` that left the libraries below it without stamps, `rt lib` would prove all of
    them again. Then it is built over the libraries that are there, from the checked crate in `out/`
    at the top. `rt ci` keeps none of a static library. So the crate is proved if there is none, or
    if the compiler finds that something which the proof read has changed."""
    folder = TOP / "crates" / crate
    made = folder / "out" / f"lib{crate}.a"
    made.parent.mkdir(exist_ok=True)
    announce(f"lib{crate}.a: builds it first by {compiler}, and proves what has changed below it")
    below = libraries_below(crate).values()
    if not all(it.is_dir() for it in below) or any((it.parent / "stamp").exists() for it in below):
        ended_well(["rt", "lib", "--backend", compiler], folder)
        return made
    rattle, checked = toolchain() / "bin/rattle", TOP / "out" / crate
    words = [*words_of_library(crate), "--crate-type", "staticlib"]
    build = [rattle, "build", *words, "--crate-checked", checked, "--toolchain", toolchain() / "toolchain"]
    build += ["--backend", compiler, "-o", made]
    if not checked.exists() or subprocess.run(build, cwd=folder, capture_output=True).returncode != 0:
        checked.parent.mkdir(exist_ok=True)
        jobs = len(os.sched_getaffinity(0))
        ended_well([rattle, "check", *words, *words_of_proof(jobs), "-o", checked], folder)
        ended_well(build, folder)
    return made


def archive():
    """The static library, which is proved and built only if it is missing or outdated."""
    path = TOP / "crates/puljemrod/out/libpuljemrod.a"
    return path if path.exists() and not why_outdated("puljemrod", path) else library()


@contextlib.contextmanager
def without_secret():
    """The words before a command of the tool that make its tables hash without a secret."""
    with tempfile.TemporaryDirectory() as folder:
        made, source = f"{folder}/no_randomness.so", Path(__file__).with_name("no_randomness.c")
        ended_well(["cc", "-shared", "-fPIC", "-O2", "-o", made, source])
        yield ["env", f"LD_PRELOAD={made}"]


def chosen_numbers(*words):
    """Numbers that share groups of a table without a secret. The words are those of
    chosen_numbers.c."""
    with tempfile.TemporaryDirectory() as folder:
        path = os.path.join(folder, "chosen_numbers")
        source = Path(__file__).with_name("chosen_numbers.c")
        subprocess.run(["cc", "-O2", "-o", path, str(source)], check=True)
        ended = subprocess.run([path, *map(str, words)], capture_output=True, check=True)
    return [int(line) for line in ended.stdout.split()]


def cluster_command(word):
    """The words that start the program for clusters: `import`, `report`, `what-if` or
    `simulate`."""
    return [program("puljemrod_cluster"), word]


class Watch:
    """Runs programs with a library of this folder in front of the C library. It writes to the file
    that the variable names."""

    def __init__(self, name, variable):
        self.folder = tempfile.TemporaryDirectory()
        self.library = os.path.join(self.folder.name, f"{name}.so")
        self.log = os.path.join(self.folder.name, "log")
        self.variable = variable
        source = Path(__file__).with_name(f"{name}.c")
        subprocess.run(
            ["cc", "-shared", "-fPIC", "-O2", "-o", self.library, str(source)], check=True
        )

    def run(self, command, stdin=subprocess.DEVNULL, timeout=60, **settings):
        """Runs a command; returns the ended process, and the lines of the log, each a list of
        words."""
        Path(self.log).write_text("")
        words = {**os.environ, "LD_PRELOAD": self.library, self.variable: self.log}
        words.update((name, str(value)) for name, value in settings.items())
        ended = subprocess.run(
            command, stdin=stdin, capture_output=True, env=words, timeout=timeout
        )
        return ended, [line.split() for line in Path(self.log).read_text().splitlines()]


class MemoryWatch(Watch):
    """Runs programs with memory_watch.c in front of the allocator."""

    def __init__(self):
        super().__init__("memory_watch", "MEMORY_LOG")


class ThreadWatch(Watch):
    """Runs programs with thread_watch.c in front of the functions that make threads."""

    def __init__(self):
        super().__init__("thread_watch", "THREAD_LOG")


class StreamWatch(Watch):
    """Runs programs with stream_watch.c in front of the reads and writes of the standard
    streams."""

    def __init__(self):
        super().__init__("stream_watch", "STREAM_LOG")
