"""Starts the programs fuzz_binding.py and fuzz_python.py, which need hypothesis."""

import subprocess
from pathlib import Path

from checking import python_with, want


def ends_so(command, finds):
    ended = subprocess.run([*map(str, command)], capture_output=True, text=True, timeout=1800)
    printed = f"{ended.stdout[-4000:]}{ended.stderr[-2000:]}"
    want((ended.returncode == 0) == (not finds), f"status {ended.returncode}\n{printed}")
    want(all(it in printed for it in finds), f"it prints another difference: {printed}")


def check_by_fuzz(report, name, program, *words, finds=()):
    """Runs a program of this folder with these words. It finds no difference, or one that it prints
    with these texts. The check is skipped if there is no hypothesis."""
    python = python_with("hypothesis")
    if python:
        report.check(name, ends_so, [python, "-B", Path(__file__).with_name(program), *words], finds)
    else:
        report.skip(name, "there is no hypothesis (python3-hypothesis)")
