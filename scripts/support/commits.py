"""The commit that a figure is of."""

import subprocess
from pathlib import Path

TOP = Path(__file__).resolve().parents[2]


def said(*words):
    return subprocess.run(["git", *words], cwd=TOP, capture_output=True, text=True).stdout.strip()


def commit_here():
    """The commit of the work tree, with `-dirty` if a file was changed since, other than figures
    and their page."""
    changed = said("status", "--porcelain", "--", ".", ":!figures", ":!docs/FIGURES.md")
    commit = said("rev-parse", "--short=8", "HEAD") or "unknown"
    return f"{commit}-dirty" if changed else commit
