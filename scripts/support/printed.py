"""What `scripts/clauses` prints, which is checked as a page in the folder of its crate."""

import functools
import re
import subprocess

from checking import TOP, want


class Printed:
    """The page of a crate, or without a crate the functions of all crates. It is printed when it is
    read."""

    def __init__(self, *crate):
        self.words = ["scripts/clauses", *crate]
        self.name, self.parent = " ".join(self.words), TOP.joinpath("crates", *crate)

    @functools.cached_property
    def text(self):
        return subprocess.run(self.words, cwd=TOP, capture_output=True, text=True, check=True).stdout

    def read_text(self):
        return self.text


def printed_pages():
    """What is printed of all crates, and the page of each of these."""
    whole = Printed()
    crates = re.findall(r"^## (\w+)$", whole.text, re.MULTILINE)
    want(len(crates) > 30, f"scripts/clauses has {len(crates)} crates")
    return whole, [Printed(it) for it in crates]


def name_of(page):
    return page.name if isinstance(page, Printed) else str(page.relative_to(TOP))
