"""The changed definitions of crates/bm_base/definition-mutants, and the changed models of
model/mutants: edits of one name make the same change of a rule in both. The changed definitions of
snapshots are in crates/bm_saved/definition-mutants alone. The planted bugs of scripts/mutants: each
edit names the check that has to find it."""

import re
import sys

from checking import TOP, Failed, want
from comments import KEY

DEFINITIONS = TOP / "crates" / "bm_base"

SNAPSHOTS = TOP / "crates" / "bm_saved"

EDITS_OF_SNAPSHOTS = SNAPSHOTS / "definition-mutants"

MODEL = TOP / "model"

EDITS_OF_DEFINITIONS = DEFINITIONS / "definition-mutants"

EDITS_OF_MODEL = MODEL / "mutants"

PLANTED_BUGS = TOP / "scripts" / "mutants"


def names():
    """The names of the edits, sorted. Each edit has to be in both folders."""
    of_definitions = {path.stem for path in EDITS_OF_DEFINITIONS.glob("*.edit")}
    of_model = {path.stem for path in EDITS_OF_MODEL.glob("*.edit")}
    want(of_definitions == of_model, f"in one folder alone: {sorted(of_definitions ^ of_model)}")
    return sorted(of_definitions)


def names_of_snapshots():
    """The names of the edits of snapshots, sorted. None is one of the others."""
    found = {path.stem for path in EDITS_OF_SNAPSHOTS.glob("*.edit")}
    twice = found & {path.stem for path in EDITS_OF_DEFINITIONS.glob("*.edit")}
    want(not twice, f"in two crates: {sorted(twice)}")
    return sorted(found)


def is_named_mutant(path):
    """Whether the file is the edit of a mutant that ./check tries."""
    return path.suffix == ".edit" and "\nonly: " in f"\n{path.read_text()}"


def edited(edit, folder):
    """The changed texts of the files that an edit names, by their paths below the folder. In the
    edits of the model and in planted bugs `\\n` is the end of a line. A bad line is named by the
    edit's file and its number."""
    texts, path, old = {}, None, None
    for number, line in enumerate(edit.read_text().splitlines(), 1):
        key, _, text = line.partition(":")
        text, where = text.removeprefix(" "), f"{shown(edit)}:{number}"
        want(KEY.match(line) or line.startswith("# "), f"{where}: neither a line of an edit nor a remark: {line!r}")
        if edit.parent in (EDITS_OF_MODEL, PLANTED_BUGS):
            text = text.replace("\\n", "\n")
        if key == "file":
            path = text
            want((folder / path).is_file(), f"{where}: there is no file {path!r}")
            texts.setdefault(path, (folder / path).read_text())
        elif key == "old":
            want(path, f"{where}: no line `file:` comes before it")
            want(old is None, f"{where}: the `old:` before it has no `new:`")
            old, count = text, texts[path].count(text)
            want(count == 1, f"{where}: {old!r} occurs {count} times in {path}")
        elif key == "new":
            want(old is not None, f"{where}: no line `old:` comes before it")
            want(old != text, f"{where}: it changes nothing")
            texts[path], old = texts[path].replace(old, text), None
    want(path, f"{shown(edit)}: it has no line `file:`")
    want(old is None, f"{shown(edit)}: its last `old:` has no `new:`")
    return texts


def shown(edit):
    """The path of an edit as a message shows it."""
    return edit.relative_to(TOP) if edit.is_relative_to(TOP) else edit


def faults_of(edits, read):
    """What is wrong with edits that are read in this way, one fault for each."""
    for edit in edits:
        try:
            read(edit)
        except Failed as why:
            yield str(why)


def end_at_faults(edits, read):
    """Ends the program if an edit that is read in this way has a fault, and prints all faults."""
    if found := [*faults_of(edits, read)]:
        sys.exit("\n".join(found))


def finder(edit):
    """The script that has to find a planted bug, and the name of its check."""
    found = re.findall(r"^found by: (\S+): (.+)$", edit.read_text(), re.MULTILINE)
    want(len(found) == 1, f"{shown(edit)}: {len(found)} lines `found by: SCRIPT: CHECK`")
    return found[0]
