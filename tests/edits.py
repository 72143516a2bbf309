#!/usr/bin/env python3
"""Does the prover refuse those wrong edits of the code that the gate has no time to try? (hours)

usage: tests/edits.py [--tenth SEED] [CRATE ..]
       tests/edits.py --list [CRATE ..]

An edit is a file that names a file of a crate, an old text in it and a new one in its place, with which the crate must
not be proved. The gate tries those in `crates/CRATE/must-fail`. This tries those in `tests/edits/CRATE`, of the crates
that are named or of all, in a copy of the tree, with what was proved there before; else the crates below are proved
first, which takes half an hour and more. The last line is `N passed, M failed`.

With `--tenth SEED` it tries one in ten of those in `tests/edits`, of the crates that are named or of all, and prints
first which. The choice follows from the seed, which is any word, and from the names of these edits alone.

With `--list` nothing is tried. It prints a line for each edit of both folders: the crate, `gate` or `here` for who
tries it, its name, the file, and the old and the new text, which are cut short where they are long.
"""

import argparse
import random
import re
import shutil
import subprocess
import sys
import tempfile
from collections.abc import Iterator, Sequence
from pathlib import Path
from typing import NamedTuple

from support.counting import Count
from support.edits import Change, changes_in, lines_of
from support.places import CRATES, EDITS, TOP

TEXT_MOST = 60
TENTH = 10


class Edit(NamedTuple):
    """An edit: its file, its crate, what it changes, and whether the gate tries it."""

    path: Path
    crate: str
    changes: list[Change]
    is_of_gate: bool

    def line(self) -> str:
        """What the list says of it."""
        changes = "; ".join(f"{shortened(change.old)} -> {shortened(change.new)}" for change in self.changes)
        who, name = "gate" if self.is_of_gate else "here", self.path.stem.replace("_", " ")
        return f"{self.crate}  {who}  {name}  {self.changes[0].file}: {changes}"


def shortened(text: str) -> str:
    """A text of an edit, cut in the middle where it is long."""
    text = text.strip()
    return text if len(text) <= TEXT_MOST else f"{text[: TEXT_MOST - 23]} .. {text[-19:]}"


def edit_of(path: Path, is_of_gate: bool) -> Edit:
    """The edit that a file holds."""
    return Edit(path, path.parents[1 if is_of_gate else 0].name, changes_in(lines_of(path)), is_of_gate)


def of_gate(crate: str) -> list[Edit]:
    """The edits of a crate that the gate tries."""
    return [edit_of(path, True) for path in sorted((CRATES / crate / "must-fail").glob("*.edit"))]


def of_this(crate: str) -> list[Edit]:
    """The edits of a crate that this tries."""
    return [edit_of(path, False) for path in sorted((EDITS / crate).glob("*.edit"))]


def crates_with_edits() -> list[str]:
    """The names of the crates that have edits, in either folder."""
    return sorted({path.parents[1].name for path in CRATES.glob("*/must-fail/*.edit")} | set(crates_of_this()))


def crates_of_this() -> list[str]:
    """The names of the crates that have edits in tests/edits."""
    return sorted(path.name for path in EDITS.iterdir())


def listed(crates: Sequence[str]) -> Iterator[str]:
    """The lines of the list."""
    for crate in crates:
        yield from (edit.line() for edit in of_gate(crate) + of_this(crate))


def tenth(seed: str, edits: Sequence[Edit]) -> list[Edit]:
    """One in ten of these edits, rounded up, in their order."""
    names = sorted(f"{edit.crate} {edit.path.stem}" for edit in edits)
    chosen = set(random.Random(seed).sample(names, -(-len(names) // TENTH)))
    return [edit for edit in edits if f"{edit.crate} {edit.path.stem}" in chosen]


def copy_of_the_tree(folder: Path) -> None:
    """The crates and what names them, as a repository of its own."""
    for name in ("crates.txt", "HANDLES"):
        shutil.copy(TOP / name, folder)
    shutil.copytree(CRATES, folder / "crates")
    subprocess.run(["git", "init", "-q", folder], check=True)


def refused(folder: Path, crate: str, edits: Sequence[Edit]) -> int:
    """How many of these edits of a crate were refused; what was said of the others is printed."""
    place = folder / "crates" / crate / "must-fail"
    shutil.rmtree(place, ignore_errors=True)
    place.mkdir()
    for edit in edits:
        shutil.copy(edit.path, place)
    ran = subprocess.run(["rt", "must-fail", crate], cwd=folder, capture_output=True, text=True, check=False)
    lines = [line for line in ran.stdout.splitlines() if f"must-fail {crate}/" in line]
    right = [line for line in lines if re.search(r"\.edit: refused, as it must be", line)]
    for line in lines:
        if line not in right:
            print(line)
    if not lines:
        print(ran.stdout[-2_000:] + ran.stderr[-2_000:])
    return len(right)


def tried(edits: Sequence[Edit]) -> int:
    """Tries edits, those of a crate together: the exit status."""
    count = Count()
    with tempfile.TemporaryDirectory(prefix="fdref-edits-") as name:
        folder = Path(name)
        copy_of_the_tree(folder)
        for crate in dict.fromkeys(edit.crate for edit in edits):
            those = [edit for edit in edits if edit.crate == crate]
            right = refused(folder, crate, those)
            print(f"{crate}: {right} of {len(those)} edits refused", flush=True)
            count.add(right, len(those) - right)
    return count.end()


def main(words: Sequence[str]) -> int:
    """Tries edits, or lists them: the exit status."""
    parser = argparse.ArgumentParser(description="Tries the edits for which the gate has no time.")
    how = parser.add_mutually_exclusive_group()
    how.add_argument("--list", action="store_true", help="print a line for each edit, also of the gate's, and try none")
    how.add_argument("--tenth", metavar="SEED", help="try one in ten of the edits in tests/edits, as any word chooses")
    parser.add_argument("crate", nargs="*", metavar="CRATE", help="a crate that has edits")
    args = parser.parse_args(words)
    known, where = (crates_with_edits(), "") if args.list else (crates_of_this(), " in tests/edits")
    for crate in args.crate:
        if crate not in known:
            parser.error(f"{crate} has no edits{where}")
    crates = args.crate or known
    if args.list:
        for line in listed(crates):
            print(line)
        return 0
    edits = [edit for crate in crates for edit in of_this(crate)]
    if args.tenth is not None:
        edits = tenth(args.tenth, edits)
        print(f"of seed {args.tenth}:", *(f"{edit.crate}/{edit.path.name}" for edit in edits), sep="\n", flush=True)
    return tried(edits)


if __name__ == "__main__":
    sys.exit(main(sys.argv[1:]))
