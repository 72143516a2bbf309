#!/usr/bin/env python3
"""Does each wrong body change what stands in the code? (a few seconds)

usage: tests/wrong_bodies.py

Each edit in `crates/CRATE/must-fail`, in `tests/edits/CRATE` and in `tests/wrong_servers` has a file and pairs of an
old text and a new one; those of a wrong server may be of several files. The file has to be there, and each old text has
to stand in it exactly once, after the changes of the pairs before: the gate takes an edit that cannot be made for one
that the prover refused. The last line is `N passed, M failed`.
"""

import sys
from collections.abc import Iterator
from functools import partial
from pathlib import Path

from support.counting import Case, Count, require
from support.edits import changed, changes_in, lines_of
from support.places import CRATES, EDITS, TOP, WRONG_SERVERS


def can_be_made(edit: Path, crate: Path) -> None:
    """Fails unless an edit changes a file of a crate."""
    lines = lines_of(edit)
    require(sum(word == "file" for word, _ in lines) == 1, "it names no file, or several")
    changed(crate, changes_in(lines))


def can_be_built(edit: Path) -> None:
    """Fails unless the edit of a wrong server changes files of the tree, and names a test that is there."""
    (word, test), *lines = lines_of(edit)
    require(word == "test" and (TOP / "tests" / test.split()[0]).exists(), f"there is no test {test}")
    changed(TOP, changes_in(lines))


def cases() -> Iterator[Case]:
    """All edits."""
    for edit in sorted(CRATES.glob("*/must-fail/*.edit")):
        yield f"{edit.parents[1].name}: {edit.stem}", partial(can_be_made, edit, edit.parents[1])
    for edit in sorted(EDITS.glob("*/*.edit")):
        yield f"{edit.parent.name}: {edit.stem}", partial(can_be_made, edit, CRATES / edit.parent.name)
    for edit in sorted(WRONG_SERVERS.glob("*.edit")):
        yield f"wrong server: {edit.stem}", partial(can_be_built, edit)


def main() -> int:
    """Looks at all edits."""
    count = Count()
    count.check_all(cases())
    require(count.passed + count.failed, "there are no edits")
    return count.end()


if __name__ == "__main__":
    sys.exit(main())
