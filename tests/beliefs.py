#!/usr/bin/env python3
"""Is what you must believe one list, which rests on nothing else? (a second)

usage: tests/beliefs.py

The definitions that a reader must believe are the files of `crates/*/specs` outside the folders `Proved`. None of them
uses a file of such a folder. The table of docs/PROOFS.md has each crate with definitions in one row, and how many
lines these have, without comments, empty lines and imports.

Contracts also speak through the code: what a type is seen as is the ghosts `Value` and `view` of its `Model`, and what
a kernel, a sink or a source says is the ghosts of its implementation. None of them names a definition of a folder
`Proved`; only an `invariant` may. What the implementations say that touch the system, or are asked by many threads, is
listed here word by word: nothing proves that.

The last line is `N passed, M failed`.
"""

import re
import sys
from collections.abc import Sequence
from functools import partial
from pathlib import Path

from support.counting import Count, require, same
from support.meanings import Ghost, ghosts
from support.places import TOP

PAGE = TOP / "docs" / "PROOFS.md"
CRATES = TOP / "crates"
PROVED = "Proved"
# Files that only say which files there are.
NODES = {"Lib.antt", f"{PROVED}.antt"}
ROW = re.compile(r"\| (?P<what>[^|]+) \| (?P<crates>`[^|]+`) \| (?P<lines>[\d,]+) \|")
IMPORT = re.compile(r"Rattle\.\w+\.specs\.Proved\b[\w.]*")
UNCOUNTED = re.compile(r"\s*(--|(pub )?use |$)")

# The crates whose implementations touch the system or are asked by many threads, the traits of others that say nothing
# of that, and what the implementations say.
OUTER_CRATES = {"fdref", "session_core", "system_lock", "trace_writer"}
OTHER_TRAITS = {"Model", "From", "Promise", "Takes"}
SAID = """
fdref Listener.accepted: λ listener. listener.accepted
fdref Listener.coming: λ _. None
fdref Listener.failures: λ listener. listener.failures
fdref Sockets.coming_at: λ _ _. None
fdref Sockets.is_unheard: λ _ _. ⊤
fdref SystemFiles.bytes_at: λ _ _. None
fdref SystemFiles.is_taken: λ _ _. ⊤
fdref SystemFiles.is_unmade: λ _ _. ⊤
fdref TraceFile.contents: λ s. s.file.contents
fdref TraceFile.failures: λ s. s.failures
fdref TraceFile.is_sound: λ s. true
fdref TraceFile.is_synced: λ s. s.is_synced
session_core Brand.base: None
session_core Brand.ring: None
session_core Helper.rings: λ h. h.rings
session_core MemoryReader.remaining: λ r. Some r.rest
session_core MemoryWriter.contents: λ w. Some w.bytes
session_core MemoryWriter.was_shut: λ _. Unit {0}
session_core SystemThreads.failures: λ s. s
session_core UnixStream.was_shut: λ _. Unit {0}
system_lock Front.as_front: λ f. f
system_lock InRun.as_seat: λ s. s
system_lock OneBook.marks: λ _ _. ⊤
system_lock OneBook.says: λ _. anything
system_lock SystemLock.marks: λ mark process. mark ≡ marked_by_watch process
system_lock SystemLock.says: said_under L.limits
system_lock Unlimited.book: L.book
system_lock Unlimited.limits: None
system_lock Unlimited.names: L.names
trace_writer MemorySink.contents: λ s. Some s.bytes
trace_writer MemorySink.failures: λ s. s.failures
trace_writer MemorySink.is_sound: λ s. true
trace_writer MemorySink.is_synced: λ s. s.is_synced
"""


def definitions() -> dict[str, list[Path]]:
    """The files that must be believed, by their crates."""
    found: dict[str, list[Path]] = {}
    for file in sorted(CRATES.glob("*/specs/*.antt")):
        if file.name not in NODES:
            found.setdefault(file.parts[-3], []).append(file)
    return found


def lines(files: list[Path]) -> int:
    """How many lines of files are no comment, no import and not empty."""
    return sum(not UNCOUNTED.match(line) for file in files for line in file.read_text().splitlines())


def rests_on_itself(file: Path) -> None:
    """Fails if a definition uses one that is in a folder of what is proved."""
    used = IMPORT.search(re.sub(r"--[^\n]*", "", file.read_text()))
    require(used is None, f"it uses {used and used[0]}")


def is_in_one_row(crate: str, rows: list[re.Match[str]]) -> None:
    """Fails unless one row of the table has a crate."""
    count = sum(f"`{crate}`" in row["crates"] for row in rows)
    same(1, count)


def has_its_lines(row: re.Match[str], files: dict[str, list[Path]]) -> None:
    """Fails unless a row tells the lines of its crates."""
    crates = re.findall(r"`(\w+)`", row["crates"])
    same(sum(lines(files.get(crate, [])) for crate in crates), int(row["lines"].replace(",", "")))


def table(text: str) -> dict[str, str]:
    """The rows of a table, by what stands before the colon."""
    return dict(line.split(": ", 1) for line in text.strip().splitlines())


def names_nothing_proved(ghost: Ghost) -> None:
    """Fails if a ghost names what a folder of what is proved defines."""
    require(not ghost.proved, f"it names {', '.join(ghost.proved)}")


def said(all_ghosts: Sequence[Ghost]) -> dict[str, str]:
    """What the implementations say that touch the system or are asked by many threads."""
    return {
        f"{ghost.owner()}.{ghost.name}": ghost.body
        for ghost in all_ghosts
        if ghost.crate in OUTER_CRATES and ghost.of_type and ghost.trait not in OTHER_TRAITS
    }


def check_table(count: Count, wanted: dict[str, str], given: dict[str, str]) -> None:
    """Each row of a table is as it is in the code, and there are no others."""
    for name in sorted(wanted.keys() | given.keys()):
        count.check(name, partial(same, wanted.get(name, "nothing"), given.get(name, "nothing")))


def main() -> int:
    """Makes all checks: the exit status."""
    all_ghosts = ghosts()
    count = Count()
    files = definitions()
    rows = list(ROW.finditer(PAGE.read_text()))
    for crate, those in files.items():
        for file in those:
            count.check(str(file.relative_to(TOP)), partial(rests_on_itself, file))
        count.check(f"a row for {crate}", partial(is_in_one_row, crate, rows))
    for row in rows:
        count.check(f"lines of {row['crates']}", partial(has_its_lines, row, files))
    for ghost in all_ghosts:
        count.check(f"{ghost.owner()} says {ghost.name}", partial(names_nothing_proved, ghost))
    check_table(count, table(SAID), said(all_ghosts))
    return count.end()


if __name__ == "__main__":
    sys.exit(main())
