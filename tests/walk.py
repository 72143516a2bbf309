#!/usr/bin/env python3
"""How far does one call walk from its bytes to its answer, and is that no further than it was? (a few seconds)

usage: tests/walk.py [--list]

Counted are the functions, the files and the depth, by the shortest way, of one pwrite from `replay` to its line, and of
one write through `serve`, in the sources of all crates but those of tests. The graph is built by names, as
tests/support/call_graph.py says: it has calls that are not made, and none that is hidden in the kit's crates. Of other
calls it leaves out the arms of matches and the functions that are named after them.

Each count is held at the most that it was, so that a walk grows only where the number here is changed. Functions that
docs/ARCHITECTURE.md names have to be met: a walk that is lost on its way is not a short one. With --list all functions
are printed, each after its depth. The last line is `N passed, M failed`.
"""

import argparse
import sys
from collections.abc import Iterator, Sequence
from functools import partial
from typing import NamedTuple

from support.call_graph import Function, Graph
from support.counting import Case, Count, require, same
from support.plain_model import CALLS

# Functions that are named after a call.
NAMED_AFTER = ("{}_call", "{}_fields", "{}_fault", "put_{}", "decide_{}")


class Most(NamedTuple):
    """How many functions, files and levels there are at the most."""

    functions: int
    files: int
    depth: int


class Walk(NamedTuple):
    """A walk: its call, where it begins, the variants that its values have, its counts, and whom it has to meet."""

    call: str
    file: str
    root: str
    facts: dict[str, str]
    most: Most
    met: str


WALKS = (
    Walk(
        "pwrite",
        "job_core/src/replay.rt",
        "replay",
        {"Call": "Pwrite", "Act": "Call", "ScriptAct": "Call", "FileEdit": "Bytes", "Spelling": "Plain"},
        Most(411, 80, 22),
        "read_text run_script gather_lines run_all next_act read_act pwrite_call run_next run_act run_call "
        "call_refusal decide_call decide_pwrite opened pwrite_fault puts append reserve_for "
        "bytes_moved push apply write_bytes write put_line write_record put_pwrite put_outcome write_totals "
        "write_lines",
    ),
    Walk(
        "write",
        "session_core/src/serve.rt",
        "serve",
        {"Call": "Write", "Act": "Call", "Request": "Call", "FileEdit": "Bytes"},
        Most(674, 118, 26),
        "pump pump_on feed push_all end_of_piece attend take_ready take_calls take_at call_at call start wake_stirred "
        "put_recorded encode_recorded send_ready flush wait_out wait_once finish close_session hang_up",
    ),
)


def functions_of(graph: Graph, walk: Walk) -> dict[Function, int]:
    """The functions of a walk, with their depths."""
    others = {form.format(word) for form in NAMED_AFTER for word in CALLS if word != walk.call}
    return graph.walk(graph.root(walk.file, walk.root), walk.facts, others)


def counted(found: dict[Function, int]) -> Most:
    """The counts of a walk."""
    return Most(len(found), len({it.file for it in found}), max(found.values()))


def is_at_most(most: Most, given: Most) -> None:
    """Fails where a count is above its most."""
    for name, one, other in zip(most._fields, most, given, strict=True):
        require(other <= one, f"{other} {name}, and there were {one}")


def meets(found: dict[Function, int], names: Sequence[str]) -> None:
    """Fails unless each of these functions is met."""
    missed = sorted(set(names) - {it.name for it in found})
    require(not missed, f"not met: {', '.join(missed)}")


def is_cut(found: dict[Function, int], call: str) -> None:
    """Fails where a page of another call is met."""
    pages = {it.name for it in found} & {f"decide_{word}" for word in CALLS}
    same({f"decide_{call}"}, pages)


def cases(walk: Walk, found: dict[Function, int]) -> Iterator[Case]:
    """The checks of a walk."""
    yield f"{walk.root} of a {walk.call}", partial(is_at_most, walk.most, counted(found))
    yield f"whom {walk.root} of a {walk.call} meets", partial(meets, found, walk.met.split())
    yield f"pages that {walk.root} of a {walk.call} meets", partial(is_cut, found, walk.call)


def main(words: Sequence[str]) -> int:
    """Makes all checks: the exit status."""
    parser = argparse.ArgumentParser(description="Counts how far a call walks.")
    parser.add_argument("--list", action="store_true", help="print the functions of each walk, with their depths")
    args = parser.parse_args(words)
    graph, count = Graph(), Count()
    for walk in WALKS:
        found = functions_of(graph, walk)
        given = counted(found)
        text = f"{given.functions} functions in {given.files} files, {given.depth} deep"
        print(f"{walk.call}, from {walk.root}: {text}")
        for it, depth in sorted(found.items(), key=lambda entry: (entry[1], entry[0])) if args.list else ():
            print(f"{depth:4} {it.text()}")
        count.check_all(cases(walk, found))
    return count.end()


if __name__ == "__main__":
    sys.exit(main(sys.argv[1:]))
