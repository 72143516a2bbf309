"""Which lines are shown where a process with threads parts: those of one thread, and each with its thread.

The threads of a process are compared together, in the order of their lines, since it is that which differs where they act
at once. So a parting may have a line of one thread and one of another. For a reader the lines of one thread stand side
by side. Which thread of the other run it is tells what it does: the most calls that are the same from the first on.
"""

import itertools
from collections.abc import Iterator, Mapping, Sequence
from typing import NamedTuple

from support.call_logs import call_of
from support.runs import Line

from partings import Compared, Parting, agrees

# What the first thread of a process has in the place of its number.
FIRST = ""


class Sides(NamedTuple):
    """A line of each run, one of which may be missing, and what stands after each that tells its thread."""

    system: Line | None
    fdref: Line | None
    of_system: str = ""
    of_fdref: str = ""


def number_in(place: str) -> str:
    """The number of a thread in the place of a line of the system, as `-1@57`."""
    return place.partition("@")[0].removeprefix("-")


def told(thread: str) -> str:
    """Which thread it is, for a reader: the first one to make a call is 1."""
    return f" (thread {int(thread or 0) + 1})"


class Threads:
    """The calls of the threads of one process in both runs, and which of them belong together."""

    def __init__(self, compared: Compared, parting: Parting) -> None:
        self.compared = compared
        way = parting.way
        self.system = by_thread((number_in(line.place), line) for line in compared.system.calls.get(way, []))
        lines = compared.fdref.calls.get(way, [])
        places = {line.place for line in compared.lines}
        # a call that still waits has no line that tells its thread
        self.waiting = [line for line in lines if line.place not in places]
        known = (line for line in lines if line.place in places)
        self.fdref = by_thread((compared.threads.get(line.place, FIRST), line) for line in known)
        self.pairs = pairs(self.system, self.fdref)
        self.add_waiting()

    def add_waiting(self) -> None:
        """Gives a call that waits to the thread that makes it next on the system."""
        for line in self.waiting:
            nexts = ((one, other, self.system[one][len(self.fdref.get(other, [])) :][:1]) for one, other in self.pairs)
            found = [other for _, other, calls in nexts if calls and call_of(calls[0]) == call_of(line)]
            if found:
                self.fdref.setdefault(found[0], []).append(line)

    def are_several(self) -> bool:
        """Whether it has threads."""
        return len(self.system) > 1 or len(self.fdref) > 1

    def told_system(self, line: Line | None) -> str:
        """Which thread a line of the system is of."""
        return told(number_in(line.place)) if line and self.are_several() else ""

    def told_fdref(self, line: Line | None) -> str:
        """Which thread a line of fdref is of, by the number that it has on the system, where that is known."""
        names = {other: one for one, other in self.pairs}
        found = [thread for thread, lines in self.fdref.items() if any(it is line for it in lines)]
        return told(names[found[0]]) if found and found[0] in names and self.are_several() else ""

    def partings(self) -> Iterator[Sides]:
        """Where each thread parts first."""
        for one, other in self.pairs:
            both = itertools.zip_longest(self.system.get(one, []), self.fdref.get(other, []))
            found = next(((a, b) for a, b in both if not agrees(a, b)), None)
            if found:
                yield Sides(*found, told(one), told(one))


def by_thread(lines: Iterator[tuple[str, Line]]) -> dict[str, list[Line]]:
    """The calls of each thread, in their order."""
    found: dict[str, list[Line]] = {}
    for thread, line in lines:
        found.setdefault(thread, []).append(line)
    return found


def alike(system: Sequence[Line], fdref: Sequence[Line]) -> int:
    """How many calls are the same from the first on."""
    both = zip(system, fdref, strict=False)
    return sum(1 for _ in itertools.takewhile(lambda it: call_of(it[0]) == call_of(it[1]), both))


def pairs(system: Mapping[str, Sequence[Line]], fdref: Mapping[str, Sequence[Line]]) -> list[tuple[str, str]]:
    """Each thread of the system, and the one of fdref that makes the most calls alike, and after these the one of the
    same number. Where there is none left it has the number that no thread has there."""
    found: list[tuple[str, str]] = []
    left = dict(fdref)
    counts = {(one, other): alike(system[one], fdref[other]) for one in system for other in fdref}
    for one, other in sorted(counts, key=lambda it: (-counts[it], it[0] != it[1])):
        if other in left and one not in dict(found):
            found.append((one, other))
            del left[other]
    missing = [one for one in system if one not in dict(found)]
    return sorted([*found, *((one, f"{one} of none") for one in missing)])


def is_answer(sides: Sides) -> bool:
    """Whether both make the same call, and get other answers."""
    return sides.system is not None and sides.fdref is not None and call_of(sides.system) == call_of(sides.fdref)


def sides_of(compared: Compared, parting: Parting) -> Sides:
    """What is shown of a parting: where its process has threads the first lines of one thread that differ, those of one
    call before others."""
    threads = Threads(compared, parting)
    if not threads.are_several():
        return Sides(parting.system, parting.fdref)
    found = [*threads.partings()]
    if not found or is_of_one(threads, parting):
        of_both = threads.told_system(parting.system), threads.told_fdref(parting.fdref)
        return Sides(parting.system, parting.fdref, *of_both)
    return min(found, key=lambda it: (not is_answer(it), place_of(it)))


def is_of_one(threads: Threads, parting: Parting) -> bool:
    """Whether both lines of a parting are of one thread already."""
    one, other = threads.told_system(parting.system), threads.told_fdref(parting.fdref)
    return bool(one) and one == other


def place_of(sides: Sides) -> int:
    """Where fdref has it, or at last."""
    return int(sides.fdref.place) if sides.fdref and sides.fdref.place.isdigit() else 10**9
