"""Logs of calls, as the shim writes them: the calls of each process in its order, whatever its number is.

A line tells a call and the answer that ended it. Who came and went is not in a log, but for the forks. A native one may
also have a line of a wait that told which child had ended, which is no call of fdref.
"""

import re
from collections.abc import Sequence
from typing import NamedTuple

from support.counting import Failure, require
from support.runs import Line, line_of

# A process by its way from the first one of its program: which child of which child it is. The program that is run has
# the ways from 0 on, and those that were started otherwise than by a fork have the ways from 1, 2 .. on.
Way = tuple[int, ...]
FIRST = 0
# The place, the process, the call and its answer.
CALL = re.compile(r"\S+ p\d+ [a-z]\w*(?: .*)? = .+")


def read_lines(text: bytes, log: str) -> list[Line]:
    """The whole lines of a log. Fails at one that tells no call, as where a wrong system mixes up what is appended."""
    lines = text.decode("ascii", "replace").split("\n")[:-1]
    for number, line in enumerate(lines, 1):
        require(CALL.fullmatch(line), f"line {number} of the log {log} is no call, but {line[:60]!r}")
    return [line_of(line) for line in lines]


def word_of(line: Line) -> str:
    """The word of a line's act."""
    return line.act.split(" ")[1]


def is_wait(line: Line) -> bool:
    """Whether it tells that a wait has told which child had ended."""
    return word_of(line) == "wait"


def call_of(line: Line) -> str:
    """A line's act without the number of the process."""
    return line.act.partition(" ")[2]


def without_threads(lines: Sequence[Line]) -> tuple[list[Line], dict[str, str]]:
    """The lines of a log of fdref with their places alone, and by these which thread of its process each is of, if that
    is not the first one to make a call."""
    found, threads = [], {}
    for line in lines:
        place, _, thread = line.place.partition("-")
        threads.update({place: thread} if place and thread else {})
        found.append(line._replace(place=place) if place else line)
    return found, threads


def ways_of(lines: list[Line]) -> dict[int, Way]:
    """The way to each process, by its number. Its parent's forks tell it, in their order."""
    forks = [line for line in lines if word_of(line) == "fork" and line.outcome.isdigit()]
    children = {int(line.outcome) for line in forks}
    # a child may be logged before the fork that made it
    roots = [number for number in dict.fromkeys(line.number() for line in lines) if number not in children]
    ways: dict[int, Way] = {FIRST: (0,)} if FIRST in roots else {}
    ways |= {number: (at,) for at, number in enumerate((it for it in roots if it != FIRST), 1)}
    counts: dict[int, int] = {}
    waiting = forks
    while waiting:
        line = next((it for it in waiting if it.number() in ways), None)
        if not line:
            raise Failure(f"{waiting[0].act} = {waiting[0].outcome} comes from itself")
        waiting.remove(line)
        parent = line.number()
        ways[int(line.outcome)] = (*ways[parent], counts.get(parent, 0))
        counts[parent] = counts.get(parent, 0) + 1
    return ways


class Log(NamedTuple):
    """A log: the calls of each process, by the way to it, and the number that each has."""

    calls: dict[Way, list[Line]]
    numbers: dict[Way, int]

    def total(self) -> int:
        """How many calls there are."""
        return sum(map(len, self.calls.values()))

    def of_first(self) -> "Log":
        """The part of it that is of the program that is run."""
        return self.of_ways([way for way in self.calls if way[0] == 0])

    def of_started(self) -> "Log":
        """The part of it that is of the programs that it starts."""
        return self.of_ways([way for way in self.calls if way[0] != 0])

    def of_ways(self, ways: list[Way]) -> "Log":
        """The part of it that is of these processes."""
        return Log({way: self.calls[way] for way in ways}, {way: self.numbers[way] for way in ways})

    def programs(self) -> int:
        """How many programs there are."""
        return len({way[0] for way in self.calls})


def log_of(lines: list[Line]) -> Log:
    """The log that has these lines."""
    ways = ways_of(lines)
    calls: dict[Way, list[Line]] = {way: [] for way in sorted(ways.values())}
    for line in lines:
        calls[ways[line.number()]].append(line)
    return Log(calls, {way: number for number, way in ways.items()})
