"""A run of two sessions over memory, by a program that is refused its allocations in turn.

Each session joins and asks about a descriptor that is not open. A gate holds the answer at place 0 back until an answer
of the other session was let through. With nothing refused there are two joins, two calls, two exits and the closing, and
each session gives two answers.
"""

import collections
import re
from collections.abc import Iterator
from functools import partial
from typing import NamedTuple

from support.counting import Case, Failure, require, same
from support.refusing import NEVER, Refuser
from support.running import Ran

RECORDS = "100"
WHOLE_RECORDS = 7
WHOLE = Ran(0, b"sessions 2 records 7 in 0 out 0 trace 7\nend Closed answers 2\nend Closed answers 2\n", b"")
NO_MEMORY = Ran(5, b"", b"no memory\n")
NO_THREAD = Ran(6, b"", b"no thread\n")

LINES = re.compile(
    r"sessions 2 records (\d+) in 0 out 0 trace (\d+)\n"
    r"end (Closed|NoMemory|NoThread|WriteFault \{ sent: \d+ \}) answers (\d)( held back)?\n"
    r"end (Closed|NoMemory|NoThread|WriteFault \{ sent: \d+ \}) answers (\d)( held back)?\n"
    r"(?:trace fault (Write|NoMemory)\n)?"
)

# How a run may end.
ENDS = ["no memory", "no thread", "a whole report"]
# What went another way in a run with a report.
NO_RECORD, NO_SESSION, NO_WRITE, NO_TRACE = "a call refused", "a session ended", "a writer failed", "a trace cut off"
NO_READER = "a thread that reads not started"
HELD = "a session held back"
ENDS += [NO_RECORD, NO_SESSION, NO_WRITE, NO_TRACE, NO_READER, HELD]

NOTHING_SENT = "WriteFault { sent: 0 }"


class End(NamedTuple):
    """How a session ended, how many answers it gave, and whether the gate held the last one back for good."""

    how: str
    answers: int
    is_held: bool


class Report(NamedTuple):
    """What a report tells: the records, those in the trace, how each session ended, and the fault."""

    records: int
    traced: int
    ends: list[End]
    fault: str | None


def report_in(text: str) -> Report:
    """The report that is spelled so."""
    told = LINES.fullmatch(text)
    if told is None:
        raise Failure(f"this is no report of a run that was refused memory: {text!r}")
    records, traced, one, ones_answers, one_held, other, others_answers, other_held, fault = told.groups()
    ends = [End(one, int(ones_answers), bool(one_held)), End(other, int(others_answers), bool(other_held))]
    return Report(int(records), int(traced), ends, fault)


def records_of(end: End) -> range:
    """How many records a session may have that ended so: its join, its call, and its exit; one may be unanswered."""
    if end.how == "Closed":
        # the first request was answered by a record, and the second by one or by a refusal
        same(2, end.answers)
        return range(2, 4)
    if end.how == "NoThread":
        # nothing was read
        same(0, end.answers)
        return range(0, 1)
    require(end.answers <= 2, f"{end.answers} answers")
    return range(0, 4)


def is_right(report: Report) -> None:
    """A report whose numbers go together."""
    counts = [records_of(end) for end in report.ends]
    # a session with any record has an exit too
    possible = {1 + one + other for one in counts[0] for other in counts[1] if 1 not in (one, other)}
    require(report.records in possible, f"{report.records} records, and {sorted(possible)} are possible")
    if report.fault is None:
        same(report.records, report.traced)
    require(report.traced <= report.records, f"{report.traced} records in the trace, of {report.records}")
    for end, other in zip(report.ends, reversed(report.ends), strict=True):
        if end.is_held:
            same(NOTHING_SENT, end.how)
            require(other.how != "Closed", "an answer is held back though all of the other session's were let through")


def faults_of(report: Report) -> list[str]:
    """What went another way than with nothing refused. That a session is held back comes of what befell the other."""
    found = []
    for end in report.ends:
        found += [NO_SESSION] * (end.how == "NoMemory")
        found += [NO_READER] * (end.how == "NoThread")
        found += [NO_WRITE] * (end.how.startswith("WriteFault") and not end.is_held)
    found += [NO_TRACE] * (report.fault is not None)
    return found or [NO_RECORD] * (report.records < WHOLE_RECORDS)


class Runs:
    """The runs of a trial, and how they ended."""

    def __init__(self, trial: str, refuser: Refuser) -> None:
        self.words = [trial, RECORDS]
        self.refuser = refuser
        self.ways: collections.Counter[str] = collections.Counter()
        self.allocations = 0

    def run(self, first: int, last: int) -> list[str]:
        """One run with its allocations from `first` to `last` refused: how it ended."""
        ran, self.allocations = self.refuser.run(self.words, b"", first, last)
        if ran == NO_MEMORY:
            return ["no memory"]
        if ran == NO_THREAD:
            return ["no thread"]
        require(ran.status == 0 and not ran.stderr, ran.said())
        report = report_in(ran.stdout.decode())
        is_right(report)
        self.ways[HELD] += any(end.is_held for end in report.ends)
        return faults_of(report) or ["a whole report"]

    def whole(self) -> None:
        """Nothing is refused."""
        ran, self.allocations = self.refuser.run(self.words)
        same(WHOLE, ran)
        require(self.allocations, "no allocation is seen: it does not take its memory by the C library's malloc")

    def alone(self, number: int) -> None:
        """One allocation is refused, by which one thing goes another way at most."""
        ways = self.run(number, number)
        require(len(ways) == 1, f"one refusal, and {ways}")
        self.ways.update(ways)

    def with_later(self, number: int) -> None:
        """An allocation is refused, and all later ones."""
        self.ways.update(self.run(number, NEVER - 1))

    def ended(self, way: str) -> None:
        """Some run ended so."""
        require(self.ways[way], "no run does")


def cases(trial: str, refuser: Refuser, rounds: int) -> Iterator[Case]:
    """Each allocation refused, alone and with all later ones, so many times, since threads take turns as they like."""
    runs = Runs(trial, refuser)
    for _ in range(rounds):
        yield "a run with nothing refused", runs.whole
        number = 1
        runs.allocations = number
        # the last number is past all that are asked for
        while number <= runs.allocations + 1:
            yield f"allocation {number} of a run refused and all later ones", partial(runs.with_later, number)
            yield f"allocation {number} of a run refused", partial(runs.alone, number)
            number += 1
    for way in ENDS:
        yield f"a run that ends so: {way}", partial(runs.ended, way)
    counts = ", ".join(f"{count} {way}" for way, count in sorted(runs.ways.items()))
    print(f"runs over memory with refusals: {counts}")
