"""Histories: what several processes did at once, each call with the times before and after it.

A line is a call, `START END pK ACT = OUTCOME`. The times are whole nanoseconds of one clock. ACT and OUTCOME are those
of record lines (docs/FORMATS.md), with what a function returned at last: a read that waited, and then gave `x61`, is
told as one that did not wait. A call that had not come back at the end has END `-` and OUTCOME `parked ?`: it waits.

An answer may be unknown, and is `?` then. With an END the call has come back, with any answer. With END `-` nothing but
START is known: it may not have taken effect, or have waited, or have come back.

Acts are the calls, and `join`, `attach` and `exit`. An empty line stands between two histories. Calls of one process do
not overlap. The order of lines means nothing, but between calls of one process that begin at the same time.
"""

import re
from collections.abc import Iterable, Sequence
from typing import NamedTuple

from support import plain_model
from support.auditing import act_of

# The outcome of a call that waits at the end, and of one whose answer is not known.
WAITS = "parked ?"
UNKNOWN = "?"

# A call that a driver did not make.
NOT_ASKED = "not asked"

# How a process comes to be.
FIRST_WORDS = ("join", "attach")

LINE = re.compile(r"(0|[1-9]\d{0,18}) (0|[1-9]\d{0,18}|-) (p\d.*) = (\S+(?: \S+){0,2})")

# An error of any system: those that the profile does not have are told too, some by their numbers.
ERROR = r"error (?:E[A-Z0-9]+|[1-9]\d{0,9})"
NUMBER = r"(?:0|[1-9]\d{0,18})"


# How what an act gives is written, where it is no number. A system may have files of another kind.
PATTERNS = {
    plain_model.DATA: r"x(?:[0-9a-f]{2})*|[0-9a-f]{2}\*\d+",
    plain_model.PAIR: f"{NUMBER} {NUMBER}",
    plain_model.STATUS: f"(?:regular|fifo|pipe|other) {NUMBER} {NUMBER}",
    plain_model.OK: "ok",
}


class Noted(NamedTuple):
    """A call of a history: when it began, when it came back, if it did, what it was, and what it gave."""

    start: int
    end: int | None
    act: plain_model.Act
    outcome: str

    @property
    def process(self) -> int:
        """The number of the process that made it."""
        assert isinstance(self.act.actor, int)
        return self.act.actor

    def precedes(self, other: "Noted") -> bool:
        """Whether it came back before another one began."""
        return self.end is not None and self.end < other.start

    def text(self) -> str:
        """Its line."""
        end = "-" if self.end is None else self.end
        return f"{self.start} {end} {plain_model.act_text(self.act)} = {self.outcome}"


History = Sequence[Noted]


class BadHistory(Exception):
    """A line that is no call of a history: its number, counted from 1, and what is wrong with it."""

    def __init__(self, line: int, why: str) -> None:
        super().__init__(f"line {line}: {why}")
        self.line = line


# ---- reading


def spelled(word: str, outcome: str) -> str:
    """An outcome as records spell it, who know one spelling of some bytes alone."""
    data = plain_model.read_data(outcome.encode()) if word in ("read", "pread") else None
    return outcome if data is None else plain_model.data_text(data)


def read_line(text: str, number: int) -> Noted:
    """The call of a line."""
    parts = LINE.fullmatch(text)
    if not parts:
        raise BadHistory(number, "not START END pK ACT = OUTCOME")
    start, end = int(parts[1]), None if parts[2] == "-" else int(parts[2])
    act = read_act(parts[3], number, parts.start(3))
    noted = Noted(start, end, act, spelled(act.word, parts[4]))
    if end is not None and end < start:
        raise BadHistory(number, "it ends before it begins")
    if end is None and noted.outcome not in (WAITS, UNKNOWN, NOT_ASKED):
        raise BadHistory(number, f"what has not come back is `{WAITS}` or `{UNKNOWN}`")
    if end is not None and noted.outcome.startswith(("parked", "part")):
        raise BadHistory(number, "what has come back does not wait")
    check_outcome(noted, number)
    return noted


def given_by(word: str) -> str:
    """What an act gives where it does not end in an error."""
    if word in plain_model.CALLS:
        return plain_model.CALLS[word].gives
    return plain_model.PROCESS if word == "join" else plain_model.OK


def check_outcome(noted: Noted, number: int) -> None:
    """Fails where an outcome is none that the call of a line may have on any system; what could stand there is told."""
    gives = given_by(noted.act.word)
    pattern = f"{PATTERNS.get(gives, NUMBER)}|{ERROR}"
    if noted.outcome in (WAITS, UNKNOWN, NOT_ASKED) or re.fullmatch(pattern, noted.outcome):
        return
    expected = f"{gives}, an error, as error EBADF, or {UNKNOWN}"
    raise BadHistory(number, f"{noted.act.word} does not give {noted.outcome}; expected {expected}")


def read_act(text: str, number: int, before: int) -> plain_model.Act:
    """The act of a line, after so many bytes of it: a call, a join, an attach or an exit."""
    if re.fullmatch(r"p(0|[1-9]\d*) join", text):
        return act_of(text)
    try:
        act = plain_model.read_act(text.encode())
    except plain_model.NotAnAct as fault:
        column, expected = fault.args
        raise BadHistory(number, f"not an act, from byte {before + column} on; expected {expected}") from None
    if act.word == "resume":
        raise BadHistory(number, "a resume is no call")
    return act


def checked(lines: Sequence[tuple[int, Noted]]) -> list[Noted]:
    """The calls of a history in the order of their starts. Each process makes one at a time, after it joined."""
    ordered = sorted(lines, key=lambda line: line[1].start)
    last: dict[int, Noted] = {}
    for number, noted in ordered:
        before = last.get(noted.process)
        if (before is None) != (noted.act.word in FIRST_WORDS):
            raise BadHistory(number, "a process begins with its join or attach, and has no other")
        if before and (before.end is None or before.end > noted.start or before.act.word == "exit"):
            raise BadHistory(number, "the call before it has not come back, or was an exit")
        last[noted.process] = noted
    return [noted for _, noted in ordered]


def read_histories(text: str) -> list[list[Noted]]:
    """All histories of a stream. Calls that were not asked are left out."""
    found: list[list[Noted]] = []
    lines: list[tuple[int, Noted]] = []
    for number, line in enumerate([*text.split("\n"), ""], 1):
        if line:
            noted = read_line(line, number)
            lines += [] if noted.outcome == NOT_ASKED else [(number, noted)]
        elif lines:
            found.append(checked(lines))
            lines = []
    return found


# ---- writing


def history_text(history: Iterable[Noted]) -> str:
    """The lines of a history."""
    return "".join(f"{noted.text()}\n" for noted in history)


def is_known(noted: Noted) -> bool:
    """Whether a call has come back with an answer that is known."""
    return noted.end is not None and noted.outcome != UNKNOWN


def blocks(history: History) -> dict[int, tuple[int, int | None]]:
    """For the place of each call in a history, how many times ends gave way to starts before its start and its end."""
    starts = [(noted.start, 0, place) for place, noted in enumerate(history)]
    ends = [(noted.end, 1, place) for place, noted in enumerate(history) if noted.end is not None]
    begun: dict[int, int] = {}
    found: dict[int, tuple[int, int | None]] = {}
    block, is_among_ends = 0, 0
    # a call that begins when another one ends does not come after it
    for _, is_end, place in sorted([*starts, *ends]):
        block += is_among_ends > is_end
        is_among_ends = is_end
        if is_end:
            found[place] = begun[place], block
        else:
            begun[place] = block
    return {place: found.get(place, (block, None)) for place, block in begun.items()}


def form(history: History) -> tuple[object, ...]:
    """What two histories have in common that have the same calls and answers, of which the same precede others."""
    at = blocks(history)
    order = sorted(range(len(history)), key=lambda place: (history[place].process, at[place][0]))
    return tuple((history[place].act, history[place].outcome, at[place]) for place in order)
