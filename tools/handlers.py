"""Which signals of a process had a handler while it made a call natively, as the shim noted it, and what such a signal
may do to a call that waits: end it with EINTR, unless the handler restarts it, or cut a write short in either way.

A signal without a handler does neither: it ends the process, stops it or has it go on, or is ignored. So an EINTR where
no handler was set is an answer of the system that no signal explains. Of a handler that is `heard` it is noted when it
ran: an EINTR of a call in which it did not run is none of it.

A note has the length of the log in the place of the place. A call began when the log was as long as its line tells, or
at any time before; it had come back when its line was written.
"""

import itertools
import signal
from collections.abc import Sequence

from support.call_logs import is_wait
from support.plain_model import TRANSFER_MAX
from support.runs import Line

from past import HANDLER, RAN, SIGNAL, UNENDED, Past

# What a handler does to a call that waits; and that there is none, or that the signal is ignored.
ENDS, RESTARTS, NONE, IGNORED = "ends", "restarts", "none", "ignored"
# What stands after that where it is noted when a handler runs.
HEARD = " heard"
# What stands for all signals, as of a program that an exec has begun.
ALL_SIGNALS = 0
# Signals that may end a process that ignores them: those that cannot be ignored, abort's, and those of a fault.
NOT_IGNORED = tuple(
    getattr(signal, f"SIG{name}") for name in ("KILL", "STOP", "ABRT", "SEGV", "BUS", "ILL", "FPE", "TRAP", "SYS")
)


def signal_named(number: int) -> str:
    """A signal with its name, where it has one."""
    try:
        return f"signal {number} ({signal.Signals(number).name})"
    except ValueError:
        return f"signal {number}"


def told_not_ended(native: Sequence[Past]) -> list[str]:
    """The native calls in which a handler ran that ends calls, and that did not end by it."""
    told = "{} came in p{} {}, which did not end by it: whether it waited then is not known"
    return [told.format(signal_named(int(it.name)), it.number, it.call) for it in native if it.kind == UNENDED]


def length_of(line: Line) -> int:
    """How many bytes a line has in a log."""
    return len(f"{line.place} {line.act} = {line.outcome}\n")


def begun_at(line: Line) -> int:
    """How long the log was when a call began, as its line tells, or 0."""
    told = line.place.partition("@")[2]
    return int(told) if told.isdigit() else 0


def rests_of(lines: Sequence[Line]) -> set[int]:
    """The lines of writes that are the rest of a larger one, by their ids: the piece before it began when it did, and
    is of the same thread and descriptor."""
    last: dict[tuple[int, str], Line] = {}
    found = set()
    for line in lines:
        who = line.number(), line.place.partition("@")[0]
        before, last[who] = last.get(who), line
        is_same = before is not None and before.place == line.place and words_of(before) == words_of(line)
        if before and is_same and words_of(line)[0] == "write" and before.outcome == str(TRANSFER_MAX):
            found.add(id(line))
    return found


def words_of(line: Line) -> list[str]:
    """The word of a call, and the first thing that it has."""
    return line.act.split(" ")[1:3]


class Handlers:
    """The handlers of all processes of a native run, where each line stands in its log, and which is the rest of a
    write."""

    def __init__(self, noted: Sequence[Past], lines: Sequence[Line]) -> None:
        self.noted: dict[int, list[Past]] = {}
        for one in noted:
            if one.kind == HANDLER:
                self.noted.setdefault(one.number, []).append(one)
        # where each handler of a process ran
        self.runs = {(it.number, int(it.call), it.place) for it in noted if it.kind == RAN}
        ends = itertools.accumulate(map(length_of, lines), initial=0)
        self.places = {id(line): place for place, line in zip(ends, lines, strict=False)}
        self.rests = rests_of([line for line in lines if not is_wait(line)])

    def while_in(self, line: Line) -> dict[int, set[str]]:
        """How each signal may have been handled while a call was made."""
        begin, end = begun_at(line), self.places.get(id(line), 0)
        found: dict[int, set[str]] = {}
        for one in self.noted.get(line.number(), []):
            number, how = int(one.call), {one.name}
            if one.place > end:
                continue
            if number == ALL_SIGNALS:
                found.clear()
            else:
                found[number] = how if one.place < begin else found.get(number, set()) | how
        return found

    def ending(self, line: Line) -> list[int]:
        """The signals that may have ended a call."""
        return self.having(line, ENDS)

    def cutting(self, line: Line) -> list[int]:
        """The signals that may have cut a write short."""
        return self.having(line, ENDS, RESTARTS)

    def having(self, line: Line, *kinds: str) -> list[int]:
        """The signals that may have had a handler of these kinds that ran while a call was made."""
        begin, end, process = begun_at(line), self.places.get(id(line), 0), line.number()
        ran = {number for who, number, place in self.runs if who == process and begin <= place <= end}
        wanted = {*kinds, *(f"{it}{HEARD}" for it in kinds)}
        found = ((number, how & wanted) for number, how in self.while_in(line).items())
        return sorted(number for number, how in found if how & {*kinds} or (how and number in ran))


def ended_ignoring(native: Sequence[Past], status: int | None) -> list[tuple[int, int]]:
    """The processes that a signal has ended natively which they ignored, each with the signal: the program itself,
    which ended with a status, or others as their parents were told."""
    ended = [(0, -status)] if status is not None and status < 0 else []
    ended += [(int(it.name[1:]), int(it.call)) for it in native if it.kind == SIGNAL and it.name[1:].isdigit()]
    last: dict[tuple[int, int], str] = {}
    for one in native:
        if one.kind == HANDLER and int(one.call) == ALL_SIGNALS:
            last = {key: how for key, how in last.items() if key[0] != one.number}
        elif one.kind == HANDLER:
            last[one.number, int(one.call)] = one.name
    return [it for it in ended if last.get(it) == IGNORED and it[1] not in NOT_IGNORED]
