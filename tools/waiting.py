#!/usr/bin/env python3
"""Tells which processes of a trace wait, in what calls, and for whom.

usage: tools/waiting.py [--no-connections] TRACE

TRACE is a file that `fdref serve` has written, or is writing still: where a server seems to stand still, this tells
what its clients wait for. Of each process that is there a line says in what call it waits, since which record, and who
has the other end of the pipe or FIFO; or that the call can go on, so that its resume is due; that it waits in no call;
or that it was forked and has no connection. A line tells, too, of each process that ended in a call that could go on,
since which record it could. Its wake is lost, or its turn had not come, if a call of others was recorded meanwhile: no
page says how soon one goes on that can. Where there were but exits it may only have been ended, or the run. But where
the header has a number of records, as that of `fdref serve`, or version 1, a connection may have been lost in that
moment, or the run had no record for the resume since then: that says nothing of a wake. --no-connections says that
nobody who wrote TRACE has a connection that can be lost, as an emulator has none. Then it tells how many bytes of a
record that is not whole are left over, as a server leaves them that was killed. The last line counts the processes.
What a server has answered stands in TRACE about a millisecond later. Whether a client reads its answers it does not
tell: one that does not waits in no call. Nor does a trace have the number of sessions, or a connection that has sent
nothing yet, which takes one of them: while a run goes on, a line says so, or that no server writes TRACE now.

A call that can go on has lost its wake where a server that still writes TRACE, which it locks, has no resume of it for
a third of a second, unless that server is stopped or held up. Of a trace that no server writes any more, as one that
was killed, that is known only where no connection can have been lost, and others were recorded since; else the trace
ends there, and that is told.

Exit status: 0 where a process that has a connection waits in no call, or there is none; 1 where all of them wait, and
the call of none can go on, or where a wake is lost by these rules, also of one that has ended; 2 for wrong words; 3
where TRACE cannot be read, or is malformed or illegal.
"""

import argparse
import fcntl
import sys
import time
from collections.abc import Collection, Iterator, Sequence
from pathlib import Path
from typing import NamedTuple

from support.auditing import Audit, Judge, act_of
from support.frames import MAGICS
from support.plain_model import DEFAULTS, OLD_LIMITS, Limits, Process, WaitingOpen, WaitingRead, World
from support.runs import line_of
from support.texts import several

from waits import Long

GOES_ON, STANDS_STILL, WRONG_WORDS, CANNOT_READ = 0, 1, 2, 3
# A call that can go on has its resume sooner than after so many seconds.
RESUME_SECONDS = 0.3

# How much of a call is shown.
CALL_SHOWN = 60

# What is told of a call that could go on, and has no resume: that its wake is lost, where a server writes the trace
# still or others have been recorded since, or else what may be why, the last two where a server may have written that.
WAKE_LOST = ": its wake is lost, or its turn had not come"
HELD_UP = ": its wake is lost, or the server is stopped or held up"
ITS_END = ": its wake is lost, or it was only ended"
ONLY_ENDED = ": its wake is lost, or the run was only ended"
ANY_LOST = ": its wake is lost, or its connection was"
NO_ROOM = ", and no record was free for its resume"
# What is told of one that can go on where a trace ends that nobody writes any more.
BREAKS_OFF = ": the trace ends there"

# What is told of a file that is no trace at all.
NO_TRACE = "it does not begin with FDTRACE1 or FDTRACE2, as a trace does"

# What is told where all wait, and a child that was forked has made no call yet.
BEGINS = ", but one that was forked may begin"

# What is told of a run that goes on, and of one that was broken off.
UNSEEN = "a connection that has sent nothing yet is not seen"
LEFT_OFF = "no server writes this trace any more: its run was broken off here"


class BadTrace(Exception):
    """What is no trace of a run."""


class Watching(Judge):
    """The model beside the records of a trace, which notes who ends in a call that could go on."""

    # the place of the exit of each
    ended: dict[int, int]

    def __init__(self, limits: Limits = DEFAULTS) -> None:
        super().__init__(limits)
        self.ended = {}

    def end(self, process: Process) -> None:
        """Ends a process."""
        if process.waits and process.waits.is_ready(self.world):
            self.ended[process.number] = self.records
        super().end(process)


class Since(NamedTuple):
    """The record since which a call can go on, and how many records a run must have where its resume had room then."""

    place: int
    wanted: int


class Unwoken(NamedTuple):
    """A process that ended in a call that could go on."""

    number: int
    # the places of the record since which it could, and of its exit
    since: int
    exit: int
    # that its wake is lost, or else what may be why it has no resume, as told
    why: str

    @property
    def is_lost(self) -> bool:
        """Whether nothing but a lost wake is why it has no resume."""
        return self.why == WAKE_LOST

    def told(self, place: int, shown: str) -> str:
        """What is told of its call, which is shown, and has this place."""
        since = f"which could go on since record {self.since}"
        return f"p{self.number} ended at record {self.exit} in {shown} of record {place}, {since}{self.why}"


def ready_since(audit: Audit, numbers: Collection[int]) -> dict[int, Since]:
    """Since when the calls of some processes can go on, or could before their exits. One that has gone on by a part can
    since then. Where there are some the trace is gone through again."""
    ready: dict[int, Since] = {}
    again = Judge(audit.judge.world.limits)
    for place, text in enumerate(audit.frames.lines if numbers else []):
        act = act_of(line_of(text).act)
        again.outcome_of(act)
        # its own record, one for each that has to end, and the closing
        since = Since(place, place + 2 + len(again.world.processes) + (not again.world.is_closed))
        for process in (again.world.processes.get(number) for number in numbers):
            if process and process.waits and process.waits.is_ready(again.world):
                has_gone_on = act.word == "resume" and act.actor == process.number
                ready[process.number] = since if has_gone_on else ready.get(process.number, since)
            elif process:
                ready.pop(process.number, None)
    return ready


def unwoken_in(audit: Audit, is_served: bool) -> list[Unwoken]:
    """Those of a legal trace who ended in calls that could go on, where a server may have written it, or not."""
    assert isinstance(audit.judge, Watching)
    ended = audit.judge.ended
    ready = ready_since(audit, ended)
    return [
        Unwoken(number, ready[number].place, place, why_unwoken(audit, is_served, ready[number], place))
        for number, place in ended.items()
    ]


def why_unwoken(audit: Audit, is_served: bool, since: Since, place: int) -> str:
    """Why a call has no resume that could go on since a record, until the exit at a place. Room for a resume that is
    gone does not come back: what ends leaves no more than its own exit takes."""
    if audit.records and since.wanted > audit.records:
        return NO_ROOM
    if is_served:
        return ANY_LOST
    words = [line_of(text).act.split(" ")[1] for text in audit.frames.lines]
    if not are_exits(words[since.place + 1 : place]):
        return WAKE_LOST
    return ONLY_ENDED if are_exits(words[place:]) else ITS_END


def are_exits(words: Sequence[str]) -> bool:
    """Whether these are the words of exits and of the closing of a run alone."""
    return all(word in ("exit", "close-run") for word in words)


class Standing:
    """Where the processes of a run stand after the records of a trace. It is told whether nobody who wrote that has a
    connection that can be lost."""

    def __init__(self, trace: bytes, has_no_connections: bool = False) -> None:
        audit = self.audit = Audit(trace, Watching)
        if not audit.verdict.stdout.startswith(b"legal "):
            verdict = audit.verdict.stdout.decode().strip()
            raise BadTrace(verdict if trace.startswith(MAGICS) else f"{verdict}: {NO_TRACE}")
        self.world: World = audit.judge.world
        # how many bytes come after the last whole record
        self.rest = audit.frames.rest
        # the last call of each process, with its place
        self.calls: dict[int, tuple[int, str]] = {}
        self.connections = 0
        # whether a server writes the trace still, and whether one may have written it
        self.is_written = False
        # whether a server has written it that does no more, and has not closed the run
        self.is_left_off = False
        self.has_no_connections = has_no_connections
        self.is_served = bool(audit.records or self.world.limits == OLD_LIMITS) and not has_no_connections
        # the calls that can go on, and whose wakes are lost: those of these processes
        self.lost: set[int] = set()
        self.unwoken = unwoken_in(audit, self.is_served)
        for place, text in enumerate(audit.frames.lines):
            line = line_of(text)
            who, word = line.act.split(" ")[:2]
            if word in ("join", "attach"):
                self.connections += not line.outcome.startswith("error ")
            elif word not in ("resume", "exit") and who != "house":
                self.calls[int(who[1:])] = place, line.act.partition(" ")[2]

    def is_stuck(self, process: Process) -> bool:
        """Whether a process waits in a call that cannot go on."""
        return process.waits is not None and not process.waits.is_ready(self.world)

    def due(self) -> set[tuple[int, int]]:
        """The processes whose calls can go on, with the places of these."""
        waiting = [it for it in self.world.processes.values() if it.attached and it.waits and not self.is_stuck(it)]
        return {(it.number, self.calls[it.number][0]) for it in waiting}

    def passed(self) -> set[int]:
        """The processes whose calls can go on, and after others have been recorded since."""
        since = ready_since(self.audit, {number for number, _ in self.due()})
        words = [line_of(text).act.split(" ")[1] for text in self.audit.frames.lines]
        return {number for number, one in since.items() if not are_exits(words[one.place + 1 :])}

    def due_before(self, first: "Standing") -> set[int]:
        """The processes whose calls could go on at the end of a trace that this one goes on from, and can all the time
        since."""
        since = ready_since(self.audit, {number for number, _ in first.due() & self.due()})
        return {number for number, one in since.items() if one.place < len(first.audit.frames.lines)}

    def holders(self, process: Process) -> Iterator[str]:
        """Those who have the other end of the pipe that a process waits at."""
        call = process.waits
        assert call and not isinstance(call, WaitingOpen)
        end = "w" if isinstance(call, WaitingRead) else "r"
        for number, other in sorted(self.world.processes.items()):
            if any(at.pipe is call.pipe and end in at.mode for at in other.table.values()):
                yield "itself" if other is process else f"p{number}"

    def reason(self, process: Process) -> str:
        """What a call waits for that cannot go on."""
        if isinstance(process.waits, WaitingOpen):
            return "until the other end is opened"
        end = "writing" if isinstance(process.waits, WaitingRead) else "reading"
        return f"where the {end} end is open in {', '.join(self.holders(process))}"

    def shown(self, number: int) -> tuple[int, str]:
        """The last call of a process: its place, and what is shown of it."""
        place, call = self.calls[number]
        return place, call if len(call) <= CALL_SHOWN else f"{call[:CALL_SHOWN]}.."

    def told(self, process: Process) -> str:
        """What a process does."""
        who = f"p{process.number}"
        if not process.attached:
            return f"{who} was forked and has {'made no call' if self.has_no_connections else 'no connection'}"
        if process.waits is None:
            return f"{who} waits in no call"
        place, shown = self.shown(process.number)
        moved = f", with {several(process.waits.moved, 'byte')} moved" if process.waits.moved else ""
        lost = HELD_UP if self.is_written else WAKE_LOST
        late = lost if process.number in self.lost else "" if self.is_written else BREAKS_OFF
        reason = self.reason(process) if self.is_stuck(process) else f"and can go on{late}"
        return f"{who} waits in {shown} since record {place}{moved}, {reason}"

    def beside(self) -> list[str]:
        """What is left over of the trace, and what it does not tell."""
        rest = [f"{several(self.rest, 'byte')} left over after the last whole record"] if self.rest else []
        if self.is_left_off:
            return [*rest, LEFT_OFF]
        return rest + ([] if self.world.is_closed or self.has_no_connections else [UNSEEN])

    def lines(self) -> list[str]:
        """A line for each process, what is beside them, and one for all."""
        processes = [process for _, process in sorted(self.world.processes.items())]
        attached = [process for process in processes if process.attached]
        waiting = sum(process.waits is not None for process in attached)
        begun = "that have begun" if self.has_no_connections else "with a connection"
        last = f"{several(len(processes), 'process', 'processes')}, {len(attached)} {begun} "
        last += f"({self.connections} so far), {waiting} of which wait"
        if not (attached or self.world.is_closed or self.has_no_connections or self.is_left_off):
            last += ": a server that goes on waits for connections"
        if self.all_wait():
            last += ": none goes on by itself" + (BEGINS if len(attached) < len(processes) else "")
        if self.lost:
            last += f": {several(len(self.lost), 'call')} can go on, and no resume came"
        never = sum(one.is_lost for one in self.unwoken)
        if never:
            last += f": {several(never, 'call')} could go on, and no resume came before the exit"
        ended = [one.told(*self.shown(one.number)) for one in self.unwoken]
        return [*map(self.told, processes), *ended, *self.beside(), last]

    def is_still(self) -> bool:
        """Whether nobody goes on, or a wake is lost."""
        return self.all_wait() or bool(self.lost) or any(one.is_lost for one in self.unwoken)

    def all_wait(self) -> bool:
        """Whether all that have a connection wait, and the call of none can go on."""
        attached = [process for process in self.world.processes.values() if process.attached]
        return bool(attached) and all(map(self.is_stuck, attached))


def is_locked(path: Path) -> bool:
    """Whether somebody has locked a file, as a server does that writes its trace there."""
    with path.open("rb") as file:
        try:
            fcntl.flock(file, fcntl.LOCK_SH | fcntl.LOCK_NB)
        except BlockingIOError:
            return True
    return False


def standing_in(path: Path, has_no_connections: bool = False) -> Standing:
    """Where the processes of a trace stand. Where a call can go on it is looked once more, a little later."""
    if path.is_fifo():
        raise BadTrace("it is a FIFO, of which somebody else may want the bytes")
    if path.is_socket():
        raise BadTrace("it is a socket; the trace of a server is the file of its --trace")
    trace = path.read_bytes()
    with Long(f"goes through a trace of {len(trace):,} bytes, record by record", "waiting.py"):
        is_written = is_locked(path)
        first = Standing(trace, has_no_connections)
        first.is_left_off = first.is_served and not first.world.is_closed and not is_written
        if not first.due():
            return first
        time.sleep(RESUME_SECONDS)
        later = path.read_bytes()
        standing = first if later == trace else Standing(later, has_no_connections)
        late = standing.due_before(first)
        standing.is_written = is_written and is_locked(path)
        standing.is_left_off = standing.is_served and not standing.world.is_closed and not is_locked(path)
        standing.lost = late if standing.is_written else set() if standing.is_served else late & standing.passed()
    return standing


def parse(words: Sequence[str]) -> argparse.Namespace:
    """What the command line asks for."""
    parser = argparse.ArgumentParser(
        description=__doc__, formatter_class=argparse.RawDescriptionHelpFormatter, usage=argparse.SUPPRESS
    )
    no_connections = "nobody who wrote TRACE has a connection that can be lost"
    parser.add_argument("--no-connections", action="store_true", help=no_connections)
    parser.add_argument("trace", metavar="TRACE", help="a trace, which a server may still be writing")
    return parser.parse_args(words)


def main(words: Sequence[str]) -> int:
    """Tells of a trace: the exit status."""
    args = parse(words)
    try:
        standing = standing_in(Path(args.trace), args.no_connections)
    except (BadTrace, OSError) as fault:
        # the text of an OSError has the path again
        why = fault.strerror if isinstance(fault, OSError) else fault
        print(f"waiting: {args.trace}: {why}", file=sys.stderr)
        return CANNOT_READ
    print("\n".join(standing.lines()))
    return STANDS_STILL if standing.is_still() else GOES_ON


if __name__ == "__main__":
    sys.exit(main(sys.argv[1:]))
