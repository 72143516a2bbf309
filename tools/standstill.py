"""Whether a program stands still with fdref and would go on with the system: all its processes wait in calls, one of
them in a write for which a pipe of fdref is too small, in a call that a signal would have ended, or in one that keeps
other threads from theirs; or a child that a signal had ended was still there. A parent may wait for the end of its
children instead."""

import contextlib
import os
import time
from collections.abc import Callable, Mapping
from pathlib import Path
from typing import NamedTuple

from support.auditing import Frames, Judge, act_of
from support.plain_model import DEFAULTS, PIPE_CAPACITY_MOST, Process, WaitingWrite, World
from support.runs import Line, line_of
from support.trees import children_of, parents

from past import Past, is_late

# How long no record may come before the processes are looked at.
STILL_SECONDS = 2.0
# Where a process sleeps in the system that waits for a child to end.
WAITS_FOR_A_CHILD = "do_wait"


class Seen(NamedTuple):
    """How many processes the system has of a program, and how many of them wait for the end of a child."""

    live: int
    waiting: int


class Beside(NamedTuple):
    """What is noted beside the records: of each process the place after which a signal came last in its call, and that
    after which another thread of it waited; and the children that a signal ended."""

    interrupted: Mapping[int, int] = {}
    held: Mapping[int, int] = {}
    ended: tuple[Past, ...] = ()


def seen_beside(server: int) -> Seen:
    """What the system tells of the processes below this one, but for those of a server, and those that have ended."""
    by_parent = parents()
    live = waiting = 0
    for number in children_of({os.getpid()}, by_parent) - {server} - children_of({server}, by_parent):
        with contextlib.suppress(OSError):
            process = Path("/proc", str(number))
            # the state follows the name, which is in brackets
            live += not process.joinpath("stat").read_bytes().rpartition(b")")[2].startswith(b" Z")
            waiting += process.joinpath("wchan").read_text(encoding="ascii") == WAITS_FOR_A_CHILD
    return Seen(live, waiting)


class Standstill:
    """Looks at the trace of a server that runs, and at what is noted beside it; `told` says what its processes stand
    still at, once they do."""

    def __init__(self, trace: str, look: Callable[[], Seen]) -> None:
        self.trace = trace
        self.look = look
        self.told = ""
        self.beside = Beside()
        self.known = (-1, self.beside)
        self.since = 0.0
        self.is_known = False

    def is_met(self) -> bool:
        """Whether the processes stand still. Each length of the trace is judged once, after it stayed for a while, and
        again after more is noted."""
        known, now = (os.path.getsize(self.trace), self.beside), time.monotonic()
        if known != self.known:
            self.known, self.since, self.is_known = known, now, False
        elif not self.is_known and now - self.since >= STILL_SECONDS:
            self.is_known = True
            self.told = told(Path(self.trace).read_bytes(), self.look, self.beside)
        return bool(self.told)


def told(trace: bytes, look: Callable[[], Seen], beside: Beside) -> str:
    """What the processes of a trace stand still at, or nothing where they may go on: one is in no call, and is no
    parent that waits for a child, or there is one that fdref does not know."""
    frames = Frames(trace)
    judge = Judge(frames.header.limits if frames.header else DEFAULTS)
    lines = [line_of(text) for text in frames.lines]
    for line in lines:
        judge.outcome_of(act_of(line.act))
    live = judge.world.processes.values()
    going = [it for it in live if not (it.attached and it.waits and not it.waits.is_ready(judge.world))]
    waiting = [it for it in live if it.waits]
    why = next((said for it in waiting if (said := told_wait(it, lines, judge.world, beside))), "")
    why = why or (told_late(waiting[0], lines, beside) if waiting else "")
    if not why or any(it.waits for it in going) or (going and look() != Seen(len(live), len(going))):
        return ""
    return f"stood still, and was killed: {why}"


def told_wait(process: Process, lines: list[Line], world: World, beside: Beside) -> str:
    """The call that a process waits in, and why it would not wait in the system, or nothing."""
    if is_for_want_of_room(process, world):
        return told_write(process, lines, world)
    call, place = call_of(process, lines).act, last_place(process, lines)
    if beside.interrupted.get(process.number) == place:
        return f"{call}, which a signal ends in the system alone"
    if beside.held.get(process.number) == place:
        return f"{call}, in which a thread waits and holds its process"
    return ""


def told_late(process: Process, lines: list[Line], beside: Beside) -> str:
    """The call that a process waits in, and the child that fdref may have kept for too long, or nothing."""
    late = next((it for it in beside.ended if is_late(it, lines)), None)
    return f"{call_of(process, lines).act}, perhaps by {late.said()}" if late else ""


def is_for_want_of_room(process: Process, world: World) -> bool:
    """Whether a process waits in a write that would go in at once where pipes are as large as they may be."""
    call = process.waits
    if not isinstance(call, WaitingWrite) or world.limits.capacity == PIPE_CAPACITY_MOST:
        return False
    return len(call.pipe.data) + len(call.data) - call.moved <= PIPE_CAPACITY_MOST


def last_place(process: Process, lines: list[Line]) -> int:
    """The place of the last record of a process."""
    return next(place for place in reversed(range(len(lines))) if lines[place].number() == process.number)


def call_of(process: Process, lines: list[Line]) -> Line:
    """The call that a process waits in."""
    who = f"p{process.number} "
    return next(it for it in reversed(lines) if it.act.startswith(who) and it.act != f"{who}resume")


def told_write(process: Process, lines: list[Line], world: World) -> str:
    """The write that a process waits in, for a reader."""
    assert process.waits
    call = call_of(process, lines)
    room = f"a pipe of fdref holds {world.limits.capacity:,} bytes (--pipe-capacity {PIPE_CAPACITY_MOST})"
    return f"{call.act}, of which {process.waits.moved:,} bytes went in: {room}"
