"""Searching for an order of the calls of a history in which the plain model gives the same answers.

The method is that of Wing and Gong (Testing and Verifying Concurrent Objects, 1993): depth first, the next call of the
order is one before which no other has to come, and its answer must be that of the model. With Lowe's pruning (Testing
for Linearizability, 2017) what was tried in vain is remembered: the calls that are placed, with the state of the model.

A call that waits is placed when it begins, and once more for each of its resumes. So each call that has come back is
placed, ends there, and gives what was noted; what comes after it in time waits for that.
"""

import time
from collections.abc import Callable, Iterator, Sequence
from typing import NamedTuple, TypeVar

from support import plain_model
from support.footprints import Footprints, rivals
from support.foretold import Foretold, Stream, Written, fits
from support.histories import UNKNOWN, Noted
from support.plain_model import Limits, World
from support.unseen import last_looks
from support.worlds import States

FOREVER = float("inf")

# Where a search is, and what leads from there to another place.
At = TypeVar("At")
By = TypeVar("By")


class Step(NamedTuple):
    """An act of a run in which one thing happens after another, and its outcome, as a record has it."""

    act: plain_model.Act
    outcome: str


class TooLong(Exception):
    """A search that was given up: how many states it had gone through."""

    def __init__(self, states: int) -> None:
        super().__init__(f"given up after {states} states")
        self.states = states


def first_path(
    start: At,
    moves: Callable[[At], Iterator[tuple[By, At]]],
    is_end: Callable[[At], bool],
    was_seen: Callable[[At], bool],
) -> list[By] | None:
    """What leads to the first end that is met, depth first, or None where no end is."""
    path: list[By] = []
    if is_end(start):
        return path
    open_moves = [moves(start)]
    while open_moves:
        move = next(open_moves[-1], None)
        if move is None:
            open_moves.pop()
            del path[len(open_moves) - 1 :]
            continue
        by, at = move
        if was_seen(at):
            continue
        del path[len(open_moves) - 1 :]
        path.append(by)
        if is_end(at):
            return path
        open_moves.append(moves(at))
    return None


class Call:
    """A call of a history, as the search has it."""

    def __init__(self, noted: Noted, number: int, rivals: int, written: Written | None, looks: int | None) -> None:
        self.noted = noted
        self.rivals = rivals
        self.written = written
        self.looks = looks
        self.act = noted.act
        self.bit = 1 << number
        self.start = noted.start
        self.end: float = FOREVER if noted.end is None else noted.end
        self.has_ended = noted.end is not None
        # which process a join makes is known by its line
        self.outcome = str(noted.process) if is_made_by(noted) else noted.outcome
        self.is_known = self.outcome != UNKNOWN
        # what an fstat tells, of which a word may not be known
        self.words = self.outcome.split(" ") if self.outcome.startswith("regular ") and UNKNOWN in self.outcome else []
        self.is_optional = not self.has_ended and noted.outcome == UNKNOWN
        self.resume = plain_model.Act(noted.process, "resume")
        # whether it is a write that may end in EPIPE though it has moved a part, where the model gives the part
        self.may_break = False
        # whether it is the rest of the write before it, to the same file
        self.is_rest = False
        self.file: object = None

    def can_give(self, outcome: str) -> bool:
        """Whether the call may end with this outcome."""
        if self.may_break:
            return outcome == "error EPIPE"
        if self.words:
            given = outcome.split(" ")
            both = zip(self.words, given, strict=False)
            return len(given) == len(self.words) and all(word in (UNKNOWN, other) for word, other in both)
        return not self.is_known or outcome == self.outcome

    def can_end(self, outcome: str) -> bool:
        """Whether the call may end with this outcome after it has waited: a write that gives a part has no reader."""
        is_part = self.may_break and outcome.isdigit() and 0 < int(outcome) < len(self.act.fields[1])
        return is_part or self.can_give(outcome)


def is_made_by(noted: Noted) -> bool:
    """Whether a call is the join of its process."""
    return noted.act.word == "join" and noted.outcome == UNKNOWN


class Place(NamedTuple):
    """Where a search is: how many calls of each process have begun, these as bits, and the number of the state; and how
    many bytes of its next read each process has, where reads share what a pipe holds."""

    begun: tuple[int, ...]
    bits: int
    state: int
    taken: tuple[int, ...] = ()


class Search:
    """A search for the order of a history, by the plain model or by another kind of world, in which the flags of a
    description may tell where a pwrite goes."""

    def __init__(
        self,
        history: Sequence[Noted],
        limits: Limits,
        states_most: int,
        seconds: float,
        world: type[World] = World,
    ) -> None:
        self.states = States(limits, world)
        self.states_most = states_most
        self.until = time.monotonic() + seconds
        self.processes = sorted({noted.process for noted in history})
        footprints = Footprints(history, heeds_append=world is not World)
        self.touches = footprints.touches
        known = rivals(history, self.touches)
        self.foretold = Foretold(history, footprints)
        writes, looks = self.foretold.writes, last_looks(history, footprints, limits)
        calls = [
            Call(noted, number, known[number], writes.get(number), looks.get(number))
            for number, noted in enumerate(history)
        ]
        self.calls = [[call for call in calls if call.noted.process == process] for process in self.processes]
        for call, touch in zip(calls, self.touches, strict=True):
            call.file = touch.at.file if touch.at else None
        self.has_rests = False
        self.wanted = sum(call.bit for call in calls if not call.is_optional)
        self.seen: set[tuple[int, int, tuple[int, ...]]] = set()

    def let_break(self, writes: Sequence[Noted]) -> None:
        """Lets these writes, whose answers are not known, end in EPIPE though they have moved a part."""
        for call in (call for calls in self.calls for call in calls):
            call.may_break = any(call.noted is noted for noted in writes)

    def keep_together(self, rests: Sequence[Noted]) -> None:
        """Lets no bytes of another write to the same file come between one of these and the call of its process before
        it."""
        known = {id(noted) for noted in rests}
        self.has_rests = bool(known)
        for call in (call for calls in self.calls for call in calls):
            call.is_rest = id(call.noted) in known

    def is_between(self, place: Place, call: Call, outcome: str | None) -> bool:
        """Whether the bytes of a call, which comes to this, would come between those of a write and its rest."""
        has_none = outcome is None or outcome in ("0", "parked 0") or outcome.startswith("error ")
        if not self.has_rests or call.act.word != "write" or has_none:
            return False
        waiting = self.states.waiting[place.state]
        for process, calls, begun in zip(self.processes, self.calls, place.begun, strict=True):
            number = begun - (process in waiting)
            rest = calls[number] if process != call.noted.process and number < len(calls) else None
            if rest and rest.is_rest and rest.file == call.file:
                return True
        return False

    def order(self) -> list[Step] | None:
        """The steps of an order, or None where there is none."""
        start = self.start()
        return first_path(start, self.moves, self.is_end, self.was_seen) if self.foretold.is_possible else None

    def start(self) -> Place:
        """Where a search begins."""
        return Place((0,) * len(self.processes), 0, 0)

    def was_seen(self, place: Place) -> bool:
        """Whether a place was tried before; from now on it was."""
        key = place.bits, place.state, place.taken
        if key in self.seen:
            return True
        self.seen.add(key)
        if len(self.seen) > self.states_most or (len(self.seen) % 256 == 0 and time.monotonic() > self.until):
            raise TooLong(len(self.seen))
        return False

    def is_end(self, place: Place) -> bool:
        """Whether all calls are placed, and those that wait at the end are not ready."""
        if self.wanted & ~place.bits:
            return False
        for process in self.states.waiting[place.state]:
            at = self.processes.index(process)
            call = self.calls[at][place.begun[at] - 1]
            if call.has_ended or (call.is_known and self.states.is_ready(place.state, process)):
                return False
        return True

    def moves(self, place: Place) -> Iterator[tuple[Step, Place]]:
        """All that may come next, and where that leads. It is one call alone where the others can wait for that one."""
        due = self.due(place)
        limit = min((call.end for _, call, _ in due), default=FOREVER)
        fit = [move for move in due if move[2] or move[1].start <= limit]
        open_bits = ~place.bits
        for _, call, is_waiting in due:
            open_bits |= call.bit * is_waiting
        free = next((move for move in fit if self.is_free(place, move, open_bits)), None)
        for at, call, is_waiting in fit if free is None else [free]:
            if is_waiting:
                yield from self.resumed(place, call)
            else:
                yield from self.begun(place, at, call)

    def due(self, place: Place) -> list[tuple[int, Call, bool]]:
        """The call of each process that waits or comes next, what has to come back first in front, and whether it
        waits."""
        waiting = self.states.waiting[place.state]
        found = []
        for at, process in enumerate(self.processes):
            is_waiting = process in waiting
            number = place.begun[at] - is_waiting
            if number < len(self.calls[at]):
                found.append((at, self.calls[at][number], is_waiting))
        return sorted(found, key=lambda move: move[1].end)

    def is_free(self, place: Place, move: tuple[int, Call, bool], open_bits: int) -> bool:
        """Whether no call that is still to come, or waits, can disturb a call or be disturbed by it."""
        at, call, is_waiting = move
        if call.rivals & open_bits:
            return False
        # one that waits for ever leaves the others alone
        return not is_waiting or call.has_ended or self.states.is_ready(place.state, self.processes[at])

    def resumed(self, place: Place, call: Call) -> Iterator[tuple[Step, Place]]:
        """The next try of a call that waits."""
        outcome, state = self.states.after(place.state, call.resume)
        if self.is_between(place, call, outcome):
            return
        if outcome is not None and (outcome.startswith("part ") or call.can_end(outcome)):
            after = place._replace(state=state)
            if self.is_foretold(call, after):
                yield Step(call.resume, outcome), after

    def begun(self, place: Place, at: int, call: Call) -> Iterator[tuple[Step, Place]]:
        """A call that takes effect, or begins to wait."""
        outcome, state = self.states.after(place.state, call.act)
        if self.is_between(place, call, outcome):
            return
        if outcome is not None and (outcome.startswith("parked ") or call.can_give(outcome)):
            begun = (*place.begun[:at], place.begun[at] + 1, *place.begun[at + 1 :])
            after = Place(begun, place.bits | call.bit, state, place.taken)
            if call.looks is not None and not call.looks & ~after.bits and not outcome.startswith("error "):
                # nobody will look at what it has written
                state = self.states.without_bytes(state, call.noted.process, call.act.fields[0])
                yield Step(call.act, outcome), after._replace(state=state)
            elif self.is_foretold(call, after):
                yield Step(call.act, outcome), after

    def is_foretold(self, call: Call, after: Place) -> bool:
        """Whether no answer that is still to come contradicts what a call has written."""
        if call.written is None:
            return True
        ended: dict[int, int] = {}
        if isinstance(call.written.known, Stream):
            waiting = self.states.waiting[after.state]
            for process in (reader.process for reader in call.written.known.readers):
                ended[process] = after.begun[self.processes.index(process)] - (process in waiting)
        return fits(call.written, self.states.all[after.state], ended, after.bits)
