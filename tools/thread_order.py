"""Searching for an order of calls that threads made, in which the plain model gives the same answers.

All orders are tried that keep the order of each thread and that of time, first the one in which the calls came back. A
state that was met before with the same calls made is not tried again, and none in which a write has put bytes where
later answers tell others. In the model a process waits as a whole, so a call of a thread may not wait: it comes where
it need not. That one had to wait, in an order that was not tried for this, is told.
"""

import time
from collections.abc import Iterator, Sequence
from typing import NamedTuple

from support import plain_model
from support.histories import UNKNOWN, Noted
from support.lanes import Lane, Told
from support.plain_model import Limits
from support.searching import FOREVER, Step, TooLong, first_path
from support.worlds import States


class Place(NamedTuple):
    """Where a search is: how many calls of each lane have begun, and the number of the state."""

    begun: tuple[int, ...]
    state: int


class ThreadSearch:
    """A search for an order of lanes. A process begins in the first lane of its own, and may have others."""

    def __init__(self, lanes: Sequence[Lane], limits: Limits, states_most: int, seconds: float) -> None:
        self.states = States(limits)
        self.lanes = lanes
        self.states_most = states_most
        self.until = time.monotonic() + seconds
        self.seen: set[Place] = set()
        processes = [lane[0].process for lane in lanes]
        self.shared = {process for process in processes if processes.count(process) > 1}
        # the first call that had to wait
        self.has_waited: Noted | None = None
        self.told = Told(lanes)

    def order(self) -> list[tuple[Step, Noted]] | None:
        """The steps of an order, each with its call, or None where there is none."""
        start = Place((0,) * len(self.lanes), 0)
        return first_path(start, self.moves, self.is_end, self.was_seen) if self.told.is_possible else None

    def was_seen(self, place: Place) -> bool:
        """Whether a place was met before; from now on it was."""
        count = len(self.seen)
        self.seen.add(place)
        if len(self.seen) > self.states_most or time.monotonic() > self.until:
            raise TooLong(len(self.seen))
        return len(self.seen) == count

    def is_end(self, place: Place) -> bool:
        """Whether all calls that came back were made."""
        left = (noted for lane, begun in zip(self.lanes, place.begun, strict=True) for noted in lane[begun:])
        return all(is_optional(noted) for noted in left) and not self.states.waiting[place.state]

    def moves(self, place: Place) -> Iterator[tuple[tuple[Step, Noted], Place]]:
        """All that may come next, and where that leads."""
        due = sorted([(at, lane[begun]) for at, (lane, begun) in self.due(place)], key=lambda it: end_of(it[1]))
        limit = end_of(due[0][1]) if due else FOREVER
        waiting = self.states.waiting[place.state]
        for at, noted in due:
            is_waiting = noted.process in waiting
            if not is_waiting and noted.start > limit:
                continue
            act = plain_model.Act(noted.process, "resume") if is_waiting else noted.act
            outcome, state = self.states.after(place.state, act)
            if outcome is None:
                continue
            goes_on = outcome.startswith(("parked ", "part "))
            if goes_on and noted.process in self.shared:
                self.has_waited = self.has_waited or noted
            elif goes_on or noted.outcome in (UNKNOWN, outcome):
                begun = (*place.begun[:at], place.begun[at] + (not goes_on), *place.begun[at + 1 :])
                if goes_on or self.told.may_be(at, begun, self.states.all[state]):
                    yield (Step(act, outcome), noted), Place(begun, state)

    def due(self, place: Place) -> list[tuple[int, tuple[Lane, int]]]:
        """The lanes whose next call may come, each with how many have begun: an exit comes when all of its process have
        ended, and a process has begun before its other threads."""
        each = list(enumerate(zip(self.lanes, place.begun, strict=True)))
        found = []
        for at, (lane, begun) in each:
            others = [it for other, it in each if other != at and it[0][0].process == lane[0].process]
            if begun == len(lane):
                continue
            is_last = lane[begun].act.word == "exit"
            if not is_last or all(number == len(other) for other, number in others):
                found.append((at, (lane, begun)))
        return found


def end_of(noted: Noted) -> float:
    """When a call came back."""
    return FOREVER if noted.end is None else noted.end


def is_optional(noted: Noted) -> bool:
    """Whether a call may not have been made."""
    return noted.end is None and noted.outcome == UNKNOWN
