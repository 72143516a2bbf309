#!/usr/bin/env python3
"""Do a session's two threads come to a right end in every order of their steps? (a quarter of a minute)

usage: tests/interleavings.py [--requests N]

The model is tests/parts/two_threads.py; no program is run. A session is sent up to N requests (4 where no number is
given), in pieces that end anywhere, by a client that stays, that stops sending, or that vanishes. Every order in which
the steps of both threads and of other sessions can come is gone through. In each of them

  - every request that was pushed is answered once and in order, up to where the session was over, or a call was given
    up since its process was lost,
  - the exit of the process is recorded once, and no process of another session is told lost,
  - no session runs ahead but behind a call that waits,
  - both threads end, unless the client stays: then all that it sent is answered, up to a call that waits.

Sessions are also gone through whose threads do something wrong. Each such fault must be found in one of them.

A failure tells the steps that lead to it. The last line is `N passed, M failed`, and the exit status is 1 where M is
above 0.
"""

import sys
from collections import deque
from collections.abc import Iterator, Sequence
from functools import partial
from itertools import chain, product
from typing import NamedTuple

from parts.two_threads import MANNERS, OPENING, OVER, READY, REFUSED, ROOMS, WAITING, Broken, Session, State
from support.counting import Case, Count, require
from support.options import count_option, parsed

TELL_MOST = 10

# What the threads of a session may do wrong, or what is wrong with what they share.
FAULTS: list[tuple[str, ...]] = [
    ("it wakes nobody for a call",),
    ("it wakes nobody at its end",),
    ("a token is lost where nobody sleeps",),
    ("it marks nothing",),
    ("it does not wait in the note",),
    ("it notes nothing",),
    ("it loses nobody",),
    ("it answers without the mutex",),
    ("it does not wait for the mutex",),
    ("the mutex is free before the desk is there",),
    ("it leaves the desk there while it waits",),
    ("it drops what is left at the join", "it looks for the mark after the ring"),
    ("it hangs nobody up",),
    ("it hangs up again at the join",),
    ("it leaves the connection open",),
    ("it writes no answers",),
    ("it waits before it writes",),
]

# What does no harm alone, since something else sees to it: the bell answers all that can be answered, and so nothing is
# left at the join, the process is noted before the end, and the answerer looks into the ring after each wait.
HARMLESS: list[tuple[str, ...]] = [
    ("it drops what is left at the join",),
    ("it looks for the mark after the ring",),
    ("it wakes nobody where the desk is away",),
    ("it does not wait in the note", "it takes who is unknown for nobody"),
]

# For each state that was found, the step that leads to it and the state before that.
Paths = dict[State, tuple[str, State] | None]


class Explored(NamedTuple):
    """What was found in a session: how many states, how it may end, and the first fault with the steps before it."""

    states: int
    ends: set[str]
    fault: str | None


def told(paths: Paths, state: State, why: str) -> str:
    """A fault, and the steps that lead to it."""
    names = []
    while (before := paths[state]) is not None:
        names.append(before[0])
        state = before[1]
    return f"{why}, after {'; '.join(reversed(names))}"


def explored(session: Session) -> Explored:
    """Goes through all orders of all steps, the shortest ones first, up to the first fault."""
    start = session.start()
    paths: Paths = {start: None}
    left = deque([start])
    ends = set()
    while left:
        state = left.popleft()
        try:
            steps = list(session.steps(state))
            if session.is_at_its_end(state):
                session.has_ended(state)
                ends.add(f"{state.stage}, ahead" if state.is_ahead else state.stage)
            elif not steps:
                session.rests(state)
        except Broken as fault:
            return Explored(len(paths), ends, told(paths, state, str(fault)))
        for name, after in chain(steps, session.events(state)):
            if after not in paths:
                paths[after] = (name, state)
                left.append(after)
    return Explored(len(paths), ends, None)


def all_requests(most: int) -> Iterator[str]:
    """All that a session may be sent, the shortest first. Behind what ends it there are calls that are ready."""
    yield ""
    for count in range(most):
        for calls in product((READY, WAITING), repeat=count):
            yield OPENING + "".join(calls)
        for first in (REFUSED, READY):
            yield first + READY * count
        for before in range(count):
            for calls in product((READY, WAITING), repeat=before):
                yield OPENING + "".join(calls) + OPENING + READY * (count - before - 1)


def sessions(most: int, faults: Sequence[str] = ()) -> Iterator[Session]:
    """All sessions with so many requests at most, the shortest first."""
    for requests in all_requests(most):
        for manner, room in product(MANNERS, ROOMS):
            yield Session(requests, manner, room, frozenset(faults))


class Tally:
    """What was found in several sessions together."""

    def __init__(self) -> None:
        self.states = 0
        self.ends: set[str] = set()

    def is_right(self, session: Session) -> None:
        """Fails at the first fault of a session."""
        given = explored(session)
        self.states += given.states
        self.ends |= given.ends
        require(given.fault is None, given.fault or "")

    def has_met_all(self) -> None:
        """Fails unless sessions may end in each way, and ahead with and without a call that is given up."""
        missing = {"opening", "going", *OVER, "going, ahead", "given up, ahead"} - self.ends
        require(not missing, f"no session ends so: {sorted(missing)}")


def is_found(most: int, faults: Sequence[str]) -> None:
    """Some session goes wrong with these faults."""
    found = any(explored(session).fault is not None for session in sessions(most, faults))
    require(found, "nothing is found")


def main(words: Sequence[str]) -> int:
    """Makes all checks: the exit status."""
    requests = count_option("--requests", 4, "how many requests a session is sent at most")
    most = parsed(words, "Goes through all orders of the steps of a session's two threads.", requests).requests
    count, tally = Count(TELL_MOST), Tally()
    count.part("sessions", ((session.name(), partial(tally.is_right, session)) for session in sessions(most)))
    print(f"{tally.states} states")
    count.check("each end is met", tally.has_met_all)
    harmless: list[Case] = [
        (f"{session.name()}, {faults[0]}", partial(tally.is_right, session))
        for faults in HARMLESS
        for session in sessions(min(most, 3), faults)
    ]
    count.part("what does no harm alone", harmless)
    count.part("faults that are found", ((", and ".join(faults), partial(is_found, most, faults)) for faults in FAULTS))
    return count.end()


if __name__ == "__main__":
    sys.exit(main(sys.argv[1:]))
