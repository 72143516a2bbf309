"""Orders of a history in which reads of one pipe at once share what it holds.

The page of read leaves unspecified what several reads of a pipe get that are made at once. Here they may take its bytes
by turns, any number of them at a time, and a read may leave some to the others. All else holds, by the page of pipe:
what was written first is read first, and each byte once. So each read has its bytes in their order, none is lost, none
is given twice, and none comes from nowhere. A read that overlaps no other one of its pipe that gives bytes is one step.
"""

import os
from collections import deque
from collections.abc import Iterator, Sequence

from support import plain_model
from support.footprints import Touch
from support.foretold import Stream
from support.histories import Noted
from support.plain_model import Act, Limits, Pipe
from support.runs import ALL_RECORDS
from support.searching import Call, Place, Search, Step, first_path
from support.worlds import State


# In how many ways it is tried at most whether bytes are those of some reads.
TURNS_MOST = 10_000


def data_of(noted: Noted) -> bytes:
    """The bytes that a read has given; none where it is no read, or ended in an error."""
    is_read = noted.act.word == "read" and noted.end is not None
    return plain_model.read_data(noted.outcome.encode()) or b"" if is_read else b""


def reads_at_once(history: Sequence[Noted], touches: Sequence[Touch]) -> dict[int, list[int]]:
    """For the place of each read that has given bytes of what may be a pipe, the places of those that overlap it."""
    reads = [at for at, noted in enumerate(history) if data_of(noted) and is_of_pipe(touches[at])]
    found: dict[int, list[int]] = {}
    under_way: list[int] = []
    for at in sorted(reads, key=lambda at: history[at].start):
        under_way = [other for other in under_way if not history[other].precedes(history[at])]
        for other in under_way:
            if history[other].process != history[at].process and file_of(touches[other]) == file_of(touches[at]):
                found.setdefault(at, []).append(other)
                found.setdefault(other, []).append(at)
        under_way.append(at)
    return found


def is_of_pipe(touch: Touch) -> bool:
    """Whether a call is made on what may be a pipe."""
    return touch.at is not None and touch.at.may_be_pipe


def file_of(touch: Touch) -> object:
    """The file that a call is made on."""
    return touch.at.file if touch.at else None


def held(state: State, process: int, fd: int) -> bytes:
    """What the pipe holds that is behind a descriptor of a process; nothing where it is none."""
    table = next((who[2] for who in state.processes if who[0] == process), ())
    number = next((number for descriptor, number in table if descriptor == fd), None)
    pipe = state.descriptions[number][5] if number is not None else None
    told = state.files[pipe][1] if pipe is not None else b""
    return told if isinstance(told, bytes) else b""


class Sharing(Search):
    """A search for an order in which reads of a pipe at once may take its bytes by turns."""

    def __init__(self, history: Sequence[Noted], limits: Limits, states_most: int, seconds: float) -> None:
        super().__init__(history, limits, states_most, seconds)
        calls = {call.bit: call for own in self.calls for call in own}
        at_once = reads_at_once(history, self.touches)
        # the reads that may take bytes by turns, by their bits, with those that overlap each
        self.beside = {1 << at: [calls[1 << other] for other in others] for at, others in at_once.items()}
        self.data = {bit: data_of(calls[bit].noted) for bit in self.beside}
        for call in calls.values():
            # what is told of what comes next goes by reads that are one step each
            if call.written and isinstance(call.written.known, Stream):
                call.written = None

    def order(self) -> list[Step] | None:
        """The steps of an order, or None where there is none or no reads are made at once."""
        nothing = (0,) * len(self.processes)
        is_possible = self.foretold.is_possible and bool(self.beside)
        start = Place(nothing, 0, 0, nothing)
        return first_path(start, self.moves, self.is_end, self.was_seen) if is_possible else None

    def begun(self, place: Place, at: int, call: Call) -> Iterator[tuple[Step, Place]]:
        """A call that takes effect, or begins to wait, or a read that takes some of its bytes."""
        if not place.taken[at]:
            yield from super().begun(place, at, call)
        if call.bit in self.beside:
            yield from self.turns(place, at, call)

    def turns(self, place: Place, at: int, call: Call) -> Iterator[tuple[Step, Place]]:
        """What a read may take next of its bytes: all that are there, or fewer where another read may go on."""
        process, fd = call.noted.process, call.act.fields[0]
        left = self.data[call.bit][place.taken[at] :]
        there = held(self.states.all[place.state], process, fd)
        same = len(os.path.commonprefix([there, left]))
        others = self.nexts(place, call)
        for count in range(same, 0, -1):
            is_last = count == len(left)
            if is_last or count == len(there) or there[count] in others:
                act = Act(process, "read", (fd, count))
                outcome, state = self.states.after(place.state, act)
                if outcome == plain_model.data_text(left[:count]):
                    yield Step(act, outcome), self.taken(place, at, call, 0 if is_last else count, state)

    def taken(self, place: Place, at: int, call: Call, count: int, state: int) -> Place:
        """Where a search is once a read has taken so many more bytes, or the last ones, as 0 tells."""
        sofar = place.taken[at] + count if count else 0
        taken = (*place.taken[:at], sofar, *place.taken[at + 1 :])
        if count:
            return place._replace(state=state, taken=taken)
        begun = (*place.begun[:at], place.begun[at] + 1, *place.begun[at + 1 :])
        return Place(begun, place.bits | call.bit, state, taken)

    def nexts(self, place: Place, call: Call) -> set[int]:
        """The bytes that other reads at the same time may begin or go on with."""
        waiting = self.states.waiting[place.state]
        found: set[int] = set()
        for other in self.beside[call.bit]:
            at = self.processes.index(other.noted.process)
            number = place.begun[at] - (other.noted.process in waiting)
            is_next = number < len(self.calls[at]) and self.calls[at][number] is other
            if is_next or not other.bit & place.bits:
                found.add(self.data[other.bit][place.taken[at] if is_next else 0])
        return found


# ---- bytes alone


def are_turns(data: bytes, parts: Sequence[bytes]) -> bool:
    """Whether bytes are those of some parts by turns, each part in its order. What takes too long to be known is not."""
    seen: set[tuple[int, ...]] = set()

    def moves(at: tuple[int, ...]) -> Iterator[tuple[int, tuple[int, ...]]]:
        left = data[sum(at) :]
        nexts = {part[begun] for part, begun in zip(parts, at, strict=True) if begun < len(part)}
        for number, (part, begun) in enumerate(zip(parts, at, strict=True)):
            same = len(os.path.commonprefix([left, part[begun:]]))
            for count in range(same, 0, -1):
                if count == same or left[count] in nexts:
                    yield count, (*at[:number], begun + count, *at[number + 1 :])

    def was_seen(at: tuple[int, ...]) -> bool:
        is_over = at in seen or len(seen) > TURNS_MOST
        seen.add(at)
        return is_over

    ends = tuple(map(len, parts))
    found = first_path((0,) * len(parts), moves, lambda at: at == ends, was_seen)
    return sum(ends) == len(data) and found is not None


# ---- the history of an order


def in_turns(history: Sequence[Noted], steps: Sequence[Step]) -> list[Noted]:
    """A history in which each turn that a read has in an order is a read."""
    found: list[Noted] = []
    for noted, places in steps_of(history, steps):
        turns = [steps[at] for at in places] if has_turns(noted, steps, places) else []
        found += [noted._replace(act=act, outcome=outcome) for act, outcome in turns] or [noted]
    return found


def steps_of(history: Sequence[Noted], steps: Sequence[Step]) -> Iterator[tuple[Noted, list[int]]]:
    """The calls of a history, each with the places of the steps that begin it in an order: one, or those of its turns;
    none where it has no place."""
    left: dict[object, deque[int]] = {}
    for at, step in enumerate(steps):
        if step.act.word != "resume":
            left.setdefault(step.act.actor, deque()).append(at)
    for noted in sorted(history, key=lambda noted: noted.start):
        own = left.get(noted.process, deque())
        places = [own.popleft()] if own else []
        if has_turns(noted, steps, places):
            wanted = len(data_of(noted))
            while sum(len(data_of(noted._replace(outcome=steps[at].outcome))) for at in places) < wanted:
                places.append(own.popleft())
        yield noted, places


def has_turns(noted: Noted, steps: Sequence[Step], places: Sequence[int]) -> bool:
    """Whether the steps that stand for a call are turns of a read."""
    return bool(places) and steps[places[0]].act != noted.act


def are_of_one_pipe(history: Sequence[Noted], steps: Sequence[Step], limits: Limits) -> bool:
    """Whether each read that has turns in an order overlaps another read of its pipe that gives bytes."""
    pipes = pipes_of(steps, limits)
    reads = [(noted, places) for noted, places in steps_of(history, steps) if data_of(noted) and places]
    for noted, places in reads:
        if has_turns(noted, steps, places):
            others = (it for it, at in reads if it.process != noted.process and pipes[at[0]] is pipes[places[0]])
            if all(it.precedes(noted) or noted.precedes(it) for it in others):
                return False
    return True


def pipes_of(steps: Sequence[Step], limits: Limits) -> list[Pipe | None]:
    """For each step of an order the pipe that it reads, if it is a read of one."""
    run = plain_model.Run(ALL_RECORDS, limits)
    found: list[Pipe | None] = []
    for act, _ in steps:
        process = run.world.processes.get(act.actor) if isinstance(act.actor, int) else None
        at = process.table.get(act.fields[0]) if process and act.word == "read" else None
        found.append(at.pipe if at else None)
        run.take(act)
    return found
