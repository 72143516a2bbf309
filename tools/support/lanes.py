"""What later answers tell of the bytes that threads write, which share the descriptors of their process.

Foretold looks at processes. Here a lane, which has the calls of one thread, stands for each. What is behind a
descriptor is known where one call alone can have put it there: one that does not come after the call in question, and
after which nothing has surely closed the descriptor before that.
"""

from collections.abc import Sequence

from support.footprints import Names, Opened, Touch
from support.foretold import Foretold, fits
from support.histories import UNKNOWN, Noted
from support.worlds import State

# The calls of a thread, in their order.
Lane = Sequence[Noted]

# Calls that make descriptors; and those whose file has to be known, since they change it, or tell what is in it.
MAKES = ("open", "dup", "dup2", "pipe")
USES = ("read", "write", "pread", "pwrite", "lseek", "ftruncate", "setfl")


class Unclear(Exception):
    """It is not known what is behind a descriptor."""


class Shared:
    """What is behind the descriptors of the calls of lanes, as Footprints has it for processes."""

    def __init__(self, lanes: Sequence[Lane]) -> None:
        calls = [(at, noted) for at, lane in enumerate(lanes) for noted in lane]
        self.processes = [noted.process for _, noted in calls]
        # each lane is a process by itself
        self.history = [noted._replace(act=noted.act._replace(actor=at)) for at, noted in calls]
        self.names = Names(self.history)
        self.forks = {noted.outcome: place for place, (_, noted) in enumerate(calls) if noted.act.word == "fork"}
        # by process and descriptor, the places of the calls that have put something there, or closed what was there
        self.makers: dict[tuple[int, int], list[int]] = {}
        self.enders: dict[tuple[int, int], list[int]] = {}
        for place, noted in enumerate(self.history):
            for fd in made_by(noted):
                self.makers.setdefault((self.processes[place], fd), []).append(place)
            for fd in made_by(noted) or closed_by(noted):
                self.enders.setdefault((self.processes[place], fd), []).append(place)
        self.touches = [self.touch(place) for place in range(len(calls))]

    def comes_before(self, place: int, other: int) -> bool:
        """Whether a call comes before another one in time or in its lane."""
        one, two = self.history[place], self.history[other]
        return place < other if one.process == two.process else one.precedes(two)

    def touch(self, place: int) -> Touch:
        """The description that a call is made on, where that matters."""
        noted, touch = self.history[place], Touch()
        try:
            if noted.act.word in USES and not noted.outcome.startswith("error "):
                touch.at = self.behind(place, noted.act.fields[0], ())
            touch.is_known = noted.outcome != UNKNOWN or noted.act.word not in (*MAKES, "fork")
        except Unclear:
            touch.is_known = False
        return touch

    def behind(self, place: int, fd: int, askers: tuple[int, ...]) -> Opened:
        """What is behind a descriptor when a call is made, for the sake of others."""
        if place in askers:
            raise Unclear
        key = process, _ = self.processes[place], fd
        ends = [it for it in self.enders.get(key, []) if self.comes_before(it, place)]
        found = {self.made(it, fd, (*askers, place)) for it in self.makers.get(key, []) if self.lasts(it, place, ends)}
        if not ends and str(process) in self.forks:
            found.add(self.behind(self.forks[str(process)], fd, (*askers, place)))
        if len(found) != 1:
            raise Unclear
        return found.pop()

    def lasts(self, maker: int, place: int, ends: Sequence[int]) -> bool:
        """Whether what a call has put behind a descriptor may be there at another one, before which it was closed."""
        is_gone = any(self.comes_before(maker, it) for it in ends)
        return maker != place and not is_gone and not self.comes_before(place, maker)

    def made(self, place: int, fd: int, askers: tuple[int, ...]) -> Opened:
        """What a call has put behind a descriptor."""
        process, noted = self.processes[place], self.history[place]
        end = made_by(noted).index(fd)
        if noted.act.word == "pipe":
            return Opened((process, place, end), ("pipe", process, place), True, "rw"[end])
        if noted.act.word == "open":
            name = self.names.first(noted.act.fields[0])
            return Opened((process, place, end), name, name in self.names.fifos, noted.act.fields[1])
        return self.behind(place, noted.act.fields[0], askers)


def made_by(noted: Noted) -> list[int]:
    """The descriptors that a call has made."""
    is_one = noted.act.word in MAKES and not noted.outcome.startswith("error ")
    return [int(word) for word in noted.outcome.split(" ") if word.isdigit()] if is_one else []


def closed_by(noted: Noted) -> list[int]:
    """The descriptor that a call has closed."""
    return [noted.act.fields[0]] if noted.act.word == "close" and noted.outcome == "ok" else []


class Told:
    """What the answers of lanes tell of their writes."""

    def __init__(self, lanes: Sequence[Lane]) -> None:
        shared = Shared(lanes)
        foretold = Foretold(shared.history, shared)
        self.is_possible = foretold.is_possible
        self.firsts = [sum(map(len, lanes[:at])) for at in range(len(lanes))]
        self.writes = {
            place: written._replace(process=shared.processes[place]) for place, written in foretold.writes.items()
        }

    def may_be(self, at: int, begun: Sequence[int], state: State) -> bool:
        """Whether what the last call of a lane has written may stand in a state, after so many calls of each."""
        written = self.writes.get(self.firsts[at] + begun[at] - 1)
        if written is None:
            return True
        bits = sum(((1 << count) - 1) << first for first, count in zip(self.firsts, begun, strict=True))
        return fits(written, state, dict(enumerate(begun)), bits)
