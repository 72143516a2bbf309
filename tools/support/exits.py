"""Orders of a history in which an exit closes its descriptors one by one.

The page of _exit has all descriptors closed, and says nowhere that this is one step: the ends of several pipes may be
closed at different moments while an exit goes on. So an exit that overlaps calls of others may close some of its ends
of pipes first, in any order, and the rest at last. What it has closed stays closed.
"""

from collections.abc import Iterator, Sequence

from support.histories import Noted
from support.plain_model import Act, Limits
from support.searching import Call, Place, Search, Step


def exits_at_once(history: Sequence[Noted]) -> list[int]:
    """The places of the exits that overlap calls of other processes."""
    return [at for at, noted in enumerate(history) if noted.act.word == "exit" and overlaps_others(history, noted)]


def overlaps_others(history: Sequence[Noted], noted: Noted) -> bool:
    """Whether a call overlaps one of another process."""
    others = (it for it in history if it.process != noted.process)
    return any(not it.precedes(noted) and not noted.precedes(it) for it in others)


class Exiting(Search):
    """A search for an order in which exits that overlap other calls may close their ends of pipes one by one."""

    def __init__(self, history: Sequence[Noted], limits: Limits, states_most: int, seconds: float) -> None:
        super().__init__(history, limits, states_most, seconds)
        self.exits = {1 << at for at in exits_at_once(history)}

    def order(self) -> list[Step] | None:
        """The steps of an order, or None where there is none or no exit overlaps other calls."""
        return super().order() if self.exits else None

    def begun(self, place: Place, at: int, call: Call) -> Iterator[tuple[Step, Place]]:
        """A call that takes effect, or begins to wait, or an exit that closes one of its descriptors."""
        yield from super().begun(place, at, call)
        for fd in self.ends_of(place, call.noted.process) if call.bit in self.exits else ():
            act = Act(call.noted.process, "close", (fd,))
            outcome, state = self.states.after(place.state, act)
            if outcome == "ok":
                yield Step(act, outcome), place._replace(state=state)

    def ends_of(self, place: Place, process: int) -> list[int]:
        """The lowest descriptor of a process for each end of a pipe that it has open."""
        state = self.states.all[place.state]
        table = next((who[2] for who in state.processes if who[0] == process), ())
        lowest: dict[tuple[str, int], int] = {}
        for fd, number in table:
            _, mode, *_, pipe = state.descriptions[number]
            if pipe is not None:
                lowest.setdefault((mode, pipe), fd)
        return list(lowest.values())


def with_closes(history: Sequence[Noted], steps: Sequence[Step]) -> list[Noted]:
    """A history in which each descriptor that an exit closes by itself in an order is closed by a call before it, while
    the exit goes on."""
    found: list[Noted] = []
    counts: dict[int, int] = {}
    for noted in sorted(history, key=lambda noted: noted.start):
        number = counts.setdefault(noted.process, 0)
        counts[noted.process] += 1
        own = [step for step in steps if step.act.actor == noted.process and step.act.word != "resume"]
        closes = own[number:] if noted.act.word == "exit" else []
        found += [noted._replace(act=act, outcome=outcome) for act, outcome in closes if act.word == "close"]
        found.append(noted)
    return found
