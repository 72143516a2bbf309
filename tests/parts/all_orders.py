"""Whether an order explains a history, by going through all of them: without memory, and without leaving any out.

Each order is run by the plain model from its start, and only then held against the answers.
"""

from collections.abc import Iterator, Sequence

from support import plain_model
from support.counting import Failure
from support.histories import WAITS, Noted
from support.replaying import explains, script_line
from support.runs import ALL_RECORDS, line_of

# An act of an order, and the call that it begins, or None for a resume.
Placed = tuple[plain_model.Act, Noted | None]


def ran(acts: Sequence[plain_model.Act]) -> plain_model.Run:
    """A run of acts."""
    run = plain_model.Run(ALL_RECORDS)
    for act in acts:
        run.take(plain_model.read_act(script_line(act).encode()))
    return run


def orders(history: Sequence[Noted], placed: list[Placed]) -> Iterator[list[plain_model.Act]]:
    """All orders that begin so, those that are not whole too. In none a call begins before one that precedes it."""
    yield [act for act, _ in placed]
    begun = [noted for _, noted in placed if noted]
    left = [noted for noted in history if not any(noted is other for other in begun)]
    for process in {noted.process for noted in left}:
        first = min((noted for noted in left if noted.process == process), key=lambda noted: noted.start)
        if not any(other.precedes(first) for other in left):
            yield from orders(history, [*placed, (first.act, first)])
    world = ran([act for act, _ in placed]).world
    for process, who in world.processes.items():
        if who.waits and who.waits.is_ready(world):
            yield from orders(history, [*placed, (plain_model.Act(process, "resume"), None)])


def is_explanation(history: Sequence[Noted], acts: Sequence[plain_model.Act]) -> bool:
    """Whether an order explains a history."""
    run = ran(acts)
    try:
        explains(history, [line_of(line.rstrip("\n")) for line in run.lines])
    except Failure:
        return False
    waiting = [run.world.processes[noted.process].waits for noted in history if noted.outcome == WAITS]
    return not any(call is None or call.is_ready(run.world) for call in waiting)


def has_order(history: Sequence[Noted]) -> bool:
    """Whether any order explains a history."""
    return any(is_explanation(history, acts) for acts in orders(history, []))
