"""FIFOs that are opened for reading and writing, as many a system opens them: at once, with both ends.

The standard leaves it undefined, and fdref refuses it. Here such an open counts as one of each end, so that what comes
after it can be compared.
"""

from collections.abc import Iterator, Sequence
from contextlib import contextmanager

from support.footprints import Footprints, Names
from support.histories import Noted
from support.ordering import Explained, explain
from support.plain_model import DESCRIPTIONS_MAX, Description, Fifo, Limits, Pipe, Process, Reply, World
from support.plain_model import lowest_free, require

ONE_WAY, ENDS_APART = World.open, World.has_end


def opens_of(history: Sequence[Noted]) -> list[Noted]:
    """The opens of a history for reading and writing of what may be a FIFO that were not refused."""
    names = Names(history)
    opens = [noted for noted in history if noted.act.word == "open" and noted.outcome.isdigit()]
    both = [noted for noted in opens if noted.act.fields[1].split(",")[0] == "rw"]
    return [noted for noted in both if names.first(noted.act.fields[0]) in names.fifos]


def without_fifos(history: Sequence[Noted]) -> list[Noted]:
    """A history without the reads and writes of FIFOs that are opened for both, but for those before that."""
    footprints = Footprints(history)
    names = footprints.names
    opens = [(names.first(it.act.fields[0]), it) for it in opens_of(history)]
    both = zip(history, footprints.touches, strict=True)
    moves = [(it, touch.at.file) for it, touch in both if touch.at and it.act.word in ("read", "write")]
    is_open = {id(it) for it, file in moves for name, one in opens if name == file and not it.precedes(one)}
    return [it for it in history if id(it) not in is_open]


def has_end(world: World, pipe: Pipe, end: str) -> bool:
    """Whether an end of a pipe is open, by itself or with the other one."""
    tables = (process.table.values() for process in world.processes.values())
    return any(at.pipe is pipe and end in at.mode for table in tables for at in table)


def opened(world: World, process: Process, name: bytes, flags: str) -> Reply:
    """The call."""
    fifo = world.names.get(name)
    mode, *others = flags.split(",")
    if not isinstance(fifo, Fifo) or mode != "rw" or "excl" in others:
        return ONE_WAY(world, process, name, flags)
    fd = lowest_free(process)[0]
    require(len(world.descriptions()) < DESCRIPTIONS_MAX, "ENFILE")
    if not world.has_end(fifo.pipe, "r") and not world.has_end(fifo.pipe, "w"):
        fifo.pipe = world.new_pipe()
    for end in mode:
        fifo.opened[end] += 1
    process.table[fd] = Description(fifo, mode, others, fifo.pipe)
    return fd


@contextmanager
def opens_for_both() -> Iterator[None]:
    """FIFOs of the plain model may be opened for both."""
    World.open, World.has_end = opened, has_end  # type: ignore[assignment]
    try:
        yield
    finally:
        World.open, World.has_end = ONE_WAY, ENDS_APART  # type: ignore[assignment]


def by_both_ways(history: Sequence[Noted], states_most: int, seconds: float, *limits: Limits) -> Explained | None:
    """An order of a history in which a FIFO is opened for both that explains it where that is done, but for what else
    such a FIFO gives, if there is one, in a run of the first of these limits that has one."""
    if not opens_of(history):
        return None
    with opens_for_both():
        results = (explain(without_fifos(history), states_most, seconds, 0, one) for one in limits)
        return next((it for it in results if isinstance(it, Explained)), None)
