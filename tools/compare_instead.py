"""Acts that fdref is given instead of one that a system answers otherwise, where the reason says all that the system
has to have done: so what the call left is compared, and so is all that comes after it.

A pwrite that a system appends is one at the end. A call of more bytes than fdref takes is several, and what a system
refuses changes nothing. Of a write to a pipe that has less room it is the first bytes.
"""

from collections.abc import Iterator

from support import plain_model
from support.plain_model import TRANSFER_MAX, Act, Description, Process, Reply, World

from compare_limits import is_fewer_descriptors, is_larger_piece, is_long_name, is_many_files, is_no_process
from compare_limits import is_no_space, is_smaller_file
from compare_reasons import READ_MOST, Difference, follows_append, is_append, is_count, is_lseek_past_files
from compare_reasons import is_paged_room, is_pwrite_appended, is_reader_waiting, is_room, process_of
from compare_runs import act_of

# Limits by which a system refuses a call, which changes nothing then.
REFUSING = (
    is_fewer_descriptors,
    is_smaller_file,
    is_no_space,
    is_many_files,
    is_no_process,
    is_long_name,
    is_larger_piece,
)

# ---- the acts


def at_end(act: Act, size: int) -> Act:
    """A pwrite at the end of a file of so many bytes."""
    return act._replace(fields=(act.fields[0], size, act.fields[2]))


def pieces_of(act: Act) -> Iterator[tuple[int, int]]:
    """How a read or write is parted into such of no more bytes than a call of the profile moves: begin and end of
    each."""
    last: bytes | int = act.fields[-1]
    count = len(last) if isinstance(last, bytes) else min(last, READ_MOST)
    yield from ((at, min(at + TRANSFER_MAX, count)) for at in range(0, max(count, 1), TRANSFER_MAX))


def parts(act: Act, world: World) -> list[Act]:
    """The acts that do what a read or write of more bytes than a call of the profile moves has to do in a world; any
    other act itself. Of a pipe one is enough, since it holds no more; a write that waits there has none."""
    process = process_of(world, act)
    at = process.table.get(act.fields[0]) if process and is_transfer(act) else None
    if not at or not is_large(act):
        return [act]
    if at.pipe and act.word == "write" and not at.nonblock and world.has_end(at.pipe, "r"):
        return [act]
    pieces = [part(act, *piece) for piece in pieces_of(act)]
    return pieces[:1] if at.pipe else pieces


def part(act: Act, begin: int, end: int) -> Act:
    """A part of a read or write."""
    fd, *start, last = act.fields
    place = [it + begin if it >= 0 else it for it in start]
    return act._replace(fields=(fd, *place, last[begin:end] if isinstance(last, bytes) else end - begin))


def is_transfer(act: Act) -> bool:
    """Whether an act is a read or write."""
    return act.word in ("read", "pread", "write", "pwrite")


def is_large(act: Act) -> bool:
    """Whether a read or write is one of more bytes than a call of the profile moves."""
    last: bytes | int = act.fields[-1]
    return (len(last) if isinstance(last, bytes) else last) > TRANSFER_MAX


def ways(it: Difference) -> Iterator[tuple[int, list[Act]]]:
    """What fdref may be given instead of an act for the reason of a difference, with the place of that act."""
    fits = it.reason.fits if it.reason else None
    if fits in (is_lseek_past_files, is_reader_waiting) or (fits in REFUSING and it.system.startswith("error ")):
        yield it.place, []
    elif fits is is_smaller_file:
        yield it.place, [part(it.act, 0, int(it.system))]
    elif fits is is_pwrite_appended and follows_append(it):
        before = plain_model.read_act(act_of(it.lines[it.place - 1]).encode())
        if it.size_before is not None:
            yield it.place - 1, parts(at_end(before, it.size_before), it.world)
    elif fits in (is_count, is_pwrite_appended):
        assert it.at
        yield it.place, parts(it.act, it.world)
        if is_append(it.act, it.at):
            yield it.place, parts(at_end(it.act, len(it.at.regular.data)), it.world)
    elif fits in (is_room, is_paged_room) and it.words("write"):
        if it.system == "error EAGAIN":
            yield it.place, []
        elif it.system.isdigit():
            yield it.place, [part(it.act, 0, int(it.system))]


# ---- a system that does it


class Appending(World):
    """A world in which a pwrite under append writes at the end."""

    def pwrite(self, process: Process, fd: int, start: int, data: bytes) -> Reply:
        """The call."""
        at: Description | None = process.table.get(fd)
        if at and start >= 0 and is_append(Act(process.number, "pwrite"), at):
            start = len(at.regular.data)
        return super().pwrite(process, fd, start, data)
