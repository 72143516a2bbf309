#!/usr/bin/env python3
"""Prints what a wrong system would print, or what a driver prints that is wrong itself.

usage: tests/stand_ins/wrong_driver.py WAY < script
       tests/stand_ins/wrong_driver.py --list

It is tests/stand_ins/settled_driver.py, made wrong in the way that is named, or in none by `none`. tools/compare.py
takes it in the place of ask_kernel: --ask 'tests/stand_ins/wrong_driver.py WAY'.
"""

import re
import sys
from collections.abc import Callable
from pathlib import Path

sys.path.insert(0, str(Path(__file__).resolve().parents[1]))

from stand_ins import settled_driver
from support import plain_model
from support.plain_model import WaitingOpen, WaitingRead, WaitingWrite

# Systems that leave a call waiting which can go on: whether a call of a kind goes on there.
SLEEPS: dict[str, tuple[type, Callable[..., bool]]] = {
    "write-wakes-nobody": (WaitingRead, lambda call, world: not world.has_end(call.pipe, "w")),
    "last-writer-wakes-nobody": (WaitingRead, lambda call, world: bool(call.pipe.data)),
    "read-wakes-nobody": (WaitingWrite, lambda call, world: not world.has_end(call.pipe, "r")),
    "last-reader-wakes-nobody": (WaitingWrite, lambda call, world: world.has_end(call.pipe, "r") and call.pipe.room()),
    "open-wakes-nobody": (WaitingOpen, lambda call, world: False),
}
# Systems that end a call that has to wait on: whether a call of a kind goes on there.
WAKES: dict[str, tuple[type, Callable[..., bool]]] = {
    "wakes-readers-early": (WaitingRead, lambda call, world: True),
    "wakes-openers-early": (WaitingOpen, lambda call, world: True),
    "wakes-writers-early": (WaitingWrite, lambda call, world: True),
}


def without(script: bytes, word: bytes) -> bytes:
    """A script without the acts that have a word."""
    return b"".join(line for line in script.splitlines(keepends=True) if word not in line)


# Drivers that do not run their whole script: what they run of it.
LEFT_OUT: dict[str, Callable[[bytes], bytes]] = {
    "runs-nothing": lambda script: b"",
    "runs-six-lines": lambda script: b"".join(script.splitlines(keepends=True)[:6]),
    "runs-no-unlink": lambda script: without(script, b" unlink "),
    "runs-more": lambda script: script + b"p0 close 0\n",
}
# Drivers that print no lines of a run: what they make of these.
PRINTED: dict[str, Callable[[str], str]] = {
    "prints-nothing": lambda text: "",
    "prints-no-totals": lambda text: text.replace("\nrecords", "\n# records"),
    "prints-a-line-more": lambda text: f"{text}\n",
    "prints-a-check-mark": lambda text: f"\u2713 up\n{text}",
    "prints-a-panic": lambda text: "panic: page fault\n",
    "prints-another-word": lambda text: text.replace(" pread ", " pread64 "),
    "prints-another-name": lambda text: text.replace(" Z9 ", " Z%39 "),
    "sees-nothing": lambda text: re.sub(r"(?m) = .*$", " = ?", text),
    "sees-no-read": lambda text: text.replace(" = x6162", " = ?"),
    "sees-no-small-write": lambda text: text.replace("parked 0", "parked ?"),
    "sees-no-totals": lambda text: re.sub(r"(?m)^records .*$", "records ? in ? out ?", text),
    "sees-no-bytes-in": lambda text: re.sub(r"(?m)^(records \d+ in) .* out", r"\1 ? out", text),
    "sees-no-return": lambda text: text.replace("p0 resume = 1", "p0 resume = ?"),
    "says-no-part": lambda text: re.sub(r"(?m)( p0 resume = )\?$", r"\1half", text),
    "says-no-number": lambda text: text.replace("parked ?", "parked some"),
    "asks-no-pipe": lambda text: text.replace(" pipe = 0 1", " pipe = not asked"),
    "says-waiting": lambda text: text.replace(" close 0 = ok", " close 0 = parked 0"),
    "says-a-number": lambda text: text.replace(" close 0 = ok", " close 0 = 0"),
    "says-it-at-length": lambda text: text.replace("= x6162", "= x6162 (ab)"),
    "says-back-twice": lambda text: re.sub(r"(?m)^(\d+ p0 resume = .*)$", r"\1\n\1", text),
    "says-no-place": lambda text: re.sub(r"(?m)^4 ", "- ", text),
    "loses-a-record": lambda text: re.sub(r"(?m)^\d+ p0 resume = .*\n", "", text),
    "loses-its-place": lambda text: re.sub(r"(?m)^4 ", "0 ", text),
    "says-it-otherwise": lambda text: text.replace(" = x6162", " = 61*1"),
    "prints-no-closing": lambda text: text.replace("2 p1 exit = ok\n3", "2").replace("records 4", "records 3"),
}

# Systems whose pipes take less than they have room for: what they answer otherwise.
TAKE_LESS: dict[str, Callable[[str], str]] = {
    "takes-half": lambda text: text.replace(" 61*1000 = 1000", " 61*1000 = 512"),
    "waits-at-an-empty-pipe": lambda text: text.replace(" 61*600 = 600", " 61*600 = parked 0"),
}
# What the driver does not see of a small write that has gone in by a part.
UNSEEN: dict[str, Callable[[str], str]] = {"tears-small-writes": lambda text: text.replace("parked 84", "parked 0")}


# The pipes of systems that have other ones than the profile.
ROOMY = {
    "has-larger-pipes": plain_model.Limits(capacity=16_384),
    "waits-beside-room": plain_model.Limits(capacity=16_384),
    "has-smaller-pipes": plain_model.Limits(capacity=512),
    "spoils-parts": plain_model.Limits(capacity=512),
    "has-pages": plain_model.Limits(capacity=65_536),
    "tears-small-writes": plain_model.Limits(capacity=16_384),
    "has-two-pages": plain_model.Limits(capacity=8_192),
    "has-large-pages": plain_model.Limits(capacity=65_536),
    "has-smaller-pipes-than-fifos": plain_model.Limits(capacity=65_536),
    "refuses-beside-pages": plain_model.Limits(capacity=65_536),
    "has-pages-once": plain_model.Limits(capacity=65_536),
    "tears-beside-pages": plain_model.Limits(capacity=65_536),
}
# Systems that are right, with pipes of 4,096 bytes and a larger PIPE_BUF: from how many bytes on a write that waits is
# told as one of which it is not seen how much went in.
LARGER_PIPE_BUF, UNSEEN_FROM = 4_096, {"larger-pipe-buf": 4_097, "larger-pipe-buf-unseen": 513}


def has_larger_pipe_buf(unseen_from: int) -> None:
    """Makes it a system with such a PIPE_BUF."""

    def is_large(process: plain_model.Process) -> bool:
        return isinstance(process.waits, WaitingWrite) and len(process.waits.data) >= unseen_from

    plain_model.PIPE_BUF = LARGER_PIPE_BUF
    settled_driver.is_large = is_large


def gives_no_part(call: WaitingWrite, world: plain_model.World) -> tuple[plain_model.Reply, bool]:
    """A write that ends without a reader is EPIPE, whatever it has moved."""
    plain_model.require(world.has_end(call.pipe, "r"), "EPIPE")
    call.put(world)
    has_ended = call.moved == len(call.data)
    return call.moved if has_ended else f"part {call.moved}", has_ended


def is_ended(call: WaitingRead, world: plain_model.World) -> bool:
    """Whether a read that waits has data, no writer, or nonblock, which was set meanwhile."""
    ends = (at for process in world.processes.values() for at in process.table.values() if at.pipe is call.pipe)
    is_set = any(at.mode == "r" and at.nonblock for at in ends)
    return bool(call.pipe.data) or not world.has_end(call.pipe, "w") or is_set


def given_or_ended(call: WaitingRead, world: plain_model.World) -> tuple[plain_model.Reply, bool]:
    """What a read that waited gives, and EAGAIN where there is nothing yet."""
    plain_model.require(call.pipe.data or not world.has_end(call.pipe, "w"), "EAGAIN")
    return world.get(call.pipe, call.count), True


def spoiled_part(
    world: plain_model.World, process: plain_model.Process, at: plain_model.Description, data: bytes
) -> plain_model.Reply:
    """A write to a pipe of which only a part goes in, as other bytes."""
    assert at.pipe
    return WRITE_END(world, process, at, data if len(data) <= at.pipe.room() else bytes(len(data)))


def turned_pipe(world: plain_model.World, process: plain_model.Process) -> plain_model.Reply:
    """A pipe whose writing end has the lower number."""
    reading, writing = str(PIPE(world, process)).split(" ")
    table = process.table
    table[int(reading)], table[int(writing)] = table[int(writing)], table[int(reading)]
    return f"{writing} {reading}"


# What went into each pipe by its reading end.
BACK: dict[plain_model.Pipe, plain_model.Pipe] = {}


def back_of(process: plain_model.Process, fd: int, mode: str) -> plain_model.Pipe | None:
    """The other direction of a pipe that goes both ways, where a descriptor is its end of a mode."""
    at = process.table.get(fd)
    is_end = at is not None and at.pipe is not None and at.file is at.pipe and at.mode == mode
    return BACK.setdefault(at.pipe, plain_model.Pipe(at.pipe.capacity)) if at and at.pipe and is_end else None


def write_both_ways(world: plain_model.World, process: plain_model.Process, fd: int, data: bytes) -> object:
    """A write that goes into the other direction at the reading end of a pipe, as far as there is room."""
    back = back_of(process, fd, "r")
    if back is None:
        return WRITE(world, process, fd, data)
    call = WaitingWrite(back, data)
    plain_model.require(len(data) <= back.room() or not call.is_whole, "EAGAIN")
    call.put(world)
    plain_model.require(call.moved, "EAGAIN")
    return call.moved


def read_both_ways(world: plain_model.World, process: plain_model.Process, fd: int, count: int) -> object:
    """A read that takes from the other direction at the writing end of a pipe."""
    back = back_of(process, fd, "w")
    if back is None:
        return READ(world, process, fd, count)
    if not back.data:
        process.waits = WaitingRead(back, count)
        return None
    return world.get(back, count)


def told_both_ways(world: plain_model.World, process: plain_model.Process, fd: int) -> object:
    """A getfl that tells of each end of a pipe that it is open for both."""
    is_end = back_of(process, fd, "r") or back_of(process, fd, "w")
    return GETFL(world, process, fd) | (3 if is_end else 0)


def without_nonblock(world: plain_model.World, process: plain_model.Process, name: bytes, flags: str) -> object:
    """An open of a regular file that leaves out nonblock."""
    file = world.names.get(name)
    is_fifo = isinstance(file, plain_model.Fifo)
    return OPEN(world, process, name, flags if is_fifo else flags.replace(",nonblock", ""))


PIPE, WRITE_END = plain_model.World.pipe, plain_model.World.write_end

def take_last_first(run: settled_driver.Settled, act: plain_model.Act) -> None:
    """Lets an act take place, and all that go on because of it, those of the last process first."""
    plain_model.Run.take(run, act)
    while any(run.goes_on(process) for process in reversed([*run.world.processes.values()])):
        continue


def make_file(world: plain_model.World, _: plain_model.Process, name: bytes) -> plain_model.Reply:
    """A mkfifo that makes a regular file."""
    world.names[name] = plain_model.Regular()
    return "ok"


def leave_name(_: plain_model.World, *__: object) -> plain_model.Reply:
    """An unlink that does nothing."""
    return "ok"


def leave_old_name(world: plain_model.World, _: plain_model.Process, old: bytes, new: bytes) -> plain_model.Reply:
    """A rename that leaves the old name."""
    world.names[new] = world.names[old]
    return "ok"


GETFL = plain_model.World.getfl
PWRITE, WRITE, READ = plain_model.World.pwrite, plain_model.World.write, plain_model.World.read
# What a system takes that moves more bytes in a call than the profile.
MANY = 2**32


def appended(world: plain_model.World, process: plain_model.Process, fd: int, start: int, data: bytes) -> object:
    """A pwrite that goes to the end under append."""
    at = process.table.get(fd)
    is_moved = at and at.append and not at.pipe and start >= 0
    return PWRITE(world, process, fd, len(at.regular.data) if at and is_moved else start, data)


def appended_and_moved(world: plain_model.World, process: plain_model.Process, *fields: object) -> object:
    """One that moves the offset too."""
    put = appended(world, process, *fields)
    at = process.table[fields[0]]
    at.offset = len(at.regular.data) if at.append else at.offset
    return put


def appended_and_put(world: plain_model.World, process: plain_model.Process, *fields: object) -> object:
    """One that puts the bytes where it was told, too."""
    appended(world, process, *fields)
    return PWRITE(world, process, *fields)


def appended_otherwise(
    world: plain_model.World, process: plain_model.Process, fd: int, start: int, data: bytes
) -> object:
    """One that puts other bytes at the end."""
    return appended(world, process, fd, start, bytes(byte ^ 1 for byte in data))


def short_write(world: plain_model.World, process: plain_model.Process, fd: int, data: bytes) -> object:
    """A write of many bytes that leaves out the last one, and tells of all."""
    left_out = len(data) > plain_model.PIPE_CAPACITY_MOST
    put = WRITE(world, process, fd, data[:-1] if left_out else data)
    return put + 1 if left_out and isinstance(put, int) and put else put


def holed_write(world: plain_model.World, process: plain_model.Process, fd: int, data: bytes) -> object:
    """A write of many bytes of which the last is another one."""
    other = len(data) > plain_model.PIPE_CAPACITY_MOST
    return WRITE(world, process, fd, data[:-1] + b"!" if other else data)


def read_in_place(world: plain_model.World, process: plain_model.Process, fd: int, count: int) -> object:
    """A read of many bytes that leaves the offset."""
    at = process.table.get(fd)
    before = at.offset if at else 0
    given = READ(world, process, fd, count)
    if at and count > plain_model.PIPE_CAPACITY_MOST:
        at.offset = before
    return given


LSEEK, OPEN = plain_model.World.lseek, plain_model.World.open
FAR = 2**41


def near_seek(world: plain_model.World, process: plain_model.Process, fd: int, move: int, whence: str) -> object:
    """An lseek that is refused past a place."""
    before = process.table[fd].offset
    to = LSEEK(world, process, fd, move, whence)
    if isinstance(to, int) and to >= FAR:
        process.table[fd].offset = before
        raise plain_model.Errno("EINVAL")
    return to


def moving_seek(world: plain_model.World, process: plain_model.Process, fd: int, move: int, whence: str) -> object:
    """One that moves the offset and is refused."""
    to = LSEEK(world, process, fd, move, whence)
    plain_model.require(not isinstance(to, int) or to < FAR, "EINVAL")
    return to


def late_open(world: plain_model.World, process: plain_model.Process, name: bytes, flags: str) -> object:
    """An open of a FIFO for writing that is refused under nonblock while its readers wait in their own opens."""
    file = world.names.get(name)
    all_wait = all(
        isinstance(it.waits, WaitingOpen) and it.waits.fd == fd
        for it in world.processes.values()
        for fd, at in it.table.items()
        if at.file is file and at.mode == "r"
    )
    is_late = isinstance(file, plain_model.Fifo) and flags == "w,nonblock" and all_wait
    plain_model.require(not is_late, "ENXIO")
    return OPEN(world, process, name, flags)


def late_and_made(world: plain_model.World, process: plain_model.Process, name: bytes, flags: str) -> object:
    """One that is refused and opened all the same."""
    try:
        return late_open(world, process, name, flags)
    except plain_model.Errno as fault:
        if str(fault) == "ENXIO":
            OPEN(world, process, name, flags)
        raise


LINK, LINKS, FSTAT = plain_model.World.link, plain_model.World.links, plain_model.World.fstat


def link_to(most: int) -> Callable[..., object]:
    """A link where a file has so many links at most."""

    def link(world: plain_model.World, process: plain_model.Process, old: bytes, new: bytes) -> object:
        world.link_max = most
        return LINK(world, process, old, new)

    return link


def link_by_another_name(world: plain_model.World, process: plain_model.Process, old: bytes, new: bytes) -> object:
    """A link that makes another name than it is told where a file has as many as in the profile."""
    is_past = old in world.names and LINKS(world, world.names[old]) >= plain_model.LINK_MAX
    put = link_to(MANY)(world, process, old, new)
    if is_past:
        world.names[b"not." + new] = world.names.pop(new)
    return put


def told_few_links(world: plain_model.World, process: plain_model.Process, fd: int) -> object:
    """An fstat that never tells more links than in the profile."""
    kind, size, links = str(FSTAT(world, process, fd)).split(" ")
    return f"{kind} {size} {min(int(links), plain_model.LINK_MAX)}"


LOWEST, DUP2 = plain_model.lowest_free, plain_model.World.dup2
# Descriptors of a system that has as few as each system has.
FEW = 20


def few(process: plain_model.Process, count: int = 1) -> list[int]:
    """The lowest free descriptors of few."""
    found = LOWEST(process, count)
    plain_model.require(found[-1] < FEW, "EMFILE")
    return found


def few_to(world: plain_model.World, process: plain_model.Process, fd: int, to: int) -> object:
    """A dup2 to one of few."""
    plain_model.require(to < FEW, "EBADF")
    return DUP2(world, process, fd, to)


def waits_beside(world: plain_model.World, process: plain_model.Process, fd: int, data: bytes) -> object:
    """A write that waits though its bytes fit, where the pipe has many."""
    at = process.table.get(fd)
    if at and at.pipe and len(data) < 200 and len(at.pipe.data) > 500:
        plain_model.require(not at.nonblock, "EAGAIN")
        process.waits = WaitingWrite(at.pipe, data)
        return 0
    return WRITE(world, process, fd, data)


def one_byte(
    world: plain_model.World, process: plain_model.Process, at: plain_model.Description, data: bytes
) -> plain_model.Reply:
    """A write of more than PIPE_BUF bytes under nonblock that moves one byte, and PIPE_BUF into an empty pipe."""
    assert at.pipe
    is_large = at.nonblock and len(data) > plain_model.PIPE_BUF and at.pipe.room()
    most = 1 if at.pipe.data else plain_model.PIPE_BUF
    return WRITE_END(world, process, at, data[:most] if is_large else data)


def torn_write(
    world: plain_model.World, process: plain_model.Process, at: plain_model.Description, data: bytes
) -> plain_model.Reply:
    """A write of at most PIPE_BUF bytes that goes in by parts."""
    assert at.pipe
    if len(data) <= at.pipe.room() or len(data) > plain_model.PIPE_BUF or at.nonblock:
        return WRITE_END(world, process, at, data)
    call = WaitingWrite(at.pipe, data)
    call.put(world)
    process.waits = call
    return 0


# The pipes of which a write was refused, and how many bytes of the pages of each stay empty.
REFUSED: set[plain_model.Pipe] = set()
EMPTY: dict[plain_model.Pipe, int] = {}


def paged_write(is_refused_once: bool) -> Callable[..., plain_model.Reply]:
    """A write to a pipe with pages, of which 3,000 bytes fill one. One of 5,000 is refused after 40,000, and again, or
    only once, so that pages are no reason."""

    def write(
        world: plain_model.World, process: plain_model.Process, at: plain_model.Description, data: bytes
    ) -> plain_model.Reply:
        assert at.pipe
        is_refused = len(data) == 5_000 and len(at.pipe.data) == 40_000
        is_refused = is_refused and not (is_refused_once and at.pipe in REFUSED)
        if is_refused:
            REFUSED.add(at.pipe)
            raise plain_model.Errno("EAGAIN")
        EMPTY[at.pipe] = EMPTY.get(at.pipe, 0) + 1_096 * (len(data) == 3_000)
        return WRITE_END(world, process, at, data)

    return write


def paged_and_torn(
    world: plain_model.World, process: plain_model.Process, at: plain_model.Description, data: bytes
) -> plain_model.Reply:
    """A write to a pipe with pages under nonblock that moves what there is room for, at most PIPE_BUF bytes, too; and
    of 5,000 bytes after 40,000 a page."""
    assert at.pipe
    most = 4_096 if len(data) == 5_000 and len(at.pipe.data) == 40_000 else at.pipe.room() or len(data)
    return paged_write(False)(world, process, at, data[:most] if at.nonblock else data)


def refused_write(
    world: plain_model.World, process: plain_model.Process, at: plain_model.Description, data: bytes
) -> plain_model.Reply:
    """A write to a pipe with pages of which one of 65,500 bytes is refused, whatever is free."""
    plain_model.require(len(data) != 65_500, "EAGAIN")
    return paged_write(False)(world, process, at, data)


# How many bytes a large page has, and where the bytes in each such page of a pipe begin and end.
LARGE_PAGE = 16_384
FILLED: dict[plain_model.Pipe, list[list[int]]] = {}


def write_in_large_pages(
    world: plain_model.World, process: plain_model.Process, at: plain_model.Description, data: bytes
) -> plain_model.Reply:
    """A write under nonblock to a pipe of four large pages: what it has more than whole pages goes on in the last one
    that is used, if it fits there, and all else into others."""
    assert at.pipe
    if not at.nonblock or not world.has_end(at.pipe, "r"):
        return WRITE_END(world, process, at, data)
    used, held, moved = FILLED.setdefault(at.pipe, []), len(at.pipe.data), 0
    while used and sum(end - begin for begin, end in used[1:]) >= held:
        used.pop(0)
    if used:
        used[0][0] = used[0][1] - (held - sum(end - begin for begin, end in used[1:]))
    if used and used[-1][1] + len(data) % LARGE_PAGE <= LARGE_PAGE:
        moved = len(data) % LARGE_PAGE
        used[-1][1] += moved
    while moved < len(data) and len(used) < 4:
        used.append([0, min(LARGE_PAGE, len(data) - moved)])
        moved += used[-1][1]
    plain_model.require(moved, "EAGAIN")
    at.pipe.data += data[:moved]
    world.bytes_in += moved
    return moved


def half_read(call: WaitingRead, world: plain_model.World) -> tuple[plain_model.Reply, bool]:
    """What a read gives that waited: it leaves half of it to another one of its pipe that waits."""
    others = [it.waits for it in world.processes.values() if isinstance(it.waits, WaitingRead) and it.waits is not call]
    is_shared = any(other.pipe is call.pipe for other in others)
    return world.get(call.pipe, min(call.count, -(-len(call.pipe.data) // 2) if is_shared else call.count)), True


def smaller_pipe(world: plain_model.World, process: plain_model.Process) -> plain_model.Reply:
    """A pipe of 4,096 bytes."""
    ends = PIPE(world, process)
    pipe = process.table[int(str(ends).split(" ")[0])].pipe
    assert pipe
    pipe.capacity = 4_096
    return ends


def paged_room(pipe: plain_model.Pipe) -> int:
    """How many bytes more go into a pipe with pages."""
    return max(pipe.capacity - len(pipe.data) - EMPTY.get(pipe, 0), 0)


# Systems that move more bytes in a call than the profile, one of them by the standard.
LARGER: dict[str, list[tuple[type, str, Callable[..., object]]]] = {
    "takes-many-bytes": [],
    "many-bytes-but-one": [(plain_model.World, "write", short_write)],
    "many-bytes-and-another": [(plain_model.World, "write", holed_write)],
    "reads-many-in-place": [(plain_model.World, "read", read_in_place)],
}
# Systems that append a pwrite under append, one of them with no other fault.
APPENDING: dict[str, list[tuple[type, str, Callable[..., object]]]] = {
    "appends-pwrite": [(plain_model.World, "pwrite", appended)],
    "appends-pwrite-and-moves": [(plain_model.World, "pwrite", appended_and_moved)],
    "appends-pwrite-twice": [(plain_model.World, "pwrite", appended_and_put)],
    "appends-other-bytes": [(plain_model.World, "pwrite", appended_otherwise)],
}
# Systems that are right in what the standard leaves open, and systems that are wrong where a name leads: the functions
# of the model that they have otherwise.
OTHERWISE: dict[str, list[tuple[type, str, Callable[..., object]]]] = {
    "mkfifo-makes-a-file": [(plain_model.World, "mkfifo", make_file)],
    "unlink-leaves-the-name": [(plain_model.World, "unlink", leave_name)],
    "rename-leaves-the-name": [(plain_model.World, "rename", leave_old_name)],
    "no-part-without-a-reader": [(WaitingWrite, "go_on", gives_no_part)],
    "serves-the-last-first": [(settled_driver.Settled, "take", take_last_first)],
    "turns-pipes": [(plain_model.World, "pipe", turned_pipe)],
    "has-pipes-both-ways": [
        (plain_model.World, "write", write_both_ways),
        (plain_model.World, "read", read_both_ways),
        (plain_model.World, "getfl", told_both_ways),
    ],
    "opens-without-nonblock": [(plain_model.World, "open", without_nonblock)],
    "nonblock-ends-a-read": [(WaitingRead, "is_ready", is_ended), (WaitingRead, "go_on", given_or_ended)],
    "refuses-far-lseek": [(plain_model.World, "lseek", near_seek)],
    "refuses-far-lseek-and-moves": [(plain_model.World, "lseek", moving_seek)],
    "opens-after-the-reader": [(plain_model.World, "open", late_open)],
    "opens-after-the-reader-and-before": [(plain_model.World, "open", late_and_made)],
    "has-20-descriptors": [(plain_model, "lowest_free", few), (plain_model.World, "dup2", few_to)],
    "has-20-descriptors-and-25": [(plain_model, "lowest_free", few)],
    "has-many-links": [(plain_model.World, "link", link_to(MANY))],
    "has-10-links": [(plain_model.World, "link", link_to(10))],
    "links-another-name": [(plain_model.World, "link", link_by_another_name)],
    "counts-few-links": [(plain_model.World, "link", link_to(MANY)), (plain_model.World, "fstat", told_few_links)],
    "has-larger-pipes": [],
    "has-smaller-pipes": [],
    "spoils-parts": [(plain_model.World, "write_end", spoiled_part)],
    "tears-small-writes": [(plain_model.World, "write_end", torn_write)],
    "writes-one-byte": [(plain_model.World, "write_end", one_byte)],
    "has-pages": [
        (plain_model.Pipe, "room", paged_room),
        (plain_model.World, "write_end", paged_write(False)),
    ],
    "has-large-pages": [(plain_model.World, "write_end", write_in_large_pages)],
    "shares-reads": [(WaitingRead, "go_on", half_read)],
    "has-smaller-pipes-than-fifos": [(plain_model.World, "pipe", smaller_pipe)],
    "refuses-beside-pages": [
        (plain_model.Pipe, "room", paged_room),
        (plain_model.World, "write_end", refused_write),
    ],
    "has-two-pages": [
        (plain_model.Pipe, "room", paged_room),
        (plain_model.World, "write_end", paged_write(False)),
    ],
    "has-pages-once": [
        (plain_model.Pipe, "room", paged_room),
        (plain_model.World, "write_end", paged_write(True)),
    ],
    "tears-beside-pages": [
        (plain_model.Pipe, "room", paged_room),
        (plain_model.World, "write_end", paged_and_torn),
    ],
    "waits-beside-room": [
        (plain_model.World, "write", waits_beside),
        (WaitingWrite, "is_ready", lambda call, world: not world.has_end(call.pipe, "r")),
    ],
    **LARGER,
    **APPENDING,
}


def printed(way: str, script: bytes, limits: plain_model.Limits = plain_model.DEFAULTS) -> bytes:
    """What a driver prints for a script that is wrong in a way, or not."""
    lines = settled_driver.lines_of(LEFT_OUT.get(way, bytes)(script), limits)
    return {**PRINTED, **TAKE_LESS, **UNSEEN}.get(way, str)("".join(f"{line}\n" for line in lines)).encode()


def main(words: list[str]) -> int:
    """Prints what is asked for: the exit status."""
    if words == ["--list"]:
        print("\n".join([*SLEEPS, *WAKES, *LEFT_OUT, *PRINTED, *TAKE_LESS, *UNSEEN_FROM, *OTHERWISE]))
        return 0
    (way,) = words
    if way in {**SLEEPS, **WAKES}:
        kind, is_ready = {**SLEEPS, **WAKES}[way]
        setattr(kind, "is_ready", is_ready)
    if way == "wakes-writers-early":
        setattr(WaitingWrite, "go_on", lambda call, world: (len(call.data), True))
    for kind, name, function in OTHERWISE.get(way, []):
        setattr(kind, name, function)
    plain_model.TRANSFER_MAX = MANY if way in LARGER or way in APPENDING else plain_model.TRANSFER_MAX
    limits = ROOMY.get(way, plain_model.DEFAULTS)
    if way in UNSEEN_FROM:
        has_larger_pipe_buf(UNSEEN_FROM[way])
        limits = plain_model.Limits(capacity=LARGER_PIPE_BUF)
    sys.stdout.buffer.write(printed(way, sys.stdin.buffer.read(), limits))
    return 0


if __name__ == "__main__":
    sys.exit(main(sys.argv[1:]))
