#!/usr/bin/env python3
"""Prints what a wrong fdref would print, so that it can be seen whether random scripts find it out.

usage: tests/stand_ins/wrong_oracle.py RULE replay [--records N] [--pipe-capacity N] < script
       tests/stand_ins/wrong_oracle.py --list

It is the plain model, which prints byte for byte what `fdref replay` prints, with one rule of it
changed. RULE is one of those that --list prints, or `none`, which changes nothing. tools/compare.py
takes it in the place of fdref: --program 'tests/stand_ins/wrong_oracle.py RULE'.
"""

import copy
import sys
from collections.abc import Callable
from pathlib import Path
from typing import Any

sys.path.insert(0, str(Path(__file__).resolve().parents[1]))

from support import plain_model
from support.plain_model import Description, Pipe, Process, Regular, World

RULES: dict[str, tuple[str, Callable[[], None]]] = {}

# A function of the model: where it is replaced, the one that stood there is the first argument of the new one.
Function = Callable[..., Any]


def rule(text: str) -> Callable[[Callable[[], None]], Callable[[], None]]:
    """Marks a function that makes the model wrong, in a way that the text tells."""

    def keep(function: Callable[[], None]) -> Callable[[], None]:
        RULES[function.__name__.replace("_", "-")] = (text, function)
        return function

    return keep


def wraps(owner: object, name: str) -> Callable[[Function], Function]:
    """Puts a function in the place of one of the model's, which it is given as its first argument."""

    def put(function: Function) -> Function:
        right = getattr(owner, name)
        setattr(owner, name, lambda *values: function(right, *values))
        return function

    return put


# ---- descriptors


@rule("a child's descriptors have offsets of their own")
def offsets_part_after_fork() -> None:
    @wraps(World, "fork")
    def fork(right: Function, world: World, process: Process) -> Any:
        number = right(world, process)
        table = world.processes[number].table
        table.update({fd: copy.copy(at) for fd, at in table.items()})
        return number


@rule("a duplicate has an offset of its own")
def dup_parts_offsets() -> None:
    @wraps(World, "dup")
    def dup(right: Function, world: World, process: Process, fd: int) -> Any:
        to = right(world, process, fd)
        process.table[to] = copy.copy(process.table[to])
        return to


@rule("open gives the second lowest free descriptor")
def second_lowest_descriptor() -> None:
    @wraps(plain_model, "lowest_free")
    def lowest_free(right: Function, process: Process, count: int = 1) -> Any:
        free = [fd for fd in range(plain_model.OPEN_MAX) if fd not in process.table]
        return free[1:2] if count == 1 and len(free) > 1 else right(process, count)


@rule("dup2 leaves an open descriptor as it was")
def dup2_keeps_the_old_one() -> None:
    @wraps(World, "dup2")
    def dup2(right: Function, world: World, process: Process, fd: int, to: int) -> Any:
        before = process.table.get(to)
        right(world, process, fd, to)
        process.table[to] = before or process.table[to]
        return to


@rule("a child gets no descriptors")
def fork_copies_nothing() -> None:
    @wraps(World, "fork")
    def fork(right: Function, world: World, process: Process) -> Any:
        number = right(world, process)
        world.processes[number].table.clear()
        return number


@rule("setfl changes the flags of one descriptor alone")
def setfl_parts_descriptors() -> None:
    @wraps(World, "setfl")
    def setfl(right: Function, world: World, process: Process, fd: int, flags: str) -> Any:
        if fd in process.table:
            process.table[fd] = copy.copy(process.table[fd])
        return right(world, process, fd, flags)


@rule("setfl changes the mode")
def setfl_changes_the_mode() -> None:
    @wraps(World, "setfl")
    def setfl(right: Function, world: World, process: Process, fd: int, flags: str) -> Any:
        done = right(world, process, fd, flags)
        mode = flags.partition(",")[0]
        process.table[fd].mode = process.table[fd].mode if mode == "-" else mode
        return done


@rule("setfl adds flags and takes none away")
def setfl_clears_nothing() -> None:
    @wraps(World, "setfl")
    def setfl(right: Function, world: World, process: Process, fd: int, flags: str) -> Any:
        at = process.table.get(fd)
        kept = [word for word in ("append", "nonblock") if at and getattr(at, word)]
        return right(world, process, fd, ",".join([flags, *kept]))


@rule("getfl tells flags that made a file")
def getfl_tells_creation_flags() -> None:
    creating = set()

    @wraps(World, "open")
    def open_file(right: Function, world: World, process: Process, name: bytes, flags: str) -> Any:
        fd = right(world, process, name, flags)
        if "creat" in flags.split(","):
            creating.add(process.table[fd])
        return fd

    @wraps(World, "getfl")
    def getfl(right: Function, world: World, process: Process, fd: int) -> Any:
        return right(world, process, fd) + 4 * (process.table[fd] in creating)


# ---- files


@rule("a rename leaves the old name")
def rename_leaves_the_old_name() -> None:
    @wraps(World, "rename")
    def rename(right: Function, world: World, process: Process, old: bytes, new: bytes) -> Any:
        file = world.names.get(old)
        done = right(world, process, old, new)
        world.names[old] = file or world.names[new]
        return done


@rule("a rename of two names of one file takes one away")
def rename_drops_one_of_two_names() -> None:
    @wraps(World, "rename")
    def rename(right: Function, world: World, process: Process, old: bytes, new: bytes) -> Any:
        done = right(world, process, old, new)
        if old != new:
            world.names.pop(old, None)
        return done


@rule("a rename over a name is EEXIST")
def rename_replaces_nothing() -> None:
    @wraps(World, "rename")
    def rename(right: Function, world: World, process: Process, old: bytes, new: bytes) -> Any:
        plain_model.require(new not in world.names or old not in world.names, "EEXIST")
        return right(world, process, old, new)


@rule("rename empties an open file whose last name it takes")
def rename_frees_an_open_file() -> None:
    @wraps(World, "rename")
    def rename(right: Function, world: World, process: Process, old: bytes, new: bytes) -> Any:
        file = world.names.get(new)
        done = right(world, process, old, new)
        if isinstance(file, plain_model.Regular) and not world.links(file):
            file.data.clear()
        return done


@rule("a file with several names has one link too few")
def a_link_too_few() -> None:
    @wraps(World, "links")
    def links(right: Function, world: World, file: plain_model.Named) -> Any:
        return max(right(world, file) - 1, min(right(world, file), 1))


@rule("unlink empties a file that is open")
def unlink_takes_what_is_open() -> None:
    @wraps(World, "unlink")
    def unlink(right: Function, world: World, process: Process, name: bytes) -> Any:
        file = world.names.get(name)
        done = right(world, process, name)
        if isinstance(file, plain_model.Regular) and not world.links(file):
            file.data.clear()
        return done


@rule("a write under append begins at the offset")
def append_is_forgotten() -> None:
    @wraps(World, "write")
    def write(right: Function, world: World, process: Process, fd: int, data: bytes) -> Any:
        at = process.table.get(fd)
        if at and not at.pipe:
            at.append = False
        return right(world, process, fd, data)


@rule("creat empties a file that is there")
def creat_empties() -> None:
    @wraps(World, "open")
    def open_file(right: Function, world: World, process: Process, name: bytes, flags: str) -> Any:
        file = world.names.get(name)
        fd = right(world, process, name, flags)
        if "creat" in flags and isinstance(file, plain_model.Regular):
            file.data.clear()
        return fd


@rule("pread moves the offset")
def pread_moves() -> None:
    @wraps(World, "pread")
    def pread(right: Function, world: World, process: Process, fd: int, start: int, count: int) -> Any:
        given = right(world, process, fd, start, count)
        process.table[fd].offset = start + len(given)
        return given


@rule("a gap reads as ones")
def gaps_are_ones() -> None:
    @wraps(World, "put_at")
    def put_at(right: Function, world: World, file: Regular, start: int, data: bytes) -> Any:
        size = len(file.data)
        put = right(world, file, start, data)
        if put and start > size:
            # those nearest to the end of a long one
            gap = min(start - size, 2**20)
            file.data.write(start - gap, b"\xff" * gap)
        return put


@rule("an lseek from the end counts from the offset")
def end_is_the_offset() -> None:
    @wraps(World, "lseek")
    def lseek(right: Function, world: World, process: Process, fd: int, move: int, whence: str) -> Any:
        return right(world, process, fd, move, "cur" if whence == "end" else whence)


# ---- pipes, and what waits


@rule("a read of an empty pipe with a writer is at the end")
def end_in_place_of_waiting() -> None:
    @wraps(World, "read_end")
    def read_end(right: Function, world: World, process: Process, at: Description, count: int) -> Any:
        assert at.pipe
        return world.get(at.pipe, count)


@rule("a pipe gives first what was written last")
def last_in_first_out() -> None:
    @wraps(World, "get")
    def get(right: Function, world: World, pipe: Pipe, count: int) -> bytes:
        given = bytes(pipe.data[max(len(pipe.data) - count, 0) :])
        del pipe.data[len(pipe.data) - len(given) :]
        return world.given(given)


@rule("a reader is not woken when the last writer goes")
def last_writer_wakes_nobody() -> None:
    @wraps(plain_model.WaitingRead, "is_ready")
    def is_ready(right: Function, call: plain_model.WaitingRead, world: World) -> bool:
        return bool(call.pipe.data)


@rule("a write that nobody can read succeeds")
def no_broken_pipe() -> None:
    @wraps(World, "write_end")
    def write_end(right: Function, world: World, process: Process, at: Description, data: bytes) -> Any:
        assert at.pipe
        return right(world, process, at, data) if world.has_end(at.pipe, "r") else len(data)


@rule("nonblock is forgotten by a read")
def nonblock_waits() -> None:
    @wraps(World, "read_end")
    def read_end(right: Function, world: World, process: Process, at: Description, count: int) -> Any:
        at.nonblock = False
        return right(world, process, at, count)


@rule("setfl ends a read that waits")
def setfl_wakes_a_waiting_read() -> None:
    @wraps(plain_model.WaitingRead, "is_ready")
    def is_ready(right: Function, call: plain_model.WaitingRead, world: World) -> bool:
        ends = [at for at in world.descriptions() if at.pipe is call.pipe and at.mode == "r"]
        return right(call, world) or all(at.nonblock for at in ends)


@rule("an open of a FIFO does not wait for the other end")
def open_waits_for_nobody() -> None:
    @wraps(World, "open_end")
    def open_end(
        right: Function, world: World, process: Process, fd: int, fifo: plain_model.Fifo, mode: str, flags: list[str]
    ) -> Any:
        return right(world, process, fd, fifo, mode, [*flags, "nonblock"])


@rule("an open of a FIFO for writing under nonblock succeeds without a reader")
def no_enxio() -> None:
    @wraps(World, "open")
    def open_file(right: Function, world: World, process: Process, name: bytes, flags: str) -> Any:
        fifo = world.names.get(name)
        if not isinstance(fifo, plain_model.Fifo) or not flags.startswith("w,") or world.has_end(fifo.pipe, "r"):
            return right(world, process, name, flags)
        # a reader for the time of the call
        helper = plain_model.Process(-1, {0: plain_model.Description(fifo, "r", pipe=fifo.pipe)})
        world.processes[-1] = helper
        try:
            return right(world, process, name, flags)
        finally:
            del world.processes[-1]


@rule("an exit leaves the ends of its process open")
def exit_closes_nothing() -> None:
    gone = []

    @wraps(plain_model.Run, "end")
    def end(right: Function, run: plain_model.Run, process: Process) -> None:
        gone.append(process)
        right(run, process)

    @wraps(World, "has_end")
    def has_end(right: Function, world: World, pipe: Pipe, end: str) -> bool:
        return right(world, pipe, end) or any(
            at.pipe is pipe and at.mode == end for process in gone for at in process.table.values()
        )


def main(words: list[str]) -> int:
    """Prints what is asked for: the exit status."""
    if words == ["--list"]:
        print("\n".join(f"{name}: {text}" for name, (text, _) in RULES.items()))
        return 0
    is_asked = len(words) in (2, 4, 6) and (words[0] in RULES or words[0] == "none") and words[1] == "replay"
    if not is_asked or not set(words[2::2]) <= {"--records", "--pipe-capacity"}:
        print(__doc__, file=sys.stderr)
        return 2
    if words[0] != "none":
        RULES[words[0]][1]()
    given = dict(zip(words[2::2], map(int, words[3::2]), strict=True))
    records = given.get("--records", plain_model.RECORDS_DEFAULT)
    limits = plain_model.Limits(capacity=given.get("--pipe-capacity", plain_model.PIPE_CAPACITY))
    ran = plain_model.replay(sys.stdin.buffer.read(), records, limits)
    sys.stdout.buffer.write(ran.stdout)
    sys.stderr.buffer.write(ran.stderr)
    return ran.status


if __name__ == "__main__":
    sys.exit(main(sys.argv[1:]))
