"""A plain model of `fdref replay`, written from docs/PROFILE.md and docs/FORMATS.md alone.

`replay(script, records, limits)` gives what the program has to give for a script: exit status,
standard output and standard error. It shares nothing with the program and its definitions, and does
not look like them: the bytes of a pipe are a bytearray and those of a file a dictionary of blocks, a
descriptor leads straight to its description, what nothing leads to is forgotten by Python, and
whether somebody has an end of a pipe open is looked up afresh. So what the program and this model say
alike was read out of the two documents twice.

A call is the method of `World` with its word: it returns what the call replies, raises `Errno`, or
parks the process. It is slow where that is plainer, and has no want of memory.
"""

import re
from collections.abc import Callable, Iterable, Mapping
from functools import partial
from typing import Any, NamedTuple

from support.contents import Contents
from support.running import Ran

OPEN_MAX = 32
NAME_MAX = 64
NAMES_MAX = 1_024
LINK_MAX = 8
DESCRIPTIONS_MAX = 1_024
PROCESSES_MAX = 64
FILE_SIZE_MAX = 2**40
TRANSFER_MAX = 65_536
PIPE_CAPACITY = 1_024
PIPE_CAPACITY_LEAST = 512
PIPE_CAPACITY_MOST = 65_536
PIPE_BUF = 512
RECORDS_DEFAULT = 10_000
OFFSET_MAX = 2**63 - 1

SCRIPT_MOST = 16_777_216
NAME_MOST = 255
DATA_MOST = 65_700

# What a call gives where it does not end in an error.
Reply = int | str | bytes | None


class Limits(NamedTuple):
    """What may differ between two runs: how many bytes a regular file and a pipe have at most."""

    size: int = FILE_SIZE_MAX
    capacity: int = PIPE_CAPACITY


DEFAULTS = Limits()
# Those of each run whose trace has version 1.
OLD_LIMITS = Limits(1_048_576, 1_024)


# ---- what there is


class Errno(Exception):
    """A recorded refusal: the name of an error number."""


def require(condition: object, error: str) -> None:
    """Refuses a call unless a condition holds."""
    if not condition:
        raise Errno(error)


class Regular:
    """A regular file."""

    kind = "regular"

    def __init__(self) -> None:
        self.data = Contents()


class Pipe:
    """A pipe: that of a pipe(), or that of a FIFO while one of its ends is open."""

    kind = "pipe"

    def __init__(self, capacity: int) -> None:
        self.data = bytearray()
        self.capacity = capacity

    def room(self) -> int:
        """How many bytes more go into it."""
        return self.capacity - len(self.data)


class Fifo:
    """A FIFO: its pipe, which is kept only while an end is open, and how often each end was opened."""

    kind = "fifo"

    def __init__(self, pipe: Pipe) -> None:
        self.pipe = pipe
        self.opened = {"r": 0, "w": 0}


# What a name leads to.
Named = Regular | Fifo


class Description:
    """An open file description of a file; `pipe` is the pipe that it is an end of, if any."""

    def __init__(
        self, file: Regular | Pipe | Fifo, mode: str, flags: Iterable[str] = (), pipe: Pipe | None = None
    ) -> None:
        self.file = file
        self.pipe = pipe
        self.mode = mode
        self.append = "append" in flags
        self.nonblock = "nonblock" in flags
        # whether nonblock is from the open, and no setfl came since
        self.is_opened_nonblock = self.nonblock
        self.offset = 0

    @property
    def regular(self) -> Regular:
        """The file, where it is no end of a pipe."""
        assert isinstance(self.file, Regular)
        return self.file


Table = Mapping[int, Description]


# ---- calls that wait


class WaitingRead:
    """A read of an empty pipe that somebody can still write to."""

    def __init__(self, pipe: Pipe, count: int) -> None:
        self.pipe = pipe
        self.count = count
        self.moved = 0

    def is_ready(self, world: "World") -> bool:
        """Whether it need not wait any more."""
        return bool(self.pipe.data) or not world.has_end(self.pipe, "w")

    def go_on(self, world: "World") -> tuple[Reply, bool]:
        """What the next try of the call replies, and whether the call has ended with it."""
        return world.get(self.pipe, self.count), True


class WaitingWrite:
    """A write to a pipe without room for all; one of at most PIPE_BUF bytes goes in at once."""

    def __init__(self, pipe: Pipe, data: bytes) -> None:
        self.pipe = pipe
        self.data = data
        self.moved = 0
        self.is_whole = len(data) <= PIPE_BUF

    def is_ready(self, world: "World") -> bool:
        """Whether it can move on, or has to end."""
        wanted = len(self.data) if self.is_whole else 1
        return not world.has_end(self.pipe, "r") or self.pipe.room() >= wanted

    def go_on(self, world: "World") -> tuple[Reply, bool]:
        """What the next try of the call replies, and whether the call has ended with it."""
        if not world.has_end(self.pipe, "r"):
            require(self.moved, "EPIPE")
            return self.moved, True
        self.put(world)
        has_ended = self.moved == len(self.data)
        return self.moved if has_ended else f"part {self.moved}", has_ended

    def put(self, world: "World") -> None:
        """Puts in what fits."""
        fits = self.data[self.moved :][: self.pipe.room()]
        self.pipe.data += fits
        self.moved += len(fits)
        world.bytes_in += len(fits)


class WaitingOpen:
    """An open of a FIFO that has waited from when its other end had been opened `seen` times."""

    def __init__(self, fd: int, fifo: Fifo, other: str) -> None:
        self.fd = fd
        self.fifo = fifo
        self.pipe = fifo.pipe
        self.other = other
        self.seen = fifo.opened[other]
        self.moved = 0

    def is_ready(self, world: "World") -> bool:
        """Whether the other end is open, or has been."""
        return world.has_end(self.pipe, self.other) or self.fifo.opened[self.other] > self.seen

    def go_on(self, world: "World") -> tuple[Reply, bool]:
        """What the next try of the call replies, and whether the call has ended with it."""
        return self.fd, True


class Process:
    """A live process: its open descriptors, whether it is attached, and the call that it waits in."""

    def __init__(self, number: int, table: Table | None = None, attached: bool = True) -> None:
        self.number = number
        self.table = dict(table or {})
        self.attached = attached
        self.waits: WaitingRead | WaitingWrite | WaitingOpen | None = None


# ---- the calls


class World:
    """The names and the live processes, and through them all that is there."""

    def __init__(self, limits: Limits = DEFAULTS) -> None:
        self.limits = limits
        self.link_max = LINK_MAX
        self.names: dict[bytes, Named] = {}
        self.processes: dict[int, Process] = {}
        self.next_number = 0
        self.is_closed = False
        self.bytes_in = 0
        self.bytes_out = 0

    def descriptions(self) -> set[Description]:
        """The live open file descriptions: those that a descriptor of some process leads to."""
        return {at for process in self.processes.values() for at in process.table.values()}

    def has_end(self, pipe: Pipe, end: str) -> bool:
        """Whether the reading end ("r") or the writing end ("w") of a pipe is open."""
        tables = (process.table.values() for process in self.processes.values())
        return any(at.pipe is pipe and at.mode == end for table in tables for at in table)

    def is_full(self) -> bool:
        """Whether no process can come any more."""
        return len(self.processes) >= PROCESSES_MAX or self.is_closed

    def add_process(self, table: Table | None = None, attached: bool = True) -> int:
        """Makes a process, and gives its number."""
        require(not self.is_full(), "EAGAIN")
        number = self.next_number
        self.next_number += 1
        self.processes[number] = Process(number, table, attached)
        return number

    def fork(self, process: Process) -> Reply:
        """The call."""
        return self.add_process(process.table, attached=False)

    def new_pipe(self) -> Pipe:
        """A pipe without bytes."""
        return Pipe(self.limits.capacity)

    def get(self, pipe: Pipe, count: int) -> bytes:
        """Takes what was written first out of a pipe."""
        given = bytes(pipe.data[:count])
        del pipe.data[:count]
        return self.given(given)

    def given(self, data: bytes) -> bytes:
        """Counts bytes as read, and gives them."""
        self.bytes_out += len(data)
        return data

    # -- names

    def open(self, process: Process, name: bytes, flags: str) -> Reply:
        """The call."""
        mode, *others = flags.split(",")
        require(mode != "-", "EINVAL")
        require("excl" not in others or "creat" in others, "EINVAL")
        require("trunc" not in others or "w" in mode, "EINVAL")
        check_name(name)
        file = self.names.get(name)
        require(file or "creat" in others, "ENOENT")
        require(not file or "excl" not in others, "EEXIST")
        if isinstance(file, Fifo):
            require(mode != "rw", "EINVAL")
            require(mode == "r" or "nonblock" not in others or self.has_end(file.pipe, "r"), "ENXIO")
        fd = lowest_free(process)[0]
        require(len(self.descriptions()) < DESCRIPTIONS_MAX, "ENFILE")
        require(file or len(self.names) < NAMES_MAX, "ENOSPC")
        if isinstance(file, Fifo):
            return self.open_end(process, fd, file, mode, others)
        file = file or Regular()
        self.names[name] = file
        if "trunc" in others:
            file.data.clear()
        process.table[fd] = Description(file, mode, others)
        return fd

    def open_end(self, process: Process, fd: int, fifo: Fifo, mode: str, flags: list[str]) -> Reply:
        """Opens an end of a FIFO once more; its pipe is a new one where no end was open."""
        other = "w" if mode == "r" else "r"
        if not self.has_end(fifo.pipe, "r") and not self.has_end(fifo.pipe, "w"):
            fifo.pipe = self.new_pipe()
        fifo.opened[mode] += 1
        process.table[fd] = Description(fifo, mode, flags, fifo.pipe)
        if "nonblock" not in flags and not self.has_end(fifo.pipe, other):
            process.waits = WaitingOpen(fd, fifo, other)
        return fd

    def mkfifo(self, process: Process, name: bytes) -> Reply:
        """The call."""
        check_name(name)
        require(name not in self.names, "EEXIST")
        require(len(self.names) < NAMES_MAX, "ENOSPC")
        self.names[name] = Fifo(self.new_pipe())
        return "ok"

    def link(self, process: Process, old: bytes, new: bytes) -> Reply:
        """The call."""
        check_name(old)
        check_name(new)
        require(old in self.names, "ENOENT")
        require(new not in self.names, "EEXIST")
        require(self.links(self.names[old]) < self.link_max, "EMLINK")
        require(len(self.names) < NAMES_MAX, "ENOSPC")
        self.names[new] = self.names[old]
        return "ok"

    def unlink(self, process: Process, name: bytes) -> Reply:
        """The call."""
        check_name(name)
        require(name in self.names, "ENOENT")
        del self.names[name]
        return "ok"

    def rename(self, process: Process, old: bytes, new: bytes) -> Reply:
        """The call, which does nothing where both names lead to one file."""
        check_name(old)
        check_name(new)
        require(old in self.names, "ENOENT")
        if self.names.get(new) is not self.names[old]:
            self.names[new] = self.names.pop(old)
        return "ok"

    def links(self, file: Regular | Pipe | Fifo) -> int:
        """How many names a file has."""
        return sum(named is file for named in self.names.values())

    # -- descriptors

    def close(self, process: Process, fd: int) -> Reply:
        """The call."""
        find(process, fd)
        del process.table[fd]
        return "ok"

    def dup(self, process: Process, fd: int) -> Reply:
        """The call."""
        description = find(process, fd)
        to = lowest_free(process)[0]
        process.table[to] = description
        return to

    def dup2(self, process: Process, fd: int, to: int) -> Reply:
        """The call."""
        description = find(process, fd)
        require(0 <= to < OPEN_MAX, "EBADF")
        process.table[to] = description
        return to

    def pipe(self, process: Process) -> Reply:
        """The call."""
        reading, writing = lowest_free(process, 2)
        require(len(self.descriptions()) + 2 <= DESCRIPTIONS_MAX, "ENFILE")
        pipe = self.new_pipe()
        process.table[reading] = Description(pipe, "r", pipe=pipe)
        process.table[writing] = Description(pipe, "w", pipe=pipe)
        return f"{reading} {writing}"

    def fstat(self, process: Process, fd: int) -> Reply:
        """The call."""
        at = find(process, fd)
        return f"{at.file.kind} {len((at.pipe or at.regular).data)} {self.links(at.file)}"

    def getfl(self, process: Process, fd: int) -> Reply:
        """The call."""
        at = find(process, fd)
        return ("r" in at.mode) + 2 * ("w" in at.mode) + 32 * at.append + 64 * at.nonblock

    def setfl(self, process: Process, fd: int, flags: str) -> Reply:
        """The call, which heeds two of the flags."""
        at = find(process, fd)
        given = flags.split(",")
        at.append, at.nonblock = "append" in given, "nonblock" in given
        at.is_opened_nonblock = False
        return "ok"

    # -- bytes and offsets

    def read(self, process: Process, fd: int, count: int) -> Reply:
        """The call."""
        at = find(process, fd)
        require("r" in at.mode, "EBADF")
        require(count <= TRANSFER_MAX, "EINVAL")
        if at.pipe:
            return self.read_end(process, at, count)
        given = at.regular.data.read(at.offset, count)
        at.offset += len(given)
        return self.given(given)

    def read_end(self, process: Process, at: Description, count: int) -> Reply:
        """Reads from a pipe; where nothing is there yet, and may still come, the process waits."""
        assert at.pipe
        if count and not at.pipe.data and self.has_end(at.pipe, "w"):
            require(not at.nonblock, "EAGAIN")
            process.waits = WaitingRead(at.pipe, count)
            return None
        return self.get(at.pipe, count)

    def pread(self, process: Process, fd: int, start: int, count: int) -> Reply:
        """The call."""
        at = find(process, fd)
        require("r" in at.mode, "EBADF")
        require(not at.pipe, "ESPIPE")
        require(start >= 0 and count <= TRANSFER_MAX, "EINVAL")
        return self.given(at.regular.data.read(start, count))

    def write(self, process: Process, fd: int, data: bytes) -> Reply:
        """The call."""
        at = find(process, fd)
        require("w" in at.mode, "EBADF")
        require(len(data) <= TRANSFER_MAX, "EINVAL")
        if not data:
            return 0
        if at.pipe:
            return self.write_end(process, at, data)
        start = len(at.regular.data) if at.append else at.offset
        put = self.put_at(at.regular, start, data)
        at.offset = start + put
        return put

    def write_end(self, process: Process, at: Description, data: bytes) -> Reply:
        """Writes to a pipe; where not all goes in, the process waits or, under nonblock, is told."""
        assert at.pipe
        require(self.has_end(at.pipe, "r"), "EPIPE")
        call = WaitingWrite(at.pipe, data)
        if len(data) <= at.pipe.room() or not call.is_whole:
            call.put(self)
        if call.moved < len(data):
            require(not at.nonblock or call.moved, "EAGAIN")
            process.waits = None if at.nonblock else call
        return call.moved

    def pwrite(self, process: Process, fd: int, start: int, data: bytes) -> Reply:
        """The call."""
        at = find(process, fd)
        require("w" in at.mode, "EBADF")
        require(not at.pipe, "ESPIPE")
        require(start >= 0 and len(data) <= TRANSFER_MAX, "EINVAL")
        return self.put_at(at.regular, start, data)

    def put_at(self, file: Regular, start: int, data: bytes) -> int:
        """Puts into a regular file what fits below the limit, and gives how many bytes that is."""
        if not data:
            return 0
        require(start < self.limits.size, "EFBIG")
        data = data[: self.limits.size - start]
        file.data.write(start, data)
        self.bytes_in += len(data)
        return len(data)

    def lseek(self, process: Process, fd: int, move: int, whence: str) -> Reply:
        """The call."""
        at = find(process, fd)
        require(not at.pipe, "ESPIPE")
        offset = move + {"set": 0, "cur": at.offset, "end": len(at.regular.data)}[whence]
        require(offset >= 0, "EINVAL")
        require(offset <= OFFSET_MAX, "EOVERFLOW")
        at.offset = offset
        return offset

    def ftruncate(self, process: Process, fd: int, length: int) -> Reply:
        """The call."""
        at = find(process, fd)
        require(length >= 0 and not at.pipe and "w" in at.mode, "EINVAL")
        require(length <= self.limits.size, "EFBIG")
        at.regular.data.resize(length)
        return "ok"


def find(process: Process, fd: int) -> Description:
    """The description that a descriptor leads to."""
    require(fd in process.table, "EBADF")
    return process.table[fd]


def lowest_free(process: Process, count: int = 1) -> list[int]:
    """The lowest free descriptors of a process, so many."""
    free = [fd for fd in range(OPEN_MAX) if fd not in process.table]
    require(len(free) >= count, "EMFILE")
    return free[:count]


def check_name(name: bytes) -> None:
    """Refuses a name that no file can have."""
    require(name, "ENOENT")
    require(len(name) <= NAME_MAX, "ENAMETOOLONG")
    require(name not in (b".", b"..") and re.fullmatch(rb"[A-Za-z0-9._-]+", name), "EINVAL")


# ---- a run


class Act(NamedTuple):
    """An act of a script. The actor is the number of a process, "house", or None for a join."""

    actor: int | str | None
    word: str
    fields: tuple[Any, ...] = ()


class Run:
    """The records of a run, as lines, and the world after them."""

    def __init__(self, records: int = RECORDS_DEFAULT, limits: Limits = DEFAULTS) -> None:
        self.most = records
        self.records = 0
        self.world = World(limits)
        self.lines: list[str] = []

    def take(self, act: Act) -> None:
        """Lets an act take place, or tells why it does not."""
        process = self.world.processes.get(act.actor) if isinstance(act.actor, int) else None
        if act.word == "close-run":
            self.close_run(act)
        elif act.word == "join":
            self.record_if_room(act._replace(actor=self.world.next_number), self.world.add_process)
        elif act.word == "attach":
            self.record_if_room(act, partial(self.attach, process))
        elif process is None or not process.attached:
            self.tell(act, "refused NotHere")
        elif act.word == "exit":
            self.end(process)
        elif act.word == "resume" and not (process.waits and process.waits.is_ready(self.world)):
            self.tell(act, "still")
        elif act.word == "resume":
            self.record_if_room(act, partial(self.resume, process))
        elif process.waits:
            self.tell(act, "refused Waiting")
        else:
            self.record_if_room(act, partial(self.call, act, process))

    def attach(self, process: Process | None) -> Reply:
        """Attaches a child."""
        if not process or process.attached:
            raise Errno("ESRCH")
        process.attached = True
        return "ok"

    def call(self, act: Act, process: Process) -> Reply:
        """Makes a call, which may wait."""
        reply: Reply = getattr(self.world, act.word)(process, *act.fields)
        return f"parked {process.waits.moved}" if process.waits else reply

    def resume(self, process: Process) -> Reply:
        """Takes up the call that a process waits in."""
        call, process.waits = process.waits, None
        assert call
        reply, has_ended = call.go_on(self.world)
        process.waits = None if has_ended else call
        return reply

    def end(self, process: Process) -> None:
        """Ends a process."""
        del self.world.processes[process.number]
        self.record(Act(process.number, "exit"), "ok")

    def close_run(self, act: Act) -> None:
        """Closes the run, which ends the children that were never attached."""
        if self.world.is_closed:
            return self.tell(act, "still")
        for process in list(self.world.processes.values()):
            if not process.attached:
                self.end(process)
        self.world.is_closed = True
        self.record(act, "ok")

    def record_if_room(self, act: Act, effect: Callable[[], Reply]) -> None:
        """Records an act where that leaves a record for each exit and for the closing."""
        adds = act.word in ("join", "fork") and not self.world.is_full()
        reserve = len(self.world.processes) + adds + (not self.world.is_closed)
        if self.records + 1 + reserve > self.most:
            return self.tell(act, "refused RunFull")
        try:
            self.record(act, effect())
        except Errno as error:
            self.record(act, f"error {error}")

    def record(self, act: Act, outcome: Reply) -> None:
        """Records an act."""
        text = data_text(outcome) if isinstance(outcome, bytes) else outcome
        self.lines.append(f"{self.records} {act_text(act)} = {text}\n")
        self.records += 1

    def tell(self, act: Act, what: str) -> None:
        """Tells of an act that is not recorded."""
        self.lines.append(f"- {act_text(act)} = {what}\n")

    def text(self) -> bytes:
        """All lines, and the totals."""
        totals = f"records {self.records} in {self.world.bytes_in} out {self.world.bytes_out}\n"
        return ("".join(self.lines) + totals).encode()


# ---- scripts


Reader = Callable[[bytes], Any]


class NotAnAct(Exception):
    """A line that is no act, with the column of its fault, and what could stand there."""


def number(low: int, high: int) -> Callable[[bytes], int | None]:
    """The reader of numbers in a range."""

    def read(word: bytes) -> int | None:
        is_number = len(word) < 30 and re.fullmatch(rb"0|-?[1-9][0-9]*", word)
        return int(word) if is_number and low <= int(word) <= high else None

    return read


def read_name(word: bytes) -> bytes | None:
    """NAME."""
    if not re.fullmatch(rb"%|([!-$&-~]|%[0-9a-f]{2})+", word):
        return None
    name = b"" if word == b"%" else re.sub(rb"%(..)", lambda code: bytes.fromhex(code[1].decode()), word)
    return name if len(name) <= NAME_MOST else None


def read_data(word: bytes) -> bytes | None:
    """DATA."""
    if re.fullmatch(rb"x([0-9a-f]{2})*", word):
        data = bytes.fromhex(word[1:].decode())
        return data if len(data) <= DATA_MOST else None
    count = read_repeats(word[3:]) if re.match(rb"[0-9a-f]{2}\*", word) else None
    return None if count is None else bytes.fromhex(word[:2].decode()) * count


def read_flags(word: bytes) -> str | None:
    """FLAGS."""
    is_flags = re.fullmatch(rb"(r|w|rw|-)(,creat)?(,excl)?(,trunc)?(,append)?(,nonblock)?", word)
    return word.decode() if is_flags else None


def read_whence(word: bytes) -> str | None:
    """WHENCE."""
    return word.decode() if word in (b"set", b"cur", b"end") else None


read_process = number(0, 2**32 - 1)
read_fd = number(-(2**31), 2**31 - 1)
read_count = number(0, 2**32 - 1)
read_place = number(-(2**63), 2**63 - 1)
read_repeats = number(0, DATA_MOST)

class Form(NamedTuple):
    """The form of an act: the readers of its fields, and what it gives where it does not end in an error."""

    fields: tuple[Reader, ...]
    gives: str


DESCRIPTOR = "a descriptor"
PROCESS = "the number of a process"
BYTES = "how many bytes"
OFFSET = "an offset"
FLAGS_SUM = "the sum of the flags"
DATA = "data, as x6869 or 61*512"
PAIR = "two descriptors, as 0 1"
STATUS = "kind, size and links, as pipe 0 0"
OK = "ok"

# The table of calls, in the order of their bytes in frames, which begin with 16. What else is known of all calls is
# taken from it; the one in clients/python/fdref.py is not, and has to agree with it.
CALLS: dict[str, Form] = {
    "open": Form((read_name, read_flags), DESCRIPTOR),
    "close": Form((read_fd,), OK),
    "read": Form((read_fd, read_count), DATA),
    "write": Form((read_fd, read_data), BYTES),
    "pread": Form((read_fd, read_place, read_count), DATA),
    "pwrite": Form((read_fd, read_place, read_data), BYTES),
    "lseek": Form((read_fd, read_place, read_whence), OFFSET),
    "ftruncate": Form((read_fd, read_place), OK),
    "dup": Form((read_fd,), DESCRIPTOR),
    "dup2": Form((read_fd, read_fd), DESCRIPTOR),
    "pipe": Form((), PAIR),
    "mkfifo": Form((read_name,), OK),
    "link": Form((read_name, read_name), OK),
    "unlink": Form((read_name,), OK),
    "fstat": Form((read_fd,), STATUS),
    "fork": Form((), PROCESS),
    "getfl": Form((read_fd,), FLAGS_SUM),
    "setfl": Form((read_fd, read_flags), OK),
    "rename": Form((read_name, read_name), OK),
}

# the word of each act of a process, and the readers of its fields
FIELDS: dict[str, tuple[Reader, ...]] = {word: form.fields for word, form in CALLS.items()}
FIELDS |= {"attach": (), "resume": (), "exit": ()}


def read_actor(word: bytes) -> int | str | None:
    """The first word of a line: `join`, `close-run`, or a process."""
    if word in (b"join", b"close-run"):
        return word.decode()
    return read_process(word[1:]) if word[:1] == b"p" else None


def read_call(word: bytes) -> str | None:
    """The word of a call, or of another act of a process."""
    return word.decode("latin-1") if word.decode("latin-1") in FIELDS else None


# what is said to be expected where a word is not read
EXPECTED: dict[Reader, str] = {
    read_actor: "a process, as p0, or join or close-run",
    read_call: "a call, attach, resume or exit",
    read_fd: "a descriptor, from -2147483648 to 2147483647",
    read_place: "an offset or a length, from -9223372036854775808 to 9223372036854775807",
    read_count: "a count of bytes, from 0 to 4294967295",
    read_name: "a name of at most 255 bytes, as a or a%20b",
    read_data: "data of at most 65700 bytes, as x6869 or 61*512",
    read_flags: "r, w, rw or -, and after it ,creat ,excl ,trunc ,append ,nonblock in this order",
    read_whence: "set, cur or end",
}


def read_act(line: bytes) -> Act:
    """The act that a line is; its first fault is told by NotAnAct."""
    words = line.split(b" ")
    at = 0

    def take(reader: Reader) -> Any:
        nonlocal at
        if not words:
            raise NotAnAct(len(line) + 1, EXPECTED[reader])
        value = reader(words[0])
        if value is None:
            raise NotAnAct(at + 1, EXPECTED[reader])
        at += len(words.pop(0)) + 1
        return value

    first = take(read_actor)
    if isinstance(first, str):
        act = Act(None if first == "join" else "house", first)
    else:
        word = take(read_call)
        act = Act(first, word, tuple(take(reader) for reader in FIELDS[word]))
    if words:
        raise NotAnAct(at + 1, "the end of the line")
    return act


# ---- what is written


def name_text(name: bytes) -> str:
    """A name, as a line has it."""
    return "".join(chr(byte) if 33 <= byte <= 126 and byte != 37 else f"%{byte:02x}" for byte in name) or "%"


def data_text(data: bytes) -> str:
    """Data, as a line has it."""
    if len(data) > 16 and data.count(data[:1]) == len(data):
        return f"{data[0]:02x}*{len(data)}"
    return "x" + data.hex()


def field_text(reader: Reader, value: Any) -> str:
    """A field, as a line has it."""
    if reader is read_name:
        return name_text(value)
    return data_text(value) if reader is read_data else str(value)


def act_text(act: Act) -> str:
    """An act as it is written in a line of a run, the actor in front."""
    actor = act.actor if act.actor == "house" else f"p{act.actor}"
    fields = [field_text(reader, value) for reader, value in zip(FIELDS.get(act.word, ()), act.fields, strict=True)]
    return " ".join([str(actor), act.word, *fields])


# ---- the whole


TOO_LONG = f"script too long\nexpected at most {SCRIPT_MOST} bytes"
NO_RETURN = "a line without a carriage return at its end"


def expected_in(line: bytes, column: int, expected: str) -> str:
    """What is told to be expected in a line where this could stand."""
    mark = line[column - 1 : column]
    if line.endswith(b"\r"):
        return NO_RETURN
    if mark == b"#" or (mark == b'"' and expected == EXPECTED[read_data]):
        return "an act; comments and strings are read with --text"
    return expected


def replay(script: bytes, records: int = RECORDS_DEFAULT, limits: Limits = DEFAULTS) -> Ran:
    """What `fdref replay --records RECORDS --pipe-capacity CAPACITY` gives for a script."""
    if len(script) > SCRIPT_MOST:
        return Ran(3, b"", f"{TOO_LONG}\n".encode())
    acts = []
    for place, line in enumerate(script.split(b"\n"), 1):
        try:
            if line:
                acts.append(read_act(line))
        except NotAnAct as fault:
            column, expected = fault.args
            text = f"line {place} column {column}: not an act\nexpected {expected_in(line, column, expected)}\n"
            return Ran(3, b"", text.encode())
    run = Run(records, limits)
    for act in acts:
        run.take(act)
    return Ran(0, run.text(), b"")
