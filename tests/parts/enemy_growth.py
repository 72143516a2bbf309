"""Long traces that would make an audit take more memory, or more time for a record, the longer it goes on."""

import ctypes
import os
import resource
import signal
import struct
import subprocess
import tempfile
import time
from collections.abc import Callable, Iterator, Sequence
from functools import partial
from pathlib import Path
from typing import IO, NamedTuple

from support import plain_model
from support.auditing import NO_LIMIT, audited, illegal, legal
from support.counting import Case, require, same
from support.frames import ERRORS, header_bytes, record_frame
from support.places import SCRATCH
from support.plain_model import DESCRIPTIONS_MAX, FILE_SIZE_MAX, NAMES_MAX, OPEN_MAX, PIPE_CAPACITY, PROCESSES_MAX
from support.running import SECONDS, Ran, StillRunning

# How many times as long the long trace is.
TIMES = 4
# What it may take more: memory in KiB, beside a tenth, and time for a record.
MORE_MEMORY = 1_024
MORE_TIME = 1.5
# A time under the first says nothing, and the second is aimed at, by a short trace of so many bytes at most.
LEAST_SECONDS = 0.05
GOOD_SECONDS = 0.1
MOST_BYTES = 16_000_000
FIRST_BYTES = 1_500_000
TRIES = 4

# By this option a process takes over the children of those that it started.
PR_SET_CHILD_SUBREAPER = 36

# A record that is wrong at any place.
LIE = record_frame("p4294967295 join = 0")


# ---- traces that go on for ever


class Endless(NamedTuple):
    """A trace that goes on for ever: how it begins, so many rounds of what comes then, and the records of a round."""

    name: str
    first: Sequence[str]
    rounds: Callable[[int], bytes]
    records: int

    def write(self, file: IO[bytes], rounds: int) -> int:
        """Writes its header, its beginning and so many rounds, and gives how many records these are."""
        file.write(header_bytes() + b"".join(map(record_frame, self.first)))
        file.write(self.rounds(rounds))
        return len(self.first) + rounds * self.records


def endless(name: str, first: Sequence[str], acts: Sequence[str]) -> Endless:
    """One whose rounds are these acts, which are always answered as at the first time."""
    run = plain_model.Run(NO_LIMIT)
    began = take_all(run, first)
    lines = take_all(run, acts)
    some = b"".join(map(record_frame, lines))
    return Endless(name, began, lambda count: some * count, len(lines))


def with_numbers(name: str, first: Sequence[str], one: Callable[[int], bytes], records: int) -> Endless:
    """One whose rounds differ in their numbers."""
    began = take_all(plain_model.Run(NO_LIMIT), first)
    return Endless(name, began, lambda count: b"".join(map(one, range(count))), records)


def take_all(run: plain_model.Run, acts: Sequence[str]) -> list[str]:
    """Lets acts take place, and gives their records."""
    before = len(run.lines)
    for act in acts:
        run.take(plain_model.read_act(act.encode()))
    lines = [line.rstrip("\n") for line in run.lines[before:]]
    require(all(line[0].isdigit() for line in lines), "an act leaves no record")
    return lines


# ---- those that there are


def full_file() -> Endless:
    """A file of many bytes is emptied, made as long as one may be, cut, made as long again by one byte, and written at
    many places that are far from each other."""
    whole = plain_model.data_text(bytes(range(256)) * 256)
    size = FILE_SIZE_MAX
    first = ["join", "p0 open a rw,creat", *[f"p0 write 0 {whole}"] * 16]
    acts = ["p0 ftruncate 0 0", f"p0 ftruncate 0 {size}", "p0 write 0 x61", f"p0 pwrite 0 {size - 1} x61"]
    acts += ["p0 ftruncate 0 1", f"p0 pwrite 0 {size - 1} x6162", f"p0 pread 0 {size - 2} 9"]
    acts += [f"p0 pwrite 0 {at} x62" for at in range(0, size, size // 256)]
    return endless("a file at its limit that is emptied and filled", first, acts)


def all_names() -> Endless:
    """All names come before those that are there, and the first one goes each time."""
    names = ["n" * 60 + f"{number:04}" for number in range(NAMES_MAX)]
    added = [f"p0 mkfifo {name}" for name in reversed(names)]
    return endless(
        "1,024 names that come and go", ["join"], [*added, "p0 mkfifo one", *(f"p0 unlink {name}" for name in names)]
    )


def files() -> Endless:
    """A file comes, gets all the names that it may have, and goes with its last descriptor."""
    links, data = [f"p0 link a b{number}" for number in range(8)], plain_model.data_text(bytes(range(200)))
    unlinks = [f"p0 unlink b{number}" for number in range(7)]
    acts = ["p0 open a rw,creat,excl", f"p0 write 0 {data}", *links, "p0 unlink a", *unlinks, "p0 dup 0", "p0 close 0"]
    return endless("files that come and go", ["join"], [*acts, f"p0 pwrite 1 500000 {data}", "p0 close 1"])


# The records of a fork that is refused, of an exit, of a fork, and of an attach; of a join, and of an exit.
FORKS = struct.Struct(">IIBBB IIBB IIBBQ IIBB")
JOINS = struct.Struct(">IIBBQ IIBB")


def forks() -> Endless:
    """64 processes with full tables: the oldest one exits, and the youngest one forks."""
    ends = ["p0 pipe"] * (OPEN_MAX // 2)
    children = [f"p{number} attach" for number in range(1, PROCESSES_MAX)]
    again = ERRORS.index("EAGAIN") + 1

    def one(number: int) -> bytes:
        child = number + PROCESSES_MAX
        refused, forked = (7, child - 1, 31, 6, again), (14, child - 1, 31, 2, child)
        return FORKS.pack(*refused, *(6, number, 4, 1), *forked, *(6, child, 2, 1))

    first = ["join", *ends, *["p0 fork"] * (PROCESSES_MAX - 1), *children]
    return with_numbers("64 processes that exit and fork", first, one, 4)


def joins() -> Endless:
    """A process joins, where there is room for one more, and exits."""

    def one(number: int) -> bytes:
        newest = number + PROCESSES_MAX - 1
        return JOINS.pack(14, newest, 1, 2, newest, 6, newest, 4, 1)

    return with_numbers("processes that join and exit", ["join"] * (PROCESSES_MAX - 1), one, 2)


def single_bytes() -> Endless:
    """A pipe is filled and drained byte by byte."""
    acts = [*["p0 write 1 x61"] * PIPE_CAPACITY, *["p0 read 0 1"] * PIPE_CAPACITY]
    return endless("a pipe that is filled and drained byte by byte", ["join", "p0 pipe"], acts)


def long_write() -> Endless:
    """The longest write goes on byte by byte, up to where nobody reads any more."""
    data = plain_model.data_text(bytes(range(256)) * 256)
    begin = ["p0 open f r,nonblock", "p1 open f w", f"p1 write 0 {data}"]
    acts = [*begin, *["p0 read 0 1", "p1 resume"] * 2_000, "p0 close 0", "p1 resume", "p1 close 0"]
    return endless("a write that goes on byte by byte", ["join", "join", "p0 mkfifo f"], acts)


def pipes() -> Endless:
    """Pipes come, and go with bytes in them."""
    acts = ["p0 pipe", "p0 write 1 x6869", "p0 close 0", "p0 write 1 x21", "p0 close 1"]
    return endless("pipes that come and go", ["join"], acts)


def fifos() -> Endless:
    """Two processes meet in FIFOs that come and go."""
    meet = ["p0 mkfifo f", "p0 open f r", "p1 open f w", "p0 resume", "p0 unlink f", "p1 write 0 x6869"]
    return endless("FIFOs that come and go", ["join", "join"], [*meet, "p1 close 0", "p0 read 0 9", "p0 close 0"])


def waits() -> Endless:
    """62 processes wait, and one more waits again and again."""
    first = ["join", "p0 pipe", "p0 pipe", *["p0 fork"] * (PROCESSES_MAX - 1)]
    first += [act for n in range(1, PROCESSES_MAX) for act in (f"p{n} attach", *([f"p{n} read 2 1"] if n > 1 else []))]
    return endless("reads that wait", first, ["p1 read 0 9", "p0 write 1 x61", "p1 resume"])


def last_descriptor() -> Endless:
    """The last descriptor is given and closed, and then there is none for a moment."""
    acts = ["p0 dup 0", "p0 dup 0", "p0 pipe", "p0 close 31", "p0 dup2 30 31", "p0 dup2 0 31", "p0 close 31"]
    first = ["join", "p0 open a rw,creat", *["p0 dup 0"] * (OPEN_MAX - 2)]
    return endless("descriptors at the end of the table", first, acts)


def all_descriptions() -> Endless:
    """All descriptions are open, and the last one is closed and opened."""
    last = DESCRIPTIONS_MAX // OPEN_MAX - 1
    opens = [f"p{number} open f r,nonblock" for number in range(last + 1) for _ in range(OPEN_MAX)]
    first = [*["join"] * (last + 2), "p0 mkfifo f", *opens]
    other = f"p{last + 1}"
    acts = [f"{other} open f r,nonblock", f"p{last} close 31", f"{other} pipe", f"{other} open f r,nonblock"]
    return endless("1,024 descriptions", first, [*acts, f"{other} close 0", f"p{last} open f r,nonblock"])


def refusals() -> Endless:
    """Nothing but errors, after the closing."""
    acts = ["join", "p0 fork", "p4294967295 attach", "p0 attach", "p0 close -1", "p0 open % r", "p0 read 32 1"]
    return endless("errors", ["join", "close-run"], acts)


ALL: list[Callable[[], Endless]] = [
    full_file,
    all_names,
    files,
    forks,
    joins,
    single_bytes,
    long_write,
    pipes,
    fifos,
    waits,
    last_descriptor,
    all_descriptions,
    refusals,
]


# ---- measuring


class Cost(NamedTuple):
    """What an audit took: seconds of a processor, and KiB of memory."""

    seconds: float
    peak: int


def takes_over(is_on: bool) -> None:
    """Says whether this process takes over the children of those that it started."""
    ctypes.CDLL(None).prctl(PR_SET_CHILD_SUBREAPER, int(is_on), 0, 0, 0)


def measured(program: str, folder: str, wanted: Ran) -> Cost:
    """What the audit of the trace in a folder takes, which has to give this.

    What the system tells of a program's memory is never less than what its parent had. So a shell, which has little,
    starts it and ends, and it is waited for here.
    """
    takes_over(True)
    try:
        script = '"$0" audit trace >out 2>error & echo $!'
        ran = subprocess.run(["sh", "-c", script, program], stdout=subprocess.PIPE, cwd=folder, check=True)
        number = int(ran.stdout)
        status, usage = waited_for(number)
    finally:
        takes_over(False)
    same(wanted, Ran(os.waitstatus_to_exitcode(status), *(Path(folder, it).read_bytes() for it in ("out", "error"))))
    return Cost(usage.ru_utime + usage.ru_stime, usage.ru_maxrss)


def waited_for(number: int) -> tuple[int, resource.struct_rusage]:
    """How a process ended, and what it took."""
    until = time.monotonic() + SECONDS
    while True:
        ended, status, usage = os.wait4(number, os.WNOHANG)
        if ended:
            return status, usage
        if time.monotonic() > until:
            os.kill(number, signal.SIGKILL)
            os.wait4(number, 0)
            raise StillRunning(SECONDS)
        time.sleep(0.002)


def rounds_for(trace: Endless, count: int) -> int:
    """How many rounds have about so many bytes, one at least."""
    return max(1, count // len(trace.rounds(1)))


def cost_of(program: str, trace: Endless, rounds: int, is_lie: bool = False) -> Cost:
    """What the audit of a trace takes that has so many rounds, and perhaps a lie at its end."""
    with tempfile.TemporaryDirectory(prefix="fdref-", dir=SCRATCH) as folder:
        with open(os.path.join(folder, "trace"), "wb") as file:
            records = trace.write(file, rounds)
            if is_lie:
                file.write(LIE)
        wanted = illegal(records, None) if is_lie else legal(records)
        return measured(program, folder, wanted)


def is_steady(program: str, trace: Endless) -> None:
    """A trace that is longer takes no more memory, and as much time for a record. There is a lie at its end.

    Each long trace is held against a short one that is audited right before it, since what a machine does besides comes
    and goes: the times of one pair are those of one load.
    """
    is_legal(trace)
    rounds = rounds_for(trace, FIRST_BYTES)
    short = cost_of(program, trace, rounds)
    if short.seconds < GOOD_SECONDS:
        wanted = int(rounds * GOOD_SECONDS / max(short.seconds, 0.005)) + 1
        rounds = max(rounds, min(wanted, rounds_for(trace, MOST_BYTES)))
    found: list[str] = []
    for _ in range(TRIES):
        short, long = cost_of(program, trace, rounds), cost_of(program, trace, rounds * TIMES, True)
        most_memory = short.peak * 1.1 + MORE_MEMORY
        most_time = short.seconds * TIMES * MORE_TIME if short.seconds >= LEAST_SECONDS else SECONDS
        if long.peak <= most_memory and long.seconds <= most_time:
            return
        found.append(f"{short.seconds:.3f} s and {short.peak} KiB, then {long.seconds:.3f} s and {long.peak} KiB")
    require(False, f"{rounds} rounds, and {TIMES} times as many: {'; '.join(found)}")


def is_legal(trace: Endless) -> None:
    """The plain auditor finds a few rounds right."""
    with tempfile.TemporaryFile() as file:
        records = trace.write(file, 3)
        file.seek(0)
        same(legal(records), audited(file.read()))


def cases(program: str) -> Iterator[Case]:
    """All these traces."""
    for make in ALL:
        trace = make()
        yield trace.name, partial(is_steady, program, trace)
