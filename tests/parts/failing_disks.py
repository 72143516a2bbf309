"""A live server whose trace cannot be written: all clients are answered, and what is left is a front of the trace."""

import contextlib
import errno
import os
import resource
import signal
import subprocess
import tempfile
from collections.abc import Callable, Iterator
from functools import partial
from pathlib import Path
from typing import NamedTuple

from parts.written_traces import SHORT
from support import plain_model
from support.auditing import audited
from support.causes import trace_lost, unaccepted, unsynced
from support.counting import Case, Failure, require, same
from support.frames import HEADER_LENGTH, OLD_HEADER_LENGTH, header_bytes, trace_of
from support.places import SCRATCH
from support.plain_model import RECORDS_DEFAULT
from support.refusing import build
from support.serving import SECONDS, Client, Server, report

PAGE = 4_096

# What Linux says of writes and syncs.
INTERRUPTS, FAULT, INVALID, TOO_LARGE, NO_SPACE = (
    f"{os.strerror(number)} (os error {number})"
    for number in (errno.EINTR, errno.EIO, errno.EINVAL, errno.EFBIG, errno.ENOSPC)
)


class Talk(NamedTuple):
    """What clients ask and are told, one after another, how many bytes the run takes and gives, and its trace."""

    steps: list[tuple[str, str, str]]
    bytes_in: int
    bytes_out: int
    trace: bytes

    def sessions(self) -> int:
        """How many clients there are."""
        return len({actor for actor, _, _ in self.steps})

    def line(self, kept: int) -> bytes:
        """The line of its run, of which so many bytes are in the trace."""
        records, whole = whole_in(self.trace), whole_in(self.trace[:kept])
        return report(self.sessions(), records, self.bytes_in, self.bytes_out, whole)


def whole_in(trace: bytes) -> int:
    """How many records are whole in a front of a trace."""
    return int(audited(trace).stdout.split()[1])


def talk_of(acts: list[str]) -> Talk:
    """The talk whose run has these acts, as the plain model answers them."""
    script = "".join(f"{act}\n" for act in acts)
    *lines, totals = plain_model.replay(script.encode()).stdout.decode().splitlines()
    steps = []
    for line in lines[:-1]:
        act, _, outcome = line.partition(" = ")
        place, actor, request = act.split(" ", 2)
        steps.append((actor, request, f"{place} {outcome}"))
    _, _, _, bytes_in, _, bytes_out = totals.split()
    return Talk(steps, int(bytes_in), int(bytes_out), trace_of(lines, header_bytes(RECORDS_DEFAULT)))


# The run of the short trace, and its closing.
BRIEF = talk_of(["join", "p0 pipe", "p0 exit", "close-run"])


def lengthy() -> Talk:
    """Two clients that write and read much, so that the trace has many pages and is written in several pieces."""
    many = bytes(range(256)) * 256
    first = ["join", "p0 open a rw,creat", f"p0 pwrite 0 0 x{many.hex()}"]
    second = ["join", "p1 open a r", "p1 read 0 5000"]
    last = [f"p0 pwrite 0 65536 x{many[:40_000].hex()}", "p0 exit", "p1 fstat 0", "p1 exit", "close-run"]
    return talk_of([*first, *second, *last])


def converse(server: Server, talk: Talk) -> None:
    """The clients of a talk: each is answered until it leaves, whatever becomes of the trace."""
    clients: dict[str, Client] = {}
    for actor, request, wanted in talk.steps:
        if actor not in clients:
            clients[actor] = server.client()
        client = clients[actor]
        if request == "exit":
            client.stop()
            require(client.is_hung_up(SECONDS), f"the server does not hang up on {actor}")
        else:
            client.ask(request)
            client.gets(wanted)


def ends(server: Server, talk: Talk, kept: int, said: str = "") -> None:
    """The server goes on to its end, and its trace has so many bytes. Of the call that failed it tells what was said."""
    server.ended(talk.line(kept), 4 if said else 0, trace_lost(server.trace, said) if said else b"")
    if os.path.isfile(server.trace):
        left = Path(server.trace).read_bytes()
        require(left == talk.trace[:kept], f"these {len(left)} bytes are not the first {kept} of the trace")


# ---- files and devices


def is_written_over(program: str) -> None:
    """A short run's trace, to the byte, over a longer file that was there."""
    frames = SHORT[OLD_HEADER_LENGTH:]
    same(frames.hex(), BRIEF.trace[HEADER_LENGTH:][: len(frames)].hex())
    with tempfile.NamedTemporaryFile(prefix="fdref-") as file:
        file.write(bytes(1_000))
        file.flush()
        with Server(program, 1, trace=file.name) as server:
            converse(server, BRIEF)
            ends(server, BRIEF, len(BRIEF.trace))


def is_full(program: str) -> None:
    """A device that takes no byte."""
    with Server(program, 1, trace="/dev/full") as server:
        converse(server, BRIEF)
        ends(server, BRIEF, 0, NO_SPACE)


def cannot_be_synced(program: str) -> None:
    """A device that takes all bytes, and does not say that they will stay."""
    with Server(program, 1, trace="/dev/null") as server:
        converse(server, BRIEF)
        ends(server, BRIEF, len(BRIEF.trace), unsynced(INVALID))


def two_faults(program: str) -> None:
    """A trace that takes nothing, and a connection that cannot be taken: the second is told."""
    with Server(program, 2, trace="/dev/full") as server:
        client = server.client()
        client.ask("join")
        client.gets("0 0")
        highest = max(int(fd) for fd in os.listdir(f"/proc/{server.process.pid}/fd"))
        resource.prlimit(server.process.pid, resource.RLIMIT_NOFILE, (highest + 1,) * 2)
        server.client()
        client.ask("pipe")
        client.gets("1 0 1")
        client.vanish()
        server.ended(report(1, 4, traced=0), 4, unaccepted(server.path))


# ---- disks that fill up


def limited_to(size: int) -> Callable[[], None]:
    """What a process calls at its start so that its files take so many bytes at most; a write past them fails."""

    def limit() -> None:
        signal.signal(signal.SIGXFSZ, signal.SIG_IGN)
        resource.setrlimit(resource.RLIMIT_FSIZE, (size, size))

    return limit


def fills_up(program: str, talk: Talk, size: int) -> None:
    """A trace whose file takes so many bytes: they are the first ones."""
    with Server(program, talk.sessions(), before=limited_to(size)) as server:
        converse(server, talk)
        ends(server, talk, min(size, len(talk.trace)), TOO_LARGE if size < len(talk.trace) else "")


def mounts(folder: str, size: int) -> bool:
    """Puts a file system of so many bytes at a folder, if this process may: whether it did."""
    words = ["mount", "-t", "tmpfs", "-o", f"size={size}", "tmpfs", folder]
    try:
        return subprocess.run(words, stderr=subprocess.DEVNULL, check=False).returncode == 0
    except FileNotFoundError:
        return False


@contextlib.contextmanager
def small_disk(size: int) -> Iterator[str | None]:
    """A folder on a file system of so many bytes, or none where this process may not mount one."""
    with tempfile.TemporaryDirectory(prefix="fdref-") as folder:
        is_mounted = mounts(folder, size)
        try:
            yield folder if is_mounted else None
        finally:
            if is_mounted:
                subprocess.run(["umount", "-l", folder], check=True)


def disk_fills_up(program: str, talk: Talk, size: int) -> None:
    """A trace on a file system that has so many bytes."""
    with small_disk(size) as folder:
        if folder is None:
            raise Failure("no disk can be mounted any more")
        with Server(program, talk.sessions(), trace=os.path.join(folder, "trace")) as server:
            converse(server, talk)
            ends(server, talk, min(size, len(talk.trace)), NO_SPACE if size < len(talk.trace) else "")


# ---- a disk that does as it is told

# Comes before the C library, and answers writes and syncs of regular files in its place: a write takes DISK_MOST bytes
# at most; those numbered DISK_AT to DISK_LAST, from 1, take none, and answer 0 or the error DISK_ERROR; the syncs up
# to DISK_SYNCS answer the error DISK_SYNC_ERROR. It is built as the library that refuses allocations, without headers.
FAILS = r"""
extern long lseek(int, long, int);
extern long syscall(long, ...);
extern char *getenv(const char *);
extern unsigned long strtoul(const char *, char **, int);
extern int *__errno_location(void);
enum { WRITE = 1, FSYNC = 74, CURRENT = 1, STANDARD_ERROR = 2 };

static unsigned long writes, syncs;

static unsigned long told(const char *name) { return strtoul(getenv(name), 0, 10); }

static int is_file(int fd) { return fd > STANDARD_ERROR && lseek(fd, 0, CURRENT) >= 0; }

static long answer(unsigned long error) {
    *__errno_location() = (int)error;
    return error ? -1 : 0;
}

long write(int fd, const void *bytes, unsigned long count) {
    if (!is_file(fd))
        return syscall(WRITE, fd, bytes, count);
    ++writes;
    if (told("DISK_AT") <= writes && writes <= told("DISK_LAST"))
        return answer(told("DISK_ERROR"));
    return syscall(WRITE, fd, bytes, count < told("DISK_MOST") ? count : told("DISK_MOST"));
}

int fsync(int fd) {
    return (int)(++syncs <= told("DISK_SYNCS") ? answer(told("DISK_SYNC_ERROR")) : syscall(FSYNC, fd));
}
"""

INTERRUPTED, FAILED, FULL = 4, 5, 28
ANY = 2**31


class Trouble(NamedTuple):
    """How a disk answers.

    How many bytes a write takes at most; how many writes, from which on, take nothing, and the error that they answer,
    or 0; and how many syncs fail, and by which error.
    """

    most: int = ANY
    first: int = 1
    writes: int = 0
    error: int = 0
    syncs: int = 0
    sync_error: int = 0

    def environment(self) -> dict[str, str]:
        """What the library has to find."""
        numbers = {
            "DISK_MOST": self.most,
            "DISK_AT": self.first,
            "DISK_LAST": self.first + self.writes - 1,
            "DISK_ERROR": self.error,
            "DISK_SYNCS": self.syncs,
            "DISK_SYNC_ERROR": self.sync_error,
        }
        return {name: str(number) for name, number in numbers.items()}


def in_trouble(program: str, library: str, trouble: Trouble, kept: int, said: str) -> None:
    """A disk that does as it is told: after its first fault nothing more is written."""
    with Server(program, 1, env={**os.environ, "LD_PRELOAD": library, **trouble.environment()}) as server:
        converse(server, BRIEF)
        ends(server, BRIEF, kept, said)


def troubles() -> Iterator[tuple[str, Trouble, int, str]]:
    """What befalls a disk, how many bytes of the trace it takes, and what is said of that."""
    length = len(BRIEF.trace)
    for number in range(1, length + 2):
        said = NO_SPACE if number <= length else ""
        yield f"write {number} of one byte fails", Trouble(1, number, 1, FULL), number - 1, said
    for number in (1, 24, 25, 47, length):
        yield f"write {number} of one byte answers 0", Trouble(1, number, 1), number - 1, "a write took no byte"
        yield f"write {number} is interrupted 15 times", Trouble(1, number, 15, INTERRUPTED), length, ""
        yield f"write {number} is interrupted 16 times", Trouble(1, number, 16, INTERRUPTED), number - 1, INTERRUPTS
    yield "the first sync fails", Trouble(syncs=1, sync_error=FAILED), length, unsynced(FAULT)
    yield "the first sync fails, after many writes", Trouble(1, syncs=1, sync_error=FAILED), length, unsynced(FAULT)
    yield "a sync is interrupted 100 times", Trouble(syncs=100, sync_error=INTERRUPTED), length, ""


# ---- all of them


def cases(program: str, stride: int) -> Iterator[Case]:
    """Servers whose trace cannot be written; of the sizes of a disk in bytes one in so many."""
    yield "a trace over a longer file", partial(is_written_over, program)
    yield "a full device as the trace", partial(is_full, program)
    yield "a trace that cannot be synced", partial(cannot_be_synced, program)
    yield "a full device as the trace, and a connection that cannot be taken", partial(two_faults, program)
    for size in range(len(BRIEF.trace) + 1):
        yield f"a trace of {size} bytes at most", partial(fills_up, program, BRIEF, size)
    long = lengthy()
    with small_disk(PAGE) as folder:
        can_mount = folder is not None
    for size in range(PAGE, len(long.trace) + PAGE, PAGE):
        if can_mount:
            yield f"a disk of {size} bytes", partial(disk_fills_up, program, long, size)
        else:
            yield f"a trace of {size} bytes at most, as no disk is to be had", partial(fills_up, program, long, size)
    for size in range(1, len(long.trace), stride):
        yield f"a long trace of {size} bytes at most", partial(fills_up, program, long, size)
    with tempfile.TemporaryDirectory(prefix="fdref-", dir=SCRATCH) as folder:
        library = build(folder, FAILS)
        for name, trouble, kept, said in troubles():
            yield f"a disk of which {name}", partial(in_trouble, program, library, trouble, kept, said)
