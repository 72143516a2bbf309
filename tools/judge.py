#!/usr/bin/env python3
"""Does a program get the same answers from fdref as from the system at hand?

usage: tools/judge.py [OPTIONS] PROGRAM [WORD ...]

All that follows PROGRAM are words of it.

On a built tree one command judges a program of your own, in a few seconds:

    cc -o my-test my-test.c && python3 tools/judge.py ./my-test

Where only an unproved fdref is built that one is taken, which is told.

The program is run twice, each time in an empty folder and with 32 descriptors at most: once with a live server
that answers its calls in place of the system, and once natively. A library that is loaded before the C library
(fdref's library, clients/preload) makes its calls, so it need not be changed. It is compiled for this run, by
$CC or cc, unless --shim names a built one. A statically linked program does not load it, nor one that is given
another LD_PRELOAD, as by `env LD_PRELOAD=..`. What --preload names is loaded after it, as a C library under
test, and so is what LD_PRELOAD names before this command: both are for the program alone, and judge.py goes on
without them. System calls that are made in assembler are not seen at all, and may give a difference without a
reason. What fdref leaves out goes past it to the system, and is not judged: paths with a slash, folders,
streams of stdio, other programs. Fdref's library notes what it sees of that, and it is told by kinds, each with the
first of it; --keep has all. A difference after it is told to may follow from it: from what has the same name,
if any, else from the last; one of what is written to a stream, from the first. Under --strict it ends the
program. Calls that the C library makes inside are not seen: so printf is lost where dup2 puts a file of fdref at
descriptor 1. Not judged are closefrom, an execl of more than 31 words, and the format of dprintf, which fdref's
library answers by itself in both runs; that is told. Not compared either are the modes of files, as open, creat
and mkfifo take them and st_mode tells their bits, since fdref has none, and owners and times; and calls with the
descriptors that are open at the start, as 0 to 2, which the kernel answers in both runs, but for EBADF, the
number that a copy gets, and what is written to 1 and 2. What a call has done that the program does not ask for
later is seen where no other process was ever there, of unlink, remove, link, rename, mkfifo, ftruncate, truncate
and O_TRUNC, and of close where no other thread is, and no program was started; it is not seen otherwise, nor what
a write has put where nothing reads it. Of a call that waits for nobody, as dup2, it is not seen where it blocks a
signal alone, but where it blocks all or lets one come. Of threads one makes a call at a time, so where one waits
the others do, which is told at once on standard error.

Judged are the answers of the system, and not the program: a mistake of it that is the same in both runs
is agreement.

Told is how both ended, and where they part: the first call whose answer differs and has no reason, else
the first that differs, after some lines before it and with its reason. Of a process with threads the lines of
one thread are told side by side, where that has other answers; the first thread to make a call is thread 1. The reasons are those of
tools/compare.py, who comes first at a pipe, a signal that ends a call, and the size that a file may have.
With --pipe-capacity 65536 a pipe of fdref holds as much as one of Linux. Each process is compared in the
order of its own calls. A program that is started by system, popen or posix_spawn has not the descriptors of
fdref, and is not compared, which is told. Where a difference with a reason leaves system and fdref apart,
answers that differ later may follow from it, where they have to do with a descriptor, a file or a name that
it can have reached: they are counted, and the first is told. Where with fdref all processes wait for two
seconds, one of them in a write that would go into a pipe of 65,536 bytes, in a call that a signal would end,
or in one that keeps other threads from theirs, or after a child that a signal ended and that fdref kept for
longer than its parent knew of, they are killed, which is told at once but of the write; a parent may wait for
a child meanwhile. That the program itself has ended and others of its processes go on is told after a second.
At last fdref audits the trace of its server.

Where processes or threads act at once, their answers depend on who is first. So where one differs an order of
the system's own calls is searched for, in which the model of fdref gives all its answers: each process or
thread keeps its order, a fork is before the first call of its child, and a call that came back before another
one began is before it. It is run through fdref then. If there is one, the two agree as far as that goes,
which is agreement where standard output, standard error and status are the same too; if there is none, they do
not. After 20 seconds (--search) or 100,000 states the search is given up, and it
decides nothing where what has no line may be why it found none: that is told. Then a read of a pipe may have
the reason that it depends on who comes first, and other answers that differ without a reason are not judged.

The processes of a program may come in another order in the next run, and where its answers depend on
that, so may what is told of it.

The last line says what the exit status means:

0  both ended by themselves, with the same status, standard output and standard error, each answer is the
   same, or comes by another order of the same calls, and the audit finds the trace legal, whatever went past
   fdref. What was not compared, as programs that are started, is named after `not compared:`
1  the answer to the same call differs, or that of F_GETFD, or an exec, from how FD_CLOEXEC was set, and none of
   these may be why: a reason, an order that was not decided on, what is told to go past fdref before it
   (tools/causes.py has what is known to be harmless), a thread that waits and holds its process, a child that a
   signal ended, a descriptor that no call of fdref made, and a right. Or no order gives the answers; or the
   audit finds a fault. Or a call of the system does what it may not beside its answer: it sets errno to 0, or
   fails without setting it, or not with EBADF where nothing is open at a number from 32 on, tells one file as
   two, makes no FIFO, opens one before the other end is opened, has not done to names, sizes or a descriptor
   what it says, blocks other signals, SIGPIPE comes otherwise than once with EPIPE, SA_RESTART is set
   otherwise, it goes on after a signal that ends it (as x86-64 alone tells), a wait tells otherwise of a child
   than the kernel (which, where a handler ends calls, keeps that from Linux 6.15 on), or does not wait (which
   is seen from then on too, of children that were not made beside threads), a fork another number than the
   child has, F_SETFL sets other flags, an exec gives a program other words, or fails with another error than
   that of a path which leads to nothing, a read changes what is beyond its buffer; or it has not come back to
   the end, or a crash has ended it
2  wrong words
3  not judged: answers differ that have a reason; or one of these may be why; or a process makes another call, so
   that its program went another way, as by the time, a timer, the number of a process, an address or a mode; or
   the two end otherwise or write something else though no answer differs without a reason. The last line names
   it (`perhaps by ..`). Or the program could not be run or compared, ended with neither, or crashed with both,
   as by a bad address, or a child did so with fdref for which it waited; or a call was made while another one
   of its process waits; or it is not known whether one waited on the system that a signal ends, and did not; or
   judge.py itself has a fault
"""

import argparse
import collections
import contextlib
import fcntl
import os
import re
import resource
import select
import shutil
import signal
import socket
import stat
import struct
import subprocess
import sys
import tempfile
import termios
import time
import traceback
from collections.abc import Callable, Mapping, Sequence
from functools import partial
from pathlib import Path
from types import FrameType, TracebackType
from typing import NamedTuple, Self

from support import pages, plain_model
from support.auditing import Frames, why_none
from support.call_logs import Log, Way, is_wait, word_of
from support.commands import add_capacity, add_program, capacity_words, program_of
from support.counting import Failure
from support.ordering import ROOMY
from support.places import TOP
from support.running import Ran, StillRunning
from support.runs import ALL_RECORDS, Line
from support.serving import is_listening, outcome_of, serve_words, started
from support.texts import difference, several
from support.trees import Ended, never, rest_of, run_tree

import causes
import compare
import past
import preloads
import some_order
import thread_lines
import waits
from compare_reasons import Reason, told_reason
from handlers import ended_ignoring, signal_named, told_not_ended
from partings import OF_TIME, Compared, Finding, Parting, agrees, is_of_room
from standstill import Beside, Standstill, seen_beside

SHIM = TOP / "clients" / "preload" / "fdref_preload.c"
BUILD_SECONDS = 120
# The unproved program may have to be compiled before it serves.
START_SECONDS = 600
AUDIT_SECONDS = 120
END_SECONDS = 20
SESSIONS_MOST = 64
# The folder in which a program runs; of both runs, where they are, and where it is kept what was noted beside calls.
RUN = "run"
WHERE = {"fdref": "with fdref", "system": "on the system"}
PAST = {"fdref": "past", "system": "system.past"}
# What is said where there are more processes than the server takes.
MOST_PROCESSES = f" (--sessions, {SESSIONS_MOST} at most)"
PAUSE = 0.005

# How the shim ends a program where the server could not be asked, and what it says of what is left out.
NOT_ASKED = 124
LEAVES_OUT = "uses what fdref leaves out: "
# What the shim says where a call waits that its process is not in any more, and what may be why.
WITHIN = b"a call comes while another one of the process waits, as from a handler of a signal"
TOLD_WITHIN = (
    "a call is made while another one of the same process waits: by a handler of a signal, or after a jump out of one; "
    "fdref's library cannot do that"
)
NO_CALLS = (
    "made none of the calls that fdref knows, or does not load fdref's library, or not in time, as a static program, "
    "one that is built with -fsanitize=address or thread, or one that is given an LD_PRELOAD of its own, as by env: "
    "--preload adds a library to it"
)
# What the shim says where the connection is lost, and what may be why.
IS_LOST = b"the connection is lost in "
TOLD_LOST = "perhaps by a clone, or by a system call that closes it, which are not seen"
ALL_TAKEN = b"all sessions are taken"
IS_TOLD = re.compile(rb"^fdref: (.*)$", re.MULTILINE)
IS_LEFT_OUT = re.compile(rb"^fdref: (.*) is left out$", re.MULTILINE)


# Signals of a crash, which is told also where it ends both runs: a bad address crashes the shim in each of them.
CRASHES = {
    int(number): number.name
    for number in (
        signal.SIGSEGV,
        signal.SIGBUS,
        signal.SIGILL,
        signal.SIGFPE,
        signal.SIGABRT,
        signal.SIGTRAP,
        signal.SIGSYS,
    )
}

# What may be why the two runs end otherwise.
BY_ORDER = "the order of the calls"
BAD_ADDRESS = "a bad address, which is no EFAULT with fdref's library"
UNTOLD = f"{causes.NUMBERS}, or an answer that has no line, as those of stat, access, truncate and fsync"
OTHER_WAY = "the calls differ, not the answers"
# The functions that make a call which may wait, and, where they have other names than it, those that make another one.
SAME_CALLS = {
    "open": ("open", "openat", "creat", "open64", "openat64", "creat64"),
    "read": ("read", "readv", "__read_chk"),
    "write": ("write", "writev", "dprintf", "vdprintf"),
}
OTHER_NAMES = {
    "pread": ("__pread_chk", "__pread64_chk"),
    "dup2": ("dup3", "fcntl", "fcntl64"),
    "pipe": ("pipe2",),
    "close": ("close_range",),
    "mkfifo": ("mkfifoat",),
    "link": ("linkat",),
    "unlink": ("unlinkat", "remove"),
    "rename": ("renameat", "renameat2"),
    "getfl": ("fcntl", "fcntl64", "ioctl"),
    "setfl": ("fcntl", "fcntl64", "ioctl"),
    "fstat": ("__fxstat", "__fxstat64"),
}
# The statuses of what a timer ends.
TIMED = (-signal.SIGALRM, -signal.SIGVTALRM, -signal.SIGPROF)


class CannotJudge(Exception):
    """The program could not be run or compared."""


class NotJudged(CannotJudge):
    """The program was run, and its calls got no answer at some place."""


# ---- running


class Server:
    """fdref as it serves, with its trace, until it is finished."""

    def __init__(self, program: list[str], folder: str, sessions: int, limits: plain_model.Limits) -> None:
        self.sessions = sessions
        self.path = os.path.join(folder, "socket")
        self.trace = os.path.join(folder, "trace")
        words = serve_words(program[-1], self.path, sessions, ALL_RECORDS, self.trace)
        try:
            self.process = started([*program[:-1], *words, *capacity_words(limits)])
        except OSError as fault:
            raise CannotJudge(f"{program[0]}: {fault.strerror}") from None

    def __enter__(self) -> Self:
        until = time.monotonic() + START_SECONDS
        late = waits.Late(lambda: waits.waits_for("fdref to serve, which may be compiled before", START_SECONDS))
        while not is_listening(self.path):
            if self.process.poll() is not None or time.monotonic() > until:
                raise CannotJudge(f"no server: {self.killed()}")
            time.sleep(PAUSE)
            late.look()
        return self

    def __exit__(
        self, kind: type[BaseException] | None, raised: BaseException | None, trace: TracebackType | None
    ) -> None:
        self.killed()

    def killed(self) -> str:
        """How it ended, or that it was killed now, and what it wrote."""
        with contextlib.suppress(ProcessLookupError):
            os.killpg(self.process.pid, signal.SIGKILL)
        stdout, stderr = rest_of(self.process)
        return Ran(self.process.returncode, stdout, stderr).said()

    def finish(self) -> None:
        """Makes the connections that it still waits for, so that it ends by itself with its trace whole."""
        until = time.monotonic() + END_SECONDS
        late = waits.Late(lambda: waits.waits_for("fdref to end", END_SECONDS))
        left = self.sessions
        while self.process.poll() is None and time.monotonic() < until:
            with socket.socket(socket.AF_UNIX, socket.SOCK_STREAM | socket.SOCK_NONBLOCK) as client:
                is_taken = client.connect_ex(self.path) == 0
            left -= is_taken
            if not is_taken or left <= 0:
                time.sleep(PAUSE)
            late.look()
        try:
            ran = outcome_of(self.process)
        except Failure as fault:
            raise CannotJudge(f"the server: {fault}") from None
        if ran.status != 0:
            raise CannotJudge(f"the server ends with {ran.said()}")


def run_within(words: Sequence[str], what: str, seconds: float) -> Ran:
    """Runs a program that is waited for at most so long, which is told where it takes long. What it has started ends
    with it where it does not end by itself."""
    pipes = {"stdout": subprocess.PIPE, "stderr": subprocess.PIPE}
    process = subprocess.Popen(words, stdin=subprocess.DEVNULL, start_new_session=True, **pipes)
    try:
        with waits.Waiting(what, seconds):
            stdout, stderr = process.communicate(timeout=seconds)
    except BaseException as fault:
        with contextlib.suppress(ProcessLookupError):
            os.killpg(process.pid, signal.SIGKILL)
        rest_of(process)
        if isinstance(fault, subprocess.TimeoutExpired):
            raise CannotJudge(f"waited for {what}: {StillRunning(seconds)}") from None
        raise
    return Ran(process.returncode, stdout, stderr)


def built_shim(folder: str) -> str:
    """The shim, as it is compiled into a folder: quickly, since its calls wait for the server in any case."""
    compiler = os.environ.get("CC", "cc")
    path = os.path.join(folder, "libfdref_preload.so")
    if not shutil.which(compiler):
        raise CannotJudge(f"no C compiler {compiler}: $CC names another one, and --shim fdref's library as it is built")
    words = [compiler, "-O0", "-shared", "-fPIC", "-o", path, str(SHIM), "-ldl"]
    ran = run_within(words, f"{compiler} to compile fdref's library", BUILD_SECONDS)
    if ran.status != 0:
        raise CannotJudge(f"{SHIM.relative_to(TOP)} is not compiled: {ran.said()}")
    return path


def found(program: str) -> str:
    """The path of a program, which may be one that the shell would find."""
    path = shutil.which(program)
    if not path and os.path.isfile(program):
        raise CannotJudge(f"{program} is a file that may not be executed")
    if not path:
        raise CannotJudge(f"no program {program}")
    return os.path.abspath(path)


def limit_descriptors() -> None:
    """Lets this process open as many descriptors as one of fdref may."""
    most = resource.getrlimit(resource.RLIMIT_NOFILE)[1]
    resource.setrlimit(resource.RLIMIT_NOFILE, (plain_model.OPEN_MAX, most))


def environment(libraries: Sequence[str], log: str, **more: str) -> dict[str, str]:
    """The environment of a program that runs under the shim, and other libraries after it."""
    others = {name: value for name, value in os.environ.items() if not name.startswith("FDREF_")}
    return {**others, preloads.VARIABLE: ":".join(libraries), "FDREF_LOG": log, **more}


def room_of_system() -> int | None:
    """How many bytes a pipe of the system takes that nobody reads, or None where it takes more than any of fdref's."""
    reading, writing = os.pipe()
    try:
        os.set_blocking(writing, False)
        size = 0
        while size <= plain_model.PIPE_CAPACITY_MOST:
            size += os.write(writing, bytes(pages.SIZES[0]))
    except BlockingIOError:
        return size
    finally:
        os.close(reading)
        os.close(writing)
    return None


def has_all_rights() -> bool:
    """Whether no file refuses this process what it asks for: it is the superuser, with CAP_DAC_OVERRIDE."""
    if os.geteuid() != 0:
        return False
    told = re.search(r"^CapEff:\s*([0-9a-f]+)$", Path("/proc/self/status").read_text(encoding="ascii"), re.MULTILINE)
    return bool(told and int(told[1], 16) & 2)


def processes_in(trace: bytes) -> int:
    """How many processes came in a run, up to now."""
    words = (line.split(" ")[2] for line in Frames(trace).lines)
    return sum(word in ("join", "attach") for word in words)


class Both(NamedTuple):
    """How a program ended on the system and with fdref, the logs of both, the trace, and what went past fdref."""

    system: Ended
    fdref: Ended
    system_log: bytes
    fdref_log: bytes
    trace: bytes
    past: bytes = b""
    # what it stood still at with fdref, if it did
    still: str = ""
    # what was noted of the run on the system beside its calls
    system_past: bytes = b""
    # the calls in which its processes were when it was killed, by their numbers, or the program itself as it crashed
    inside: Mapping[int, str] = {}
    # how many of its processes have exited by themselves
    exited: int = 0
    # the calls in which all its processes were at last
    last_calls: Mapping[int, str] = {}


# What stands at the end of what native processes share: of each the number of one more than its own, and its call; and
# before that the exits that they have made.
INSIDE = struct.Struct("@Q16sqQ")
EXIT = struct.Struct("@Q")
INSIDE_MOST = EXITS_MOST = 1024


def inside_of(shared: bytes) -> dict[int, str]:
    """The calls in which native processes are, by their numbers, with a descriptor and a count of bytes."""
    found = INSIDE.iter_unpack(shared[-INSIDE.size * INSIDE_MOST :])
    said = ((number, name.rstrip(b"\0").decode("ascii", "replace"), *rest) for number, name, *rest in found)
    return {number - 1: f"{name} {fd} {size}" if fd >= 0 and size else name for number, name, fd, size in said if number}


def exited_in(shared: bytes) -> int:
    """How many native processes have exited by themselves, at least."""
    end = len(shared) - INSIDE.size * INSIDE_MOST
    return sum(said > 0 for (said,) in EXIT.iter_unpack(shared[end - EXIT.size * EXITS_MOST : end]))


class Looker:
    """Looks at a program while it runs with fdref, and tells at once, of each kind the first, that threads wait for
    another one, that a signal came in a call that waits, and that all wait beside a child that a signal ended."""

    def __init__(self, still: Standstill, noted: Path) -> None:
        self.still = still
        self.noted = noted
        self.size = 0
        self.has_told: set[Callable[[list[past.Past]], list[str]]] = set()

    def is_over(self) -> bool:
        """Whether the program is to be killed."""
        size = self.noted.stat().st_size
        if size != self.size:
            self.size = size
            every = past.past_of(self.noted.read_bytes())
            self.tell(every)
            interrupted, held = past.places_of(past.INTERRUPT, every), past.places_of(past.THREAD, every)
            self.still.beside = Beside(interrupted, held, tuple(it for it in every if it.kind == past.SIGNAL))
        is_met = self.still.is_met()
        if is_met and not self.has_told:
            self.tell(past.past_of(self.noted.read_bytes()), past.told_signals)
        return is_met

    def tell(self, every: list[past.Past], *kinds: Callable[[list[past.Past]], list[str]]) -> None:
        """Tells the first of each kind, if one is noted."""
        for kind in kinds or (past.told_threads, past.told_interrupts):
            for told in kind(every)[:1] if kind not in self.has_told else ():
                self.has_told.add(kind)
                print(f"judge.py: {told}", file=sys.stderr, flush=True)


def tell_that_others_go_on(where: str, status: int) -> None:
    """Tells that a program has ended, and that others of its processes have not, unless the shim tells why it did."""
    if status != NOT_ASKED:
        told = f"{where} the program itself {how_it_ended(status)}, and others of its processes go on"
        print(f"judge.py: {told}", file=sys.stderr, flush=True)


class Job:
    """A program that is to be judged, and how."""

    def __init__(self, words: list[str], program: list[str], shim: str, folder: str) -> None:
        self.words = words
        self.program = program
        self.shim = shim
        self.folder = folder
        self.stdin: str = os.devnull
        self.seconds = 60.0
        self.sessions = SESSIONS_MOST
        self.limits = plain_model.DEFAULTS
        self.is_strict = False
        self.preloads: list[str] = []
        self.search: float = some_order.SECONDS

    def ran(self, name: str, is_over: Callable[[], bool] = never, server: int = 0, **more: str) -> tuple[Ended, bytes]:
        """How the program ends in an empty folder, beside a server, and the log of its calls. It is killed once it is
        over."""
        # the names are the same for both runs, since a program may tell them
        log, noted = self.noted()
        env = environment([self.shim, *self.preloads], str(log), FDREF_PAST=str(noted), FDREF_STARTS="1", **more)
        goes_on = partial(tell_that_others_go_on, WHERE[name])
        late = waits.Late(lambda: f"{self.still_runs(name)}: {waits.all_doing(server)}")
        folder = os.path.join(self.folder, RUN)
        os.mkdir(folder)

        def look() -> bool:
            late.look()
            return is_over()

        try:
            with open(self.stdin, "rb") as stdin:
                ended = run_tree(self.words, folder, env, stdin, self.seconds, limit_descriptors, look, goes_on)
        except OSError as fault:
            raise CannotJudge(f"{self.words[0]}: {fault.strerror}") from None
        for path, kept in ((Path(folder), f"{RUN}-{name}"), (log, f"{name}.log"), (noted, PAST[name])):
            path.rename(Path(self.folder, kept))
        return ended, Path(self.folder, f"{name}.log").read_bytes()

    def still_runs(self, name: str) -> str:
        """That a program takes long, and how long it may."""
        so_far, most = f"{waits.TELL_SECONDS:g} seconds", f"{self.seconds:g} (--seconds)"
        return f"{WHERE[name]} the program still runs after {so_far}, and is killed after {most}"

    def noted(self) -> tuple[Path, Path]:
        """The log of a run, and what is noted beside it, which are there from now on."""
        paths = Path(self.folder, "log"), Path(self.folder, "noted")
        for path in paths:
            path.touch()
        return paths

    def past(self, name: str) -> bytes:
        """What was noted of a run beside its calls."""
        return Path(self.folder, PAST[name]).read_bytes()

    def both(self) -> Both:
        """Runs it with fdref and on the system."""
        strict = {"FDREF_STRICT": "1"} if self.is_strict else {}
        with Server(self.program, self.folder, self.sessions, self.limits) as server:
            still = Standstill(server.trace, partial(seen_beside, server.process.pid))
            looker = Looker(still, self.noted()[1])
            own = server.process.pid
            fdref, fdref_log = self.ran("fdref", looker.is_over, own, FDREF_SOCKET=server.path, **strict)
            server.finish()
            trace = Path(server.trace).read_bytes()
        left_out = IS_LEFT_OUT.search(fdref.stderr) if self.is_strict else None
        if left_out:
            raise CannotJudge(f"{LEAVES_OUT}{left_out[1].decode('utf-8', 'replace')}")
        said = IS_TOLD.findall(fdref.stderr)
        if WITHIN in said:
            raise NotJudged("; ".join([TOLD_WITHIN, *past.told_past(past.past_of(self.past("fdref")))]))
        if any(ALL_TAKEN in text for text in said) and processes_in(trace) >= self.sessions:
            raise CannotJudge(f"has more than {self.sessions} processes in all{MOST_PROCESSES}")
        if fdref.status == NOT_ASKED and said:
            lost = f"fdref's library ended the program: {said[-1].decode('utf-8', 'replace')}"
            why = [TOLD_LOST] if said[-1].startswith(IS_LOST) else []
            raise NotJudged("; ".join([lost, *why, *past.told_past(past.past_of(self.past("fdref")))]))
        shared = Path(self.folder, "shared")
        system, system_log = self.ran("system", FDREF_SHARED=str(shared))
        told = shared.read_bytes() if shared.exists() else b""
        inside = inside_of(told)
        last_calls = inside
        if system.status is not None:
            # of a child that a signal ended it is not known whether it came from another process
            inside = {0: inside[0]} if 0 in inside and -system.status in CRASHES else {}
        noted = self.past("fdref"), still.told, self.past("system")
        return Both(system, fdref, system_log, fdref_log, trace, *noted, inside, exited_in(told), last_calls)

    def audited(self) -> str:
        """What the audit says of the trace."""
        words = [*self.program, "audit", os.path.join(self.folder, "trace")]
        ran = run_within(words, "the audit of the trace of fdref", AUDIT_SECONDS)
        return ran.stdout.decode("ascii", "replace").strip()

    def verdict(self) -> "Verdict":
        """What comes of it."""
        both, folder, audit = self.both(), os.path.join(self.folder, RUN), self.audited()
        calls = both.fdref_log.count(b"\n") + both.system_log.count(b"\n")
        with waits.Waiting(f"the comparison of {several(calls, 'call')}, which computes"):
            room, is_superuser = room_of_system(), has_all_rights()
            return Verdict(both, audit, self.sessions, self.program, folder, room, self.search, is_superuser)


class Verdict:
    """What came of a program: how it ended twice, what differs, and what the audit says."""

    def __init__(
        self,
        both: Both,
        audit: str,
        sessions: int = SESSIONS_MOST,
        program: list[str] | None = None,
        folder: str = "",
        room: int | None = None,
        search: float = some_order.SECONDS,
        is_superuser: bool = False,
    ) -> None:
        self.search = search
        self.is_superuser = is_superuser
        self.both = both
        self.audit = audit
        try:
            is_killed, has_ended = both.system.status is None, both.fdref.status is not None
            logs = both.system_log, both.fdref_log
            self.compared = Compared(*logs, both.trace, is_killed, has_ended, both.system_past, room)
        except Failure as fault:
            raise CannotJudge("; ".join([str(fault), *told_torn(both)])) from None
        self.findings, self.unexplained = self.compared.findings, self.compared.unexplained
        self.past = past.past_of(both.past)
        self.native = past.past_of(both.system_past)
        self.flags, self.flags_by = past.flags(self.native, self.past)
        self.signals = self.wrong_signals()
        self.looks = self.looked_apart()
        self.stuck = self.stuck_calls()
        self.crashes = [CRASHES[number] for number in past.signals(self.past) if number in CRASHES]
        self.lone_crashes = self.crashed_alone()
        if not self.compared.fdref.total() and not self.compared.system.total():
            told = told_started(self.compared.started) + past.told_past(self.past) + told_fault(both.fdref)
            raise CannotJudge("; ".join([NO_CALLS, *told]))
        if self.compared.processes > sessions:
            counted = f"has {self.compared.processes} processes, and the server takes {sessions}"
            raise CannotJudge(f"{counted}{MOST_PROCESSES}")
        self.order = self.ordered(program) if program else None
        self.causes = self.causes_in(folder)
        self.bare = self.compared.without_cause(self.has_cause) if self.unexplained else []
        bare = (self.findings[at] for at in self.bare)
        if self.is_open() and any(some_order.is_in_none(self.compared, it) for it in bare):
            self.order = some_order.none_for(self.compared)

    def ordered(self, program: list[str]) -> some_order.Ordered | None:
        """Whether some order of the calls of several processes explains the answers of the system."""
        is_killed = self.both.system.status is None or past.signals(self.past) or past.signals(self.native)
        doubt = "a process that was killed" if is_killed else past.doubt(self.past)
        more = told_killed(self.native + self.past) if is_killed else ""
        doubt = doubt or "".join(it.why() for it in past.made(self.native)[:1])
        if not doubt and past.cuts(self.native):
            doubt = "a call of a thread that the end of its process cut off"
        is_refused = any(line.outcome in causes.OF_RIGHTS for line in self.compared.system_lines)
        if not doubt and is_refused and past.may_be_refused(self.past, self.is_superuser):
            doubt = causes.MODES
        of_end = "" if not is_killed and self.has_only_written() else doubt
        # there are two, one of which is of larger pipes
        with waits.Waiting("an order of the calls that gives all answers of the system", 2 * self.search):
            return some_order.ordered_of(self.compared, program, doubt, of_end, self.search, more)

    def has_only_written(self) -> bool:
        """Whether all that may have changed what fdref does not see has written more, and nothing has read."""
        is_seen = not past.made(self.native) and not past.cuts(self.native)
        return is_seen and all(map(past.is_of_output, past.likely(self.past)))

    def causes_in(self, folder: str) -> causes.Causes:
        """What may be why the two part in a folder, beside the calls."""
        compared = self.compared
        every = past.without_early(self.past, compared.records)
        return causes.Causes(
            every,
            compared.partings,
            compared.records,
            compared.limits,
            folder,
            self.native,
            compared.system,
            self.both.system.status is None,
            self.past,
            compared.looks(),
            self.is_superuser,
        )

    def is_timed(self) -> bool:
        """Whether a timer ended one of the two runs."""
        return any(ended.status in TIMED for ended in (self.both.system, self.both.fdref))

    def differs(self) -> bool:
        """Whether an answer differs that neither a reason nor an order of the calls explains."""
        is_told = bool(self.flags and not self.flags_by) or bool(self.signals or self.looks)
        is_told = is_told or (bool(self.stuck) and self.is_stuck_alone())
        return is_told or self.differs_in_calls()

    def looked_apart(self) -> list[str]:
        """What is said of a stat that tells another size or another number of links, or of another file: in a program of
        one thread whose calls are all answered alike, and which did nothing that has no line."""
        compared = self.compared
        is_clear = compared.is_one() and not compared.findings and not compared.has_appended()
        apart = past.looked_apart(self.native, self.past) if is_clear and not past.doubt(self.past) else None
        return [f"{apart[0]} tells otherwise: system: {apart[1]}, fdref: {apart[2]}"] if apart else []

    def stuck_calls(self) -> list[Parting]:
        """The calls that fdref has answered, and in which processes of the system were as it was killed or crashed."""
        lefts = [it for it in self.compared.partings if not it.system and it.fdref and it.fdref.place.isdigit()]
        lefts = [it for it in lefts if it.fdref and not it.fdref.outcome.startswith(("parked ", "part "))]
        numbers = self.compared.system.numbers
        is_in = {way: self.both.inside.get(numbers[way], "").partition(" ")[0] for way in numbers}
        has_crashed = self.crash_on_system() not in (0, signal.SIGSYS)
        return [it for it in lefts if it.fdref and makes(is_in.get(it.way, ""), word_of(it.fdref), has_crashed)]

    def crash_on_system(self) -> int:
        """The signal of a crash that ended the program on the system alone, or 0."""
        system, fdref = self.both.system.status, self.both.fdref.status
        return -system if system is not None and system != fdref and -system in CRASHES else 0

    def crashed_alone(self) -> list[past.Past]:
        """The children that a signal of a crash ended on the system, and not with fdref."""
        others = {it.name for it in self.past if it.kind == past.SIGNAL and int(it.call) in CRASHES}
        return [it for it in past.crashed(self.native, CRASHES) if it.name not in others]

    def told_stuck(self) -> str:
        """The call in which a process of the system was to the end, and that fdref has answered: that of the system where
        it is another one."""
        first, status = self.stuck[0], self.both.system.status
        number, act = self.compared.system.numbers[first.way], first.fdref.act if first.fdref else ""
        _, word, *asked = act.split(" ")
        name, *words = self.both.inside.get(number, "").split(" ")
        is_other = bool(words) and (words != asked if word == "read" else words[0] != asked[0])
        act = f"p{number} {name} {' '.join(words)}" if is_other else compare.clipped(act)
        ended = "which was killed in it" if status is None else f"where {signal_named(-status)} ended it"
        return f"{act} has not come back on the system, {ended}"

    def is_stuck_alone(self) -> bool:
        """Whether the first of these calls had to come back: all that was answered with fdref before it was so on the
        system, and nothing else, in one thread of each process; and all have gone that had with fdref."""
        compared, calls = self.compared, self.compared.fdref.calls
        records, first = compared.records, min(int(it.fdref.place) for it in self.stuck if it.fdref)
        are_left = all(not it.parting.system for it in self.findings) and not past.doubt(self.past)
        is_plain = all(line.place.partition("@")[0] == "-" for line in compared.system_lines)
        before = {way: [it for it in calls[way] if it.place.isdigit() and int(it.place) < first] for way in calls}
        is_same = all(len(made) == len(before.get(way, ())) for way, made in compared.system.calls.items())
        gone = {int(line.outcome) for line in compared.noted_lines if is_wait(line)}
        ways = {number: way for way, number in compared.fdref.numbers.items()}
        exited = {ways.get(line.number() or 0, ()) for line in records[:first] if word_of(line) == "exit"}
        are_gone = all(compared.system.numbers.get(way) in gone for way in exited)
        are_gone = are_gone or self.are_others_gone()
        is_one = self.both.system.status is None or compared.processes == 1
        return is_one and are_left and is_plain and is_same and are_gone

    def are_others_gone(self) -> bool:
        """Whether all processes of the system have exited but for those that are in such a call."""
        forks = sum(map(some_order.is_fork, self.compared.system_lines))
        return self.both.exited >= forks + 1 - len({it.way for it in self.stuck})

    def wrong_signals(self) -> list[str]:
        """What is said of signals that have ended a process on the system which ignores them, and of SIGPIPE where it
        ended one with fdref at an EPIPE, and has not come on the system; and what native calls have done beside their
        answers that they may not do."""
        told = "{} has ended p{} on the system, which ignores it"
        found = ended_ignoring(self.native, self.both.system.status)
        said = [told.format(signal_named(number), process) for process, number in found]
        ways = {number: way for way, number in self.compared.fdref.numbers.items()}
        ended = {ways[0]} if self.both.fdref.status == -signal.SIGPIPE and 0 in ways else set()
        broken = past.killed_by(self.past, signal.SIGPIPE)
        ended |= {way for number, way in ways.items() if number in broken}
        is_missing = any(map(self.has_gone_on, ended))
        said += ["no signal 13 (SIGPIPE) has come on the system with EPIPE"] * is_missing
        return said + self.told_early() + past.told_wrong(self.native)

    def told_early(self) -> list[str]:
        """What is said of opens of a FIFO that came back before another one opened its other end. All processes have
        ended by themselves, and did nothing else that has no line."""
        status = self.both.system.status
        is_whole = status is not None and status >= 0 and not past.signals(self.native) and not past.cuts(self.native)
        if not is_whole or past.doubt(self.past) or self.compared.started.calls:
            return []
        told = "system: {}: has come back before another one began to open the other end"
        return [told.format(line.act) for line in some_order.early_opens(self.compared)]

    def has_gone_on(self, way: Way) -> bool:
        """Whether a process that ended with fdref at an EPIPE got that on the system by the same calls, and went on, or
        ended by itself."""
        system, fdref = self.compared.system.calls.get(way, []), self.compared.fdref.calls[way]
        is_broken = bool(fdref) and fdref[-1].outcome == "error EPIPE" and len(system) >= len(fdref)
        is_same = is_broken and all(map(agrees, system, fdref))
        by_itself = self.both.system.status is not None and self.both.system.status >= 0
        return is_same and (len(system) > len(fdref) or (by_itself and self.compared.fdref.numbers[way] == 0))

    def differs_in_calls(self) -> bool:
        """The same of an answer that has a line."""
        if self.order and self.order.is_found is not None:
            return not self.order.is_found
        return bool(self.bare) and not self.is_open()

    def is_open(self) -> bool:
        """Whether it is not decided that no order explains an answer that has no reason."""
        return self.unexplained is not None and self.order is not None and self.order.is_found is None

    def is_caused(self) -> bool:
        """Whether an answer that has no reason may be by something else: an order that was not decided on, or what is
        no answer of fdref."""
        return self.unexplained is not None and not (self.order and self.order.is_found)

    def reason_of(self, finding: Finding) -> Reason | None:
        """The reason of a finding. Who comes first is none where no order explains the answers."""
        is_lost = self.order is not None and self.order.is_found is False and finding.reason == OF_TIME
        return None if is_lost else finding.reason

    def said(self, reason: Reason) -> str:
        """A reason; of the room of a pipe also how much that is, and how it can be the same in both runs."""
        one, other, most = self.compared.limits.capacity, self.compared.room, plain_model.PIPE_CAPACITY_MOST
        if not is_of_room(reason) or one == other:
            return reason.name
        more = f", of which fdref's has {one:,} bytes" + (f" and the system's {other:,}" if other else "")
        return f"{reason.name}{more}" + (f" (--pipe-capacity {most})" if one < most else "")

    def said_reasons(self, findings: list[Finding]) -> str:
        """The reasons of findings, as what is told above, or nothing."""
        reasons = list(dict.fromkeys(self.said(reason) for it in findings if (reason := self.reason_of(it))))
        which = "the reason above" if len(reasons) == 1 else "the reasons above"
        return f"{which}: {'; '.join(reasons)}" if reasons else ""

    def is_by_order(self, finding: Finding) -> bool:
        """Whether an order that was found explains it."""
        if not self.order or not self.order.is_found:
            return False
        return self.order.is_whole or finding.reason in (None, OF_TIME)

    def first(self) -> Finding:
        """The finding that is told: one without a reason, if there is one, and of these one without a cause."""
        unexplained = [it for it in self.findings if not self.reason_of(it) and not it.follows]
        bare = [self.findings[at] for at in self.bare]
        return next((it for it in unexplained if it in bare), [*unexplained, *self.findings][0])

    def cause_of(self, finding: Finding) -> str:
        """What a finding without a reason may be by that is no answer of fdref, or nothing."""
        if self.signals and not finding.parting.is_same_call():
            return ""
        killed, cause = self.causes.killed(finding.parting), self.causes.of(finding)
        other = self.causes.other(finding.parting, self.is_timed())
        is_crash = not finding.parting.fdref and self.both.fdref.status in (-signal.SIGSEGV, -signal.SIGBUS)
        is_ended = not finding.parting.system and self.compared.system.numbers.get(finding.parting.way) == 0
        ended = self.told_crash(0, self.crash_on_system()) if is_ended and self.crash_on_system() else ""
        return killed or (cause.why() if cause else BAD_ADDRESS if is_crash else ended or other)

    def told_crash(self, process: int, number: int) -> str:
        """The signal of a crash that ended a process on the system alone, and in which call it was."""
        call = self.both.last_calls.get(process, "")
        return f"{signal_named(number)}, which ended p{process} on the system alone" + (f", in {call}" if call else "")

    def has_cause(self, finding: Finding) -> bool:
        """Whether there is such a thing."""
        return bool(self.cause_of(finding))

    def cause_of_end(self) -> str:
        """What may be why the two end otherwise, or write something else, though no answer does without a reason."""
        one, other = self.both.system, self.both.fdref
        if self.stuck:
            return self.told_stuck()
        descriptor = "1" if one.stdout != other.stdout else "2" if one.stderr != other.stderr else ""
        held = [it for it in self.causes.every if it.kind == past.THREAD and other.status is None]
        cause = next(iter(held), None) or self.causes.of_output(descriptor)
        if cause:
            return cause.why()
        handled = self.causes.handled(len(self.compared.records))
        if self.findings:
            by_order = " or ".join([handled] * bool(handled) + [BY_ORDER])
            return self.said_reasons(self.counted()) or by_order
        if self.crash_on_system():
            return self.told_crash(0, self.crash_on_system())
        late = [it.why() for it in self.causes.every if it.kind == past.SIGNAL]
        if late or self.is_timed():
            return late[0] if late else causes.TIMERS
        others = [it for it in (handled, past.told_errno(self.native), past.given(self.native)) if it]
        is_of_modes = past.has_looked(self.past, self.compared.records)
        numbers = f"which process came first, {UNTOLD}" if self.compared.processes > 1 else UNTOLD
        return " or ".join([*others, causes.MODES if is_of_modes else numbers])

    def counted(self) -> list[Finding]:
        """The findings that no order explains."""
        return [it for it in self.findings if not self.is_by_order(it)]

    def is_all_compared(self) -> bool:
        """Whether all that it did was compared, but for what only looks."""
        are_told = past.told_own(self.past) or past.told_unlooked(self.native) or past.given(self.native)
        are_told = are_told or past.told_unwaited(self.native)
        is_all_seen = not self.compared.started.calls and not self.compared.looks() and not are_told
        return is_all_seen and not past.doubt(self.past)

    def has_ended(self) -> bool:
        """Whether it ended by itself with either of the two."""
        return self.both.system.status is not None or self.both.fdref.status is not None

    def status(self) -> int:
        """The exit status."""
        if self.differs() or not self.audit.startswith("legal "):
            return 1
        if self.is_caused() or not self.has_ended() or crash_of(self.both) or self.crashes or self.lone_crashes:
            return 3
        is_alike = not self.counted() and not self.flags and not (self.order and self.order.is_roomy)
        is_alike = is_alike and not told_not_ended(self.native)
        return 0 if is_alike and self.both.system == self.both.fdref else 3


def makes(function: str, word: str, has_crashed: bool) -> bool:
    """Whether a function makes the call of a word, of those that may wait, or, where it has crashed, of all."""
    if not has_crashed or function in SAME_CALLS.get(word, ()):
        return function in SAME_CALLS.get(word, ())
    return function.strip("_").removesuffix("64") == word or function in OTHER_NAMES.get(word, ())


# ---- telling


def told_fault(ended: Ended) -> list[str]:
    """How a program without a call ended, and the last that it wrote on standard error, where either tells a fault."""
    wrote = ended.stderr.decode("utf-8", "replace").strip().rpartition("\n")[2]
    if ended.status is None or (ended.status == 0 and not wrote):
        return []
    return [f"it {how_it_ended(ended.status)}" + (f", and wrote {wrote!r} on standard error" if wrote else "")]


def crash_of(both: Both) -> str:
    """The signal of a crash, which ended the program in both runs, or nothing."""
    status = both.system.status
    return CRASHES.get(-status, "") if status is not None and status == both.fdref.status else ""


def how(ended: Ended, seconds: float) -> str:
    """How a program ended, for a reader."""
    if ended.status is None:
        return f"did not end in {seconds:g} seconds, and was killed"
    return how_it_ended(ended.status)


def how_it_ended(status: int) -> str:
    """How a program ended by itself, for a reader."""
    return f"ended with status {status}" if status >= 0 else f"ended by {signal_named(-status)}"


def told_ends(verdict: Verdict, seconds: float) -> list[str]:
    """How the two ended, in which calls they waited, and what they wrote otherwise, with what that may follow from."""
    both, every = verdict.both, verdict.past
    system, fdref = how(both.system, seconds), both.still or how(both.fdref, seconds)
    lines = [f"both {system}"] if system == fdref else [f"system: {system}", f"fdref:  {fdref}"]
    lines += told_broken_pipes(verdict)
    if both.system.status is None and both.fdref.status is None and not both.still:
        lines = [f"neither ended in {seconds:g} seconds: both were killed", *told_firsts(both)]
        lines += told_waits(verdict.compared.records)
    crash = crash_of(both)
    crashes = [("a crash", crash)] if crash else []
    for who, name in crashes + [("a child's crash", name) for name in verdict.crashes]:
        why = ": with fdref's library a bad address is no EFAULT" if name in ("SIGSEGV", "SIGBUS") else ""
        lines.append(f"{who} ({name}) is no agreement{why}")
    for what, descriptor, one, other in (
        ("output", "1", both.system.stdout, both.fdref.stdout),
        ("error", "2", both.system.stderr, both.fdref.stderr),
    ):
        if one != other:
            lines.append(f"standard {what} differs in {difference(one, other, ('system', 'fdref'))}")
            cause = verdict.causes.of_output(descriptor)
            lines += [compare.clipped(past.told_cause(cause, verdict.compared.lines))] if cause else []
            is_known = cause and past.BETWEEN.fullmatch(cause.call)
            lines += [] if is_known else past.told_looks(every, verdict.compared.records)
    return lines


def told_broken_pipes(verdict: Verdict) -> list[str]:
    """What SIGPIPE is, where it ended the program or a child."""
    ends = [ended.status for ended in (verdict.both.system, verdict.both.fdref)]
    is_there = -signal.SIGPIPE in ends or signal.SIGPIPE in past.signals(verdict.past + verdict.native)
    return ["SIGPIPE comes with EPIPE, of a write to a pipe that nobody reads, and ends a process"] if is_there else []


def told_killed(every: list[past.Past]) -> str:
    """Which process a signal ended, as its parent was told first, or nothing where none was."""
    it = next((it for it in every if it.kind == past.SIGNAL), None)
    who = it.name or f"a child of p{it.number}" if it else ""
    return f"{who}, by {signal_named(int(it.call))}" if it else ""


def told_firsts(both: Both) -> list[str]:
    """How the program itself had ended, where only others of its processes went on."""
    firsts = {WHERE["system"]: both.system.first, WHERE["fdref"]: both.fdref.first}
    ended = {where: how_it_ended(status) for where, status in firsts.items() if status is not None}
    if len(ended) == 2 and len(set(ended.values())) == 1:
        ended = {"in both": ended[WHERE["system"]]}
    return [f"{where} the program itself {it}, and others of its processes went on" for where, it in ended.items()]


def told_lone_crash(verdict: Verdict) -> str:
    """The first child that a crash ended on the system alone."""
    it = verdict.lone_crashes[0]
    return verdict.told_crash(int(it.name.removeprefix("p")), int(it.call))


def do_outputs_differ(both: Both) -> bool:
    """Whether the outputs of the two runs differ."""
    return (both.system.stdout, both.system.stderr) != (both.fdref.stdout, both.fdref.stderr)


def told_waits(records: list[Line]) -> list[str]:
    """Which calls waited when a program was killed: of each process the last one, where it was not answered."""
    calls = (line for line in records if not line.act.endswith((" exit", " close-run")))
    last = {line.act.partition(" ")[0]: line for line in calls}
    waits = [line for line in last.values() if line.outcome.startswith(("parked ", "part "))]
    return [compare.clipped(f"waits: {line.act} = {line.outcome}") for line in waits]


def told_torn(both: Both) -> list[str]:
    """That a process which a signal ended may have been at writing its line of a log."""
    every = past.past_of(both.past) + past.past_of(both.system_past)
    return ["a process that a signal ended may have been writing its line"] if past.signals(every) else []


def told_looks(looks: int) -> list[str]:
    """How many answers were not compared since the library has no line of them."""
    told = f"not compared: {several(looks, 'look')} at names, as by stat or access, which have no line"
    return [told] if looks else []


def told_started(started: Log) -> list[str]:
    """What was not compared: the calls of the programs that it starts."""
    calls, programs = several(started.total(), "call"), several(started.programs(), "program")
    return [f"not compared: {calls} of {programs} that it starts, by system or posix_spawn"] if started.calls else []


def told_line(who: str, line: Line | None, thread: str = "") -> str:
    """One side of a parting, with its thread where that is told."""
    place = f"{line.place} " if line and line.place.isdigit() else ""
    return f"{who} {place}{line.act} = {line.outcome}{thread}" if line else f"{who} no further call{thread}"


def told_sides(compared: Compared, parting: Parting, before: str = "") -> list[str]:
    """Both sides of a parting: of a process with threads those of one thread, if there are."""
    sides = thread_lines.sides_of(compared, parting)
    told = [told_line(f"{before}system:", sides.system, sides.of_system)]
    return [*told, told_line(f"{before}fdref: ", sides.fdref, sides.of_fdref)]


def told_finding(verdict: Verdict, before: int) -> list[str]:
    """The first parting, with lines before it and its reason, and what went past fdref that it may follow from."""
    finding, lines = verdict.first(), verdict.compared.lines
    parting = finding.parting
    earlier = sorted((int(it.place), it) for it in lines if it.place.isdigit() and int(it.place) < parting.place)
    told = [f"  {line.place} {line.act} = {line.outcome}" for _, line in earlier[max(len(earlier) - before, 0) :]]
    told += told_sides(verdict.compared, parting)
    is_killed = bool(verdict.causes.killed(parting))
    cause = None if is_killed else verdict.causes.of(finding)
    follows = [compare.clipped(past.told_cause(cause, lines))] if cause else []
    told = [compare.clipped(line) for line in told]
    if verdict.is_by_order(finding) and verdict.order:
        # why a program makes other calls, or does not end, no order tells
        is_why = not parting.is_same_call() or (cause and cause.kind == past.THREAD)
        return [*told, f"reason: {verdict.order.told()}", *(follows if is_why else [])]
    told += [told_reason(verdict.reason_of(finding)), *told_unended(finding), *follows]
    told += [verdict.order.told()] if verdict.order else []
    why = verdict.cause_of(finding)
    is_decided = verdict.order is not None and verdict.order.is_found is False
    if not finding.reason and not cause and why and not is_decided:
        told.append(f"perhaps by {why}" if parting.is_same_call() else f"{OTHER_WAY}: perhaps by {why}")
    return told


def told_unended(finding: Finding) -> list[str]:
    """That no signal may be why a call has ended that gave EINTR."""
    line = finding.parting.system
    is_ended = line is not None and line.outcome == "error EINTR" and not finding.reason
    return ["no signal explains EINTR: no handler ran then that ends calls"] if is_ended else []


def told_hidden(compared: Compared, hidden: list[Parting]) -> list[str]:
    """How many answers may follow from others, and the first of them with both answers."""
    told = [f"{len(hidden):8} may follow from these, of which the first is"]
    return [compare.clipped(line) for line in [*told, *told_sides(compared, hidden[0], "           ")]]


def told_agreement(verdict: Verdict) -> str:
    """What status 0 means, and what it does not tell of."""
    rest = "" if verdict.is_all_compared() else " in what was compared, which is not all"
    order, others = verdict.order, "; ".join(told_others(verdict))
    said = order.said if order and order.is_found else "no answer differs"
    return f"agreement{rest}: {said}{f'; not compared: {others}' if others else ''}"


def told_others(verdict: Verdict) -> list[str]:
    """What was not compared, each kind in a few words: what it is there for has lines of its own."""
    every, started = verdict.past, verdict.compared.started
    programs = [it.said(" of ") for it in every if it.kind == past.PROGRAM]
    count = max(started.programs() if started.calls else 0, len(programs))
    first = f" (first {compare.clipped(programs[0], 60)})" if programs else ""
    others = [it for it in past.likely(every) if it.kind != past.PROGRAM]
    told = [f"what {several(count, 'program')} did that it starts{first}"] if count else []
    told += ["looks at names"] if verdict.compared.looks() else []
    told += ["how a child ended"] if past.told_unlooked(verdict.native) else []
    told += ["whether a wait for a child waits"] if past.told_unwaited(verdict.native) else []
    told += ["calls that fdref's library answers"] if past.told_own(every) else []
    told += filter(None, [past.given(verdict.native)])
    told += [f"what went past fdref (first {compare.clipped(others[0].said(' of '), 60)})"] if others else []
    return told


def told_reasons(verdict: Verdict) -> str:
    """How many answers have a reason, which reasons there are, and whether an order explains the others. It may do so
    only by larger pipes."""
    findings, order = verdict.counted(), verdict.order
    if order and order.is_roomy and not findings:
        return f"{order.said}; fdref's has {verdict.compared.limits.capacity:,} (--pipe-capacity {ROOMY.capacity})"
    hidden = sum(it.follows for it in findings)
    reasons = dict.fromkeys(verdict.said(reason) for it in findings if (reason := verdict.reason_of(it)))
    count = several(len(findings) - hidden, "answer differs with a reason", "answers differ with a reason")
    parts = [f"{count}: {'; '.join(reasons)}"]
    parts += [f"{several(hidden, 'later answer was', 'later answers were')} not judged"] if hidden else []
    by_order = [order.said] if order and order.is_found else []
    return "; ".join([", ".join(parts), *by_order, *told_open(order)])


def told_open(order: some_order.Ordered | None) -> list[str]:
    """That it was not decided whether there is an order."""
    told = "not decided is whether the order of the calls explains it"
    return [f"{told}: {order.said}"] if order and order.is_found is None else []


def told_unexplained(verdict: Verdict) -> str:
    """How many answers have no reason, what the first may follow from instead, and that it is not decided whether an
    order explains them."""
    count = sum(not verdict.reason_of(it) and not it.follows for it in verdict.findings)
    differ = several(count, "answer differs without a reason", "answers differ without a reason")
    cause = verdict.cause_of(verdict.first())
    differ += f", perhaps by {cause}" if cause else ""
    return "; ".join([differ, *told_open(verdict.order)])


def told_difference(verdict: Verdict) -> str:
    """What status 1 means."""
    if verdict.signals or verdict.looks:
        return [*verdict.signals, *verdict.looks][0]
    if verdict.stuck and verdict.is_stuck_alone():
        return verdict.told_stuck()
    if verdict.differs_in_calls() and verdict.order and verdict.order.is_found is False:
        return verdict.order.said
    if verdict.differs_in_calls():
        return told_unexplained(verdict)
    if verdict.differs():
        return past.told_flags(verdict.flags)[0]
    return "the audit finds a fault in the trace of fdref"


def told_not_judged(verdict: Verdict) -> str:
    """What status 3 means."""
    if verdict.is_caused():
        return told_unexplained(verdict)
    if not verdict.has_ended():
        is_gone = verdict.both.system.first is not None and verdict.both.fdref.first is not None
        return "neither of the two ended" + (", but for the program itself" if is_gone else "")
    if crash_of(verdict.both) or verdict.crashes:
        return "a crash is no agreement"
    if verdict.lone_crashes:
        return f"a crash is no agreement: {told_lone_crash(verdict)}"
    if verdict.flags_by:
        return f"{past.told_flags(verdict.flags)[0]}, perhaps by {verdict.flags_by.why()}"
    if verdict.both.system == verdict.both.fdref:
        unended = told_not_ended(verdict.native)
        return unended[0] if unended and not verdict.counted() else told_reasons(verdict)
    cause, order = verdict.cause_of_end(), verdict.order
    told = f"the two runs end otherwise, or write something else, perhaps by {cause}"
    if not order or not order.is_found:
        return told
    return f"{told}: {order.said}" if cause.endswith(BY_ORDER) else f"{told}, though {order.said}"


def told_verdict(verdict: Verdict) -> str:
    """The last line, which says what the status means."""
    status = verdict.status()
    if status == 0:
        return f"verdict: {told_agreement(verdict)}"
    if status == 1:
        return f"verdict: a difference: {told_difference(verdict)}"
    return f"verdict: not judged: {told_not_judged(verdict)}"


def told_strict(every: list[past.Past]) -> list[str]:
    """Where --strict would end the program."""
    ends = [it.said() for it in every if it.is_strict]
    return [compare.clipped(f"--strict ends it at {ends[0]}")] if ends else []


def told_counts(verdict: Verdict) -> list[str]:
    """How many answers have which reason, and how many have none."""
    counted = verdict.counted()
    by_order = len(verdict.findings) - len(counted)
    lines = [f"{by_order:8} by the order of the calls"] if by_order else []
    reasons = collections.Counter(verdict.reason_of(it) for it in counted)
    lines += [f"{count:8} {it.name} ({it.who}; {it.page})" for it, count in reasons.items() if it]
    hidden = [it.parting for it in counted if it.follows]
    lines += told_hidden(verdict.compared, hidden) if hidden else []
    return [*lines, f"{reasons[None] - len(hidden):8} without a reason"]


def told(verdict: Verdict, seconds: float, before: int) -> str:
    """All that is said of a program."""
    findings = verdict.findings
    every = verdict.past
    lines = told_ends(verdict, seconds)
    calls = several(verdict.compared.fdref.total(), "call")
    processes = several(len(verdict.compared.fdref.calls), "process", "processes")
    differ = {0: "no answer differs", 1: "1 answer differs"}.get(len(findings), f"{len(findings)} answers differ")
    lines.append(f"{calls} of {processes}: {differ}")
    lines += told_finding(verdict, before) if findings else []
    lines += told_counts(verdict) if findings else []
    lines += past.told_flags(verdict.flags)
    is_other = bool(findings) or do_outputs_differ(verdict.both)
    lines += past.told_signals(every) if is_other else []
    lines += told_looks(len(verdict.compared.looks())) + past.told_own(every)
    lines += past.told_unlooked(verdict.native) + past.told_unwaited(verdict.native)
    lines += [f"not compared: {it}" for it in [past.given(verdict.native)] if it]
    lines += map(compare.clipped, told_started(verdict.compared.started) + past.told_past(every))
    return "\n".join([*lines, told_audit(verdict.audit, verdict.both.trace)])


def told_audit(said: str, trace: bytes) -> str:
    """What the audit has said of a trace, with the reason where it expects no outcome."""
    return f"audit: {said}" + (f": {compare.clipped(why_none(trace, said))}" if said.endswith(" expected none") else "")


# ---- the whole


def has_left_input() -> bool:
    """Whether there is input for this program, which reads none: a file, or a pipe that holds something."""
    try:
        mode = os.fstat(0).st_mode
        is_ready = bool(select.select([0], [], [], 0)[0]) if stat.S_ISFIFO(mode) else stat.S_ISREG(mode)
        size = struct.unpack("i", fcntl.ioctl(0, termios.FIONREAD, b"\0" * 4))[0] if is_ready else 0
    except OSError:
        return False
    return size > 0


def number_in(low: int, high: int) -> Callable[[str], int]:
    """The reader of numbers of a range in the command line."""

    def read(word: str) -> int:
        value = int(word)
        if not low <= value <= high:
            raise ValueError(word)
        return value

    read.__name__ = f"number from {low} to {high}"
    return read


def parse(words: Sequence[str]) -> argparse.Namespace:
    """What the command line asks for."""
    parser = argparse.ArgumentParser(
        description=__doc__, formatter_class=argparse.RawDescriptionHelpFormatter, usage=argparse.SUPPRESS
    )
    add_program(parser)
    add_capacity(parser)
    parser.add_argument("--shim", metavar="PATH", help="fdref's library, where it is built already")
    library = "a library that is loaded into the program after fdref's; there may be several"
    parser.add_argument("--preload", metavar="LIB", action="append", default=[], help=library)
    parser.add_argument("--stdin", metavar="FILE", default=os.devnull, help="its standard input, else /dev/null")
    seconds = "how long each of its two runs may take; 60 where no number is given"
    parser.add_argument("--seconds", metavar="N", type=number_in(1, 10**6), default=60, help=seconds)
    search = f"how long an order of calls is searched for; {some_order.SECONDS} where no number is given"
    parser.add_argument("--search", metavar="N", type=number_in(1, 10**6), default=some_order.SECONDS, help=search)
    sessions = f"processes that may come in all, at most {SESSIONS_MOST}, which is what is taken where none is given"
    parser.add_argument(
        "--sessions", metavar="N", type=number_in(1, SESSIONS_MOST), default=SESSIONS_MOST, help=sessions
    )
    before = f"lines that are told before a difference; {compare.LINES_BEFORE} where no number is given"
    parser.add_argument("--before", metavar="N", type=number_in(0, 10**6), default=compare.LINES_BEFORE, help=before)
    parser.add_argument("--strict", action="store_true", help="end it where it uses what fdref leaves out")
    parser.add_argument("--keep", metavar="DIR", help="a folder that is there, for logs, trace, and what went past")
    parser.add_argument("judged", metavar="PROGRAM", help="the program that is judged")
    rest = parser.add_argument("words", metavar="WORD", nargs=argparse.REMAINDER, help="its words, options too")
    # argparse would say that there has to be one
    rest.required = False
    args = parser.parse_args(words)
    own = [f"--{name}" for name in vars(args)] + ["--pipe-capacity"]
    astray = [word for word in args.words if word.partition("=")[0] in own]
    if astray:
        print(f"judge.py: {astray[0]} is a word of {args.judged}: own options stand before it", file=sys.stderr)
    for path in (args.stdin, args.shim, args.keep, *args.preload):
        if path and not os.path.exists(path):
            parser.error(f"there is no {path}")
    for fault in filter(None, map(preloads.fault_of, args.preload)):
        parser.error(fault)
    if stat.S_ISFIFO(os.stat(args.stdin).st_mode):
        parser.error(f"{args.stdin} is a pipe, and the program is run twice: --stdin takes a file")
    return args


def job_of(args: argparse.Namespace, folder: str) -> Job:
    """What is asked for."""
    words = [found(args.judged), *args.words]
    program = program_of(args.program)
    shim = os.path.abspath(args.shim) if args.shim else built_shim(folder)
    job = Job(words, program, shim, folder)
    job.stdin, job.seconds, job.sessions, job.is_strict = args.stdin, args.seconds, args.sessions, args.strict
    job.limits, job.preloads, job.search = args.limits, preloads.preloads(args.preload), args.search
    return job


def keep(folder: str, into: str) -> None:
    """Keeps both logs, the trace and what went past fdref, as far as they are there."""
    for name in ("system.log", "fdref.log", "trace", "past"):
        if os.path.exists(os.path.join(folder, name)):
            shutil.copy(os.path.join(folder, name), into)


def end(number: int, _: FrameType | None) -> None:
    """Ends this program by a signal, and first all that it started."""
    sys.exit(128 + number)


def main(words: Sequence[str]) -> int:
    """Judges a program: the exit status."""
    args = parse(words)
    for number in (signal.SIGINT, signal.SIGTERM, signal.SIGHUP):
        signal.signal(number, end)
    with tempfile.TemporaryDirectory(prefix="judge-") as folder:
        try:
            verdict = job_of(args, folder).verdict()
        except NotJudged as fault:
            print(f"verdict: not judged: {fault}")
            return 3
        except (CannotJudge, Failure) as fault:
            print(f"judge.py: {fault}", file=sys.stderr)
            return 3
        finally:
            if args.keep:
                keep(folder, args.keep)
    print(told(verdict, args.seconds, args.before))
    if args.stdin == os.devnull and has_left_input():
        print("judge.py: what is on standard input was not read: --stdin FILE gives it to the program", file=sys.stderr)
    if verdict.status() != 0 and not args.strict:
        print("".join(f"{line}\n" for line in told_strict(verdict.past)), end="")
    print(told_verdict(verdict))
    return verdict.status()


def main_or_fault(words: Sequence[str]) -> int:
    """The same. A fault of this tool is no difference, whose status Python would give it."""
    try:
        return main(words)
    except Exception:
        traceback.print_exc()
        print("judge.py: this is a fault of judge.py, and nothing is judged", file=sys.stderr)
        return 3


if __name__ == "__main__":
    preloads.begin_anew()
    sys.exit(main_or_fault(sys.argv[1:]))
