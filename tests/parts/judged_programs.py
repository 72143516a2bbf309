"""Programs of tests/c that are judged by tools/judge.py: what it says of each, and that nothing is left."""

import errno
import fcntl
import os
import platform
import re
import select
import shlex
import shutil
import signal
import struct
import subprocess
import sys
import tempfile
import time
from collections.abc import Iterator
from functools import partial
from pathlib import Path
from typing import NamedTuple

from parts.c_programs import WARNINGS, compiles
from support.counting import Case, require, same
from support.places import C_TESTS, TOOLS, TOP
from support.running import Ran, run

JUDGE = TOOLS / "judge.py"
SHIM = TOP / "clients" / "preload" / "fdref_preload.c"
SECONDS = 60
SESSIONS = ("--sessions", "8")
GOING = 5.0
A_LINE = "a line of its own\n"
TRIES = 3


def without_waits(stderr: bytes) -> bytes:
    """What stands on standard error, but for what is told of a wait, as it is where a machine is busy."""
    return re.sub(rb"judge\.py: (?:waits for |.* the program still runs after ).*\n", b"", stderr)


class Bench:
    """A compiler, fdref, and folders: one for what is compiled, and one that is empty again after each judging."""

    def __init__(self, compiler: str, program: str, folder: str) -> None:
        self.compiler = compiler
        self.program = program
        self.folder = folder
        self.scratch = os.path.join(folder, "scratch")
        os.mkdir(self.scratch)

    def path(self, name: str) -> str:
        """A path in the folder of what is compiled."""
        return os.path.join(self.folder, name)

    def compiled(self, name: str) -> str:
        """The path of a program of tests/c, which is compiled where it is not there yet."""
        path = self.path(name)
        if not os.path.exists(path):
            compiles([self.compiler, "-std=c99", "-O2", *WARNINGS, str(C_TESTS / f"{name}.c"), "-o", path, "-pthread"])
        return path

    def shim(self) -> str:
        """The path of the shim, which is compiled where it is not there yet."""
        path = self.path("libfdref_preload.so")
        if not os.path.exists(path):
            compiles([self.compiler, "-O2", "-shared", "-fPIC", "-o", path, str(SHIM), "-ldl"])
        return path

    def judged(self, *words: str, variables: tuple[str, ...] = ()) -> Ran:
        """What judge.py says. It leaves no file, and no process that has this folder in its words."""
        ran = run([*self.command(*variables), *words], seconds=SECONDS)
        self.is_clean()
        return ran._replace(stderr=without_waits(ran.stderr))

    def command(self, *variables: str) -> list[str]:
        """The command that runs judge.py."""
        env = ["env", f"TMPDIR={self.scratch}", *variables]
        return [*env, sys.executable, str(JUDGE), "--program", self.program, *SESSIONS]

    def is_clean(self) -> None:
        """Nothing is left, or it goes in a moment."""
        same([], os.listdir(self.scratch))
        until = time.monotonic() + GOING
        while self.processes():
            require(time.monotonic() < until, f"left: {self.processes()}")
            time.sleep(0.01)

    def processes(self) -> list[bytes]:
        """The words of the processes that run with this folder in them."""
        found = []
        for number in filter(str.isdigit, os.listdir("/proc")):
            try:
                words = Path("/proc", number, "cmdline").read_bytes()
            except OSError:
                continue
            found += [words] if os.fsencode(self.folder) in words else []
        return found


# ---- programs


class Judged(NamedTuple):
    """A program with its words, and what is said of it: the status, lines that begin so, in this order, and what stands
    on standard error."""

    name: str
    words: tuple[str, ...]
    status: int
    lines: tuple[str, ...]
    options: tuple[str, ...] = ()
    stderr: bytes = b""


APPENDS = "reason: pwrite under O_APPEND appends (the system departs; page of write (pwrite))"

AN_ORDER = "an order of these calls gives all answers of the system"
ROOM = "reason: room of a pipe (own; page of write)"
NONE = "reason: none"
SOON = ("--seconds", "2")
# So long that a program that is ended only then is not judged in the time of a test.
LATE = ("--seconds", "1000")
STILL = (
    "stood still, and was killed: p0 write 4 00*2000, of which 1,024 bytes went in: a pipe of fdref holds 1,024 bytes "
    "(--pipe-capacity 65536)"
)
NEITHER = "neither ended in 2 seconds: both were killed"
WELL = "both ended with status 0"
GOES_ON = "in both the program itself ended with status 0, and others of its processes went on"
GO_ON = b"".join(
    b"judge.py: %s the program itself ended with status 0, and others of its processes go on\n" % where
    for where in (b"with fdref", b"on the system")
)
THREAD = b"judge.py: a thread waits in read, and no other one can make a call meanwhile\n"
SIGNAL = b"judge.py: a signal comes while read waits, and ends no call of fdref\n"
EINTR = "a signal ends a call (EINTR): signal 14 (SIGALRM) has a handler"
UNENDED = "no signal explains EINTR: no handler ran then that ends calls"
NOT_JUDGED = "verdict: not judged: "
ENDS_OTHERWISE = f"{NOT_JUDGED}the two runs end otherwise, or write something else"
NUMBERS = "the number of a process, an address, the time or a random number"
MODES = "modes, owners, times and st_ino, which are fdref's own"
DIFFERS_BY = f"{NOT_JUDGED}1 answer differs without a reason, perhaps by "
OTHER_WAY = "the calls differ, not the answers: perhaps by "
HOLDS = "a thread that waits in read and holds its process"
NOT_ALL = "verdict: agreement in what was compared, which is not all: no answer differs"
BAD_ADDRESS = "a crash (SIGSEGV) is no agreement: with fdref's library a bad address is no EFAULT"

# What is said of programs that go another way, or get another answer: lines, and what that may be by.
OTHERWISE: list[tuple[str, tuple[str, ...], str]] = [
    ("sends", ("system: p0 read 4 5 = x68656c6c6f",), "sendfile on descriptor 5, which went past fdref"),
    ("unnamed", ("system: p0 read 4 5 = x68656c6c6f",), "pwritev on descriptor 3, which went past fdref"),
    ("limits", ("system: p0 pwrite 3 999998 x68656c6c6f = 2",), ""),
    ("makes", ("system: p0 open made",), "mkstemp of made"),
    ("advises", ("system: p0 write 3 x61647669736564 = 7",), "posix_fadvise on descriptor 3, which went past fdref"),
    ("times", (f"{OTHER_WAY}{NUMBERS}",), NUMBERS),
    ("resolves", ("system: p0 write 3 x666f756e64 = 5",), "realpath of a, which went past fdref"),
    ("renames", ("system: p0 open a r = error ENOENT",), "renameat2 with flags of a, which went past fdref"),
    ("raises", ("system: p0 dup2 3 99 = 99",), "setrlimit of RLIMIT_NOFILE, which went past fdref"),
    ("links", ("system: p0 open b rw,creat = 4",), "symlink of l, which went past fdref"),
    ("environment", (f"{OTHER_WAY}the environment",), "the environment, in which judge.py sets variables of its own"),
]

PROGRAMS = [
    Judged("agrees", ("word",), 0, (WELL, "18 calls of 1 process: no answer differs", "audit: legal")),
    Judged("family", (), 0, (WELL, "53 calls of 7 processes: no answer differs", "audit: legal")),
    Judged("replaces", (), 0, (WELL, "19 calls of 1 process: no answer differs", "audit: legal"), ("--strict",)),
    Judged(
        "strays",
        ("limited",),
        0,
        (
            WELL,
            "5 calls of 1 process: no answer differs",
            "past fdref: 1 limit (setrlimit of RLIMIT_FSIZE)",
            "verdict: agreement in what was compared, which is not all: no answer differs",
        ),
    ),
    Judged(
        "strays",
        ("formats",),
        0,
        (
            WELL,
            "not compared: the format of dprintf, which fdref's library answers by itself in both runs",
            "verdict: agreement in what was compared, which is not all: no answer differs",
        ),
    ),
    Judged("nonblocks", (), 0, (WELL, "26 calls of 2 processes: no answer differs", "audit: legal"), ("--strict",)),
    Judged(
        "appends",
        (),
        3,
        (
            WELL,
            "5 calls of 1 process: 1 answer differs",
            "  5 p0 open a rw,creat,append = 3",
            "  6 p0 write 3 x6f6c64 = 3",
            "  7 p0 pwrite 3 0 x4e = 1",
            "system: p0 pread 3 0 10 = x6f6c644e",
            "fdref:  8 p0 pread 3 0 10 = x4e6c64",
            APPENDS,
            "       0 without a reason",
            "audit: legal",
            f"{NOT_JUDGED}1 answer differs with a reason: pwrite under O_APPEND appends",
        ),
    ),
    Judged(
        "appends",
        ("tell",),
        3,
        (
            WELL,
            r"standard output differs in line 1: system 'oldN\n', fdref 'Nld\n'",
            APPENDS,
            "audit: legal",
            f"{ENDS_OTHERWISE}, perhaps by the reason above: pwrite under O_APPEND appends",
        ),
    ),
    Judged(
        "strays",
        ("call",),
        3,
        (
            WELL,
            "  5 p0 open a rw,creat = 3",
            NONE,
            f"{OTHER_WAY}{NUMBERS}",
            "       1 without a reason",
            f"{NOT_JUDGED}1 answer differs without a reason, perhaps by {NUMBERS}",
        ),
    ),
    Judged(
        "strays",
        ("modes",),
        3,
        (
            "system: ended with status 0",
            "fdref:  ended with status 1",
            "system: p0 fstat 3 = regular 0 1",
            "fdref:  no further call",
            NONE,
            f"{OTHER_WAY}{MODES}",
            f"{NOT_JUDGED}1 answer differs without a reason, perhaps by {MODES}",
        ),
    ),
    Judged(
        "strays",
        ("renames",),
        3,
        (
            WELL,
            r"standard output differs in line 1: system '0\n', fdref '-1\n'",
            "may follow from rename of d/n (past fdref, before line 7): EXDEV where just one of its names is fdref's",
            "3 calls of 1 process: no answer differs",
            "past fdref: 2 paths (first mkdir d)",
            f"{ENDS_OTHERWISE}, perhaps by rename of d/n, which went past fdref",
        ),
    ),
    Judged(
        "strays",
        ("answer",),
        3,
        (
            WELL,
            "system: p0 fstat 3 = regular 3 1",
            "fdref:  6 p0 fstat 3 = regular 0 1",
            NONE,
            "may follow from syscall of write on descriptor 3 (past fdref, before line 6)",
            "past fdref: 1 other call (syscall of write on descriptor 3)",
            "--strict ends it at syscall of write on descriptor 3",
            f"{NOT_JUDGED}1 answer differs without a reason, perhaps by syscall of write on descriptor 3, ",
        ),
        ("--before", "0"),
    ),
    Judged(
        "strays",
        ("copies",),
        3,
        (
            WELL,
            "system: p0 close 4 = ok",
            "fdref:  8 p0 read 3 4 = x74657874",
            NONE,
            "may follow from copy_file_range on descriptor 3 (past fdref, before line 8)",
            f"{NOT_JUDGED}1 answer differs without a reason, perhaps by copy_file_range on descriptor 3, ",
        ),
        ("--before", "0"),
    ),
    Judged(
        "strays",
        ("output",),
        3,
        (WELL, "3 calls of 1 process: no answer differs", f"{ENDS_OTHERWISE}, perhaps by {MODES}"),
    ),
    Judged(
        "strays",
        ("leaves-out",),
        0,
        (WELL, "3 calls of 1 process: no answer differs", "past fdref: 1 path (symlink b)", "audit: legal"),
    ),
    Judged(
        "strays",
        ("passes",),
        0,
        (
            WELL,
            "3 calls of 1 process: no answer differs",
            "past fdref: 3 paths (first open /dev/null), 1 stream (fopen /dev/null), "
            "1 other call (fcntl with other flags on descriptor 3)",
            "audit: legal",
        ),
    ),
    Judged(
        "strays",
        ("stdio",),
        3,
        (
            WELL,
            "system: p0 fstat 3",
            NONE,
            "may follow from stdio on descriptor 1 (past fdref, before line 7)",
            "past fdref: 1 path (stat /), 2 other calls (first posix_fadvise on descriptor 3)",
            "past fdref: stdio on descriptor 1, which is a file of fdref, where it would fail",
            "audit: legal",
        ),
    ),
    Judged(
        "strays",
        ("starts",),
        0,
        (
            WELL,
            "4 calls of 1 process: no answer differs",
            "not compared: ",
            "past fdref: ",
            "past fdref: stdio on descriptor 1",
            "audit: legal",
        ),
    ),
    Judged("strays", ("closes",), 0, (WELL, "5 calls of 1 process: no answer differs")),
    Judged(
        "strays",
        ("streams",),
        3,
        (
            WELL,
            r"standard output differs in line 1: system '', fdref 'no log\n'",
            "may follow from fopen of log (past fdref, before line 7)",
            "5 calls of 1 process: 2 answers differ",
            "  5 p0 open a rw,creat = 3",
            "system: p0 open log r = 4",
            "fdref:  7 p0 open log r = error ENOENT",
            NONE,
            "may follow from fopen of log (past fdref, before line 7)",
            "past fdref: 1 path (open ./d/x), 1 stream (fopen log)",
            "audit: legal",
            "--strict ends it at fopen log",
        ),
    ),
    Judged(
        "strays",
        ("threads",),
        3,
        (
            "system: ended with status 0",
            "fdref:  stood still, and was killed: p0 read 4 1, in which a thread waits and holds its process",
            "system: p0 read 4 1 = x7a (thread 2)",
            "fdref:  7 p0 read 4 1 = parked 0 (thread 2)",
            f"reason: {AN_ORDER}",
            f"may follow from {HOLDS} (after line 6)",
            "a thread waits in read, and no other one can make a call meanwhile",
            "audit: legal",
            f"--strict ends it at {HOLDS}",
            f"{ENDS_OTHERWISE}, perhaps by {HOLDS}, though {AN_ORDER}",
        ),
        LATE,
        THREAD,
    ),
    Judged(
        "strays",
        ("cancels",),
        3,
        (
            "system: ended with status 0",
            "fdref:  stood still, and was killed: p0 read 4 1, in which a thread waits and holds its process",
            NONE,
            f"may follow from {HOLDS} (after line 6)",
            f"{NOT_JUDGED}1 answer differs without a reason, perhaps by {HOLDS}",
        ),
        LATE,
        THREAD,
    ),
    Judged(
        "strays",
        ("looks",),
        3,
        (
            WELL,
            r"standard output differs in line 1: system '1\n', fdref '0\n'",
            "may follow from a stat, fstat, access or chmod: modes, owners, times, blocks and st_ino are fdref's own",
            "5 calls of 1 process: no answer differs",
            "past fdref: stdio on descriptor 0",
            f"{ENDS_OTHERWISE}, perhaps by {MODES}",
        ),
    ),
    Judged(
        "strays",
        ("vforks",),
        0,
        (
            WELL,
            "4 calls of 2 processes: no answer differs",
            "vfork is fork in both runs: its child shares no memory with it",
            "verdict: agreement: no answer differs",
        ),
    ),
    *[
        Judged("otherwise", (word,), 3, (WELL, *lines, f"{DIFFERS_BY}{why}"))
        for word, lines, why in OTHERWISE
    ],
    Judged(
        "otherwise",
        ("by-number",),
        3,
        (
            WELL,
            r"standard output differs in line 1: system '1\n', fdref '0\n'",
            "may follow from open of /dev/fd/3 (past fdref, ",
            f"{ENDS_OTHERWISE}, perhaps by open of /dev/fd/3, which went past fdref",
        ),
    ),
    *[
        Judged("races", (word,), 0, (WELL, "audit: legal", "verdict: agreement: "), stderr=b"")
        for word in ("excl", "appends", "offset", "pipe", "threads")
    ],
    Judged("signals", ("kills",), 0, (WELL, "4 calls of 2 processes: no answer differs", "audit: legal")),
    Judged(
        "signals",
        ("loses-beside",),
        0,
        (
            WELL,
            "not compared: how a child ended, of which the system told by waitpid (the process has threads)",
            f"{NOT_ALL}; not compared: how a child ended",
        ),
    ),
    *[
        Judged("signals", (word,), 0, (WELL, "3 calls of 2 processes", "audit: legal", "verdict: agreement: no answer"))
        for word in ("cancels-wait", "ends-wait")
    ],
    Judged("signals", ("address",), 3, ("both ended by signal 11", BAD_ADDRESS, "1 call of 1 process")),
    Judged("signals", ("child",), 3, (WELL, BAD_ADDRESS.replace("a crash", "a child's crash"), "3 calls of 2")),
    Judged("signals", ("by-number",), 3, (WELL, BAD_ADDRESS.replace("a crash", "a child's crash"), "3 calls of 2")),
    Judged(
        "signals",
        ("interrupts",),
        3,
        (
            "system: ended with status 0",
            "fdref:  stood still, and was killed: p0 read 4 1, which a signal ends in the system alone",
            "system: p0 read 4 1 = error EINTR",
            "fdref:  7 p0 read 4 1 = parked 0",
            f"reason: {EINTR} (own; XSH 2.4.4)",
            f"{ENDS_OTHERWISE}, perhaps by the reason above: {EINTR}",
        ),
        LATE,
        SIGNAL,
    ),
    Judged(
        "signals",
        ("jumps",),
        3,
        (
            f"{NOT_JUDGED}a call is made while another one of the same process waits: by a handler of a signal, or "
            "after a jump out of one; fdref's library cannot do that",
        ),
    ),
    Judged("signals", ("aborts",), 3, ("both ended by signal 6", "a crash (SIGABRT) is no agreement", "1 call")),
    Judged("signals", ("stops",), 0, ("both ended by signal 15", "1 call of 1 process: no answer differs")),
    Judged("stays", ("reads",), 3, (NEITHER, "waits: p1 read ", "2 calls of 2 processes: no answer differs"), SOON),
    Judged(
        "stays",
        ("fills",),
        3,
        (
            "system: ended with status 0",
            f"fdref:  {STILL}",
            "  5 p0 pipe = 3 4",
            "system: p0 write 4 00*2000 = 2000",
            "fdref:  6 p0 write 4 00*2000 = parked 1024",
            ROOM,
        ),
        LATE,
    ),
    Judged(
        "stays",
        ("forks",),
        3,
        (
            f"fdref:  {STILL}",
            "2 calls of 1 process: 3 answers differ",
            "system: p0 write 4 00*2000 = 2000",
            f"reason: {AN_ORDER}, where a pipe holds 65,536 bytes: room of a pipe (own; page of write)",
            "       3 by the order of the calls",
            "       0 without a reason",
        ),
        LATE,
    ),
    Judged(
        "stays",
        ("waits",),
        3,
        (
            "system: ended with status 0",
            f"fdref:  {STILL.replace('p0', 'p1')}",
            "system: p1 write 4 00*2000 = 2000",
            "fdref:  8 p1 write 4 00*2000 = parked 1024",
            f"reason: {AN_ORDER}, where a pipe holds 65,536 bytes: room of a pipe (own; page of write)",
        ),
        LATE,
    ),
    Judged("stays", ("waits",), 0, (WELL,), ("--pipe-capacity", "65536")),
    Judged("stays", ("sleeps",), 0, (WELL, "4 calls of 2 processes: no answer differs"), ("--pipe-capacity", "1999")),
    Judged("stays", ("forks",), 0, (WELL,), ("--pipe-capacity", "65536")),
    *[
        Judged("stays", (word,), 0, (WELL, f"{count} calls of 1 process"), ("--pipe-capacity", "65536"))
        for word, count in (("takes", 3), ("gives", 4))
    ],
    # pipes of 2,000 bytes have room, and those of 1,999 have not
    Judged("stays", ("fills",), 0, (WELL,), ("--pipe-capacity", "2000")),
    Judged("stays", ("fills",), 3, ("system: ended with status 0", "fdref:  stood still"), ("--pipe-capacity", "1999")),
    *[
        Judged("stays", (word,), 3, (NEITHER, GOES_ON, "verdict: not judged: neither of"), SOON, GO_ON)
        for word in ("leaves", "keeps")
    ],
]


# How often a race is judged of which a busy machine did not decide.
TRIES = 3
NOT_DECIDED = b"not decided is whether the order of the calls explains it"


AGREEMENT = "verdict: agreement"
AGREES = f"{AGREEMENT}: no answer differs"


def agreeing(start: str) -> str:
    """How the last line begins where it tells an agreement: where the kernel keeps no child's end, it may also tell that
    whether a wait waits was not compared."""
    return AGREEMENT if start.startswith(f"{AGREEMENT}: ") and not are_ends_kept() else start


def is_said(bench: Bench, judged: Judged) -> None:
    """Just this is said of a program. A judging that says that an order was not decided on in time is made again."""
    program = bench.compiled(f"judge_{judged.name}")
    for _ in range(TRIES):
        ran = bench.judged("--shim", bench.shim(), *judged.options, program, *judged.words)
        if judged.status != 0 or NOT_DECIDED not in ran.stdout:
            break
    same((judged.status, judged.stderr), (ran.status, ran.stderr))
    lines = ran.stdout.decode("ascii").splitlines()
    rest = iter(lines)
    for start in map(agreeing, judged.lines):
        is_there = any(line.startswith(start) for line in rest)
        require(is_there, f"no line begins with {start!r} in its place in\n" + "\n".join(lines))


def cases(bench: Bench) -> Iterator[Case]:
    """Each program."""
    for judged in PROGRAMS:
        yield " ".join(["judge_" + judged.name, *judged.words]), partial(is_said, bench, judged)
    yield "a program that is started beside a pipe, and another one after it", partial(orders_ends, bench)
    yield "a thread that waits, at once", partial(tells_at_once, bench)
    yield "a child that a signal ended while it waits", partial(kills_late, bench)
    for way in ("LD_PRELOAD", "--preload"):
        yield f"writes that are torn, by {way}", partial(finds_torn_writes, bench, way)
    yield "calls that end early", partial(finds_early_ends, bench)
    yield "a read of more than was asked for", partial(finds_long_reads, bench)
    for name, words in MAKES_MORE:
        said = " ".join([f"judge_{name}", *words])
        yield f"a library whose functions make further calls: {said}", partial(keeps_calls_apart, bench, name, words)
    for word, line in WRONGED.items():
        yield f"a wrong call: {word}", partial(finds_wrong_calls, bench, word, line)
    if platform.machine() == "x86_64":
        for wrong, word, status, last in GOES_ON_AFTER:
            name = f"a signal that ends a call, which {word} makes: {wrong}"
            yield name, partial(goes_on_after_signals, bench, wrong, word, status, last)
    yield "names of one file, and of two", partial(names_files, bench)
    yield "a program without its environment", partial(tells_bare, bench)
    yield "a child that crashes on the system alone", partial(crashes_in_child, bench)
    yield "F_SETFL and F_SETFD that give another number than 0", partial(takes_any_number, bench)
    for word, told in GIVEN.items():
        yield f"a call that is not compared: {word}", partial(leaves_open, bench, word, told)
    for word, why in ENDS_KEPT.items():
        yield f"a child's end that the kernel keeps: {word}", partial(compares_ends, bench, word, why)
    for word, name in HASTY.items():
        yield f"a wait that does not wait: {word}", partial(finds_hasty_waits, bench, word, name)
    yield "a wait that does not wait, beside a thread", partial(tells_unwaited, bench)
    yield "a child's end beside a handler that ends calls", partial(loses_beside_handlers, bench)
    yield "a read into parts that overlap", partial(excuses_waits, bench, "over")
    yield "names and sizes that are right", partial(excuses_waits, bench, "all-done")
    for word in RIGHT_WAITS:
        yield f"waits that are right: {word}", partial(excuses_waits, bench, word)
    yield "a call that sets errno, and does not fail", partial(names_errno, bench)
    yield "the library itself in LD_PRELOAD", partial(leaves_out_itself, bench)
    yield "a program that takes long", partial(tells_long_runs, bench)
    yield "a server that leaves a process", partial(is_left_by_server, bench)
    yield "a compiler that takes too long", partial(ends_compilers, bench)
    yield "threads in a log", partial(names_threads, bench)
    yield "slow threads in a log", partial(names_slow_threads, bench)
    yield "threads in a log of fdref", partial(names_threads_of_fdref, bench)
    yield "a process that ends beside a thread", partial(ends_beside_threads, bench)
    yield "what is kept, and standard input", partial(is_kept, bench)
    yield "standard input that is not read", partial(tells_unread, bench)
    yield "what --strict would tell", partial(tells_of_strict, bench)
    yield "an option after the program", partial(tells_astray, bench)
    yield "the shim that is built for it", partial(builds_shim, bench)
    yield "a trace that is not legal", partial(is_illegal, bench)


def orders_ends(bench: Bench) -> None:
    """The end of a program, where the library closes what its streams close, comes before the fork after its wait."""
    ran = bench.judged("--shim", bench.shim(), "sh", "-c", "echo a | cat > g; cat g")
    last = ran.stdout.decode("ascii").splitlines()[-1:]
    links = f"{NOT_JUDGED}1 answer differs with a reason: size and links of a pipe in fstat; {AN_ORDER}"
    wanted = links.replace("gives all answers", "gives all other answers")
    same((3, b"", [wanted]), (ran.status, ran.stderr, last))


def is_kept(bench: Bench) -> None:
    """With --keep all that judge.py was given is kept; with --stdin the program reads a file."""
    into = bench.path("kept")
    os.mkdir(into)
    Path(bench.path("line")).write_text(A_LINE, encoding="ascii")
    words = ["--shim", bench.shim(), "--keep", into, "--stdin", bench.path("line"), bench.compiled("judge_agrees")]
    same(0, bench.judged(*words).status)
    same(["fdref.log", "past", "system.log", "trace"], sorted(os.listdir(into)))
    data = f" x{A_LINE.encode().hex()} = {len(A_LINE)}\n"
    for name in ("fdref.log", "system.log"):
        require(data in Path(into, name).read_text(encoding="ascii"), f"{name} has no write of the line")
    audit = run([bench.program, "audit", os.path.join(into, "trace")])
    same((0, b""), (audit.status, audit.stderr))


def noted_natively(bench: Bench, word: str, *libraries: str) -> tuple[list[list[str]], str]:
    """The lines of the log of a race that runs natively, with these libraries after the shim, and what else is noted of
    it."""
    with tempfile.TemporaryDirectory(prefix="fdref-") as folder:
        loaded = ":".join([bench.shim(), *libraries])
        env = ["env", f"LD_PRELOAD={loaded}", f"FDREF_LOG={folder}/log", f"FDREF_PAST={folder}/past"]
        same(0, run([*env, bench.compiled("judge_races"), word], seconds=SECONDS, folder=folder).status)
        log, noted = (Path(folder, name).read_text(encoding="ascii") for name in ("log", "past"))
    return [line.split(" ") for line in log.splitlines()], noted


def names_threads(bench: Bench) -> None:
    """The log of a native run tells threads apart: each of three opens a file of its own, and writes eight times. That
    a process ends beside a thread is noted."""
    same("- 0 p1 cut exit\n", noted_natively(bench, "leaves")[1])
    lines, noted = noted_natively(bench, "threads")
    same("", noted)
    words = {place: [it[2] for it in lines if it[0] == place] for place in ("-1", "-2", "-3")}
    same(dict.fromkeys(words, ["open", *["write"] * 8, "close"]), words)
    same({"-", *words}, {it[0] for it in lines})


def names_slow_threads(bench: Bench) -> None:
    """So it is where opens and closes of threads take long: the numbers that others open meanwhile are theirs."""
    library = bench.path("slow.so")
    compiles([bench.compiler, "-O2", *WARNINGS, "-shared", "-fPIC", str(C_TESTS / "slow_calls.c"), "-o", library])
    for word, calls in (("threads", ["open", *["write"] * 8, "close"]), ("reopens", ["open", "write", "write", "close"] * 3)):
        lines, noted = noted_natively(bench, word, library)
        same("", noted)
        same([calls] * 3, [[it[2] for it in lines if it[0] == place] for place in ("-1", "-2", "-3")])


def names_threads_of_fdref(bench: Bench) -> None:
    """The log of a run with fdref tells threads apart, too, after the place."""
    into = bench.path("kept-threads")
    os.mkdir(into)
    same(0, bench.judged("--shim", bench.shim(), "--keep", into, bench.compiled("judge_races"), "threads").status)
    lines = [line.split(" ") for line in Path(into, "fdref.log").read_text(encoding="ascii").splitlines()]
    threads = [place.partition("-")[2] for place, *_ in lines]
    same({"", "1", "2", "3"}, set(threads))
    for thread in ("1", "2", "3"):
        words = [word for (_, _, word, *_), it in zip(lines, threads, strict=True) if it == thread]
        same(["open", *["write"] * 8, "close"], words)


def ends_beside_threads(bench: Bench) -> None:
    """A process that ends while a thread of it writes ends as on the system, and makes no difference, though that write
    may have no line."""
    for _ in range(TRIES):
        ran = bench.judged("--shim", bench.shim(), bench.compiled("judge_races"), "leaves")
        require(ran.status in (0, 3) and ran.stdout.startswith(f"{WELL}\n".encode()), ran.said())


def kills_late(bench: Bench) -> None:
    """Where fdref keeps a child for longer than the parent knows of, which takes the byte that the parent waits for,
    the run is ended early, which is told at once, and nothing is judged."""
    told = "signal 9: fdref may record the exit of a child that it ended after its parent's wait"
    for _ in range(TRIES):
        ran = bench.judged("--shim", bench.shim(), *LATE, bench.compiled("judge_signals"), "late")
        last = ran.stdout.decode("ascii").splitlines()[-1]
        if ran.status == 0:
            same(b"", ran.stderr)
            require(last.startswith(agreeing(AGREES)), ran.said())
        else:
            same((3, f"judge.py: {told}\n"), (ran.status, ran.stderr.decode("utf-8")))
            cause = "signal 9, by which a child ended that fdref may have kept for longer"
            start = f"{NOT_JUDGED}2 answers differ without a reason, perhaps by {cause}"
            require(last.startswith(start), ran.said())


def finds_torn_writes(bench: Bench, way: str) -> None:
    """That the writes of a wrong C library to a pipe are torn is no matter of who comes first. It is loaded into the
    program alone."""
    library = bench.path("torn.so")
    compiles([bench.compiler, "-O2", *WARNINGS, "-shared", "-fPIC", str(C_TESTS / "torn_writes.c"), "-o", library])
    words = ["--shim", bench.shim(), bench.compiled("judge_races"), "pipe"]
    is_before = way == "LD_PRELOAD"
    words = words if is_before else [way, library, *words]
    ran = bench.judged(*words, variables=(f"{way}={library}",) if is_before else ())
    lines = ran.stdout.decode("ascii").splitlines()
    none = "no order of these calls gives all answers of the system"
    require(ran.status == 1 and NONE in lines and none in lines, ran.said())
    same(f"verdict: a difference: {none}", lines[-1])


def finds_early_ends(bench: Bench) -> None:
    """That the calls of a wrong C library end before their time is a difference, since no signal may be why."""
    library = bench.path("early.so")
    compiles([bench.compiler, "-O2", *WARNINGS, "-shared", "-fPIC", str(C_TESTS / "early_ends.c"), "-o", library])
    room = ("--pipe-capacity", "65536")
    for name, word, lines in (
        ("agrees", "", ("system: p0 read 5 100 = error EINTR", NONE, UNENDED)),
        ("stays", "fills", ("system: p0 write 4 00*2000 = 1000", "fdref:  6 p0 write 4 00*2000 = 2000", NONE)),
    ):
        ran = bench.judged("--shim", bench.shim(), "--preload", library, *room, bench.compiled(f"judge_{name}"), word)
        said = ran.stdout.decode("ascii").splitlines()
        require(ran.status == 1 and set(lines) <= set(said), ran.said())
        require(said[-1].startswith("verdict: a difference: "), ran.said())


def finds_long_reads(bench: Bench) -> None:
    """That a read of a wrong C library answers more bytes than it was asked for is a difference."""
    library = bench.path("more.so")
    compiles([bench.compiler, "-O2", *WARNINGS, "-shared", "-fPIC", str(C_TESTS / "reads_more.c"), "-o", library])
    ran = bench.judged("--shim", bench.shim(), "--preload", library, bench.compiled("judge_agrees"))
    said = ran.stdout.decode("ascii").splitlines()
    require(ran.status == 1 and {"system: p0 pread 9 1 1 = 2", NONE} <= set(said), ran.said())
    require(said[-1].startswith("verdict: a difference: "), ran.said())


# Programs that are judged with a library whose functions make further calls.
MAKES_MORE: list[tuple[str, tuple[str, ...]]] = [
    ("agrees", ()),
    ("family", ()),
    ("wronged", ("stat-size",)),
    ("wronged", ("wait-status",)),
    ("wronged", ("dup2-zero",)),
    ("wronged", ("cloexec-exec",)),
]


def keeps_calls_apart(bench: Bench, name: str, words: tuple[str, ...]) -> None:
    """The calls that a function of a C library makes are none of the program. What it gives is judged."""
    library = bench.path("calls-more.so")
    if not os.path.exists(library):
        source = str(C_TESTS / "calls_more.c")
        compiles([bench.compiler, "-O2", *WARNINGS, "-shared", "-fPIC", source, "-o", library, "-ldl"])
    given = ("--shim", bench.shim(), "--preload", library, bench.compiled(f"judge_{name}"), *words)
    ran = bench.judged(*given)
    require(ran.status == 0 and b"no answer differs" in ran.stdout.splitlines()[-1], ran.said())
    if name == "agrees":
        ran = bench.judged(*given, variables=("WRONG=read",))
        last = ran.stdout.decode("ascii").splitlines()[-1]
        require(ran.status == 1 and last.startswith(DIFFERS), ran.said())


DIFFERS = "verdict: a difference: "
OF_SYSTEM = f"{DIFFERS}system: "
# What a wrong C library answers to a program, by what it is wrong about.
WRONGED = {
    "dry-end": "system: p0 read 3 1 = error EAGAIN",
    "input-dry": "system: p0 read 0 1 = error EAGAIN",
    "cloexec-lost": "7 answers about FD_CLOEXEC differ from what was set: system: p0 fcntl F_GETFD 3 = 0",
    "cloexec-copied": "1 answer about FD_CLOEXEC differs from what was set: system: p0 fcntl F_GETFD 5 = 1",
    "cloexec-unset": "1 answer about FD_CLOEXEC differs from what was set: system: p0 fcntl F_GETFD 6 = 0",
    "cloexec-exec": "1 answer about FD_CLOEXEC differs from what was set: system: p0 execl 5 = kept",
    "write-cut": "system: p0 write 5 00*65536 = 0",
    "dupfd-high": "system: p0 dup2 3 8 = 9",
    "dupfd-refused": "system: p0 dup2 3 8 = error EINVAL",
    "close-kept": "system: p0 read 3 1 = x78",
    **{
        word: f"{OF_SYSTEM}p0 fcntl: F_SETFL has set other flags than it was asked for, as F_GETFL tells"
        for word in ("setfl-lost", "setfl-more", "setfl-async", "setfl-mode")
    },
    "real-dup": f"{OF_SYSTEM}p0 dup: has given another number than the lowest that is free",
    "real-refused": f"{OF_SYSTEM}p0 dup: has failed with EBADF, and its descriptor is open",
    "real-dup2": f"{OF_SYSTEM}p0 dup2: has given another number than it was asked for",
    "dup2-zero": "system: p0 dup2 4 9 = 0",
    "pipe-turned": "system: p0 pipe = 4 3",
    "never-back": "fdref:  8 p0 read 3 1 = x78",
    "stat-size": "verdict: a difference: stat tells otherwise: system: a = regular 1 1, fdref: a = regular 0 1",
    "early-signal": "system: p0 read 3 1 = error EINTR",
    "pipe-broken": "verdict: a difference: signal 13 (SIGPIPE) has ended p0 on the system, which ignores it",
    "mask-kept": f"{OF_SYSTEM}p0 read: has changed which signals are blocked",
    "mask-dup2": f"{OF_SYSTEM}p0 dup2: has changed which signals are blocked",
    "mask-range": f"{OF_SYSTEM}p0 close_range: has changed which signals are blocked",
    "pipe-twice": f"{OF_SYSTEM}p0 write: SIGPIPE has come 2 times, where EPIPE has come 1 times",
    "pipe-unsent": f"{OF_SYSTEM}p0 write: SIGPIPE has come 0 times, where EPIPE has come 1 times",
    "pipe-blocked": f"{OF_SYSTEM}p0 write: has changed which signals are blocked",
    "wait-status": f"{OF_SYSTEM}p0 waitpid: has told that a child has exited with 0, which has called _exit(7)",
    "wait-early": f"{OF_SYSTEM}p0 waitpid: has told the end of a child that is still there",
    "wait-none": f"{OF_SYSTEM}p0 waitpid: has failed, and there is such a child",
    "none-group": f"{OF_SYSTEM}p0 waitpid: has failed, and there is such a child",
    "wait-killed": f"{OF_SYSTEM}p0 waitpid: has told otherwise how a child has ended",
    "wait-signal": f"{OF_SYSTEM}p0 waitpid: has failed with EINTR, and no handler has run",
    "wait-refused": f"{OF_SYSTEM}p0 waitpid: has failed with error 22, and ECHILD is due",
    "wait-killed-beside": f"{OF_SYSTEM}p0 waitpid: has told otherwise how a child has ended",
    "wait-killed-asked": f"{OF_SYSTEM}p0 waitpid: has told otherwise how a child has ended",
    **{
        f"more-{name}": f"{OF_SYSTEM}p0 {name}: has told a process that is no child"
        for name in ("wait", "waitpid", "wait4", "waitid")
    },
    "more-late": f"{OF_SYSTEM}p0 wait: has told a process that is no child",
    "self-wait": f"{OF_SYSTEM}p0 wait: has told a process that is no child",
    "self-beside": f"{OF_SYSTEM}p0 wait: has told a process that is no child",
    "ended-stopped": f"{OF_SYSTEM}p0 waitpid: has told no end of a child that has ended",
    "ended-continued": f"{OF_SYSTEM}p0 waitpid: has told no end of a child that has ended",
    "ended-unstored": f"{OF_SYSTEM}p0 waitpid: has told no end of a child that has ended",
    "waitid-any": f"{OF_SYSTEM}p0 waitid: has not failed, and there is no such child",
    "waitid-same": f"{OF_SYSTEM}p0 waitid: has not failed, and there is no such child",
    "fork-other": f"{OF_SYSTEM}p0 fork: has told the number of no child",
    "fork-again": f"{OF_SYSTEM}p0 fork: has told the number of another process than its child",
    "fork-beside": f"{OF_SYSTEM}p0 fork: has told the number of another process than its child",
    "fork-child": f"{OF_SYSTEM}p0 fork: has not told the child that it is one",
    "fork-parent": f"{OF_SYSTEM}p0 fork: has told a parent that it is the child",
    "exit-other": f"{OF_SYSTEM}p1 _exit: was called with 7, and the child has ended with 8, as waitpid tells",
    "exec-cut": f"{OF_SYSTEM}p1 execl: has given a program other words",
    "exec-keeps": "1 answer about FD_CLOEXEC differs from what was set: system: p0 execl 5 = kept",
    "exec-closes": "2 answers about FD_CLOEXEC differ from what was set: system: p0 execl 3 = closed",
    "dup3-same": f"{OF_SYSTEM}p0 dup3: has not refused one number twice, or other flags",
    "access-refused": "verdict: a difference: access tells otherwise: system: a = error 2, fdref: a = there",
    "read-beyond": f"{OF_SYSTEM}p0 read: has changed what is beyond its buffer",
    **{
        f"undone-{word}": f"{OF_SYSTEM}p0 {name}: {what}"
        for word, name, what in (
            ("unlink", "unlink", "has not failed, and the name is still there"),
            ("remove", "remove", "has not failed, and the name is still there"),
            ("link", "link", "has not failed, and the new name does not lead to the file"),
            ("rename", "rename", "has not failed, and the new name is not there"),
            ("removal", "rename", "has not failed, and the old name is still there"),
            ("ftruncate", "ftruncate", "has not failed, and has not set the size"),
            ("truncate", "truncate", "has not failed, and has not set the size"),
            ("open", "open", "has not cut the file, by O_TRUNC"),
            ("close", "close", "has not failed, and the descriptor is still open"),
        )
    },
    "ino-apart": f"{OF_SYSTEM}p0 fstat: tells two files where there is one",
    "ino-same": f"{OF_SYSTEM}p0 fstat: tells one file where there are two",
    "file-apart": f"{OF_SYSTEM}p0 fstat: tells two files where there is one",
    "file-same": f"{OF_SYSTEM}p0 fstat: tells one file where there are two",
    "statx-apart": f"{OF_SYSTEM}p0 statx: tells two files where there is one",
    "statx-same": f"{OF_SYSTEM}p0 statx: tells one file where there are two",
    "statx-sized": "verdict: a difference: statx tells otherwise: system: 5 = regular 1 1, fdref: 5 = regular 0 1",
    "statx-size": "verdict: a difference: statx tells otherwise: system: a = regular 1 2, fdref: a = regular 0 2",
    "fifo-regular": f"{OF_SYSTEM}p0 mkfifo: has made no FIFO, as lstat tells",
    "exec-error": f"{OF_SYSTEM}p0 execv: has failed with error {errno.EIO}, and ENOENT is due",
    "seek-crashes": f"{DIFFERS}p0 lseek 5 0 set has not come back on the system, where signal 11 (SIGSEGV) ended it",
    "fifo-early": f"{OF_SYSTEM}p0 open f w: has come back before another one began to open the other end",
    "restart-lost": f"{OF_SYSTEM}p0 sigaction: has set SA_RESTART otherwise than it was asked for",
    "never-beside": f"{DIFFERS}p0 read 3 1 has not come back on the system, which was killed in it",
    "end-hangs": f"{DIFFERS}p0 read 3 1 has not come back on the system, which was killed in it",
    "own-beside": "no order of these calls gives all answers of the system",
    "read-crashes": f"{DIFFERS}p0 read 3 2 has not come back on the system, where signal 11 (SIGSEGV) ended it",
    "cloexec-thread": "1 answer about FD_CLOEXEC differs from what was set: system: p0 fcntl F_GETFD 3 = 0",
    # a whence that there is not is told as an offset below 0
    "whence-taken": "system: p0 lseek 5 -9223372036854775808 set = 1",
    "whence-piped": f"{OF_SYSTEM}p0 lseek: has taken a whence that there is not",
    "end-lost": "system: p0 lseek 5 -1 end = error EINVAL",
    "errno-zeroed": f"{OF_SYSTEM}p0 lseek: has set errno to 0, as no function may",
    "errno-kept": f"{OF_SYSTEM}p0 truncate: has failed, and has not set errno",
    **{
        f"minus-{name}": f"{OF_SYSTEM}p0 {name}: has given -{error}, and no call gives a number below -1"
        for name, error in (
            ("write", errno.EBADF),
            ("lseek", errno.ESPIPE),
            ("fcntl", errno.EBADF),
            ("close", errno.EBADF),
            ("rename", errno.ENOENT),
            ("waitpid", errno.ECHILD),
        )
    },
    **{
        f"seven-{name}": f"{OF_SYSTEM}p0 {name}: has given 7, and 0 is due where it does not fail"
        for name in ("close", "pipe", "ftruncate", "rename", "fstat")
    },
    **{
        f"above-{name}": f"{OF_SYSTEM}p0 {name}: has not failed with EBADF, and nothing is open there"
        for name in ("read", "lseek", "fcntl", "close", "dup2", "fstat")
    },
    "zero-execv": f"{OF_SYSTEM}p0 execv: has failed, and has given 0, where -1 is due",
    "sync-refused": f"{OF_SYSTEM}p0 fsync: has failed with error {errno.EBADF}, which no file gives that is open",
    "sync-closed": f"{OF_SYSTEM}p0 fsync: has not failed with EBADF, and nothing is open there",
    "terminal-told": f"{OF_SYSTEM}p0 isatty: has not told that it is no terminal",
    "terminal-error": f"{OF_SYSTEM}p0 isatty: has told no terminal by another error than ENOTTY or EINVAL",
}


def judged_wronged(bench: Bench, word: str) -> Ran:
    """A program that is judged with a C library that is wrong in a way. Without that library nothing differs."""
    library, program = bench.path("wrong.so"), bench.compiled("judge_wronged")
    if not os.path.exists(library):
        source = str(C_TESTS / "wrong_calls.c")
        compiles([bench.compiler, "-O2", *WARNINGS, "-shared", "-fPIC", source, "-o", library, "-ldl"])
    shim = ("--shim", bench.shim(), *SOON)
    right = bench.judged(*shim, program, word)
    # a system may tell another size of a pipe, which is a reason
    require(right.status == 0 or (right.status == 3 and word.startswith("ino-")), right.said())
    return bench.judged(*shim, "--preload", library, program, word, variables=(f"WRONG={word}",))


def finds_wrong_calls(bench: Bench, word: str, line: str) -> None:
    """A wrong answer of a C library is a difference."""
    ran = judged_wronged(bench, word)
    said = ran.stdout.decode("ascii").splitlines()
    require(ran.status == 1 and any(it.startswith(line) for it in said), ran.said())
    require(said[-1].startswith("verdict: a difference: "), ran.said())


NOT_ENDED = f"{NOT_JUDGED}signal 10 (SIGUSR1) came in p0 read, which did not end by it: whether it waited then is not "
ENDED = f"{NOT_JUDGED}1 answer differs with a reason: a signal ends a call (EINTR): signal 10 (SIGUSR1) has a handler"
def names_errno(bench: Bench) -> None:
    """That errno is set by a call that does not fail is permitted, and told as the cause of what follows from it."""
    ran = judged_wronged(bench, "errno-set")
    cause = "errno after a lseek that has not failed, which a program may not go by"
    last = ran.stdout.decode("ascii").splitlines()[-1]
    require(ran.status == 3 and last.startswith(f"{ENDS_OTHERWISE}, perhaps by {cause}"), ran.said())


def names_files(bench: Bench) -> None:
    """The st_ino that stat tells of names is compared, too."""
    program, library = bench.compiled("judge_wronged"), bench.path("wrong.so")
    judged_wronged(bench, "file-same")
    stat_tells, statx_tells = f"{OF_SYSTEM}p0 stat: tells ", f"{OF_SYSTEM}p0 statx: tells "
    for wrong, way, line in (
        ("none", "names", NOT_ALL),
        ("file-apart", "names", f"{stat_tells}two files where there is one"),
        ("file-same", "names", f"{stat_tells}one file where there are two"),
        ("none", "names-by-statx", NOT_ALL),
        ("statx-apart", "names-by-statx", f"{statx_tells}two files where there is one"),
        ("statx-same", "names-by-statx", f"{statx_tells}one file where there are two"),
    ):
        words = ("--shim", bench.shim(), "--preload", library, program, way)
        ran = bench.judged(*words, variables=(f"WRONG={wrong}",))
        require(ran.stdout.decode("ascii").splitlines()[-1].startswith(line), ran.said())


def tells_bare(bench: Bench) -> None:
    """A program that is run without its environment is no process of fdref, which is told as the cause."""
    program = bench.compiled("judge_otherwise")
    ran = bench.judged("--shim", bench.shim(), program, "bare")
    told = f"{DIFFERS_BY}execve of {program}, whose environment is without fdref's library; "
    require(ran.status == 3 and ran.stdout.decode("ascii").splitlines()[-1].startswith(told), ran.said())


def crashes_in_child(bench: Bench) -> None:
    """That a child has crashed on the system alone is no agreement, whatever order explains its calls."""
    judged_wronged(bench, "seek-crashes")
    words = ("--shim", bench.shim(), "--preload", bench.path("wrong.so"), bench.compiled("judge_wronged"), "child")
    ran = bench.judged(*words, variables=("WRONG=seek-crashes",))
    told = f"{NOT_JUDGED}a crash is no agreement: signal 11 (SIGSEGV), which ended p1 on the system alone, in lseek"
    same((3, told), (ran.status, ran.stdout.decode("ascii").splitlines()[-1]))


def takes_any_number(bench: Bench) -> None:
    """What F_SETFL and F_SETFD give is any number but -1. A group of processes, and an offset in what is no file of
    fdref, may be below that."""
    ran = judged_wronged(bench, "set-one")
    past = "what went past fdref (first fcntl with other flags on descriptor 4)"
    same((0, f"{NOT_ALL}; not compared: {past}"), (ran.status, ran.stdout.decode("ascii").splitlines()[-1]))
    ran = judged_wronged(bench, "seven-fcntl")
    same((0, AGREES), (ran.status, ran.stdout.decode("ascii").splitlines()[-1]))
    ran = bench.judged("--shim", bench.shim(), bench.compiled("judge_wronged"), "below")
    last = ran.stdout.decode("ascii").splitlines()[-1]
    require(ran.status == 0 and last.startswith("verdict: agreement"), ran.said())


# What a C library may give, which is not compared, and what is said of it.
GIVEN = {
    "sync-disk": "what fsync gave on the system (error EIO)",
    "sync-ends": "what fsync gave on the system (error EIO)",
    "terminal-beside": "what isatty gave on the system (1)",
    "above-beside": "what read gave on the system (0)",
    "exec-unlike": "what execv gave on the system (error EIO)",
    "cloexec-beside": "what fcntl F_GETFD gave on the system (0)",
    "stop-other": f"what waitpid gave on the system (a stop by signal {int(signal.SIGTSTP)})",
}


def leaves_open(bench: Bench, word: str, told: str) -> None:
    """That a disk may fail, and what another thread may have changed, is told as not compared, and as a cause."""
    ran = judged_wronged(bench, word)
    lines = ran.stdout.decode("ascii").splitlines()
    require(f"not compared: {told}" in lines, ran.said())
    if word == "sync-ends":
        last = f"{ENDS_OTHERWISE}, perhaps by {told} or the number"
        require(ran.status == 3 and lines[-1].startswith(last), ran.said())
    else:
        same((0, f"{NOT_ALL}; not compared: {told}"), (ran.status, lines[-1]))


# Asks how a process has ended that is gone, by a descriptor of it: what is asked for, and the status at last.
ASKS_OF_PROCESS, STATUS_IS_ASKED, TOLD_END = 0xC040FF0B, 8, struct.Struct("@QQ11Ii")


def are_ends_kept() -> bool:
    """Whether the kernel keeps that, as Linux does from 6.15 on."""
    child = os.fork()
    if child == 0:
        os._exit(0)
    try:
        watch = os.pidfd_open(child)
    except OSError:
        return False
    finally:
        os.waitpid(child, 0)
    try:
        told = fcntl.ioctl(watch, ASKS_OF_PROCESS, TOLD_END.pack(STATUS_IS_ASKED, *[0] * 13))
        return bool(TOLD_END.unpack(told)[0] & STATUS_IS_ASKED)
    except OSError:
        return False
    finally:
        os.close(watch)


# Waits of which nothing but the kernel tells how a child ended, and why.
ENDS_KEPT = {"wait-killed-heard": "a handler is set that ends calls", "wait-killed-group": "a group is waited for"}


def compares_ends(bench: Bench, word: str, why: str) -> None:
    """How a child ended that a signal has ended is compared with what the kernel keeps, if it does; else it is told that
    it was not compared, and why."""
    ran = judged_wronged(bench, word)
    lines = ran.stdout.decode("ascii").splitlines()
    if are_ends_kept():
        wrong = f"{OF_SYSTEM}p0 waitpid: has told otherwise how a child has ended"
        same((1, wrong), (ran.status, lines[-1]))
    else:
        told = f"not compared: how a child ended, of which the system told by waitpid ({why})"
        same((0, told, f"{NOT_ALL}; not compared: how a child ended"), (ran.status, lines[-3], lines[-1]))


# Functions that do not wait, by what is wrong.
HASTY = {
    "hasty-wait": "wait",
    "hasty-waitpid": "waitpid",
    "hasty-one": "waitpid",
    "hasty-wait4": "wait4",
    "hasty-waitid": "waitid",
    "hasty-group": "waitpid",
}
UNWAITED = "not compared: whether a wait for a child waits"


def finds_hasty_waits(bench: Bench, word: str, name: str) -> None:
    """A wait that does not wait is found while its child lives, where the kernel keeps how that ends; else it is told
    that it was not compared. Of a group no end is asked for before."""
    ran = judged_wronged(bench, word)
    last = ran.stdout.decode("ascii").splitlines()[-1]
    if are_ends_kept() or word == "hasty-group":
        same((1, f"{OF_SYSTEM}p0 {name}: has told of no child, without WNOHANG"), (ran.status, last))
    else:
        same((0, f"{NOT_ALL}; {UNWAITED}"), (ran.status, last))


def tells_unwaited(bench: Bench) -> None:
    """So it is told of a child that was made beside threads, which is not watched."""
    ran = judged_wronged(bench, "hasty-beside")
    lines = ran.stdout.decode("ascii").splitlines()
    why = "the process has threads" if are_ends_kept() else "before Linux 6.15 no end of a child is kept"
    require(f"{UNWAITED}, as waitpid ({why})" in lines, ran.said())
    same((0, f"{NOT_ALL}; {UNWAITED}"), (ran.status, lines[-1]))


def loses_beside_handlers(bench: Bench) -> None:
    """The same of a system that is right."""
    ran = bench.judged("--shim", bench.shim(), bench.compiled("judge_signals"), "loses")
    last = AGREES if are_ends_kept() else f"{NOT_ALL}; not compared: how a child ended"
    same((0, last), (ran.status, ran.stdout.decode("ascii").splitlines()[-1]))


# Waits of a program of judge_wronged beside a handler that waits, in two threads, and for a child that stops.
RIGHT_WAITS = ("handled", "by-two", "stopped", "none-yet", "restarted")


def excuses_waits(bench: Bench, word: str) -> None:
    """Right waits are not blamed, whoever takes a child."""
    ran = bench.judged("--shim", bench.shim(), bench.compiled("judge_wronged"), word)
    last = ran.stdout.decode("ascii").splitlines()[-1]
    require(ran.status == 0 and last.startswith("verdict: agreement"), ran.said())


# What is said of a program of judge_signals with a part of a C library that goes on after a signal, or that is right.
GOES_ON_AFTER = [
    ("read-retried", "read", 1, f"{OF_SYSTEM}p0 read: has gone on after signal 10 has ended it"),
    ("readv-retried", "readv", 1, f"{OF_SYSTEM}p0 readv: has gone on after signal 10 has ended it"),
    ("open-retried", "open", 1, f"{OF_SYSTEM}p0 open: has gone on after signal 10 has ended it"),
    ("write-finished", "write", 1, f"{OF_SYSTEM}p0 write: has gone on after signal 10 has cut it short"),
    ("read-polled", "read", 3, NOT_ENDED),
    ("read-masked", "read", 3, NOT_ENDED),
    ("wait-retried", "awaits", 1, f"{OF_SYSTEM}p0 waitpid: has gone on after signal 10 has ended it"),
    ("signal-before", "hears", 0, AGREES),
    ("signal-after", "hears", 0, AGREES),
    ("none", "read", 3, ENDED),
    ("none", "open", 3, ENDED),
    ("none", "hears", 0, AGREES),
    ("none", "awaits", 0, AGREES),
]


def goes_on_after_signals(bench: Bench, wrong: str, word: str, status: int, last: str) -> None:
    """A call that goes on after a signal that ends it is a difference where the kernel tells it, and else not judged. A
    signal that comes before a call waits, or after it has its answer, ends nothing."""
    library = bench.path("goes-on.so")
    if not os.path.exists(library):
        compiles([bench.compiler, "-O2", *WARNINGS, "-shared", "-fPIC", str(C_TESTS / "goes_on.c"), "-o", library])
    words = ("--pipe-capacity", "65536", "--preload", library, bench.compiled("judge_signals"), word)
    ran = bench.judged("--shim", bench.shim(), *words, variables=(f"WRONG={wrong}",))
    require(ran.status == status and ran.stdout.decode("ascii").splitlines()[-1].startswith(last), ran.said())


def leaves_out_itself(bench: Bench) -> None:
    """Where LD_PRELOAD names the library that judge.py loads by itself, that is told, and the program judged."""
    variables = f"LD_PRELOAD={bench.shim()}", f"FDREF_LOG={bench.path('own-log')}"
    ran = bench.judged("--shim", bench.shim(), bench.compiled("judge_agrees"), variables=variables)
    told = f"judge.py: {bench.shim()} is fdref's library, which judge.py loads by itself: it is left out of LD_PRELOAD\n"
    same((0, told), (ran.status, ran.stderr.decode("utf-8")))


SOONER = "import sys; sys.path[:0] = [{!r}]; import judge, waits; waits.TELL_SECONDS = 0.5; sys.exit(judge.main({!r}))"


def tells_long_runs(bench: Bench) -> None:
    """That a program takes long is told, with how long it may take, and what its processes do."""
    words = ["--program", bench.program, "--shim", bench.shim(), *SOON, bench.compiled("judge_stays"), "reads"]
    ran = run([sys.executable, "-c", SOONER.format(str(TOOLS), words)], seconds=SECONDS)
    lines = [line for line in ran.stderr.decode("utf-8").splitlines() if " still runs after " in line]
    same((3, 2), (ran.status, len(lines)))
    for where, line in zip(("with fdref", "on the system"), lines, strict=True):
        start = f"judge.py: {where} the program still runs after 0.5 seconds, and is killed after 2 (--seconds): "
        require(line.startswith(start) and line.count(" (judge_stays) waits") == 2, line)


def is_left_by_server(bench: Bench) -> None:
    """A command that runs fdref, and ends, and leaves a process that keeps its outputs open, is not waited for."""
    left = Path(bench.path("left"))
    stays = f"setsid sh -c 'echo $$ >{left}; exec sleep {2 * SECONDS}'"
    leaves = shlex.join(["sh", "-c", f"{stays} & while [ ! -s {left} ]; do sleep 0.01; done; exit 1"])
    try:
        cannot_run(bench, ("--program", leaves, "--shim", bench.shim(), "true"), "no server: status 1: ", ())
    finally:
        os.kill(int(left.read_text(encoding="ascii")), signal.SIGKILL)


BUILT_SOON = "import sys; sys.path[:0] = [{!r}]; import judge; judge.BUILD_SECONDS = 2; sys.exit(judge.main({!r}))"


def ends_compilers(bench: Bench) -> None:
    """A compiler that takes too long is ended, and what it has started, too."""
    compiler = bench.path("slow-cc")
    Path(compiler).write_text(f"#!/bin/sh\nsh -c 'sleep {2 * SECONDS}; : {bench.folder}' &\nwait\n", encoding="ascii")
    os.chmod(compiler, 0o700)
    code = BUILT_SOON.format(str(TOOLS), ["--program", bench.program, bench.compiled("judge_agrees")])
    env = ["env", f"TMPDIR={bench.scratch}", f"CC={compiler}"]
    ran = run([*env, sys.executable, "-c", code], seconds=SECONDS)
    told = f"judge.py: waited for {compiler} to compile fdref's library: still running after 2 seconds\n"
    same((3, b"", told.encode()), (ran.status, ran.stdout, without_waits(ran.stderr)))
    bench.is_clean()


def tells_unread(bench: Bench) -> None:
    """Where something stands on standard input and no --stdin is given, that it was not read is told."""
    words = [*bench.command(), "--shim", bench.shim(), bench.compiled("judge_agrees")]
    told = "judge.py: what is on standard input was not read: --stdin FILE gives it to the program\n"
    for given, wanted in ((A_LINE.encode(), told), (b"", "")):
        ran = run(words, given, seconds=SECONDS)
        same((0, wanted), (ran.status, without_waits(ran.stderr).decode("utf-8")))


def tells_at_once(bench: Bench) -> None:
    """That threads wait for another one is told while they do."""
    command = [*bench.command(), "--shim", bench.shim(), *LATE, bench.compiled("judge_strays"), "threads"]
    with subprocess.Popen(command, stdout=subprocess.DEVNULL, stderr=subprocess.PIPE) as judge:
        assert judge.stderr
        told = judge.stderr.readline() if select.select([judge.stderr], [], [], SECONDS)[0] else b""
        judge.terminate()
        same((THREAD, b"", 128 + signal.SIGTERM), (told, judge.stderr.read(), judge.wait(SECONDS)))
    bench.is_clean()


def tells_astray(bench: Bench) -> None:
    """An option of judge.py that stands after the program is a word of that, which is told."""
    program = bench.compiled("judge_agrees")
    ran = bench.judged("--shim", bench.shim(), program, "--seconds=3")
    told = f"judge.py: --seconds=3 is a word of {program}: own options stand before it\n"
    same((0, told), (ran.status, ran.stderr.decode("utf-8")))


def tells_of_strict(bench: Bench) -> None:
    """Where a program that differs does what --strict would tell, that is the last line but one; else it says nothing
    of it."""
    for word, wanted in (("spawns", "--strict ends it at system exit 3"), ("output", "audit: legal")):
        ran = bench.judged("--shim", bench.shim(), bench.compiled("judge_strays"), word)
        before, last = ran.stdout.decode("ascii").splitlines()[-2:]
        require(ran.status == 3 and before.startswith(wanted), ran.said())
        require(last.startswith(f"{ENDS_OTHERWISE}, perhaps by "), ran.said())


def builds_shim(bench: Bench) -> None:
    """Where no shim is named it is compiled by $CC, and nothing of it is left."""
    ran = bench.judged(bench.compiled("judge_agrees"), variables=(f"CC={bench.compiler}",))
    same((0, b""), (ran.status, ran.stderr))


def is_illegal(bench: Bench) -> None:
    """A command of several words runs fdref. Where its audit finds a fault the two do not agree."""
    script = 'test "$1" = audit && echo illegal 5 expected 3 && exit 7; exec "$0" "$@"'
    program = shlex.join(["sh", "-c", script, bench.program])
    ran = bench.judged("--shim", bench.shim(), "--strict", "--program", program, bench.compiled("judge_agrees"))
    same((1, b""), (ran.status, ran.stderr))
    lines = [WELL, "18 calls of 1 process: no answer differs", "audit: illegal 5 expected 3"]
    lines.append("verdict: a difference: the audit finds a fault in the trace of fdref")
    same(lines, ran.stdout.decode("ascii").splitlines())


# ---- what is refused

WRONG_WORDS: list[tuple[str, ...]] = [
    (),
    ("--nothing", "true"),
    ("--sessions", "0", "true"),
    ("--sessions", "65", "true"),
    ("--seconds", "0", "true"),
    ("--before", "-1", "true"),
    ("--stdin", "/no/such/file", "true"),
    ("--shim", "/no/such/file", "true"),
    ("--keep", "/no/such/folder", "true"),
    ("--preload", "/no/such/file", "true"),
    ("--preload", "/dev/null", "true"),
]


def is_wrong(bench: Bench, words: tuple[str, ...]) -> None:
    """Wrong words end with status 2, and tell why on standard error alone."""
    ran = bench.judged(*words)
    same((2, b""), (ran.status, ran.stdout))
    last = ran.stderr.splitlines()[-1]
    require(last.startswith(b"judge.py: error: ") and b"WORD" not in last, ran.said())


def cannot_run(bench: Bench, words: tuple[str, ...], why: str, variables: tuple[str, ...]) -> None:
    """What cannot be run ends with status 3, and tells why on standard error alone."""
    ran = bench.judged(*words, variables=variables)
    same((3, b"", f"judge.py: {why}\n"), (ran.status, ran.stdout, ran.stderr.decode("utf-8")))


NO_CALLS = (
    "made none of the calls that fdref knows, or does not load fdref's library, or not in time, as a static program, "
    "one that is built with -fsanitize=address or thread, or one that is given an LD_PRELOAD of its own, as by env: "
    "--preload adds a library to it"
)
EXPR = shutil.which("expr") or "expr"
NO_SUM = f"{NO_CALLS}; it ended with status 2, and wrote '{EXPR}: non-integer argument' on standard error"


def not_run(bench: Bench) -> Iterator[tuple[str, str, tuple[str, ...], tuple[str, ...]]]:
    """What cannot be run or compared: its name, what is said of it, the words, and variables."""
    agrees, shim = bench.compiled("judge_agrees"), ("--shim", bench.shim())
    yield "a program that is not there", "no program ./nothing", (*shim, "./nothing"), ()
    yield "a folder", "no program /tmp", (*shim, "/tmp"), ()
    source = str(TOP / "tests" / "c" / "judge_agrees.c")
    yield "a source", f"{source} is a file that may not be executed", (*shim, source), ()
    compiler = "no C compiler /no/cc: $CC names another one, and --shim fdref's library as it is built"
    yield "no compiler", compiler, (agrees,), ("CC=/no/cc",)
    yield "a server that ends", "no server: status 1: ", ("--program", "false", *shim, agrees), ()
    nowhere = ("--program", "/no/fdref", *shim, agrees)
    yield "no program of the server", "no program at /no/fdref", nowhere, ()
    yield "no call", NO_CALLS, (*shim, "true"), ()
    yield "no call, and a fault", NO_SUM, (*shim, EXPR, "a", "+", "1"), ("LC_ALL=C",)
    yield "no shim", NO_CALLS, (*shim, "env", "LD_PRELOAD=", agrees), ()
    left_out = "uses what fdref leaves out: symlink"
    yield "what is left out", left_out, ("--strict", *shim, bench.compiled("judge_strays"), "leaves-out"), ()
    many = "has 7 processes, and the server takes 2 (--sessions, 64 at most)"
    few = ("--sessions", "2", "--seconds", "2", *shim, bench.compiled("judge_family"))
    yield "more processes than sessions, which is found late", many, few, ()
    told = "has more than 2 processes in all (--sessions, 64 at most)"
    short = ("--sessions", "2", "--seconds", "15")
    yield "more processes than sessions", told, (*short, *shim, bench.compiled("judge_races"), "excl"), ()


def ends_by_signal(bench: Bench) -> None:
    """A signal ends judge.py, and all that it started."""
    program = bench.compiled("judge_stays")
    command = [*bench.command(), "--shim", bench.shim(), program, "reads"]
    with subprocess.Popen(command, stdout=subprocess.DEVNULL, stderr=subprocess.DEVNULL) as judge:
        until = time.monotonic() + SECONDS
        while not any(words.startswith(os.fsencode(program)) for words in bench.processes()):
            require(time.monotonic() < until and judge.poll() is None, "the program is not there")
            time.sleep(0.01)
        judge.terminate()
        same(128 + signal.SIGTERM, judge.wait(SECONDS))
    bench.is_clean()


def refused(bench: Bench) -> Iterator[Case]:
    """Wrong words, and programs that cannot be run."""
    for words in WRONG_WORDS:
        yield f"the words {words}", partial(is_wrong, bench, words)
    fifo = bench.path("fifo")
    os.mkfifo(fifo)
    yield "standard input that is a pipe", partial(is_wrong, bench, ("--stdin", fifo, "true"))
    yield "the shim twice", partial(is_wrong, bench, ("--preload", bench.shim(), "true"))
    for name, why, words, variables in not_run(bench):
        yield name, partial(cannot_run, bench, words, why, variables)
    yield "a signal", partial(ends_by_signal, bench)
