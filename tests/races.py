#!/usr/bin/env python3
"""Are calls that are made at once explained by an order of them, and is a wrong system found out? (half a minute)

usage: tests/races.py [--program PATH] [--seconds N] [--only WORD]

tools/race_kernel.c is compiled by each compiler that is there, with warnings as errors, and given scripts whose
histories have a known form. Bad scripts and words have their exit statuses, and after a signal no process and no folder
may be left. Then tools/race.py races on the system at hand: no history may be without an order and without a reason.
It races the files of examples/races, too: what is seen and is not an outcome has a reason. Last, each way in which
tests/stand_ins/wrong_system.c makes the system wrong has to be found, and some of them by these files.

Where no C compiler is there, it says so and leaves all of it out. The last line is `N passed, M failed`, and the exit
status is 1 where M is above 0.
"""

import contextlib
import os
import re
import signal
import subprocess
import sys
import tempfile
import time
from collections.abc import Iterator, Sequence
from functools import partial
from itertools import combinations
from pathlib import Path

from parts import race_files
from parts.c_programs import SANITIZERS, WARNINGS, can, compilers, compiles
from support import histories, ordering
from support.counting import Case, Count, Failure, lacks_compiler, require, same
from support.drivers import IS_LINUX, Driver
from support.histories import Noted
from support.options import ONLY, PROGRAM, count_option, end_without, parsed
from support.places import EXAMPLES, STAND_INS, TOOLS
from support.replaying import Differs
from support.running import CannotRun, Ran, run

import race
import race_kinds

SECONDS = 60
# How long what was ended may take to be gone.
GONE_SECONDS = 10
SEED = "acceptance"
STANDARD = ["-std=c11", "-O2"]
USAGE = b"usage: race_kernel [--dir DIR] [--rounds N] [--seed S] [--pin] [--exchange] [--wait MS] < script\n"

# How each compiler is told to make a driver or a library.
SOURCES = {
    "race_kernel": [*STANDARD, str(TOOLS / "race_kernel.c")],
    "ask_kernel": ["-std=c99", "-O2", str(TOOLS / "ask_kernel.c")],
    "wrong_system": [*STANDARD, "-shared", "-fPIC", str(STAND_INS / "wrong_system.c")],
}

# The ways of a wrong system, with the kind of race that finds each.
WRONG = {
    "tear": "small-pieces",
    "late": "shared-offset",
    "stale": "append",
    "lost": "pipe",
    "interleave": "pipe",
    "gap": "rename",
    "own": "setfl",
    "halves": "setfl",
    "turned-dry": "pipe",
}


class Bench(Driver):
    """The driver, as it was compiled, a folder for what it makes, and fdref."""

    def __init__(self, folder: str, program: str, seconds: int) -> None:
        self.folder = os.path.realpath(folder)
        self.program = program
        self.seconds = seconds
        super().__init__(self.built(compilers()[0], "race_kernel"), os.path.join(self.folder, "names"), GONE_SECONDS)
        os.mkdir(self.names)

    def built(self, compiler: str, name: str, words: Sequence[str] = ()) -> str:
        """The path of a driver or a library that a compiler makes of its source."""
        path = os.path.join(self.folder, f"{name}-{compiler}{len(words)}")
        compiles([compiler, *SOURCES[name], *WARNINGS, *words, "-o", path])
        return path

    def races(self, script: str, *words: str) -> list[list[Noted]]:
        """The histories of a script, which the driver has to run well."""
        done = self.run(script.encode(), *words)
        require(done.status == 0 and not done.stderr, done.said())
        return histories.read_histories(done.stdout.decode("ascii"))

    def tools(self) -> race_files.Tools:
        """What races of files are made with."""
        return race_files.Tools(self.program, self.asks(), self.folder)

    def end_all(self) -> None:
        """Ends the processes that a driver has left which is wrong."""
        for number in self.processes():
            with contextlib.suppress(ProcessLookupError):
                os.kill(number, signal.SIGKILL)


# ---- words and scripts


BAD_WORDS = [
    ["--wait"],
    ["--wait", "0"],
    ["--rounds", "0"],
    ["--rounds", "01"],
    ["--seed", "-1"],
    ["--dir", ""],
    ["--dir"],
    ["script"],
    ["--pin", "1"],
    ["--exchange", "1"],
]

# Bad scripts, and what is told of each.
BAD_SCRIPTS = [
    ("", "script: no line `race`"),
    ("join\np0 pipe\n", "script: no line `race`"),
    ("join\nrace\nrace\n", "line 3: not an act"),
    ("join\nrace \n", "line 2: not an act"),
    ("join\np0 close 00\nrace\n", "line 2: not an act"),
    ("join\0\nrace\n", "line 1: not an act"),
    ("race\np0 pipe\n", "line 2: no such process"),
    ("join\np1 pipe\nrace\n", "line 2: no such process"),
    ("join\np0 attach\nrace\n", "line 2: no such process"),
    ("join\np0 fork\np1 pipe\nrace\n", "line 3: no such process"),
    ("join\np0 exit\np0 pipe\nrace\n", "line 3: no such process"),
    ("join\nrace\np0 exit\np0 pipe\n", "line 4: no such process"),
    ("join\np0 resume\nrace\n", "line 2: no call"),
    ("join\nclose-run\nrace\n", "line 2: no call"),
    ("race\njoin\n", "line 2: no call of a race"),
    ("join\nrace\np0 fork\n", "line 3: no call of a race"),
    ("join\np0 fork\nrace\np1 attach\n", "line 4: no call of a race"),
    ("join\nrace\np0 resume\n", "line 3: no call of a race"),
    ("join\nrace\nclose-run\n", "line 3: no call of a race"),
    ("join\nrace\np0 open ../left rw,creat\n", "line 3: a call that is not asked"),
    ("join\n" * 65 + "race\n", "line 65: too many processes"),
]


def ends(wanted: Ran, words: Sequence[str], script: str = "") -> None:
    """A command prints this on a script, and ends so."""
    same(wanted, run(words, script.encode(), seconds=SECONDS))


def word_cases(bench: Bench) -> Iterator[Case]:
    """Command lines and scripts that are refused, and help."""
    for words in BAD_WORDS:
        yield f"words {words}", partial(ends, Ran(2, b"", USAGE), [bench.driver, *words])
    yield "help", partial(ends, Ran(0, USAGE, b""), [bench.driver, "--help"])
    for script, text in BAD_SCRIPTS:
        wanted = Ran(3, b"", f"race_kernel: {text}\n".encode())
        yield f"script {script[:40]!r}", partial(ends, wanted, bench.asks(), script)
    refused = Ran(5, b"", b"race_kernel: /no/such: No such file or directory\n")
    yield "no such folder", partial(ends, refused, [bench.driver, "--dir", "/no/such"], "race\n")


# ---- the form of histories


FORKED = "join\np0 pipe\np0 fork\np1 attach\np0 fork\np2 attach\n"
FORKED_LINES = ["p0 join = 0", "p0 pipe = 0 1", "p0 fork = 1", "p1 attach = ok", "p0 fork = 2", "p2 attach = ok"]


def texts(history: Sequence[Noted]) -> list[str]:
    """The lines of a history without their times."""
    return [noted.text().split(" ", 2)[2] for noted in history]


def part_of(history: Sequence[Noted], process: int, after: int) -> list[str]:
    """The lines of a process after so many of the history."""
    return [text for text in texts(history[after:]) if text.startswith(f"p{process} ")]


def setup_comes_first(bench: Bench) -> None:
    """What is made before a race stands first, one call after another, and each part is whole and in its order."""
    script = FORKED + "race\np1 write 1 x6162\np2 dup 0\np1 close 1\np2 dup2 0 9\np0 read 0 9\n"
    found = bench.races(script, "--rounds", "20", "--seed", "7")
    same(20, len(found))
    for history in found:
        same(FORKED_LINES, texts(history[:6]))
        require(all(one.precedes(other) for one, other in zip(history[:6], history[1:7], strict=True)), "they overlap")
        same(["p1 write 1 x6162 = 2", "p1 close 1 = ok"], part_of(history, 1, 6))
        same(["p2 dup 0 = 2", "p2 dup2 0 9 = 9"], part_of(history, 2, 6))
        same(["p0 read 0 9 = x6162"], part_of(history, 0, 6))


def rounds_end(bench: Bench) -> None:
    """Each round is ended by an empty line, and has a folder of its own."""
    done = bench.run(b"join\nrace\np0 open a rw,creat,excl\np0 fstat 0\n", "--rounds", "3")
    lines = re.sub(rb"(?m)^\d+ \d+ ", b"", done.stdout)
    same(b"p0 join = 0\np0 open a rw,creat,excl = 0\np0 fstat 0 = regular 0 1\n\n" * 3, lines)


def waits_are_told(bench: Bench) -> None:
    """A call that has not come back has no end, and what its process has after it is not told."""
    script = FORKED + "p0 mkfifo f\nrace\np0 read 0 1\np0 pipe\np1 open f r\np1 close 0\np2 open f r\np2 write 1 x\n"
    (history,) = bench.races(script, "--wait", "50")
    same(["p0 read 0 1 = parked ?"], part_of(history, 0, 7))
    same(["p1 open f r = parked ?"], part_of(history, 1, 7))
    same(["p2 open f r = parked ?"], part_of(history, 2, 7))
    same({None}, {noted.end for noted in history[7:]})


def large_write_waits(bench: Bench) -> None:
    """A write that waits with a part of its bytes in a pipe is told as any call that waits."""
    (history,) = bench.races("join\np0 pipe\nrace\n" + "p0 write 1 61*65536\n" * 40)
    same("p0 write 1 61*65536 = parked ?", texts(history)[-1])


def exits_are_told(bench: Bench) -> None:
    """An exit ends where its process is gone: with it the last writing end goes, and a read comes to the end."""
    script = FORKED + "p0 close 1\np1 close 1\nrace\np2 exit\np0 read 0 1\np1 read 0 1\n"
    for history in bench.races(script, "--rounds", "10", "--seed", "1"):
        same({"p0 read 0 1 = x", "p1 read 0 1 = x", "p2 exit = ok"}, set(texts(history[8:])))
    (history,) = bench.races("join\njoin\np0 exit\nrace\np1 pipe\n")
    same(["p0 join = 0", "p1 join = 1", "p0 exit = ok", "p1 pipe = 0 1"], texts(history))


def exits_are_no_loss(bench: Bench) -> None:
    """A process that is in its exit, and gone already, is not told as one that was ended from outside."""
    script = "join\njoin\njoin\nrace\np0 exit\np1 exit\np2 exit\n"
    for history in bench.races(script, "--rounds", "50", "--wait", "1"):
        same({"p0 exit = ok", "p1 exit = ok", "p2 exit = ok"}, set(texts(history[3:])))


def answers_are_whole(bench: Bench) -> None:
    """Bytes and errors are spelled as fdref spells them."""
    calls = ["open a rw,creat", "write 0 x" + "61" * 17, "pread 0 0 20", "read 9 1", "lseek 0 0 set", "read 0 3"]
    answers = ["0", "17", "61*17", "error EBADF", "0", "x616161"]
    calls += ["setfl 0 w,append", "getfl 0", "setfl 9 -", "rename a b", "rename a b", "fstat 0"]
    answers += ["ok", "35", "error EBADF", "ok", "error ENOENT", "regular 17 1"]
    (history,) = bench.races("join\nrace\n" + "".join(f"p0 {call}\n" for call in calls))
    same(answers, [noted.outcome for noted in history[1:]])


def others_are_out_of_reach(bench: Bench) -> None:
    """No descriptor but the script's own is open."""
    calls = "".join(f"p0 {word} {fd}\n" for fd in range(80) for word in ("close", "fstat", "dup"))
    (history,) = bench.races(f"join\n{calls}race\np0 pipe\n")
    same({"error EBADF"}, {noted.outcome for noted in history[1:-1]})


def offsets_are_shared(bench: Bench) -> None:
    """What several processes read by one description are its bytes, each once."""
    script = "join\np0 open f rw,creat\np0 write 0 x6162636465666768\np0 lseek 0 0 set\np0 fork\np1 attach\nrace\n"
    for history in bench.races(script + "p0 read 0 2\np1 read 0 2\n" * 2, "--rounds", "30", "--seed", "3"):
        given = "".join(sorted(noted.outcome[1:] for noted in history[6:]))
        same("6162636465666768", given)


def overlaps_happen(bench: Bench) -> None:
    """Calls of different processes overlap, on more processors than one."""
    script = FORKED + "race\n" + "p0 fstat 0\np1 fstat 0\np2 fstat 0\n" * 3
    words = ["--rounds", "100", "--seed", "5"]
    for pinned in [words, [*words, "--pin"]] if IS_LINUX else [words]:
        pairs = [pair for history in bench.races(script, *pinned) for pair in combinations(history[6:], 2)]
        is_met = any(one.process != other.process and race.overlap(one, other) for one, other in pairs)
        require(is_met or os.cpu_count() == 1, "no calls overlap")


# ---- ends


def begun(bench: Bench, script: bytes, *words: str) -> subprocess.Popen[bytes]:
    """The driver, which has its whole script."""
    pipe = subprocess.PIPE
    process = subprocess.Popen(bench.asks(*words), stdin=pipe, stdout=pipe, stderr=pipe)
    assert process.stdin
    process.stdin.write(script)
    process.stdin.close()
    process.stdin = None
    return process


RAN_BY_TWO = b"join\np0 pipe\np0 fork\np1 attach\nrace\np0 read 0 1\np1 read 0 1\n"


def waiting(bench: Bench) -> subprocess.Popen[bytes]:
    """The driver, once it is there with its guard and with two processes that wait for long."""
    process = begun(bench, RAN_BY_TWO, "--wait", "10000")
    until = time.monotonic() + SECONDS
    while len(bench.processes()) != 4:
        require(time.monotonic() < until, "the processes do not come")
        time.sleep(0.01)
    time.sleep(0.2)
    return process


def signal_leaves_nothing(bench: Bench, number: int) -> None:
    """A driver that a signal ends leaves no process and no folder."""
    bench.is_clean()
    process = waiting(bench)
    process.send_signal(number)
    process.communicate(timeout=GONE_SECONDS)
    same(-number, process.returncode)
    bench.is_clean()


def loss_is_told(bench: Bench) -> None:
    """A process that is killed from outside is told."""
    bench.is_clean()
    process = waiting(bench)
    its_own = bench.working()
    same(2, len(its_own))
    os.kill(its_own[0], signal.SIGKILL)
    _, stderr = process.communicate(timeout=SECONDS)
    require(stderr.endswith(b": was ended from outside\n"), f"{stderr!r}")
    same(6, process.returncode)
    bench.is_clean()


def closed_output_ends(bench: Bench) -> None:
    """Where nobody reads what is printed, the driver ends and leaves nothing."""
    process = begun(bench, b"join\nrace\np0 pipe\n", "--rounds", "100000")
    assert process.stdout
    process.stdout.readline()
    process.stdout.close()
    process.stdout = None
    process.communicate(timeout=SECONDS)
    same(4, process.returncode)
    bench.is_clean()


def form_cases(bench: Bench) -> Iterator[Case]:
    """Scripts whose histories have a known form."""
    checks = [setup_comes_first, rounds_end, waits_are_told, large_write_waits, exits_are_told, answers_are_whole]
    checks += [exits_are_no_loss, others_are_out_of_reach, offsets_are_shared, overlaps_happen]
    yield from ((check.__name__, partial(check, bench)) for check in checks)


def end_cases(bench: Bench) -> Iterator[Case]:
    """Ends of the driver, of its processes, and of the tool."""
    if IS_LINUX:
        for number in (signal.SIGTERM, signal.SIGINT, signal.SIGHUP, signal.SIGKILL):
            yield f"signal {number}", partial(signal_leaves_nothing, bench, number)
        yield "killed at any moment", partial(bench.is_killed_often, RAN_BY_TWO)
        yield "a process that is killed", partial(loss_is_told, bench)
    yield "an output that is closed", partial(closed_output_ends, bench)


# ---- compilers


def runs_clean(bench: Bench, compiler: str) -> None:
    """With its sanitizers, a compiler's driver says nothing but its histories."""
    driver = bench.built(compiler, "race_kernel", SANITIZERS)
    for kind in ("shared-offset", "large-append", "pipe", "fifo"):
        script = race_kinds.script_of(kind, SEED, 0)
        done = run([driver, "--dir", bench.names, "--rounds", "3", "--seed", "1"], script.encode(), seconds=SECONDS)
        require(done.status == 0 and not done.stderr, done.said())
        same(3, len(histories.read_histories(done.stdout.decode("ascii"))))


def compiler_cases(bench: Bench) -> Iterator[Case]:
    """What each compiler says, which is nothing."""
    for compiler in compilers():
        for name in SOURCES if IS_LINUX else ("race_kernel", "ask_kernel"):
            yield f"{compiler} {name}", partial(bench.built, compiler, name)
        if can([compiler, *SANITIZERS], bench.folder):
            yield f"{compiler} with sanitizers", partial(runs_clean, bench, compiler)


# ---- reasons

# What two processes that have opened a file each do at once, and whether there is a reason for it.
MEANWHILE = [
    ("100 900 p0 pwrite 0 0 x6162 = 2", "200 300 p1 pread 0 0 2 = x6130", "a read gives a part"),
    ("100 900 p0 pwrite 0 0 x6162 = 2", "200 300 p1 read 0 2 = x6130", "a read gives a part"),
    ("100 900 p0 write 0 x6162 = 2", "200 300 p1 read 0 2 = x6130", "a read gives a part"),
    ("100 900 p0 ftruncate 0 1 = ok", "200 300 p1 pread 0 0 2 = x3000", "a read gives a part"),
    # without an overlap, of bytes from nowhere, without a write, of a write, and of a length that is none of pages
    ("100 150 p0 pwrite 0 0 x6162 = 2", "200 300 p1 pread 0 0 2 = x6130", None),
    ("100 900 p0 pwrite 0 0 x6162 = 2", "200 300 p1 pread 0 0 2 = x7a30", None),
    ("100 900 p0 lseek 0 0 end = 2", "200 300 p1 pread 0 0 2 = x3000", None),
    ("100 900 p0 pwrite 0 0 x6162 = 1", "200 300 p1 pread 0 0 2 = x6130", None),
    ("100 900 p0 pwrite 0 0 61*8192 = 8192", "200 300 p1 fstat 0 = regular 4096 1", "a length grows"),
    ("100 900 p0 pwrite 0 0 61*8192 = 8192", "200 300 p1 lseek 0 0 end = 4096", "a length grows"),
    ("100 900 p0 pwrite 0 0 61*8192 = 8192", "200 300 p1 fstat 0 = regular 4097 1", None),
    ("100 150 p0 pwrite 0 0 61*8192 = 8192", "200 300 p1 fstat 0 = regular 4096 1", None),
    ("100 900 p0 pwrite 0 0 61*100 = 100", "200 300 p1 fstat 0 = regular 4096 1", None),
    # of more bytes than are asked for, of other links, and of a length that nobody writes
    ("100 900 p0 pwrite 0 0 x6162 = 2", "200 300 p1 pread 0 0 2 = x613030", None),
    ("100 900 p0 pwrite 0 0 61*8192 = 8192", "200 300 p1 fstat 0 = regular 4096 2", None),
    ("100 900 p0 pwrite 0 0 61*8192 = 8192", "200 300 p1 fstat 0 = regular 16384 1", None),
]
# The same where pages have 16,384 bytes.
LARGE_PAGES = [
    ("100 900 p0 pwrite 0 0 61*32768 = 32768", "200 300 p1 fstat 0 = regular 16384 1", "a length grows"),
    ("100 900 p0 pwrite 0 0 61*32768 = 32768", "200 300 p1 fstat 0 = regular 4096 1", None),
    ("100 900 p0 pwrite 0 0 61*8192 = 8192", "200 300 p1 fstat 0 = regular 4096 1", None),
]
OWN = [
    "0 1 p0 join = 0",
    "2 3 p1 join = 1",
    "4 5 p0 open f rw,creat = 0",
    "6 7 p1 open f rw = 0",
    "8 9 p0 pwrite 0 0 x3030 = 2",
]
PIPED = [
    "0 1 p0 join = 0",
    "2 3 p0 pipe = 0 1",
    "4 5 p0 fork = 1",
    "6 7 p1 attach = ok",
    "8 9 p0 write 1 61*1000 = 1000",
]
# Two pipes, of each of which the other process has the last end of one kind.
TWO_PIPES = [*PIPED[:2], "3 3 p0 pipe = 2 3", "4 4 p0 setfl 2 r,nonblock = ok", *PIPED[2:4], "8 9 p0 close 0 = ok"]
TWO_PIPES += ["10 11 p0 close 3 = ok"]
SHARED = [
    "0 1 p0 join = 0",
    "2 3 p0 open f rw,creat = 0",
    "4 5 p0 pwrite 0 0 x3030 = 2",
    "6 7 p0 fork = 1",
    "8 9 p1 attach = ok",
]


NAMED = [
    "0 1 p0 join = 0",
    "2 3 p1 join = 1",
    "4 5 p0 open a rw,creat = 0",
    "6 7 p0 open b rw,creat = 1",
]
# What two processes do at once with these names, as above.
RENAMED = [
    ("100 900 p0 rename b a = ok", "200 300 p1 link a c = error ENOENT", "a link finds its file"),
    ("100 900 p0 rename a c = ok", "200 300 p1 link a c = error EEXIST", "a link finds its file"),
    ("100 900 p0 unlink a = ok", "200 950 p1 link a c = error EEXIST", None),
    # without an overlap, of other calls, and of a name that nothing replaces
    ("100 150 p0 rename b a = ok", "200 300 p1 link a c = error ENOENT", None),
    ("100 900 p0 rename b a = ok", "200 300 p1 open a r = error ENOENT", None),
    ("100 900 p0 rename b a = ok", "200 300 p1 rename a c = error ENOENT", None),
    ("100 900 p0 rename b d = ok", "200 300 p1 link a c = error ENOENT", None),
]
# Here a process looks at a file that is replaced, and then opens what its name leads to.
LOOKED = [
    "0 1 p0 join = 0",
    "2 3 p1 join = 1",
    "4 5 p0 open b rw,creat = 0",
    "6 7 p0 write 0 x61 = 1",
    "8 9 p1 open a rw,creat = 0",
]
LOOKS = "200 300 p1 fstat 0 = regular 0 0\n400 450 p1 open a r = 1\n500 550 p1 fstat 1 = regular 0 0"
REPLACED = [
    ("100 900 p0 rename b a = ok", "links are told before"),
    # without an overlap, and of a name that is taken away
    ("100 150 p0 rename b a = ok", None),
    ("100 900 p0 unlink a = ok", None),
]
# What two processes do at once with the ends of a pipe, and with a FIFO, that is a choice of the system's own or none.
NO_BLOCK = "150 160 p1 setfl 1 -,nonblock = ok\n200 300 p1 read 0 476 = 61*476"
FOR_BOTH = "10 11 p0 mkfifo q = ok\n12 13 p0 open q rw = 2\n100 900 p0 write 2 x61 = 1"
OWN_OF_PIPES = [
    (f"100 900 p0 write 1 61*3000 = 1500; {NO_BLOCK}", "nonblock set while a write waits (own)"),
    (f"100 900 p0 write 1 61*3000 = 1500; {NO_BLOCK.replace('setfl 1', 'setfl 0')}", None),
    (f"{FOR_BOTH}; 920 950 p0 read 2 1 = x61", "a FIFO opened for both (own)"),
    (f"{FOR_BOTH}; 920 950 p0 getfl 2 = 64", None),
]


def has_reason(before: list[str], one: str, other: str, reason: str | None, page: int = 4_096) -> None:
    """A history that no order explains has this reason, or none, where pages have so many bytes."""
    (history,) = histories.read_histories("\n".join([*before, one, other]))
    acts = [noted.text().split(" ", 2)[2].partition(" = ")[0] for noted in history]
    script = "\n".join([*acts[: len(before)], "race", *acts[len(before) :]]) + "\n"
    require(not isinstance(race.explained(history), ordering.Explained), "an order explains it")
    found = race.reason_of(race.Race(script, history, page=page))
    require((found.name if found else "none").startswith(reason or "none"), f"the reason is {found}")


def reason_cases() -> Iterator[Case]:
    """Histories that no order explains, each with its reason, and near ones without."""
    for one, other, reason in MEANWHILE:
        yield f"{one} and {other}", partial(has_reason, OWN, one, other, reason)
    for one, other, reason in LARGE_PAGES:
        yield f"{one} and {other}, by large pages", partial(has_reason, OWN, one, other, reason, 16_384)
    for one, other, reason in RENAMED:
        yield f"{one} and {other}", partial(has_reason, NAMED, one, other, reason)
    for one, reason in REPLACED:
        yield f"{one} and looks", partial(has_reason, LOOKED, one, LOOKS, reason)
    other_size = LOOKS.replace("fstat 0 = regular 0 0", "fstat 0 = regular 1 0")
    yield "another size while links are told", partial(has_reason, LOOKED, REPLACED[0][0], other_size, None)
    late = "100 900 p0 rename b a = ok", f"{LOOKS}\n600 650 p2 link a c = error ENOENT"
    yield "a late link and early looks", partial(has_reason, [*LOOKED, "10 11 p2 join = 2"], *late, "late links, and")
    shared = "100 900 p0 write 0 x6162 = 2", "200 300 p1 read 0 2 = x6130"
    yield "a read under the lock of one offset", partial(has_reason, SHARED, *shared, None)
    large = "100 900 p0 write 1 62*1000 = 1000"
    yield "a larger pipe", partial(has_reason, PIPED, large, "200 300 p1 fork = 2", "room of a pipe (own)")
    torn = "100 900 p0 write 1 61*600 = 600", "200 300 p1 read 0 100 = 61*100\n400 500 p1 read 0 600 = 61*400"
    yield "a write in parts", partial(has_reason, PIPED[:-1], *torn, "a write of more than 512 bytes in parts (own)")
    small, seen = torn[0].replace("600 = 600", "512 = 512"), torn[1]
    yield "a small one in parts", partial(has_reason, PIPED[:-1], small, seen, "a small write goes in by parts (own)")
    over = small.replace("100 900", "100 150")
    yield "a small one in parts that is over", partial(has_reason, PIPED[:-1], over, seen, None)
    ends = "100 900 p1 exit = ok", "200 210 p0 write 1 x61 = error EPIPE\n300 310 p0 read 2 1 = error EAGAIN"
    yield "an exit by closes", partial(has_reason, TWO_PIPES, *ends, "an exit closes its descriptors one by one (own)")
    over = ends[0].replace("900", "250")
    yield "an exit by closes that is over", partial(has_reason, TWO_PIPES, over, ends[1], None)
    for text, reason in OWN_OF_PIPES:
        first, second = text.split("; ")
        yield f"{first} and {second}", partial(has_reason, PIPED[:-1], first, second, reason)
    yield "a larger pipe, in vain", partial(has_reason, PIPED, large, "200 300 p1 read 0 2 = x6162", None)


# ---- the tool


def tool(bench: Bench, *words: str) -> Ran:
    """Runs the tool."""
    command = [sys.executable, str(TOOLS / "race.py"), "--program", bench.program, *words]
    return run(command, seconds=SECONDS + bench.seconds)


def tool_ends(bench: Bench, status: int, words: Sequence[str]) -> None:
    """The tool ends so, and says why in a line of its own."""
    done = tool(bench, *words)
    require(done.status == status and b"race.py: " in done.stderr and not done.stdout, done.said())


def system_is_explained(bench: Bench) -> None:
    """On the system at hand each history has an order, or a reason."""
    done = tool(bench, "--seconds", str(bench.seconds), "--dir", bench.names, "--driver", bench.driver, "--seed", SEED)
    require(done.status == 0, done.stdout.decode() + done.stderr.decode())
    for kind in race_kinds.KINDS:
        require(re.search(rf"(?m)^{kind}: [1-9]\d* scripts?, [1-9]", done.stdout.decode()), f"{kind} is not raced")
    require(b" 0 without an order and without a reason\n" in done.stdout, done.said())
    bench.is_clean()


def example_has_orders(bench: Bench) -> None:
    """The example is raced, and each history has an order, or has one with larger pipes."""
    for history in bench.races((EXAMPLES / "big-write.race").read_text(encoding="ascii"), "--rounds", "5"):
        is_explained = isinstance(race.explained(history), ordering.Explained)
        require(is_explained or ordering.by_room(history), "\n".join(texts(history)))


def made_driver(bench: Bench, name: str, *lines: str) -> str:
    """The path of a driver that prints one history three times, whatever it is asked."""
    driver = Path(bench.folder, name)
    history = "".join(f"{line}\n" for line in lines)
    driver.write_text("#!/bin/sh\ncat <<END\n" + f"{history}\n" * 3 + "END\n", encoding="ascii")
    driver.chmod(0o755)
    return str(driver)


def counted_without(done: Ran) -> int:
    """How many histories without an order are counted, where each script has three of one form, and none has one."""
    ends = r" histories, (\d+) distinct, -?\d+ calls?, 0 with an order, (\d+) without"
    found = re.search(rf"(?m)^names: (\d+) scripts?, (\d+){ends}$", done.stdout.decode())
    assert found
    scripts, counted, distinct, without = map(int, found.groups())
    same((scripts, 3 * scripts, 3 * scripts), (distinct, counted, without))
    return without


def reasons_are_counted(bench: Bench) -> None:
    """Where all histories without an order have a reason, the line of the reason has as many as that of the kind."""
    lines = ["0 1 p0 join = 0", "2 3 p0 pipe = 0 1", "4 5 p0 write 1 61*600 = 600", "6 7 p0 write 1 62*600 = 600"]
    done = tool(bench, "--seconds", "0.5", "--kind", "names", "--driver", made_driver(bench, "roomy", *lines))
    room = f"room of a pipe (own) (page of write{race.CAPACITY})"
    last = [room, "       0 without an order and without a reason"]
    same((0, [f"{counted_without(done):8} {last[0]}", last[1]]), (done.status, done.stdout.decode().splitlines()[-2:]))


def impossible_is_told(bench: Bench) -> None:
    """A history without an order and without a reason is told, shown and kept, and is status 1."""
    kept = os.path.join(bench.folder, "kept")
    os.mkdir(kept)
    driver = made_driver(bench, "impossible", "0 1 p0 join = 0", "2 3 p0 pipe = 7 8", "4 5 p0 dup 7 = 0")
    done = tool(bench, "--seconds", "1", "--kind", "names", "--driver", driver, "--keep", kept, "--seed", "a")
    require(done.status == 1 and b"names 0 of seed a: no order explains\n" in done.stdout, done.said())
    require(b"2 3 p0 pipe = 7 8\n" in done.stdout, done.said())
    without = counted_without(done)
    same(f"{without:8} without an order and without a reason", done.stdout.decode().splitlines()[-1])
    same(race_kinds.script_of("names", "a", 0), Path(kept, "names-0-of-seed-a.script").read_text())
    kept_histories = histories.read_histories(Path(kept, "names-0-of-seed-a.histories").read_text())
    same("p0 pipe = 7 8", texts(kept_histories[0])[1])


def term_leaves_nothing(bench: Bench) -> None:
    """A tool that is ended by SIGTERM leaves no process and no folder."""
    words = [str(TOOLS / "race.py"), "--program", bench.program, "--seconds", "60", "--driver", bench.driver]
    process = subprocess.Popen([sys.executable, *words, "--dir", bench.names], stdout=subprocess.DEVNULL)
    until = time.monotonic() + SECONDS
    while not bench.processes() and time.monotonic() < until:
        time.sleep(0.01)
    process.terminate()
    same(128 + signal.SIGTERM, process.wait(timeout=SECONDS))
    bench.is_clean()


def tool_cases(bench: Bench) -> Iterator[Case]:
    """The tool: what it is told, and what it finds here."""
    for words in (["--kind", "none"], ["--processes", "1"], ["--dir", "/no/such"], ["--keep", "/no/such"], ["a", "b"]):
        yield f"words {words}", partial(tool_ends, bench, 2, ["--seconds", "1", *words])
    for words in (["a", "--kind", "names"], ["a", "--processes", "3"]):
        yield f"words {words}", partial(tool_ends, bench, 2, words)
    yield "no time", partial(tool_ends, bench, 2, [])
    yield "states without a file", partial(tool_ends, bench, 2, ["--seconds", "1", "--states", "9"])
    yield "no file", partial(tool_ends, bench, 3, ["/no/such"])
    yield "no program", partial(tool_ends, bench, 3, ["--seconds", "1", "--program", "/no/such"])
    yield "no driver", partial(tool_ends, bench, 3, ["--seconds", "1", "--driver", "/no/such"])
    yield "impossible answers", partial(impossible_is_told, bench)
    yield "answers that all have a reason", partial(reasons_are_counted, bench)
    yield "a summary of a file", partial(tool_ends, bench, 2, ["a", "--summary", "s"])
    yield "the example", partial(example_has_orders, bench)
    if IS_LINUX:
        yield "SIGTERM", partial(term_leaves_nothing, bench)
    yield f"{bench.seconds} seconds of all kinds", partial(system_is_explained, bench)


# ---- wrong systems


def is_found(bench: Bench, way: str, kind: str) -> None:
    """A race of a kind finds a system that is wrong in a way."""
    library = bench.built(compilers()[0], "wrong_system")
    driver = ["env", f"WRONG_SYSTEM={way}", f"LD_PRELOAD={library}", *bench.asks()]
    races = race.Races(race.Asked(bench.program, driver), SEED, None)
    until, number = time.monotonic() + SECONDS, 0
    while time.monotonic() < until:
        if any(not found.reason for found in races.race(kind, number, 0.5)):
            return
        number += 1
    raise Failure(f"{number} scripts of {kind} do not find it")


def turned_is_raced(bench: Bench) -> None:
    """On a system whose writing ends have the lower number they change places, so that pipes are raced, and orders are
    found."""
    library = bench.built(compilers()[0], "wrong_system")
    driver = ["env", "WRONG_SYSTEM=turned", f"LD_PRELOAD={library}", *bench.asks()]
    races = race.Races(race.Asked(bench.program, driver), SEED, None)
    for number in range(3):
        same([], [found for found in races.race("pipe", number, 0.5) if not found.reason])
    require(races.asked.turns_pipes, "no pipe is turned")
    script = "join\np0 pipe\np0 fork\np1 attach\nrace\np0 write 1 x61\np1 read 0 9\n"
    found = races.asked.histories(script, 10, 1)
    same({("p0 pipe = 0 1", "p1 read 0 9 = x61")}, {(texts(it)[1], texts(it)[-1]) for it in map(by_process, found)})


def by_process(history: Sequence[Noted]) -> list[Noted]:
    """The calls of a history, those of each process together."""
    return sorted(history, key=lambda noted: noted.process)


def wrong_cases(bench: Bench) -> Iterator[Case]:
    """Each wrong system."""
    if IS_LINUX:
        yield "turned by pipe, which is not wrong", partial(turned_is_raced, bench)
        yield from ((f"{way} by {kind}", partial(is_found, bench, way, kind)) for way, kind in WRONG.items())
        yield from race_files.wrong_cases(bench.tools(), bench.built(compilers()[0], "wrong_system"))
        yield "nothing is left of them", bench.is_clean


# ---- the whole


def all_parts(bench: Bench) -> Iterator[tuple[str, Iterator[Case]]]:
    """All parts of the test."""
    yield from [("words", word_cases(bench)), ("forms", form_cases(bench)), ("ends", end_cases(bench))]
    yield from [("compilers", compiler_cases(bench)), ("reasons", reason_cases())]
    yield from [("tool", tool_cases(bench)), ("files", race_files.tool_cases(bench.tools()))]
    yield from [("examples", race_files.example_cases(bench.tools())), ("wrong systems", wrong_cases(bench))]


def main(words: Sequence[str]) -> int:
    """Makes all checks: the exit status."""
    seconds = count_option("--seconds", 10, "how long the system at hand is raced")
    args = parsed(words, "Races processes on the system at hand, and on wrong ones.", PROGRAM, seconds, ONLY)
    count = Count(also=(CannotRun, Differs, histories.BadHistory))
    if not compilers():
        lacks_compiler("tools/race_kernel.c is not compiled, and no system is raced")
        return count.end()
    end_without(args.program)
    with tempfile.TemporaryDirectory(prefix="race-") as folder:
        bench = Bench(folder, args.program, args.seconds)
        try:
            return count.parts(all_parts(bench), args.only)
        finally:
            bench.end_all()


if __name__ == "__main__":
    sys.exit(main(sys.argv[1:]))
