#!/usr/bin/env python3
"""Does the kernel of this system do what fdref says, but for reasons that are known? (a minute)

usage: tests/ask_kernel.py [--program PATH] [--scripts N]

The driver is compiled with every warning as an error. Then tools/compare.py runs random scripts and
those of tests/rows that neither a number of records nor a bad line decides: no difference may be
without a reason. Deadlocks have to end, a process that is ended from outside has to be told, and
after a signal no process and no folder may be left. What scripts print that stand in for wrong systems
and drivers has to be told (tests/parts/asked_drivers.py), and so has each single answer that is wrong; one
that is right has its reason (tests/parts/planted_answers.py). Last, each rule of
tests/stand_ins/wrong_oracle.py has to be found out by random scripts, and so have two systems of
tests/stand_ins/wrong_system.c.

Where no C compiler is there, it says so and leaves all of it out. The last line is `N passed, M
failed`, and the exit status is 1 where M is above 0.
"""

import os
import re
import shlex
import shutil
import signal
import subprocess
import sys
import tempfile
import time
from collections.abc import Callable, Iterator, Sequence
from functools import partial
from pathlib import Path
from typing import Any

from parts import asked_drivers, planted_answers
from parts.planted_answers import BOTH_WAYS, FILED, FULL, LEFT_OUT, ORDER, PIPED, STILL, Row
from stand_ins import wrong_oracle
from support.counting import Case, Count, Failure, lacks_compiler, require, same
from support.drivers import IS_LINUX, NOT_AN_ACT, Driver
from support.options import PROGRAM, count_option, end_without, parsed
from support.places import EXAMPLES, STAND_INS, TOOLS
from support.plain_model import DEFAULTS, PIPE_CAPACITY_MOST, Limits
from support.rows import rows
from support.running import Ran, run
from support.texts import difference

import compare
from compare_lines import Asked
from compare_reasons import is_room
from compare_walks import class_of, random_lines, with_looks

SECONDS = 60
SEED = "acceptance"
RULE_SEED = "rules"
RULE_SCRIPTS = 120
# As many bytes in a pipe as on Linux.
ROOMY = Limits(capacity=PIPE_CAPACITY_MOST)
# The ways of tests/stand_ins/wrong_system.c that show without a race.
WRONG_SYSTEMS = ("own", "creation")
WARNINGS = ["-std=c99", "-O2", "-Wall", "-Wextra", "-pedantic", "-Werror"]

CASES: list[tuple[str, Callable[["Bench"], None]]] = []


Check = Callable[..., None]


def case(name: str, *values: Any) -> Callable[[Check], Check]:
    """Marks a function as a case, with the values that it is called with beside the bench."""

    def keep(function: Check) -> Check:
        CASES.append((name, lambda bench: function(bench, *values)))
        return function

    return keep


class Bench(Driver):
    """The driver, as it was compiled, a folder for what it makes, and fdref."""

    def __init__(self, driver: str, names: str, program: str, scripts: int) -> None:
        super().__init__(driver, names)
        self.program = program
        self.scripts = scripts

    def asked(
        self, program: list[str] | None = None, words: Sequence[str] = (), limits: Limits = DEFAULTS
    ) -> Asked:
        """The driver, and fdref or what stands in for it."""
        return Asked(program or [self.program], self.asks(*words), limits)


def gives(done: Ran, lines: bytes, status: int = 0, stderr: bytes = b"") -> None:
    """The driver ended so, and printed this."""
    require(done.status == status, f"status {done.status}, wanted {status}; {done.stderr!r}")
    require(done.stderr == stderr, f"standard error is {done.stderr!r}, wanted {stderr!r}")
    require(done.stdout == lines, f"standard output differs in {difference(lines, done.stdout)}")


def differs_nowhere(asked: Asked, lines: list[bytes]) -> None:
    """Each difference of a script has a reason."""
    result = compare.checked(asked, lines)
    if result.unexplained:
        raise Failure(f"a difference without a reason:\n{compare.told(result.unexplained)}")


# ---- what it prints


@case("words that are none", 2, "--wait")
@case("no time", 2, "--wait", "0")
@case("a word too many", 2, "script")
@case("help", 0, "--help")
def is_usage(bench: Bench, status: int, *words: str) -> None:
    """A command line that is told how to be."""
    done = run([bench.driver, *words])
    require(done.status == status, f"status {done.status}, wanted {status}")
    require(b"usage: ask_kernel" in (done.stderr if status else done.stdout), "no usage is told")


@case("no such call", b"join\np0 opne a r\n", b"0 p0 join = 0\n", 2)
@case("a leading zero", b"p0 close 00\n", b"", 1)
@case("an empty word", b"p0  pipe\n", b"", 1)
@case("flags out of order", b"p0 open a r,nonblock,append\n", b"", 1)
@case("an empty flag", b"p0 open a r,,append\n", b"", 1)
@case("flags without a mode", b"p0 setfl 0 append\n", b"", 1)
@case("no flags", b"join\np0 setfl 0\n", b"0 p0 join = 0\n", 2)
@case("upper case", b"p0 write 0 xAB\n", b"", 1)
@case("a zero byte", b"join\0\n", b"", 1)
@case("a word is missing", b"\np0 close\n", b"", 2)
def is_bad_line(bench: Bench, script: bytes, lines: bytes, line: int) -> None:
    """A script that is refused for a line."""
    gives(bench.run(script), lines, 3, b"ask_kernel: line %d: %b\n" % (line, NOT_AN_ACT))


@case("spellings")
def spellings_are_fdrefs(bench: Bench) -> None:
    """Names and data are spelled in the lines as fdref spells them."""
    script = b"join\np0 open %61 rw,creat\np0 write 0 61*3\np0 write 0 x" + b"61" * 17 + b"\np0 fstat 0\n"
    lines = b"0 p0 join = 0\n1 p0 open a rw,creat = 0\n2 p0 write 0 x616161 = 3\n3 p0 write 0 61*17 = 17\n"
    lines += b"4 p0 fstat 0 = regular 20 1\nrecords 5 in 20 out 0\n"
    gives(bench.run(script), lines)


@case(
    "flags of files and pipes",
    b"p0 open a rw,creat,excl\np0 open a w,trunc,append\np0 open a r,nonblock\np0 pipe\np0 mkfifo f\n"
    b"p0 open f r,append,nonblock\np0 open f w\n",
    {0: 3, 1: 34, 2: 65, 3: 1, 4: 2, 5: 97, 6: 2},
)
@case("setfl without flags", b"p0 open a rw,creat,append,nonblock\np0 setfl 0 -\n", {0: 3})
@case("setfl with both", b"p0 open a r,creat\np0 setfl 0 -,append,nonblock\n", {0: 97})
@case("setfl with one in place of the other", b"p0 open a w,creat,append\np0 setfl 0 -,nonblock\n", {0: 66})
@case("a mode that setfl ignores", b"p0 open a r,creat\np0 setfl 0 rw,append\np0 setfl 0 w,append\n", {0: 33})
@case("flags that setfl ignores", b"p0 open a rw,creat\np0 write 0 x61\np0 setfl 0 w,creat,excl,trunc\n", {0: 3})
@case("setfl of a description", b"p0 open a rw,creat\np0 dup 0\np0 open a r\np0 setfl 1 -,append\n", {0: 35, 2: 1})
@case("setfl of a pipe", b"p0 pipe\np0 setfl 1 -,append,nonblock\n", {0: 1, 1: 98})
def flags_are(bench: Bench, calls: bytes, flags: dict[int, int]) -> None:
    """What F_GETFL tells after these calls, by the page of fcntl."""
    looks = b"".join(b"p0 getfl %d\n" % fd for fd in flags)
    done = bench.run(b"join\n" + calls + looks)
    told = [line.split(b" ", 1)[1] for line in done.stdout.splitlines()[-1 - len(flags) : -1]]
    require(told == [b"p0 getfl %d = %d" % it for it in flags.items()], f"{done.stdout!r}")


@case("a rename over an open file")
def rename_is_asked(bench: Bench) -> None:
    """A rename takes the old name away, and leaves what was open; one of two names of a file changes nothing."""
    script = b"join\np0 open a rw,creat\np0 write 0 x61\np0 open b rw,creat\np0 rename b a\np0 fstat 0\n"
    script += b"p0 pread 0 0 9\np0 fstat 1\np0 rename b a\np0 link a c\np0 rename a c\np0 fstat 1\n"
    lines = b"0 p0 join = 0\n1 p0 open a rw,creat = 0\n2 p0 write 0 x61 = 1\n3 p0 open b rw,creat = 1\n"
    lines += b"4 p0 rename b a = ok\n5 p0 fstat 0 = regular 1 0\n6 p0 pread 0 0 9 = x61\n7 p0 fstat 1 = regular 0 1\n"
    lines += b"8 p0 rename b a = error ENOENT\n9 p0 link a c = ok\n10 p0 rename a c = ok\n"
    lines += b"11 p0 fstat 1 = regular 0 2\nrecords 12 in 1 out 1\n"
    gives(bench.run(script), lines)


@case("a name that leads out of the folder", "../left")
@case("a path", "names/left")
@case("the folder itself", ".")
@case("the folder above", "..")
@case("a name with a zero byte", "left%00")
def is_not_asked(bench: Bench, name: str) -> None:
    """A name that the driver gives to no system."""
    script = b"join\np0 open %s rw,creat\np0 mkfifo %s\np0 link %s a\np0 unlink %s\np0 rename %s a\np0 rename a %s\n"
    done = bench.run(script % ((name.encode(),) * 6))
    require(done.status == 0 and done.stdout.count(b" = not asked\n") == 6, f"{done.stdout!r}")


@case("the driver's own descriptors are nobody's")
def channels_are_out_of_reach(bench: Bench) -> None:
    """Descriptors past those of the profile are refused, and the driver goes on."""
    calls = [b"close %d", b"dup %d", b"fstat %d", b"write %d x61", b"read %d 1", b"dup2 %d 0", b"dup2 0 %d"]
    calls += [b"getfl %d", b"setfl %d -"]
    script = (
        b"join\np0 pipe\n"
        + b"".join(b"p0 %s\n" % (call % fd) for fd in range(32, 80) for call in calls)
        + b"p0 dup 1\n"
    )
    done = bench.run(script)
    is_refused = done.stdout.count(b" = error EBADF\n") == 48 * len(calls)
    require(done.status == 0 and is_refused, f"{done.stdout[-300:]!r}")
    require(b" p0 dup 1 = 2\n" in done.stdout, "the process does not answer any more")


@case("two readers", "two-readers.script")
@case("a shared offset", "shared-offset.script")
def example_is_fdrefs(bench: Bench, name: str) -> None:
    """An example, in which nothing differs."""
    is_fdrefs(bench, lines_of((EXAMPLES / name).read_bytes()))


def lines_of(script: bytes) -> list[bytes]:
    """The lines of a script that are acts."""
    return [line for line in script.split(b"\n") if line]


@case("a large write that waits")
def large_write_is_told(bench: Bench) -> None:
    """The two writes are more than pipes hold: one comes back by itself when all is read."""
    script = b"join\np0 pipe\np0 fork\np1 attach\n" + b"p0 write 1 61*65536\n" * 40 + b"p1 read 0 65536\n" * 3
    done = bench.run(script)
    parked = done.stdout.index(b" p0 write 1 61*65536 = parked ?\n")
    require(done.status == 0 and b" p0 resume = " in done.stdout[parked:], f"{done.stdout[-600:]!r}")


# ---- ends


@case(
    "a deadlock of one process",
    b"p0 pipe\np0 read 0 1\n",
    b"1 p0 pipe = 0 1\n2 p0 read 0 1 = parked 0\nrecords 3 in 0 out 0\n",
)
@case(
    "two opens that wait for nobody",
    b"p0 mkfifo a\np0 open a r\n",
    b"1 p0 mkfifo a = ok\n2 p0 open a r = parked 0\nrecords 3 in 0 out 0\n",
)
@case(
    "a call of one that waits",
    b"p0 pipe\np0 read 0 1\np0 fork\n",
    b"1 p0 pipe = 0 1\n2 p0 read 0 1 = parked 0\n- p0 fork = refused Waiting\nrecords 3 in 0 out 0\n",
)
@case(
    "an exit of one that waits",
    b"p0 pipe\np0 read 0 1\np0 exit\n",
    b"1 p0 pipe = 0 1\n2 p0 read 0 1 = parked 0\n3 p0 exit = ok\nrecords 4 in 0 out 0\n",
)
def deadlock_ends(bench: Bench, calls: bytes, lines: bytes) -> None:
    """Where nobody can go on, the driver ends the script."""
    gives(bench.run(b"join\n" + calls), b"0 p0 join = 0\n" + lines)
    gives(bench.run(b"join\n" + calls, "--wait", "30"), b"0 p0 join = 0\n" + lines)


def waiting(bench: Bench) -> tuple[subprocess.Popen[bytes], list[int]]:
    """The driver, whose script is not at its end, and the numbers of its two processes, which wait."""
    process = subprocess.Popen(bench.asks(), stdin=subprocess.PIPE, stdout=subprocess.PIPE, stderr=subprocess.PIPE)
    assert process.stdin
    process.stdin.write(b"join\np0 pipe\np0 fork\np1 attach\np1 read 0 1\np0 read 0 1\n")
    process.stdin.flush()
    until = time.monotonic() + SECONDS
    while True:
        found = bench.working()
        if len(found) == 2:
            time.sleep(0.3)
            return process, found
        require(time.monotonic() < until, "the processes do not come")
        time.sleep(0.01)


@case("SIGTERM", signal.SIGTERM)
@case("SIGINT", signal.SIGINT)
@case("SIGHUP", signal.SIGHUP)
@case("SIGKILL", signal.SIGKILL)
def signal_leaves_nothing(bench: Bench, number: int) -> None:
    """A driver that a signal ends leaves no process and no folder."""
    if IS_LINUX:
        process, _ = waiting(bench)
        process.send_signal(number)
        process.communicate(timeout=SECONDS)
        require(process.returncode == -number, f"status {process.returncode}, wanted {-number}")
        bench.is_clean()


@case("killed at any moment")
def kills_leave_nothing(bench: Bench) -> None:
    """A driver that is killed at any moment leaves no process and no folder."""
    if IS_LINUX:
        bench.is_killed_often(b"join\np0 pipe\np0 fork\np1 attach\np1 read 0 1\np0 read 0 1\n")


@case("a process that is killed", signal.SIGKILL, 6, b"was ended from outside\n")
@case("a process that is stopped", signal.SIGSTOP, 7, b"neither answered nor slept for ten seconds\n")
def outside_is_told(bench: Bench, number: int, status: int, text: bytes) -> None:
    """What is done to the processes of a script from outside is told."""
    if IS_LINUX:
        process, found = waiting(bench)
        for it in found:
            os.kill(it, number)
        stdout, stderr = process.communicate(b"join\n", timeout=SECONDS)
        is_told = stderr.endswith(text)
        require(process.returncode == status and is_told, f"status {process.returncode}: {stderr!r}")
        require(stdout.startswith(b"0 p0 join = 0\n1 p0 pipe = 0 1\n"), f"{stdout!r}")
        bench.is_clean()


# ---- against fdref


# rows of which a limit of the profile decides so much that little else is asked
LIMITED = """
    a-thousand-names fifos-fill-the-names pipe-in-a-full-table-of-descriptions tables-at-their-ends
    sixty-fifth-process sixty-four-processes refused-fork-after-the-closing
""".split()


def row_cases(bench: Bench) -> Iterator[Case]:
    """A case for each row that neither a number of records nor a bad line decides."""
    for row in rows():
        if row.name not in LIMITED and not row.has("args") and not row.has("status"):
            yield f"row {row.name}", partial(is_fdrefs, bench, lines_of(row.script()))


def is_fdrefs(bench: Bench, lines: list[bytes]) -> None:
    """A script in which nothing differs."""
    differs_nowhere(bench.asked(), lines)


def random_scripts(bench: Bench) -> Iterator[Case]:
    """Random scripts of each class."""
    asked = bench.asked()
    for number in range(bench.scripts):
        lines = random_lines(SEED, number, 60, class_of(number, "all"))
        yield f"random script {number}", partial(differs_nowhere, asked, lines)


@case("waits that are told by time", "two-readers.script")
def time_tells_the_same(bench: Bench, name: str) -> None:
    """On a busy machine a call may take long: the time is one in which it answers all the same."""
    differs_nowhere(bench.asked(words=("--wait", "1000")), lines_of((EXAMPLES / name).read_bytes()))


@case("a system whose pipes have the room of the profile's")
def question_marks_fit(bench: Bench) -> None:
    """What the driver cannot see is told by a `?`, and differs from nothing."""
    asked = Asked([bench.program], [sys.executable, str(STAND_INS / "settled_driver.py")])
    require(asked.has_same_room, "the room of its pipes is not seen")
    for number in range(10):
        differs_nowhere(asked, random_lines(SEED, number, 60, "full-pipes"))


def settled_with(answer: str, other: str) -> list[str]:
    """The command of a system that does all that the profile says, but that gives another answer somewhere."""
    settled = shlex.join([sys.executable, str(STAND_INS / "settled_driver.py")])
    return ["sh", "-c", f"{settled} | sed 's/^\\([0-9]*\\) {answer}$/\\1 {other}/'"]


@case("a pipe whose ends are told the other way round", "1 0", ["which end of a pipe has the lower number", None])
@case("a pipe with another end", "2 0", [None])
def pipe_is_told(bench: Bench, ends: str, wanted: list[str | None]) -> None:
    """The numbers of a pipe's ends may be either way round, and no others. Whether they are is seen in what follows."""
    asked = Asked([bench.program], settled_with("p0 pipe = 0 1", f"p0 pipe = {ends}"))
    found = compare.checked(asked, lines_of(b"join\np0 pipe\n")).differences
    reasons = [it.reason and it.reason.name for it in found]
    require(reasons == wanted, f"{reasons}")


NONBLOCK = b"p0 setfl 1 -,nonblock\n"


@case("a small write in part", NONBLOCK, "61*100", "error EAGAIN", "24")
@case("a small write of nothing", NONBLOCK, "61*100", "error EAGAIN", "0")
@case("a write of more than was asked for", NONBLOCK, "61*600", "24", "601")
@case("no room for a write that may wait", b"", "61*100", "parked 0", "error EAGAIN")
@case("a write that may wait, in part", b"", "61*600", "parked ?", "24")
def write_is_wrong(bench: Bench, calls: bytes, data: str, answer: str, wrong: str) -> None:
    """An answer to a write that no room of a pipe explains is told without a reason."""
    driver = settled_with(f"p0 write 1 {re.escape(data)} = {answer}", f"p0 write 1 {data} = {wrong}")
    lines = lines_of(b"join\np0 pipe\n" + calls + b"p0 write 1 61*1000\np0 write 1 %s\n" % data.encode())
    result = compare.checked(Asked([bench.program], driver), lines)
    found = result.unexplained
    require(found and (found.system, found.act.word) == (wrong, "write"), f"{found and compare.told(found)}")


@case("pipes of as many bytes as on Linux")
def full_pipes_are_compared(bench: Bench) -> None:
    """Where pipes have the same room, nothing differs by that but what follows from pages that are not full."""
    if not IS_LINUX:
        return
    asked = bench.asked(limits=ROOMY)
    require(asked.has_same_room and not asked.counts_bytes, "the room of its pipes is not seen")
    same(os.sysconf("SC_PAGE_SIZE"), asked.page)
    for number in range(20):
        result = compare.checked(asked, random_lines(SEED, number, 60, "full-pipes", ROOMY))
        require(not result.unexplained, f"script {number}: {result.unexplained and compare.told(result.unexplained)}")
        by_room = [it for it in result.differences if it.reason and it.reason.fits is is_room]
        require(not by_room, f"script {number}: {by_room and compare.told(by_room[0])}")


@case("a pipe that is full", b"p0 write 1 61*65536\np0 write 1 61*600\n", [])
@case(
    "pages that are not full",
    b"p0 write 1 61*3000\n" * 16 + b"p0 write 1 61*5000\n",
    ["p0 write 1 61*5000 = 5000: room of a pipe that is counted in pages"],
)
@case(
    "a large write for which there is not all room",
    b"p0 write 1 61*65500\np0 write 1 61*600\n",
    ["p0 write 1 61*600 = parked 36: room of a pipe that is counted in pages"],
)
@case(
    "nonblock that is set while a write waits",
    b"p0 fork\np1 attach\np0 write 1 61*65536\np0 write 1 62*20480\np1 setfl 1 w,nonblock\np1 read 0 8192\n",
    ["p0 resume = part 8192: nonblock set while a write waits"],
)
def room_is_told(bench: Bench, writes: bytes, wanted: list[str]) -> None:
    """A write for which a pipe of Linux has less room, since it has pages, or that it ends, is told with its reason."""
    if IS_LINUX:
        lines = lines_of(b"join\np0 pipe\n" + writes)
        found = [
            f"{it.lines[it.place].act} = {it.fdref}: {it.reason and it.reason.name}"
            for it in compare.checked(bench.asked(limits=ROOMY), lines).differences
            if it.words("write", "resume")
        ]
        require(found == wanted, f"{found}")


TWO = b"p0 pipe\np0 fork\np1 attach\n"
FILLED = b"p0 write 1 61*65536\np0 write 1 62*20000\n"
WAITS = TWO + FILLED


@case("a read of less, while a write waits for a page", WAITS + b"p1 read 0 100\np1 read 0 65536\n", "read")
@case("and after that", WAITS + b"p1 read 0 100\np0 exit\np1 read 0 65536\n", "read")
@case("a write that moves less", TWO + b"p0 close 0\n" + FILLED + b"p1 read 0 5000\np1 close 0\n", "resume")
@case("a small write that waits for a page", TWO + b"p0 write 1 61*65535\np0 write 1 62*2\np1 read 0 1\n", "resume")
@case("a write that waits for a page", WAITS.replace(b"20000", b"600") + b"p1 read 0 1000\n", "resume")
def page_is_told(bench: Bench, calls: bytes, word: str) -> None:
    """What a pipe of Linux that has pages does otherwise once a write waits is told with that reason."""
    if IS_LINUX:
        found = compare.checked(bench.asked(limits=ROOMY), lines_of(b"join\n" + calls)).differences
        told = {(it.act.word, it.reason and it.reason.name) for it in found if not it.words("fstat")}
        require(told == {(word, "room of a pipe that is counted in pages")}, f"{told}")


def says(bench: Bench, text: bytes, *words: str) -> tuple[int, list[str]]:
    """How tools/compare.py ends for a script, and what it prints."""
    path = Path(bench.names, "told.script")
    path.write_bytes(text)
    command = [sys.executable, str(TOOLS / "compare.py"), "--program", bench.program, "--ask", shlex.join(bench.asks())]
    ran = run([*command, *words, str(path)], seconds=SECONDS)
    path.unlink()
    return ran.status, ran.stdout.decode("ascii").splitlines()


@case("acts that are struck")
def struck_acts_are_told(bench: Bench) -> None:
    """The last line names the acts that were struck."""
    if not IS_LINUX:
        return
    status, lines = says(bench, b"join\np0 mkfifo f\np0 open f rw\np0 mkfifo g\np0 open g rw\n")
    last = "       2 acts were struck and not compared: p0 open f rw; p0 open g rw"
    require((status, lines[-1]) == (0, last), f"status {status}: {lines}")


@case("one difference")
def one_difference_is_told(bench: Bench) -> None:
    """One difference is not the first of several, and is counted as one."""
    if IS_LINUX:
        status, lines = says(bench, b"join\np0 pipe\np0 write 1 61*1025\n")
        require(status == 0 and lines[0].endswith("told.script: a difference"), f"status {status}: {lines}")
        require(any(re.fullmatch(r"1 script, \d+ calls, 1 difference", line) for line in lines), f"{lines}")


@case(
    "the first is settled, and one that is struck comes later",
    b"p0 open a rw,creat\np0 pwrite 0 9223372036854775807 x6162\np0 read 0 65537\n",
    ["system: 2 p0 pwrite 0 9223372036854775807 x6162 = error EINVAL"],
)
@case(
    "the first is struck, and one that is settled comes later",
    b"p0 pipe\np0 write 1 61*1025\np0 fstat 0\n",
    ["system: 2 p0 write 1 61*1025 = 1025"],
)
@case(
    "the second of two that are struck comes first",
    b"p0 pipe\np0 open a r,creat\np0 fstat 0\np0 write 1 61*3000\np0 open a r,trunc\n",
    ["  2 p0 open a r,creat = 2", "system: 3 p0 fstat 0 = pipe 0 1"],
)
def first_is_told(bench: Bench, calls: bytes, wanted: list[str]) -> None:
    """The first difference of a script is told as that, with lines before it in which nothing differs."""
    if IS_LINUX:
        status, lines = says(bench, b"join\n" + calls)
        found = next(place for place, line in enumerate(lines) if line.startswith("system: "))
        require(status == 0 and "the first of " in lines[0], f"status {status}: {lines}")
        require(lines[found + 1 - len(wanted) : found + 1] == wanted, f"{lines}")
        require(not any("and fdref says" in line for line in lines), f"{lines}")


@case("lines that differ before a difference")
def earlier_are_told(bench: Bench) -> None:
    """Of a line that differs, before a difference that is told, what fdref says is told, too."""
    if IS_LINUX:
        lines = lines_of(b"join\np0 pipe\np0 fstat 0\np0 write 1 61*3000\n")
        _, found = compare.compared(bench.asked(), lines)
        told = compare.told(found[-1]).splitlines()
        wanted = ["  2 p0 fstat 0 = pipe 0 1, and fdref says pipe 0 0", "system: 3 p0 write 1 61*3000 = 3000"]
        require(told[2:4] == wanted, f"{told}")


@case("a capacity that is handed on")
def capacity_is_handed_on(bench: Bench) -> None:
    """With more room in fdref's pipes a write is not struck; one that is no capacity is a wrong word."""
    if not IS_LINUX:
        return
    status, lines = says(bench, b"join\np0 pipe\np0 write 1 61*3000\n", "--pipe-capacity", "65536")
    require((status, lines[-1]) == (0, "       0 without a reason"), f"status {status}: {lines}")
    for word in ("511", "65537", "x"):
        status, lines = says(bench, b"join\n", "--pipe-capacity", word)
        require((status, lines) == (2, []), f"status {status}: {lines}")


@case("a fault in a script")
def fault_is_told(bench: Bench) -> None:
    """A line that is no act is told as fdref tells it."""
    status, lines = says(bench, b"join\n\np0 read 0\n")
    told = "line 3 column 10: not an act, expected a count of bytes, from 0 to 4294967295"
    require(status == 3 and lines[0].endswith(f"told.script: {told}"), f"status {status}: {lines}")


@case("comments and strings")
def text_is_compared(bench: Bench) -> None:
    """With --text a script may have comments and strings, and its fault is told at the column of the text."""
    text = b'# all of it\njoin   # one\np0 open a rw,creat\np0 write 0 "a # b"\np0 pread 0 0 9\n'
    status, lines = says(bench, text, "--text")
    require((status, lines[-1]) == (0, "       0 without a reason"), f"status {status}: {lines}")
    require(any(line.startswith("1 script, ") for line in lines), f"{lines}")
    told = "line 1 column 1: not an act, expected an act; comments and strings are read with --text"
    status, lines = says(bench, text)
    require(status == 3 and lines[0].endswith(f"told.script: {told}"), f"status {status}: {lines}")
    status, lines = says(bench, text + b'  # a line of it\np0 write 0 "a" b # c\n', "--text")
    require(status == 3 and "line 7 column 16: not an act, expected the end of" in lines[0], f"status {status}: {lines}")


@case("a folder without a script")
def no_script_is_told(bench: Bench) -> None:
    """A folder without a script is a wrong word."""
    command = [sys.executable, str(TOOLS / "compare.py"), "--program", bench.program, bench.names]
    ran = run(command, seconds=SECONDS)
    require(ran.status == 2 and b"error: there is no file" in ran.stderr, ran.said())


# ---- wrong rules


def rule_words(rule: str) -> list[str]:
    """The command that stands in for an fdref with a wrong rule."""
    return [sys.executable, str(STAND_INS / "wrong_oracle.py"), rule]


@case("an oracle without a wrong rule")
def unchanged_is_right(bench: Bench) -> None:
    """Without a wrong rule, what stands in for fdref prints what fdref prints."""
    right, same = bench.asked(), bench.asked(rule_words("none"))
    for number in range(10):
        lines = right.system(with_looks(random_lines(RULE_SEED, number, 60, "small")))
        require(right.fdref(lines) == same.fdref(lines), f"script {number}: the model prints something else than fdref")


def rules(bench: Bench) -> Iterator[Case]:
    """Each wrong rule."""
    for rule, (text, _) in wrong_oracle.RULES.items():
        yield f"wrong rule {rule}", partial(is_found, bench, rule, text)


def is_found(bench: Bench, rule: str, text: str) -> None:
    """Random scripts find a wrong rule."""
    asked = bench.asked(rule_words(rule))
    for number in range(RULE_SCRIPTS):
        if compare.checked(asked, random_lines(RULE_SEED, number, 60, "small")).unexplained:
            return
    raise Failure(f"{RULE_SCRIPTS} scripts do not find that {text}")


# ---- wrong systems


def wrong_systems(bench: Bench) -> Iterator[Case]:
    """Each wrong system that one call after another finds out."""
    if IS_LINUX:
        library = os.path.join(os.path.dirname(bench.driver), "wrong_system")
        words = [os.environ.get("CC", "cc"), "-std=c11", "-O2", "-shared", "-fPIC", "-o", library]
        subprocess.run([*words, str(STAND_INS / "wrong_system.c")], check=True)
        yield from ((f"a wrong system: {way}", partial(is_wrong_system, bench, library, way)) for way in WRONG_SYSTEMS)


def is_wrong_system(bench: Bench, library: str, way: str) -> None:
    """Random scripts find a system that is wrong in a way."""
    driver = ["env", f"WRONG_SYSTEM={way}", f"LD_PRELOAD={library}", *bench.asks()]
    asked = Asked([bench.program], driver)
    for number in range(RULE_SCRIPTS):
        if compare.checked(asked, random_lines(RULE_SEED, number, 60, "small")).unexplained:
            return
    raise Failure(f"{RULE_SCRIPTS} scripts do not find it")


# Single answers of one more call, as in tests/parts/planted_answers.py.
DUPLICATES = [
    Row(f"{FULL}; p0 dup 40", "p0 dup 40", "error EMFILE", ORDER),
    Row(f"{FULL}; p0 dup 0", "p0 dup 0", "error EBADF"),
    Row(f"{FILED}; p0 dup 7", "p0 dup 7", "error EMFILE"),
    Row(f"{FILED}; p0 dup 0", "p0 dup 0", "2"),
    Row(f"{STILL}; p0 dup 0; p0 getfl 1", "p0 getfl 1", "3", LEFT_OUT),
    Row(f"{STILL}; p0 dup 0; p0 setfl 1 -,nonblock; p0 getfl 0", "p0 getfl 0", "3"),
    Row(f"{PIPED}; p0 dup 0; p0 write 2 x61", "p0 write 2 x61", "1", BOTH_WAYS),
]


# ---- the whole


def all_cases(bench: Bench) -> Iterator[Case]:
    """All cases, in their order."""
    yield from ((name, partial(check, bench)) for name, check in CASES)
    yield from asked_drivers.cases(bench.program, os.path.dirname(bench.driver))
    yield from planted_answers.cases(bench.program, DUPLICATES)
    yield from row_cases(bench)
    yield from random_scripts(bench)
    yield from rules(bench)
    yield from wrong_systems(bench)


def main(words: Sequence[str]) -> int:
    """Makes all checks: the exit status."""
    about = "Compiles tools/ask_kernel.c, and holds fdref against the system at hand with it."
    args = parsed(words, about, PROGRAM, count_option("--scripts", 100, "how many random scripts"))
    compiler = os.environ.get("CC", "cc")
    count = Count()
    if not shutil.which(compiler):
        lacks_compiler("tools/ask_kernel.c is not compiled, and no system is asked")
        return count.end()
    end_without(args.program)
    with tempfile.TemporaryDirectory(prefix="ask-") as folder:
        driver, names = os.path.join(os.path.realpath(folder), "ask_kernel"), os.path.join(folder, "names")
        os.mkdir(names)
        source = str(TOOLS / "ask_kernel.c")
        compiled = subprocess.run(
            [compiler, *WARNINGS, "-o", driver, source], capture_output=True, text=True, check=False
        )
        if compiled.returncode or compiled.stdout or compiled.stderr:
            count.fail(compiler, f"it says\n{compiled.stdout}{compiled.stderr}")
        else:
            count.check_all(all_cases(Bench(driver, names, args.program, args.scripts)))
    return count.end()


if __name__ == "__main__":
    sys.exit(main(sys.argv[1:]))
