#!/usr/bin/env python3
"""Times `fdref replay` on scripts of growing length, and looks at its memory.

usage: bench/replay.py [--runs N] [PROGRAM]

PROGRAM is crates/fdref/out/fdref where none is given. The scripts are the same at each call. Each
begins with one join. The first three then repeat a burst of 86 acts: two openings of one file, 40
writes of 8 bytes through the one and 40 reads of 8 bytes through the other, their closings, and the
opening and closing of one of five other names. The writes are spelled `61*8`, so that 999,000 acts
fit into a script. A time is the best of N runs (3), from the start of the program to its end, with
the output going to a file. The growth is the cost of an act over its cost in the script before:
1.00 where the cost does not depend on the length of the run.

`churn` makes a file, writes 64 bytes, gives it a second name, takes both away, reads the bytes back through
the descriptor and closes it, among 300 names of a set of 500. `wide` has 60 processes with 15 descriptors
each beside 1,000 names, and writes, seeks, reads, asks, opens and closes among them: no contract says that a
descriptor finds its description at the first look, and a search among 900 would show here. In `elders` 1,100 other
processes have come and gone after these 60, so a process that lost its place among the first looks would show.
`dups` duplicates
descriptors, to the lowest free number, to one that is free and over one that is open, and closes them.
`forks` forks and attaches children, which write through the offset that they share with their parent and
exit; at most 60 processes are live. `pipes` writes 64 bytes into a pipe and reads them. `parks` has writes of
2,000 bytes that wait, and that two resumes take to their end, between reads. `big` has writes of 65,536 bytes
to a pipe, each resumed 63 times and read by 1,024 bytes: `big 61*65536` of one byte, `big x6162..` of bytes
that differ. `9,000 files` are made, written one byte at their end, unlinked and closed, one after another:
what went must not stay in memory, so a peak of 80 MiB fails. `1,000 holes` are files that stay, of 1 MiB with
one byte at the end: what nobody wrote must take no memory, so a peak of 40 MiB fails; of `far holes`, of 2^40
bytes, one of 80 MiB.

`64 KiB, ..` has writes of 65,536 bytes spread over files of sixteen writes each. In the spelling
`61*65536` there are 1,000 of them. In the spelling `x6162..` each
takes 131,085 bytes of a script that holds 16,777,216 at most, so there are 127 of them; their bytes
differ, since that is what such a spelling is for. The peak is what the system tells of the child,
which cannot be less than what this script itself holds when it starts the child.

`8 bytes in ..` has preads and pwrites of 8 bytes, half of each, at positions spread over a file of 1 KiB
and over one of 1 MiB: an act that costs more in the longer file would cost by what it does not touch.
`64 KiB pwrites` and `64 KiB preads` move whole transfers at positions. A line after them sets the cost of one
such pread beside two copies of its bytes, as this script's own interpreter makes them.

Where valgrind is there, the instructions of an act are counted too, for runs of 10,000 acts, less those of a run of
one act: they move little from run to run.
"""

import argparse
import os
import re
import shutil
import subprocess
import sys
import tempfile
import time
from collections.abc import Callable
from functools import partial

import paths  # noqa: F401
from support.options import absolute
from support.places import FDREF
from support.plain_model import FILE_SIZE_MAX, PIPE_CAPACITY, SCRIPT_MOST
from support.plain_model import TRANSFER_MAX as BIG

GIVEN_BACK_MOST = 80 * 2**20
HOLES_MOST = 40 * 2**20
FAR_HOLES_MOST = 80 * 2**20
# How many bytes a long file has.
LONG = 2**20
RECORDS_MOST = 1_000_000
BURST = 40
BURST_ACTS = 2 * BURST + 6


class Script:
    """A script that is written to a file as it grows, with the line of totals that its run must end in."""

    def __init__(self, name: str, path: str) -> None:
        self.name = name
        self.path = path
        self.acts = 0
        self.size = 0
        self.bytes_in = 0
        self.bytes_out = 0
        self.processes = 1
        self.file = open(path, "w", encoding="ascii")

    def act(self, line: str) -> None:
        """Writes a line."""
        self.file.write(f"{line}\n")
        self.acts += 1
        self.size += len(line) + 1

    def write(self, fd: int, spelling: str, size: int) -> None:
        """A write of so many bytes."""
        self.act(f"p0 write {fd} {spelling}")
        self.bytes_in += size

    def read(self, fd: int, size: int) -> None:
        """A read that gets so many bytes."""
        self.act(f"p0 read {fd} {size}")
        self.bytes_out += size

    def pwrite(self, fd: int, start: int, spelling: str, size: int) -> None:
        """A pwrite of so many bytes."""
        self.act(f"p0 pwrite {fd} {start} {spelling}")
        self.bytes_in += size

    def pread(self, fd: int, start: int, size: int) -> None:
        """A pread that gets so many bytes."""
        self.act(f"p0 pread {fd} {start} {size}")
        self.bytes_out += size

    def done(self) -> "Script":
        """The script, which is written whole."""
        self.file.close()
        assert self.size <= SCRIPT_MOST, f"{self.name}: a script of {self.size} bytes is too long"
        assert self.limit() <= RECORDS_MOST, f"{self.name}: {self.acts} acts are too many"
        return self

    def filled(self, acts: int) -> "Script":
        """The script with as many acts as it is named by."""
        while self.acts < acts:
            self.act("p0 close 31")
        return self.done()

    def limit(self) -> int:
        """The records of the run, and what it needs beyond them: one place for each process, and one more."""
        return self.acts + self.processes + 1

    def closing(self) -> bytes:
        """The last line of its run."""
        return f"records {self.acts} in {self.bytes_in} out {self.bytes_out}\n".encode()


def mix(path: str, acts: int) -> Script:
    """One join, and then bursts up to the number of acts. The file is written and read from its start in each burst."""
    script = Script(f"{acts:,} acts", path)
    script.act("join")
    turn = 0
    while script.acts + BURST_ACTS <= acts:
        script.act("p0 open log w,creat")
        script.act("p0 open log r")
        for step in range(BURST):
            script.write(0, f"{(turn + step) % 256:02x}*8", 8)
            script.read(1, 8)
        script.act("p0 close 1")
        script.act("p0 close 0")
        script.act(f"p0 open n{turn % 5} w,creat")
        script.act("p0 close 0")
        turn += 1
    return script.filled(acts)


def big(path: str, name: str, count: int, spell: Callable[[int], str]) -> Script:
    """Writes of 64 KiB over files of sixteen writes each."""
    script = Script(name, path)
    script.act("join")
    each = LONG // BIG
    for at in range(count):
        if at % each == 0:
            script.act(f"p0 open big{at // each} w,creat")
        script.write(0, spell(at), BIG)
        if at % each == each - 1 or at == count - 1:
            script.act("p0 close 0")
    return script.done()


def opened(script: Script, size: int) -> None:
    """A file of so many bytes, open for both at descriptor 0, and a join before it."""
    script.act("join")
    script.act("p0 open f rw,creat")
    while size > 0:
        script.write(0, f"61*{min(size, BIG)}", min(size, BIG))
        size -= min(size, BIG)


def scattered(path: str, acts: int, size: int) -> Script:
    """Reads and writes of 8 bytes at positions spread over a file."""
    script = Script(f"8 bytes in {size >> 10:,} KiB", path)
    opened(script, size)
    at = 0
    while script.acts < acts:
        # a step that is prime to the number of places visits each of them
        at = (at + 7919) % (size // 8)
        if script.acts % 2 == 0:
            script.pwrite(0, 8 * at, "61*8", 8)
        else:
            script.pread(0, 8 * at, 8)
    return script.done()


def whole(path: str, acts: int, size: int, name: str) -> Script:
    """Reads of so many bytes at positions of a file of 1 MiB."""
    script = Script(name, path)
    opened(script, LONG)
    for at in range(acts):
        script.pread(0, 4096 * at % (LONG - BIG), size)
    return script.done()


def rewritten(path: str, acts: int) -> Script:
    """Writes of 64 KiB at positions of a file of 1 MiB."""
    script = Script("64 KiB pwrites", path)
    opened(script, LONG)
    for at in range(acts):
        script.pwrite(0, 4096 * at % (LONG - BIG), f"61*{BIG}", BIG)
    return script.done()


NAMES = 500
STANDING = 300


def churn(path: str, acts: int) -> Script:
    """Files that are made, named twice, unlinked, read through their descriptor and closed, among 300 names of 500."""
    script = Script(f"churn {acts:,}", path)
    script.act("join")
    # the names that stand are spread over the set, and so are those that come and go
    names = [f"n{at}" for at in range(NAMES)]
    standing = [name for at, name in enumerate(names) if at * STANDING % NAMES < STANDING]
    coming = [name for name in names if name not in set(standing)]
    for name in standing[: STANDING - 1]:
        script.act(f"p0 open {name} r,creat")
        script.act("p0 close 0")
    turn = 0
    while script.acts + 7 <= acts:
        first, second = coming[2 * turn % len(coming)], coming[(2 * turn + 1) % len(coming)]
        script.act(f"p0 open {first} rw,creat")
        script.write(0, "61*64", 64)
        script.act(f"p0 link {first} {second}")
        script.act(f"p0 unlink {first}")
        script.act(f"p0 unlink {second}")
        script.pread(0, 0, 64)
        script.act("p0 close 0")
        turn += 1
    return script.filled(acts)


def wide(path: str, acts: int, later: int = 0) -> Script:
    """Small acts, opens and closes of 60 processes with 15 descriptors each, beside 1,000 names.

    So many other processes have come and gone after them before that.
    """
    script = Script(f"{'elders' if later else 'wide'} {acts:,}", path)
    script.processes = 60
    for _ in range(script.processes):
        script.act("join")
    for child in range(script.processes, script.processes + later):
        script.act("p0 fork")
        script.act(f"p{child} attach")
        script.act(f"p{child} exit")
    for at in range(1_000):
        script.act(f"p0 open n{at} w,creat")
        script.act("p0 close 0")
    for at in range(script.processes * 15):
        script.act(f"p{at // 15} open n{at} rw")
    turn = 0
    while script.acts + 6 <= acts:
        process, fd, name = turn * 7 % script.processes, turn * 11 % 15, turn * 613 % 1_000
        for line in (f"write {fd} 61*8", f"lseek {fd} 0 set", f"read {fd} 8", f"fstat {fd}"):
            script.act(f"p{process} {line}")
        script.bytes_in += 8
        script.bytes_out += 8
        script.act(f"p{process} open n{name} r")
        script.act(f"p{process} close 15")
        turn += 1
    return script.filled(acts)


def dups(path: str, acts: int) -> Script:
    """Descriptors that are duplicated, to free numbers and over open ones, and closed, beside two open files."""
    script = Script(f"dups {acts:,}", path)
    script.act("join")
    script.act("p0 open a rw,creat")
    script.act("p0 open b rw,creat")
    while script.acts + 6 <= acts:
        for line in ("dup 0", "dup2 1 3", "dup2 2 3", "dup2 3 3", "close 2", "close 3"):
            script.act(f"p0 {line}")
    return script.filled(acts)


def forks(path: str, acts: int) -> Script:
    """Children that are forked, attached, write through the offset that they share with their parent, and exit.

    The parent reads on from there; at most 59 of them are live beside it.
    """
    script = Script(f"forks {acts:,}", path)
    script.act("join")
    script.act("p0 open f rw,creat")
    script.write(0, "61*4096", 4_096)
    child, live = 1, 59
    script.processes = live + 1
    while script.acts + 6 <= acts:
        if child % 250 == 1:
            script.act("p0 lseek 0 0 set")
        script.act("p0 fork")
        script.act(f"p{child} attach")
        script.act(f"p{child} write 0 61*8")
        script.bytes_in += 8
        script.read(0, 8)
        if child > live - 1:
            script.act(f"p{child - live + 1} exit")
        child += 1
    return script.filled(acts)


def pipes(path: str, acts: int) -> Script:
    """Writes of 64 bytes into a pipe, each read before the next."""
    script = Script(f"pipes {acts:,}", path)
    script.act("join")
    script.act("p0 pipe")
    while script.acts + 2 <= acts:
        script.write(1, "61*64", 64)
        script.read(0, 64)
    return script.filled(acts)


def two_ends(script: Script) -> None:
    """A pipe that process 0 reads at descriptor 0 and its child, process 1, writes at descriptor 1."""
    script.processes = 2
    for line in ("join", "p0 pipe", "p0 fork", "p1 attach"):
        script.act(line)


def parks(path: str, acts: int) -> Script:
    """Writes of 2,000 bytes that wait, move a part and end, between reads that make room."""
    script = Script(f"parks {acts:,}", path)
    two_ends(script)
    while script.acts + 6 <= acts:
        script.act("p1 write 1 61*2000")
        script.read(0, 600)
        script.act("p1 resume")
        script.read(0, 1_024)
        script.act("p1 resume")
        script.read(0, 376)
        script.bytes_in += 2_000
    return script.filled(acts)


def resumed(path: str, name: str, count: int, spell: Callable[[int], str]) -> Script:
    """Writes of 65,536 bytes to a pipe, each taken to its end by resumes between reads of 1,024 bytes."""
    script = Script(name, path)
    two_ends(script)
    for at in range(count):
        script.act(f"p1 write 1 {spell(at)}")
        for _ in range(BIG // PIPE_CAPACITY - 1):
            script.read(0, PIPE_CAPACITY)
            script.act("p1 resume")
        script.read(0, PIPE_CAPACITY)
        script.bytes_in += BIG
    return script.done()


def holes(path: str, name: str, count: int, length: int) -> Script:
    """Files of this length that stay, each with one byte at its end."""
    script = Script(name, path)
    script.act("join")
    for at in range(count):
        script.act(f"p0 open h{at} w,creat")
        script.pwrite(0, length - 1, "x61", 1)
        script.act("p0 close 0")
    return script.done()


def ends(path: str, files: int) -> Script:
    """Files that are made, written one byte at their end and unlinked while they are open, one after another."""
    script = Script(f"{files:,} files", path)
    script.act("join")
    for _ in range(files):
        script.act("p0 open f w,creat")
        script.pwrite(0, LONG - 1, "61*1", 1)
        script.act("p0 unlink f")
        script.act("p0 close 0")
    return script.done()


def copy_cost() -> float:
    """The microseconds of one copy of 65,536 bytes into memory of its own, the best of some."""
    source = bytes(range(256)) * (BIG // 256)
    best = float("inf")
    for _ in range(5):
        kept = []
        start = time.perf_counter()
        for _ in range(1_000):
            kept.append(bytearray(source))
        best = min(best, (time.perf_counter() - start) * 1e3)
    return best


def counted(at: int) -> str:
    """64 KiB of one byte."""
    return f"{at % 256:02x}*{BIG}"


def spelled(at: int) -> str:
    """64 KiB of bytes that differ."""
    return "x" + bytes((at + step) % 256 for step in range(256)).hex() * (BIG // 256)


class Measure:
    """One run: its seconds, and the most memory that it held, in bytes."""

    def __init__(self, seconds: float, memory: int) -> None:
        self.seconds = seconds
        self.memory = memory


def once(program: str, words: list[str], source: str, target: str) -> Measure:
    """Runs the program once, from one file to another."""
    with open(source, "rb") as reading, open(target, "wb") as writing:
        start = time.perf_counter()
        child = subprocess.Popen([program, *words], stdin=reading, stdout=writing)
        # wait4 tells the memory of this one child
        _, status, usage = os.wait4(child.pid, 0)
        seconds = time.perf_counter() - start
        child.returncode = os.waitstatus_to_exitcode(status)
    if child.returncode != 0:
        sys.exit(f"{' '.join(words)}: the program ended with status {child.returncode}")
    return Measure(seconds, usage.ru_maxrss * 1024)


def run(program: str, script: Script, target: str) -> Measure:
    """Runs the program once on a script, and checks how its output ends."""
    measured = once(program, ["replay", "--records", str(script.limit())], script.path, target)
    wanted = b"\n" + script.closing()
    with open(target, "rb") as it:
        it.seek(max(0, os.path.getsize(target) - len(wanted)))
        end = it.read()
    if end != wanted:
        sys.exit(f"{script.name}: the output ends with {end!r}, and not with {wanted!r}")
    return measured


def measure(program: str, script: Script, target: str, runs: int) -> Measure:
    """The best time of so many runs, and the most memory."""
    measures = [run(program, script, target) for _ in range(runs)]
    return Measure(min(it.seconds for it in measures), max(it.memory for it in measures))


def instructions(program: str, script: Script, target: str) -> int:
    """The instructions of one run of the program on a script, as valgrind counts them."""
    words = [
        "valgrind",
        "--tool=callgrind",
        "--callgrind-out-file=/dev/null",
        program,
        "replay",
        "--records",
        str(script.limit()),
    ]
    with open(script.path, "rb") as reading, open(target, "wb") as writing:
        child = subprocess.run(words, stdin=reading, stdout=writing, stderr=subprocess.PIPE, check=True)
    counted = re.search(rb"Collected : (\d+)", child.stderr)
    if not counted:
        sys.exit(f"valgrind counts nothing: {child.stderr[-300:]!r}")
    return int(counted[1])


def count_instructions(program: str, path: str, target: str) -> None:
    """Prints the instructions of an act of each script of 10,000 acts."""
    small = 0.0
    elders = partial(wide, later=1_100)
    kinds: list[Callable[[str, int], Script]] = [mix, partial(scattered, size=1024), churn, wide, elders]
    for kind in [*kinds, dups, forks, pipes, parks]:
        script = kind(path, 10_000)
        whole_run, acts = instructions(program, script, target), script.acts
        cost = (whole_run - instructions(program, mix(path, 1), target)) / acts
        small = small or cost
        print(f"{script.name:<18} {cost:>9,.0f} instructions an act, {cost / small:.2f} small acts", flush=True)


def table(program: str, runs: int, folder: str) -> None:
    """Prints a line for each script as it is done, and the growth over all."""
    path, target = os.path.join(folder, "script"), os.path.join(folder, "out")
    floor = once(program, ["--version"], os.devnull, target).memory
    print(f"best of {runs} runs; a peak of {floor / 2**20:.1f} MiB or less is this script's own")
    heads = f"{'acts':>9} {'seconds':>9} {'acts/s':>11} {'us/act':>10} {'growth':>7} {'peak MiB':>9} {'bytes/act':>10}"
    print(f"{'script':<18} {heads}")

    def line(script: Script, before: float | None = None, most: int | None = None) -> float:
        measured = measure(program, script, target, runs)
        if most is not None and measured.memory >= most:
            sys.exit(f"{script.name}: a peak of {measured.memory / 2**20:.1f} MiB is {most / 2**20:.0f} MiB or more")
        cost = measured.seconds / script.acts * 1e6
        growth = f"{cost / before:.2f}" if before else "-"
        print(
            f"{script.name:<18} {script.acts:>9,} {measured.seconds:>9.3f} {script.acts / measured.seconds:>11,.0f} "
            f"{cost:>10.3f} {growth:>7} {measured.memory / 2**20:>9.1f} {measured.memory / script.acts:>10,.0f}",
            flush=True,
        )
        return cost

    costs: list[float] = []
    for acts in (10_000, 100_000, 999_000):
        costs.append(line(mix(path, acts), costs[-1] if costs else None))
    print(f"growth of the cost of an act from 10,000 to 999,000 acts: {costs[-1] / costs[0]:.2f}")
    kinds: list[Callable[[str, int], Script]]
    kinds = [churn, wide, partial(wide, later=1_100), dups, forks, pipes, parks]
    for kind in kinds:
        few = line(kind(path, 10_000))
        many = line(kind(path, 999_000), few)
        print(f"an act of it over a small act: {few / costs[0]:.2f} of 10,000, {many / costs[-1]:.2f} of 999,000")
    line(ends(path, 9_000), most=GIVEN_BACK_MOST)
    line(holes(path, "1,000 holes", 1_000, LONG), most=HOLES_MOST)
    line(holes(path, "1,000 far holes", 1_000, FILE_SIZE_MAX), most=FAR_HOLES_MOST)
    line(big(path, "64 KiB, 61*65536", 1_000, counted))
    line(big(path, "64 KiB, x6162..", 127, spelled))
    line(resumed(path, "big 61*65536", 100, counted))
    line(resumed(path, "big x6162..", 100, spelled))
    short = line(scattered(path, 200_000, 1024))
    line(scattered(path, 200_000, LONG), short)
    line(rewritten(path, 1_000))
    none = measure(program, whole(path, 2_000, 0, "preads of nothing"), target, runs).seconds
    all_of_it = whole(path, 2_000, BIG, "64 KiB preads")
    line(all_of_it)
    each = (measure(program, all_of_it, target, runs).seconds - none) / 2_000 * 1e6
    copies = f"two copies of its bytes here: {2 * copy_cost():.1f} us"
    print(f"a pread of 64 KiB costs {each:.1f} us more than one of nothing, its line included; {copies}")
    if shutil.which("valgrind"):
        count_instructions(program, path, target)


def main() -> None:
    """Times all scripts."""
    parser = argparse.ArgumentParser(description="Times `fdref replay` on scripts of growing length.")
    parser.add_argument("--runs", type=int, default=3, help="runs of each script, of which the best counts")
    parser.add_argument("program", nargs="?", type=absolute, default=str(FDREF), metavar="PROGRAM")
    given = parser.parse_args()
    program = given.program
    if not os.access(program, os.X_OK):
        sys.exit(f"{program} is not there: './fdref build' makes it")
    with tempfile.TemporaryDirectory() as folder:
        table(program, given.runs, folder)


if __name__ == "__main__":
    main()
