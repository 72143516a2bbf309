#!/usr/bin/env python3
"""Times `fdref audit` on traces of growing length, and looks at its memory.

usage: bench/audit.py [--program PATH] [--against OLD] [--rounds N] [--most N]

The program is crates/fdref/out/fdref where no PATH is given. The traces are the same at each call, of version 1,
which an older OLD reads too, and all their records are right. Of `small` each burst writes 8 bytes at the start of
a file, seeks back, reads them and seeks back once more. Of `churn` a file is made, written, given a second name,
unlinked twice, read and closed. Of `pipes` 64 bytes go into a pipe and come out. Of `64 KiB` the data of a pwrite
and a pread are 65,536 bytes that differ, so there are few records, and the rate is told in bytes too.

A time is the median of N rounds (3), from the start of the program to its end. The growth is the cost of a
record over its cost in the trace before: 1.00 where it does not depend on the length. The peak is what the
system tells of the program's memory, which cannot be less than what this script itself holds. With OLD,
another fdref is timed in turns with PATH. Traces have at most N records (1,000,000): fewer suit a program that
is slow.
"""

import argparse
import os
import statistics
import subprocess
import sys
import tempfile
import time
from collections.abc import Sequence
from typing import NamedTuple

import paths  # noqa: F401
from support.frames import OLD_MAGIC, record_frame
from support.options import absolute, add_count, add_path, is_missing
from support.places import FDREF, SCRATCH
from support.plain_model import data_text

EIGHT = "x6664726566203031"
LONG = data_text(bytes(range(256)) * 256)
LENGTHS = [1_000, 10_000, 100_000, 1_000_000]


class Kind(NamedTuple):
    """A kind of trace: the records that it begins with, those of a burst, and how many times fewer records it has."""

    name: str
    first: list[str]
    burst: list[str]
    fewer: int = 1


KINDS = [
    Kind(
        "small",
        ["p0 join = 0", "p0 open a rw,creat = 0"],
        [f"p0 write 0 {EIGHT} = 8", "p0 lseek 0 0 set = 0", f"p0 read 0 8 = {EIGHT}", "p0 lseek 0 -8 cur = 0"],
    ),
    Kind(
        "churn",
        ["p0 join = 0"],
        [
            "p0 open a rw,creat,excl = 0",
            f"p0 write 0 {EIGHT} = 8",
            "p0 link a b = ok",
            "p0 unlink a = ok",
            "p0 unlink b = ok",
            f"p0 pread 0 0 9 = {EIGHT}",
            "p0 close 0 = ok",
        ],
    ),
    Kind("pipes", ["p0 join = 0", "p0 pipe = 0 1"], ["p0 write 1 61*64 = 64", "p0 read 0 99 = 61*64"]),
    Kind(
        "64 KiB",
        ["p0 join = 0", "p0 open a rw,creat = 0"],
        [f"p0 pwrite 0 65536 {LONG} = 65536", f"p0 pread 0 65536 65536 = {LONG}"],
        1_000,
    ),
]


class Timed(NamedTuple):
    """How long an audit took in seconds, and the most bytes that it had in memory."""

    seconds: float
    peak: int


def write_trace(path: str, kind: Kind, records: int) -> int:
    """Writes a trace of a kind with so many records, burst by burst, and gives its length in bytes."""
    first = [record_frame(line) for line in kind.first]
    burst = [record_frame(line) for line in kind.burst]
    whole, some = divmod(records - len(first), len(burst))
    with open(path, "wb") as file:
        file.write(OLD_MAGIC + b"".join(first))
        for _ in range(whole):
            file.write(b"".join(burst))
        file.write(b"".join(burst[:some]))
        return file.tell()


def audited(program: str, path: str, records: int) -> Timed:
    """Times an audit, whose verdict is that all records are right."""
    began = time.monotonic()
    with subprocess.Popen([program, "audit", path], stdout=subprocess.PIPE) as process:
        assert process.stdout
        stdout = process.stdout.read()
        _, status, usage = os.wait4(process.pid, 0)
        process.returncode = os.waitstatus_to_exitcode(status)
    took = time.monotonic() - began
    if (process.returncode, stdout) != (0, b"legal %d rest 0\n" % records):
        raise SystemExit(f"the audit ended with status {process.returncode} and {stdout!r}")
    return Timed(took, usage.ru_maxrss * 1024)


def medians(programs: Sequence[str], path: str, records: int, rounds: int) -> list[Timed]:
    """The median times of programs that take turns, and the greatest peak of each."""
    turns = [[audited(program, path, records) for program in programs] for _ in range(rounds)]
    return [
        Timed(statistics.median(it.seconds for it in timed), max(it.peak for it in timed))
        for timed in zip(*turns, strict=True)
    ]


def measure(kind: Kind, programs: Sequence[str], rounds: int, most: int, folder: str) -> None:
    """Prints a line for each length of a kind of trace, and program."""
    before: list[float] = []
    for length in (length // kind.fewer for length in LENGTHS if length <= most and length // kind.fewer >= 100):
        path = os.path.join(folder, f"{kind.name} {length}")
        size = write_trace(path, kind, length)
        costs = []
        for number, timed in enumerate(medians(programs, path, length, rounds)):
            costs.append(timed.seconds / length)
            parts = [f"{timed.seconds * 1000:.1f} ms", f"{length / timed.seconds:.0f} records a second"]
            parts.append(f"{size / timed.seconds / 1e6:.1f} MB/s")
            parts += [f"growth {costs[number] / before[number]:.2f}"] if before else []
            parts.append(f"peak {timed.peak / 2**20:.1f} MiB")
            who = "" if number == 0 else ", the other"
            print(f"{kind.name}, {length} records{who}: {', '.join(parts)}", flush=True)
        before = costs
        os.unlink(path)


def main(words: Sequence[str]) -> int:
    """Times all: the exit status."""
    parser = argparse.ArgumentParser(description="Times audits of traces of growing length.")
    add_path(parser, "--program", "the program", FDREF)
    parser.add_argument("--against", metavar="OLD", type=absolute, help="another fdref, for comparison")
    add_count(parser, "--rounds", 3, "rounds of each measure")
    add_count(parser, "--most", LENGTHS[-1], "the most records of a trace")
    args = parser.parse_args(words)
    programs = [args.program, *([args.against] if args.against else [])]
    if any(is_missing(program) for program in programs):
        return 1
    with tempfile.TemporaryDirectory(prefix="fdref-", dir=SCRATCH) as folder:
        for kind in KINDS:
            measure(kind, programs, args.rounds, args.most, folder)
    return 0


if __name__ == "__main__":
    sys.exit(main(sys.argv[1:]))
