"""Traces that are written in C, and the examples in C."""

import errno
import os
from collections.abc import Iterator, Sequence
from functools import partial
from pathlib import Path

from parts import python_traces
from parts.c_programs import Build
from support.auditing import illegal, legal
from support.counting import Case, require, same
from support.players import traced
from support.running import run
from support.serving import SECONDS, Server, report

import fdref

# ---- traces

LARGE = [
    fdref.Record(2**32 - 1, "pwrite", (-(2**31), b"b" * 65_700, -(2**63)), 2**64 - 1),
    fdref.Record(0, "read", (2**31 - 1, 2**32 - 1), b"b" * 65_536),
    fdref.Record(0, "link", ("n" * 255, "n" * 255), fdref.Parked(2**32 - 1)),
    fdref.Record(0, "pipe", (), (2**31 - 1, 2**31 - 1)),
    fdref.Record(0, "fstat", (0,), fdref.Stat("pipe", 0, 2**64 - 1, 2**32 - 1)),
]
# What tests/c/records.c writes.
RECORDS = {
    "each": [record for record, _ in python_traces.RECORDS],
    "large": [*LARGE * 3, fdref.Record(0, "exit")],
}


def writes(build: Build, which: str, folder: str) -> None:
    """A trace that is written in C is that of the client in Python."""
    given, wanted = os.path.join(folder, "given"), os.path.join(folder, "wanted")
    same(b"", build.prints("records", which, given))
    fdref.write_trace(wanted, RECORDS[which])
    require(Path(given).read_bytes() == Path(wanted).read_bytes(), "the traces differ")


def writes_limits(build: Build, folder: str) -> None:
    """A trace of a run with other limits is that of the client in Python."""
    given, wanted = os.path.join(folder, "given"), os.path.join(folder, "wanted")
    same(b"", build.prints("records", "limited", given))
    fdref.write_trace(wanted, [fdref.CLOSE_RUN], 258, 513, 1_048_576)
    same(Path(wanted).read_bytes().hex(), Path(given).read_bytes().hex())


def refuses(build: Build, folder: str) -> None:
    """What no trace can hold is refused."""
    same(b"", build.prints("records", "faults", os.path.join(folder, "faults")))


def traces(builds: Sequence[Build], folder: str) -> Iterator[Case]:
    """Traces that are written in C."""
    for build in builds:
        for which in RECORDS:
            yield f"records: {which}, {build.name}", partial(writes, build, which, folder)
        yield f"records of a run with other limits, {build.name}", partial(writes_limits, build, folder)
        yield f"records with faults, {build.name}", partial(refuses, build, folder)


# ---- examples


def two_readers(program: str, build: Build) -> None:
    """The example prints the lines of the records of its processes, but for their ends."""
    with Server(program, 3, 100) as server:
        lines = build.prints("two_readers", server.path).decode().splitlines()
        server.ended(report(3, 15, 3, 3))
        same(traced(server)[:11], sorted(lines, key=lambda line: int(line.split(" ")[0])))


def mistake(program: str, build: Build, folder: str) -> None:
    """The example writes a trace, on which the audit names its mistake."""
    path = os.path.join(folder, "example")
    same(b"", build.prints("trace", path))
    same(illegal(4, "x"), run([program, "audit", path]))
    # with that record as it should be, all is right
    records, _, header = fdref.read_trace(path)
    same(fdref.Header(most_records=100), header)
    records[4] = records[4]._replace(outcome=b"")
    fdref.write_trace(path, records, 100)
    same(legal(8), run([program, "audit", path]))


def tells_usage(build: Build, name: str) -> None:
    """A program that is given no words tells how to use it."""
    ran = run([build.program(name)])
    require(ran.status == 2 and ran.stderr.startswith(f"usage: {name} ".encode()), ran.said())


# Where the example meets the end of a run that has so many records, and how it tells that.
FULL = [
    (2, "{}: the run has no record free for this process"),
    (3, "pipe: RunFull"),
    (6, "attach: the run has no record free for this process"),
]


def meets_full_runs(program: str, build: Build) -> None:
    """Where a run is full the example says so by fdref's words, and not by those of the number."""
    for records, why in FULL:
        with Server(program, 3, records) as server:
            ran = run([build.program("two_readers"), server.path], seconds=SECONDS)
            same((1, f"{why.format(server.path)}\n".encode()), (ran.status, ran.stderr))


def cannot_write(build: Build) -> None:
    """Where the trace cannot be written the example says which and why."""
    path = "/no/such/trace"
    same((1, b"", f"{path}: {os.strerror(errno.ENOENT)}\n".encode()), run([build.program("trace"), path]))


def examples(program: str, builds: Sequence[Build], folder: str) -> Iterator[Case]:
    """The examples in C."""
    for build in builds:
        yield f"two readers, {build.name}", partial(two_readers, program, build)
        yield f"a trace with a mistake, {build.name}", partial(mistake, program, build, folder)
        yield f"two readers in a run that is full, {build.name}", partial(meets_full_runs, program, build)
        yield f"a trace that cannot be written, {build.name}", partial(cannot_write, build)
        for name in ("two_readers", "trace"):
            yield f"{name} without words, {build.name}", partial(tells_usage, build, name)
