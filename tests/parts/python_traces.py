"""Traces that the client in Python writes and reads, and its example of an emulator."""

import errno
import os
import sys
import tempfile
import textwrap
from collections.abc import Iterator, Sequence
from functools import partial
from pathlib import Path
from typing import Any

from parts.written_traces import NEW_SHORT, SHORT, changed_bytes, random_run, written_out
from support.auditing import illegal, legal, shown
from support.counting import Case, require, same
from support.frames import ERRORS, OLD_MAGIC, header_bytes, read_header, trace_of
from support.places import CLIENT, EXAMPLES, SCRATCH
from support.plain_model import DEFAULTS, Limits
from support.running import Ran, run
from support.sources import changed, numbered, source

import fdref

O_ALL = os.O_CREAT | os.O_EXCL | os.O_TRUNC | os.O_APPEND | os.O_NONBLOCK
RECORDS = [
    (fdref.Record(0, "join", (), 0), "p0 join = 0"),
    (fdref.Record(9, "attach"), "p9 attach = ok"),
    (fdref.Record(9, "attach", (), fdref.Error("ESRCH")), "p9 attach = error ESRCH"),
    (fdref.Record(1, "resume", (), fdref.Part(7)), "p1 resume = part 7"),
    (fdref.Record(1, "exit"), "p1 exit = ok"),
    (fdref.CLOSE_RUN, "house close-run = ok"),
    (fdref.Record(1, "open", ("a", os.O_RDWR | O_ALL), 3), "p1 open a rw,creat,excl,trunc,append,nonblock = 3"),
    (fdref.Record(1, "open", ("", os.O_RDONLY), fdref.Error("ENOENT")), "p1 open % r = error ENOENT"),
    (fdref.Record(1, "open", ("a", fdref.O_NEITHER), fdref.Error("EINVAL")), "p1 open a - = error EINVAL"),
    (fdref.Record(1, "open", (os.fsdecode(b"\xff"), os.O_WRONLY), fdref.Parked()), "p1 open %ff w = parked 0"),
    (fdref.Record(1, "close", (-1,), fdref.Error("EBADF")), "p1 close -1 = error EBADF"),
    (fdref.Record(1, "read", (0, 5), b"hello"), "p1 read 0 5 = x68656c6c6f"),
    (fdref.Record(1, "read", (0, 9), fdref.Parked(0)), "p1 read 0 9 = parked 0"),
    (fdref.Record(1, "write", (1, b"hi"), 2), "p1 write 1 x6869 = 2"),
    (fdref.Record(1, "pread", (0, 5, 77), b""), "p1 pread 0 77 5 = x"),
    (fdref.Record(1, "pwrite", (0, b"x", 77), 1), "p1 pwrite 0 77 x78 = 1"),
    (fdref.Record(1, "lseek", (0, -5, os.SEEK_END), 0), "p1 lseek 0 -5 end = 0"),
    (fdref.Record(1, "lseek", (0, 5, os.SEEK_CUR), 5), "p1 lseek 0 5 cur = 5"),
    (fdref.Record(1, "lseek", (0, 5, os.SEEK_SET), 5), "p1 lseek 0 5 set = 5"),
    (fdref.Record(1, "ftruncate", (0, 2**63 - 1), fdref.Error("EFBIG")), f"p1 ftruncate 0 {2**63 - 1} = error EFBIG"),
    (fdref.Record(1, "dup", (0,), 1), "p1 dup 0 = 1"),
    (fdref.Record(1, "dup2", (0, 31), 31), "p1 dup2 0 31 = 31"),
    (fdref.Record(1, "pipe", (), (0, 1)), "p1 pipe = 0 1"),
    (fdref.Record(1, "mkfifo", ("f",)), "p1 mkfifo f = ok"),
    (fdref.Record(1, "link", ("a", "b")), "p1 link a b = ok"),
    (fdref.Record(1, "unlink", ("b",)), "p1 unlink b = ok"),
    (fdref.Record(1, "fstat", (0,), fdref.Stat("fifo", 0o010000, 5, 1)), "p1 fstat 0 = fifo 5 1"),
    (fdref.Record(1, "fstat", (0,), fdref.Stat("regular", 0o100000, 5, 1)), "p1 fstat 0 = regular 5 1"),
    (fdref.Record(1, "fork", (), 2), "p1 fork = 2"),
    (fdref.Record(1, "getfl", (0,), fdref.flag_bits(os.O_RDWR | os.O_APPEND)), "p1 getfl 0 = 35"),
    (fdref.Record(1, "getfl", (0,), fdref.flag_bits(os.O_WRONLY | os.O_CREAT)), "p1 getfl 0 = 6"),
    (fdref.Record(1, "getfl", (0,), 2**64 - 1), f"p1 getfl 0 = {2**64 - 1}"),
    (fdref.Record(1, "getfl", (-1,), fdref.Error("EBADF")), "p1 getfl -1 = error EBADF"),
    (fdref.Record(1, "setfl", (0, os.O_WRONLY | O_ALL)), "p1 setfl 0 w,creat,excl,trunc,append,nonblock = ok"),
    (fdref.Record(1, "setfl", (0, fdref.O_NEITHER | os.O_NONBLOCK)), "p1 setfl 0 -,nonblock = ok"),
    (fdref.Record(1, "rename", ("a", "b")), "p1 rename a b = ok"),
]
RECORDS += [(fdref.Record(1, "fork", (), fdref.Error(error)), f"p1 fork = error {error}") for error in ERRORS]
REFUSED: list[tuple[fdref.Record, str]] = [
    (fdref.Record(0, "opne"), "'opne' is no act"),
    (fdref.Record(0, "join", (1,), 0), "join takes no arguments"),
    (fdref.Record(0, "read", (0,), b""), "read takes 2 arguments, and 1 are given"),
    (fdref.Record(-1, "join", (), 0), "a number is out of its range"),
    (fdref.Record(2**32, "exit"), "a number is out of its range"),
    (fdref.Record(0, "read", (2**31, 1), b""), "a number is out of its range"),
    (fdref.Record(0, "read", (0, -1), b""), "a number is out of its range"),
    (fdref.Record(0, "fork", (), -1), "-1 is no value of a call; an error is Error('EBADF') or so"),
    (fdref.Record(0, "fork", (), 2**64), "a number is out of its range"),
    (fdref.Record(0, "read", ("0", 1), b""), "a value is of the wrong kind"),
    (fdref.Record(0, "write", (0, 5), 5), "a value is of the wrong kind"),
    (fdref.Record(0, "lseek", (0, 0, 3), 0), "3 is no place to seek from"),
    (fdref.Record(0, "write", (0, bytes(65_700)), bytes(65_536)), "131254 bytes are more than a record has"),
    (fdref.Record(0, "open", ("a", os.O_SYNC), 0), "flags that no request holds: O_SYNC"),
    (fdref.Record(0, "open", ("a", os.O_CLOEXEC | 1 << 33)), "flags that no request holds: O_CLOEXEC, 0o100000000000"),
    (fdref.Record(0, "setfl", (0, os.O_SYNC)), "flags that no request holds: O_SYNC"),
    (fdref.Record(0, "mkfifo", ("n" * 256,)), "a name of 256 bytes, and a request holds 255"),
    (fdref.Record(0, "write", (0, bytes(65_701)), 0), "65701 bytes, and at most 65700 have a place here"),
    (fdref.Record(0, "read", (0, 1), bytes(65_537)), "65537 bytes, and at most 65536 have a place here"),
    (fdref.Record(0, "fork", (), fdref.Error("EPERM")), "'EPERM' is no error of the profile"),
    (fdref.Record(0, "fork", (), OSError(errno.EPERM, "")), "'EPERM' is no error of the profile"),
    (fdref.Record(0, "fstat", (0,), fdref.Stat("socket", 0, 0, 0)), "'socket' is no kind of file"),
    (fdref.Record(0, "fork", (), 1.5), "no call has the outcome 1.5"),
    (fdref.Record(0, "close-run"), "a close-run has the pid 4294967295"),
]


def writes(path: str, record: fdref.Record, line: str) -> None:
    """The client writes a record as it is spelled, and reads it again."""
    same(2, fdref.write_trace(path, [record, record]))
    same(trace_of([line, line]).hex(), Path(path).read_bytes().hex())
    same(fdref.Trace([record, record], b""), fdref.read_trace(path))


def refuses(path: str, record: fdref.Record, why: str) -> None:
    """The client says why a record has no place in a trace, and has written those before it."""
    try:
        fdref.write_trace(path, iter([fdref.CLOSE_RUN, record, fdref.CLOSE_RUN]))
    except ValueError as fault:
        same(f"record 1: {why}", str(fault))
    else:
        require(False, "it is not refused")
    same(fdref.Trace([fdref.CLOSE_RUN], b""), fdref.read_trace(path))


# What a header may tell, and what it may not: the number of records, and the limits; and why not.
HEADERS = [
    *((number, DEFAULTS) for number in (0, 1, 2, 255, 256, 65_536, 999_999, 1_000_000)),
    *((100, Limits(capacity=capacity)) for capacity in (512, 513, 1_024, 65_535, 65_536)),
    (0, Limits(size=1_048_576)),
    (1_000_000, Limits(1_048_576, 65_536)),
]
NO_HEADERS: list[tuple[Any, Limits, str]] = [
    *((number, DEFAULTS, f"{number} is no number of records") for number in (-1, 1_000_001, 2**32)),
    *((number, DEFAULTS, f"({number!r}, 1024, {2**40}) are no numbers") for number in (None, 5.0, "5")),
    *((0, Limits(capacity=capacity), "a pipe has room for 512 to 65536") for capacity in (-1, 0, 511, 65_537, 2**32)),
    *((0, Limits(size=size), "a file has at most") for size in (0, 1_048_575, 1_048_577, 2**40 - 1, 2**40 + 1, 2**64)),
]


def writes_header(path: str, records: int, limits: Limits) -> None:
    """The client writes what a header tells, and reads it again."""
    numbers = records, limits.capacity, limits.size
    same(1, fdref.write_trace(path, [fdref.CLOSE_RUN], *numbers))
    same(trace_of(["house close-run = ok"], header_bytes(records, limits)).hex(), Path(path).read_bytes().hex())
    same(fdref.Trace([fdref.CLOSE_RUN], b"", fdref.Header(2, *numbers)), fdref.read_trace(path))


def refuses_header(path: str, records: int, limits: Limits, why: str) -> None:
    """The client says what a header cannot tell, and leaves the file alone."""
    Path(path).write_bytes(b"as it was")
    try:
        fdref.write_trace(path, [fdref.CLOSE_RUN], records, limits.capacity, limits.size)
    except ValueError as fault:
        require(str(fault).startswith(why), f"it says {fault}")
    else:
        require(False, "it is not refused")
    same(b"as it was", Path(path).read_bytes())


def header_of(trace: bytes) -> fdref.Header | None:
    """The header of a trace, as the client has to tell it."""
    header = read_header(trace)
    if header is None:
        return None
    version = 1 if trace.startswith(OLD_MAGIC) else 2
    return fdref.Header(version, header.records, header.limits.capacity, header.limits.size)


def takes_errors(path: str) -> None:
    """An OSError is written as its number, and the other name of an error as that error."""
    for error in (OSError(errno.EAGAIN, "again"), OSError(errno.EWOULDBLOCK, ""), fdref.Error("EWOULDBLOCK")):
        fdref.write_trace(path, [fdref.Record(0, "fork", (), error), fdref.Record(0, "pipe", (), (0, 1))])
        same(trace_of(["p0 fork = error EAGAIN", "p0 pipe = 0 1"]).hex(), Path(path).read_bytes().hex())


def reads(path: str, trace: bytes) -> None:
    """The client finds as many whole records, and the same rest or fault, as the plain auditor does."""
    Path(path).write_bytes(trace)
    wanted = shown(trace)
    count = wanted.stdout.count(b"\n")
    try:
        records, rest, header = fdref.read_trace(path)
    except fdref.Malformed as fault:
        same((8, f"malformed {fault.at}\n".encode(), count), (wanted.status, wanted.stderr, len(fault.records)))
    else:
        same((count, f"rest {len(rest)}\n".encode() if rest else b""), (len(records), wanted.stderr))
        same(header_of(trace), header)
        told = header or fdref.Header()
        fdref.write_trace(path, records, *told[1:])
        length = len(trace) - len(rest)
        frames = trace[8:length] if told.version == 1 else trace[24:length]
        head = header_bytes(told.most_records, Limits(told.file_size, told.pipe_capacity))
        same((head + frames).hex(), Path(path).read_bytes().hex())


def example(program: str, trace: str, words: Sequence[str], wanted: Ran) -> None:
    """The example writes a trace, on which this is the verdict."""
    same(Ran(0, b"", b""), run([sys.executable, str(EXAMPLES / "emulator_trace.py"), *words, trace]))
    same(wanted, run([program, "audit", trace]))


def example_fails(path: str, words: Sequence[str], status: int, why: str) -> None:
    """Where the example can write no trace it says why in its last line."""
    ran = run([sys.executable, str(EXAMPLES / "emulator_trace.py"), *words, path])
    same((status, b"", why), (ran.status, ran.stdout, ran.stderr.decode().splitlines()[-1]))


def documented(program: str, folder: str) -> None:
    """The trace that the client's documentation shows is legal."""
    text = fdref.__doc__ or ""
    start, end = text.index("    records = ["), text.index("The records stand")
    imports = f"import os, sys\nsys.path.insert(0, {str(CLIENT)!r})\nimport fdref\n"
    same(Ran(0, b"", b""), run([sys.executable, "-c", imports + textwrap.dedent(text[start:end])], folder=folder))
    same(legal(13), run([program, "audit", os.path.join(folder, "trace")]))


def cases(program: str, seed: str) -> Iterator[Case]:
    """Traces of the client in Python."""
    with tempfile.TemporaryDirectory(prefix="fdref-", dir=SCRATCH) as folder:
        path = os.path.join(folder, "trace")
        for record, line in RECORDS:
            yield f"the client writes {line}", partial(writes, path, record, line)
        for record, why in REFUSED:
            yield f"the client refuses {record!r:.80}", partial(refuses, path, record, why)
        yield "the client writes an OSError", partial(takes_errors, path)
        for name, trace, _ in written_out():
            yield f"the client reads {name}", partial(reads, path, trace)
        for most, limits in HEADERS:
            yield f"the client writes a header of {most} and {limits}", partial(writes_header, path, most, limits)
        for no_most, limits, why in NO_HEADERS:
            what = f"the client refuses a header of {no_most!r} and {limits}"
            yield what, partial(refuses_header, path, no_most, limits, why)
        for version, short in ((1, SHORT), (2, NEW_SHORT)):
            for name, trace in changed_bytes(short):
                yield f"the client reads the short trace of version {version}, {name}", partial(reads, path, trace)
        for number in range(100):
            pick = source(f"{seed} read", number)
            trace = changed(pick, random_run(pick).trace())
            yield numbered("the client reads trace", seed, number), partial(reads, path, trace)
        yield "the trace of the documentation", partial(documented, program, folder)
        yield "the example", partial(example, program, path, [], legal(9))
        yield "the example with a mistake", partial(example, program, path, ["--mistake"], illegal(5, "x6c6c6f"))
        no_number = "emulator_trace.py: error: argument --records: -1 is no number of records: 0, or from 1 to 1000000"
        yield "the example in -1 records", partial(example_fails, path, ["--records", "-1"], 2, no_number)
        astray = os.path.join(folder, "no", "trace")
        no_folder = f"emulator_trace.py: {astray}: {os.strerror(errno.ENOENT)}"
        yield "the example without a folder", partial(example_fails, astray, [], 1, no_folder)
        for records, verdict in (("10", legal(9)), ("9", illegal(7, None))):
            words = ["--records", records]
            yield f"the example in {records} records", partial(example, program, path, words, verdict)
