#!/usr/bin/env python3
"""Does the built program give what the rows and the other cases written out here say? (a minute)

usage: tests/acceptance.py [PROGRAM]

PROGRAM is crates/fdref/out/fdref where none is given. Each folder of tests/rows is a run of
`fdref replay`, with its standard input `script` and its words `args`, of `fdref audit`, with the
file `trace.hex`, or of `fdref migrate`, from `old.hex` to `new.hex`; tests/support/rows.py tells more.
Each function marked `case` below is a case as well.

A failure is told in one line. The last line is `N passed, M failed`, and the exit status is 1
where M is above 0.
"""

import argparse
import os
import subprocess
import sys
import tempfile
import threading
from collections.abc import Callable, Iterator, Sequence
from functools import partial
from pathlib import Path
from typing import IO, Any

from support.counting import Case, Count, Failure
from support.options import absolute, end_without
from support.places import FDREF, ROWS
from support.rows import Row, audits, migrations, rows
from support.running import SECONDS, Ran, Word
from support.running import run as run_program
from support.texts import difference, shown

SCRIPT_MOST = 16_777_216

Check = Callable[..., None]

CASES: list[tuple[str, Callable[[str], None]]] = []


def case(name: str, *values: Any) -> Callable[[Check], Check]:
    """Marks a function as a case, with the values that it is called with beside the program."""

    def keep(function: Check) -> Check:
        CASES.append((name, lambda program: function(program, *values)))
        return function

    return keep


# ---- running and comparing


def run(program: str, words: Sequence[Word], stdin: bytes | int = b"", stdout: int | IO[bytes] | None = None) -> Ran:
    """Runs the program on words and an input, which is a file where it is given as bytes."""
    to = subprocess.PIPE if stdout is None else stdout
    if not isinstance(stdin, bytes):
        return run_program([program, *words], stdin, to, folder="/")
    with tempfile.TemporaryFile() as held:
        held.write(stdin)
        held.seek(0)
        return run_program([program, *words], held, to, folder="/")


def expect(ran: Ran, status: int = 0, stdout: bytes = b"", stderr: bytes = b"") -> None:
    """Compares a run with what is wanted, byte for byte."""
    faults = []
    if ran.status != status:
        faults.append(f"status {ran.status}, wanted {status}")
    if ran.stdout != stdout:
        faults.append(f"standard output differs in {difference(stdout, ran.stdout)}")
    if ran.stderr != stderr:
        faults.append(f"standard error differs in {difference(stderr, ran.stderr)}")
    if faults:
        raise Failure("; ".join(faults))


def told(text: str) -> bytes:
    """The line that a text is."""
    return text.encode() + b"\n"


def replay(program: str, script: bytes, words: Sequence[str] = ()) -> Ran:
    """Runs the program on a script."""
    return run(program, ["replay", *words], script)


# ---- the rows that are files


def is_row(program: str, row: Row) -> None:
    """The run that a folder is gives what its files say."""
    expect(replay(program, row.script(), row.words()), *row.wanted())


def is_audit(program: str, row: Row) -> None:
    """The audit that a folder is gives what its files say."""
    with tempfile.NamedTemporaryFile(prefix="fdref-") as file:
        file.write(row.trace())
        file.flush()
        expect(run(program, ["audit", *row.words(), file.name]), *row.wanted())


def is_migration(program: str, row: Row) -> None:
    """The migration that a folder is writes what its files say, and leaves the old trace as it is."""
    with tempfile.TemporaryDirectory(prefix="fdref-") as folder:
        old, new = Path(folder, "old"), Path(folder, "new")
        old.write_bytes(row.trace("old"))
        expect(run(program, ["migrate", old, new]), *row.wanted())
        for path, name in ((old, "old"), (new, "new")):
            if path.read_bytes() != row.trace(name):
                raise Failure(f"the {name} trace is {path.read_bytes().hex()}, wanted {row.trace(name).hex()}")


# ---- the command line


# A server that would make nothing.
SERVE = ["serve", "--socket", "/gone/socket", "--sessions", "1", "--records", "9", "--trace", "/dev/null"]


@case("no words")
@case("unknown subcommand", "play")
@case("no subcommand of help", "help")
@case("surplus word", "replay", "x")
@case("unknown option", "replay", "--record", "5")
@case("word that is not UTF-8", "replay", b"\xff")
@case("records without a number", "replay", "--records")
@case("records twice", "replay", "--records", "5", "--records", "5")
@case("records 0", "replay", "--records", "0")
@case("records 0 joined", "replay", "--records=0")
@case("records 1000001", "replay", "--records", "1000001")
@case("records x", "replay", "--records", "x")
@case("records empty", "replay", "--records", "")
@case("records 1.5", "replay", "--records", "1.5")
@case("records with a space", "replay", "--records", "5 ")
@case("records -1", "replay", "--records", "-1")
@case("records -1 joined", "replay", "--records=-1")
@case("records past 64 bits", "replay", "--records", "99999999999999999999")
@case("records past 64 bits by one", "replay", "--records", "18446744073709551616")
@case("records that wrap to 1", "replay", "--records", "18446744073709551617")
@case("capacity without a number", "replay", "--pipe-capacity")
@case("capacity twice", "replay", "--pipe-capacity", "512", "--pipe-capacity", "512")
@case("capacity 511", "replay", "--pipe-capacity", "511")
@case("capacity 511 joined", "replay", "--pipe-capacity=511")
@case("capacity 65537", "replay", "--pipe-capacity", "65537")
@case("capacity 0", "replay", "--pipe-capacity", "0")
@case("capacity -1", "replay", "--pipe-capacity", "-1")
@case("capacity x", "replay", "--pipe-capacity", "x")
@case("capacity empty", "replay", "--pipe-capacity", "")
@case("capacity past 64 bits", "replay", "--pipe-capacity", "18446744073709552128")
@case("capacity that wraps to 1024", "replay", "--pipe-capacity", "4294968320")
@case("records and capacity out of range", "replay", "--records", "0", "--pipe-capacity", "0")
@case("capacity of a server out of range", *SERVE, "--pipe-capacity", "511")
@case("capacity of a server over its range", *SERVE, "--pipe-capacity", "65537")
@case("capacity of an audit", "audit", "--pipe-capacity", "1024", "/dev/null")
@case("audit without a file", "audit", "--complete")
@case("complete with a value", "audit", "--complete=true", "/dev/null")
@case("complete twice", "audit", "--complete", "--complete", "/dev/null")
@case("complete of what is shown", "show", "--complete", "/dev/null")
@case("acts without a witness", "outcomes", "--acts")
@case("acts and states without a witness", "outcomes", "--states", "9", "--acts")
@case("migrate without a file", "migrate")
@case("migrate without a file to write", "migrate", "/dev/null")
@case("migrate with a word too many", "migrate", "/dev/null", "/gone/a", "/gone/b")
@case("migrate with an option", "migrate", "--records", "5", "/dev/null", "/gone/a")
def is_mistake(program: str, *words: Word) -> None:
    """A command line that is refused."""
    ran = run(program, words, b"join\n")
    if ran.status != 2 or ran.stdout:
        raise Failure(f"status {ran.status}, wanted 2; standard output {shown(ran.stdout)}, wanted none")
    if not ran.stderr.endswith(b"\n") or not ran.stderr.strip():
        raise Failure(f"standard error is {shown(ran.stderr)}, wanted a text that ends its line")


@case("text of a mistake", "0", "--records <N>", "1 to 1000000")
@case("text of a small capacity", "511", "--pipe-capacity <N>", "512 to 65536")
@case("text of a great capacity", "65537", "--pipe-capacity <N>", "512 to 65536")
def mistake_is_told(program: str, value: str, option: str, range_of_it: str) -> None:
    """A command line that is refused with this text."""
    words = ["replay", option.split(" ")[0], value]
    fault = f"error: invalid value '{value}' for '{option}': not a number from {range_of_it}"
    text = f"{fault}\n\nUsage: fdref replay [OPTIONS]\n\nFor more information, try '--help'."
    expect(run(program, words), status=2, stderr=told(text))


@case("text of acts without a witness")
def missing_witness_is_told(program: str) -> None:
    """The text that tells what `--acts` lacks, and no outcome."""
    fault = "error: the following required arguments were not provided:\n  --witness <K>"
    text = f"{fault}\n\nUsage: fdref outcomes [OPTIONS]\n\nFor more information, try '--help'."
    expect(run(program, ["outcomes", "--acts"], b"join\np0 pipe\nrace\np0 close 0\n"), status=2, stderr=told(text))


@case("version", "fdref 0.2.0", "--version")
@case("version of replay", "fdref-replay 0.2.0", "replay", "-V")
@case("version of outcomes", "fdref-outcomes 0.2.0", "outcomes", "-V")
def is_version(program: str, text: str, *words: str) -> None:
    """A text alone."""
    expect(run(program, words), stdout=told(text))


@case("help", "Usage: fdref <COMMAND>", "--help")
@case("help of replay", "--records <N>", "replay", "--help")
@case("capacity in the help of replay", "--pipe-capacity <N>", "replay", "--help")
@case("help of serve", "--trace <FILE>", "serve", "--help")
@case("capacity in the help of serve", "--pipe-capacity <N>", "serve", "--help")
@case("help of audit", "<FILE>", "audit", "--help")
@case("help of a demand on an audit", "--complete", "audit", "--help")
@case("help of migrate", "<IN> <OUT>", "migrate", "--help")
@case("help of show", "--acts", "show", "--help")
@case("help of outcomes", "--witness <K>", "outcomes", "--help")
@case("states in the help of outcomes", "1 to 100000000 [default: 300000]", "outcomes", "--help")
@case("what the help of replay says", "Reads a script", "replay", "-h")
@case("what the help of serve says", "Ends with 0", "serve", "-h")
@case("what the help of audit says", "Writes 'legal N rest B'", "audit", "-h")
@case("what the help of show says", "Example:", "show", "-h")
@case("an example in the help", "printf 'join\\np0 pipe\\np0 write 1 x6869\\np0 read 0 9\\n' | fdref replay", "-h")
def is_shown(program: str, part: str, *words: str) -> None:
    """A text with a part."""
    ran = run(program, words)
    if ran.status != 0 or ran.stderr:
        raise Failure(f"status {ran.status}, wanted 0; standard error {shown(ran.stderr)}, wanted none")
    if part.encode() not in ran.stdout or not ran.stdout.endswith(b"\n"):
        raise Failure(f"standard output is {shown(ran.stdout)}, wanted lines with {part!r}")


@case("records 1000000", "--records", "1000000")
@case("records joined", "--records=3")
@case("records by default")
@case("capacity 512", "--pipe-capacity", "512")
@case("capacity 65536 joined", "--pipe-capacity=65536")
@case("records and capacity", "--records", "3", "--pipe-capacity", "600")
def is_taken(program: str, *words: str) -> None:
    """Options that are taken."""
    expect(replay(program, b"join\n", words), stdout=b"0 p0 join = 0\nrecords 1 in 0 out 0\n")


@case("default is 10000 records")
def default_is_ten_thousand(program: str) -> None:
    """One process leaves two free records: 9,998 records fit."""
    script = b"join\n" + b"p0 close 0\n" * 9_998
    lines = [b"0 p0 join = 0\n"]
    lines += [b"%d p0 close 0 = error EBADF\n" % place for place in range(1, 9_998)]
    lines += [b"- p0 close 0 = refused RunFull\n", b"records 9998 in 0 out 0\n"]
    expect(replay(program, script), stdout=b"".join(lines))


@case("a default of 1024 bytes in a pipe", 1_024)
@case("512 bytes in a pipe", 512, "--pipe-capacity", "512")
@case("513 bytes in a pipe", 513, "--pipe-capacity", "513")
@case("65535 bytes in a pipe", 65_535, "--pipe-capacity", "65535")
def a_pipe_holds(program: str, capacity: int, *words: str) -> None:
    """So many bytes go into a pipe, and a write of as many waits for room of a byte."""
    script = f"join\np0 pipe\np0 write 1 61*{capacity}\np0 fstat 1\np0 write 1 61*65536\n".encode()
    lines = [b"0 p0 join = 0", b"1 p0 pipe = 0 1", b"2 p0 write 1 61*%d = %d" % (capacity, capacity)]
    lines += [b"3 p0 fstat 1 = pipe %d 0" % capacity, b"4 p0 write 1 61*65536 = parked 0"]
    expect(replay(program, script, words), stdout=b"\n".join([*lines, b"records 5 in %d out 0\n" % capacity]))


@case("20000 records")
def more_than_the_default(program: str) -> None:
    """A run may have more records where it is told so."""
    count = 12_000
    lines = [b"0 p0 join = 0\n"]
    lines += [b"%d p0 close 0 = error EBADF\n" % place for place in range(1, count + 1)]
    lines += [b"records %d in 0 out 0\n" % (count + 1)]
    expect(replay(program, small(count), ("--records", "20000")), stdout=b"".join(lines))


@case("a process that is quiet for thousands of records")
def process_is_quiet(program: str) -> None:
    """Nothing is lost of a process that makes no calls."""
    count = 2_000
    script = b"join\n" * 2 + b"p0 open a w,creat\np0 close 0\n" * count + b"p1 open a r\np1 close 0\n"
    lines = [b"%d p%d join = %d\n" % (n, n, n) for n in (0, 1)]
    for n in range(count):
        lines += [b"%d p0 open a w,creat = 0\n" % (2 * n + 2), b"%d p0 close 0 = ok\n" % (2 * n + 3)]
    end = 2 * count + 2
    lines += [b"%d p1 open a r = 0\n%d p1 close 0 = ok\nrecords %d in 0 out 0\n" % (end, end + 1, end + 2)]
    expect(replay(program, script), stdout=b"".join(lines))


# ---- scripts

ANY_FLAGS = "r, w, rw or -, and after it ,creat ,excl ,trunc ,append ,nonblock in this order"


@case("nothing but NUL", b"\0" * 1000)
@case("nothing but NUL at the greatest length", b"\0" * SCRIPT_MOST)
@case("bytes past ASCII", b"\xff\xfe\n")
@case("one long word", b"j" * 1_000_000)
@case("fault in the last of many lines", b"\n" * 1_000_000 + b"p0", 1_000_001, 3, "a call, attach, resume or exit")
@case("no call", b"join\np0 opne a r", 2, 4, "a call, attach, resume or exit")
@case("no descriptor", b"p0 close 00", 1, 10, "a descriptor, from -2147483648 to 2147483647")
@case("no position", b"p0 pread 0", 1, 11, "an offset or a length, from -9223372036854775808 to 9223372036854775807")
@case("no count", b"p0 read 0 -1", 1, 11, "a count of bytes, from 0 to 4294967295")
@case("no name", b"p0 unlink %4", 1, 11, "a name of at most 255 bytes, as a or a%20b")
@case("no data", b"p0 write 0 hello", 1, 12, "data of at most 65700 bytes, as x6869 or 61*512")
@case("a comment", b"join\np0 pipe # a", 2, 9, "an act; comments and strings are read with --text")
@case("a string", b'p0 write 0 "a"', 1, 12, "an act; comments and strings are read with --text")
@case("a string after an act", b'p0 write 0 x61 "a"', 1, 16, "the end of the line")
@case("no flags", b"p0 open a +", 1, 11, ANY_FLAGS)
@case("no base", b"p0 lseek 0 0 at", 1, 14, "set, cur or end")
@case("no flags to set", b"p0 setfl 0", 1, 11, ANY_FLAGS)
@case("flags to set out of order", b"p0 setfl 0 -,nonblock,append", 1, 12, ANY_FLAGS)
@case("flags that are not asked for", b"p0 getfl 0 r", 1, 12, "the end of the line")
@case("no second name", b"p0 rename a", 1, 12, "a name of at most 255 bytes, as a or a%20b")
@case("a word too many", b"p0 fork 1", 1, 9, "the end of the line")
@case("an empty word at the end", b"join ", 1, 6, "the end of the line")
def is_bad_line(
    program: str,
    script: bytes,
    line: int = 1,
    column: int = 1,
    expected: str = "a process, as p0, or join or close-run",
) -> None:
    """A script that is refused for a line, and is told what could stand there."""
    text = f"line {line} column {column}: not an act\nexpected {expected}"
    expect(replay(program, script), status=3, stderr=told(text))


@case("a million empty lines", b"\n" * 1_000_000)
@case("empty lines of the greatest length", b"\n" * SCRIPT_MOST)
def is_empty(program: str, script: bytes) -> None:
    """A script without acts."""
    expect(replay(program, script), stdout=b"records 0 in 0 out 0\n")


@case("one byte too long", b"\n" * (SCRIPT_MOST + 1))
@case("too long and bad", b"x" * (SCRIPT_MOST + 1))
@case("far too long", b"\n" * (2 * SCRIPT_MOST))
def is_too_long(program: str, script: bytes) -> None:
    """A script that is refused for its length."""
    expect(replay(program, script), status=3, stderr=told(f"script too long\nexpected at most {SCRIPT_MOST} bytes"))


@case("input in pieces")
def input_in_pieces(program: str) -> None:
    """The input comes byte by byte."""
    row = Row(ROWS / "first-path")
    script, wanted = row.script(), row.wanted().stdout
    reading, writing = os.pipe()

    def feed() -> None:
        with os.fdopen(writing, "wb", buffering=0) as to:
            for byte in script:
                to.write(bytes([byte]))

    feeder = threading.Thread(target=feed, daemon=True)
    feeder.start()
    try:
        ran = run(program, ["replay"], reading)
    finally:
        os.close(reading)
    feeder.join(SECONDS)
    expect(ran, stdout=wanted)


# ---- streams that fail


@case("a directory as input")
@case("a directory as a race", "outcomes")
def input_is_a_directory(program: str, job: str = "replay") -> None:
    """An input that cannot be read."""
    at = os.open("/", os.O_RDONLY)
    try:
        expect(run(program, [job], at), status=4, stderr=told("cannot read"))
    finally:
        os.close(at)


def small(count: int = 1) -> bytes:
    """A script of small acts."""
    return b"join\n" + b"p0 close 0\n" * count


@case("a full device as output", small())
@case("a full device as output of many lines", small(9_000))
@case("a full device as output of no act", b"")
@case("a full device as output of a race", b"race\n", "outcomes")
def output_is_full(program: str, script: bytes, job: str = "replay") -> None:
    """An output that takes nothing."""
    with open("/dev/full", "wb", buffering=0) as full:
        expect(run(program, [job], script, full), status=4, stderr=told("cannot write"))


@case("a full device for help", "--help")
@case("a full device for the help of serve", "serve", "--help")
@case("a full device for the help of audit", "audit", "--help")
@case("a full device for the version", "--version")
def text_is_not_taken(program: str, *words: str) -> None:
    """An output that takes no help."""
    with open("/dev/full", "wb", buffering=0) as full:
        expect(run(program, words, b"", full), status=4, stderr=told("cannot write"))


@case("nobody reads the output", small())
@case("nobody reads many lines", small(9_000))
@case("nobody reads outcomes", b"race\n", "outcomes")
def output_is_closed(program: str, script: bytes, job: str = "replay") -> None:
    """An output that nobody reads."""
    reading, writing = os.pipe()
    os.close(reading)
    try:
        expect(run(program, [job], script, writing), status=4, stderr=told("cannot write"))
    finally:
        os.close(writing)


@case("the reader leaves early")
def reader_leaves(program: str) -> None:
    """The output is more than a pipe holds, so the program is still writing when the reader leaves."""
    script = small(500_000)
    reading, writing = os.pipe()

    def look() -> None:
        os.read(reading, 10)
        os.close(reading)

    looker = threading.Thread(target=look, daemon=True)
    looker.start()
    try:
        ran = run(program, ["replay", "--records", "1000000"], script, writing)
    finally:
        os.close(writing)
    looker.join(SECONDS)
    expect(ran, status=4, stderr=told("cannot write"))


# ---- the whole


def cases(program: str) -> Iterator[Case]:
    """The rows, and the cases that are written out here."""
    yield from ((row.name, partial(is_row, program, row)) for row in rows())
    yield from ((row.name, partial(is_audit, program, row)) for row in audits())
    yield from ((row.name, partial(is_migration, program, row)) for row in migrations())
    yield from ((name, partial(check, program)) for name, check in CASES)


def main(words: Sequence[str]) -> int:
    """Makes all checks: the exit status."""
    parser = argparse.ArgumentParser(description="Runs the built program against its rows and its other cases.")
    parser.add_argument("program", nargs="?", type=absolute, default=str(FDREF), metavar="PROGRAM")
    program = parser.parse_args(words).program
    end_without(program)
    count = Count()
    count.check_all(cases(program))
    return count.end()


if __name__ == "__main__":
    sys.exit(main(sys.argv[1:]))
