#!/usr/bin/env python3
"""Does the program stay right where any of its allocations is refused? (a minute)

usage: tests/allocations.py [--program PATH] [--trial PATH] [--stride N]

The library that refuses is built by the kit's clang and comes before the C library (LD_PRELOAD).

The program is crates/fdref/out/fdref where no PATH is given. It is run on each row of tests/rows, on
a script with long data, on a few command lines, and as `audit` and `show` on traces. Each of these is
run, for each N from 1 to the number of allocations that it asks for when nothing is refused,

  - with allocation N refused alone,
  - where that run asked for more after N: with N and all later ones refused. Many of these runs end
    with status 5 and show nothing; so it is run
  - with N and all later ones but the last of that run refused.

Where more than 1,000 allocations are asked for, only one N in 41 is taken, or one in that many as
`--stride` says. A run may end in three ways, and in no other:

  - as it does when nothing is refused, byte for byte,
  - with status 0, where want of memory is told of some acts: of one where one allocation was refused,
    and of no exit or closing. Their lines are `- ACTOR ACT = refused NoMemory`. All other lines are
    those that the program prints, when nothing is refused, on the script without these acts,
  - with status 5, `no memory`, and nothing on standard output.

An act may be so refused only in place of a record. That is looked at for the one act where a single
allocation was refused, and else for one act of each run, which is another one for each N.

The trial is crates/memory_trial/out/memory_trial where no PATH is given. It runs a script as the
program does, but gives an act again that is refused for want of memory, once it has looked that the
refusal changed nothing. It does so in two ways: as `script`, where each act is run as the program runs
it, without a book, and as `calls`, where each act is given by the call of a book for its kind, as a
session gives it. Both are run on the same scripts, where the program ends with status 0, with each
allocation refused alone, and may end in two ways, and in no other:

  - with status 0 and the lines that the program prints when nothing is refused, byte for byte; where
    an act was given again, standard error says `given again: 1`,
  - with status 5, `no memory`, and nothing on standard output, where the trial wants memory of its own:
    to read the script, to make the run or the book, to keep a line or a seat.

Where an act of the script is recorded that may want memory, some run must have given an act again. No exit
or closing does and, without a book, no attach.
An exit or a closing that is refused for want of memory is a fault of the trial.

What is not built is skipped, which is told; a PATH that is given and not there is a failure, and so
is nothing to run. A run that fails is told in one line. The last line is `N passed, M failed`, and
the exit status is 1 where M is above 0.
"""

import argparse
import collections
import functools
import io
import os
import re
import sys
import tempfile
import time
from collections.abc import Callable, Iterable, Sequence
from pathlib import Path
from typing import NamedTuple, Protocol

from support import plain_model
from support.auditing import audited, migrated
from support.auditing import shown as shown_trace
from support.counting import Count, Failure
from support.frames import OLD_MAGIC, header_bytes, trace_of
from support.places import FDREF, MEMORY_TRIAL, SCRATCH
from support.refusing import GIVEN_AGAIN, NEVER, NO_MEMORY, Counted, Refuser, build
from support.rows import Row as Files
from support.rows import audits, rows
from support.running import Ran
from support.texts import difference, shown

LONG = 1_000
STRIDE = 41

# How the trial gives its acts.
SCRIPT = "script"
WAYS = [SCRIPT, "calls"]

AS_WANTED = "as with nothing refused"
REFUSED = b" = refused NoMemory\n"
MAKES_PROCESS = re.compile(rb"\d+ p\d+ (join|fork) = \d+\n")


class End(NamedTuple):
    """How a run ended.

    With how many of its acts refused for want of memory, and how many exits and closings recorded after the first.
    """

    how: str
    refused: int
    ends: int


# ---- the lines of a run


def lines_of(text: bytes) -> list[bytes]:
    """The lines of a text, each with its LF."""
    return io.BytesIO(text).readlines()


def lines_by_act(acts: list[bytes], lines: list[bytes]) -> tuple[list[list[bytes]], list[bytes]]:
    """The lines that tell of each act, of a closing several, none where they end too early; and those after them."""
    told = []
    at = 0
    for act in acts:
        end = at + 1
        while act == b"close-run" and end < len(lines) and b" house close-run = " not in lines[end - 1]:
            end += 1
        told.append(lines[at:end])
        at = end
    return told, lines[at:]


def is_end(act: bytes) -> bool:
    """Whether an act is an exit or a closing, which never want memory."""
    return act == b"close-run" or act.split(b" ")[1:] == [b"exit"]


def is_refused(lines: list[bytes]) -> bool:
    """Whether the lines of an act say that memory was wanting."""
    return bool(lines) and lines[-1].endswith(REFUSED)


def is_recorded(lines: list[bytes]) -> bool:
    """Whether the lines of an act are those of a record, which begin with its place."""
    return bool(lines) and lines[-1][:1].isdigit()


# ---- what a run has to give


class Runner(Protocol):
    """What runs programs and refuses some of their allocations."""

    def run(self, words: Sequence[str], stdin: bytes = b"", first: int = NEVER, last: int = NEVER) -> Counted:
        """Runs a command with its allocations from `first` to `last` refused."""


class Row:
    """A run of a program, of a script or of a command line alone, and what it has to give."""

    is_refused_more = False

    def __init__(self, refuser: Runner, words: Sequence[str], script: bytes, wanted: Ran | None = None) -> None:
        self.refuser = refuser
        self.words = words
        self.script = script
        whole, self.count = refuser.run(words, script)
        self.wanted = wanted or whole
        if self.count == 0:
            raise Failure("no allocation is seen: it does not take its memory by the C library's malloc")
        if whole != self.wanted:
            raise Failure(f"nothing refused: {self.first_difference(whole)}")
        self.acts = [line for line in script.split(b"\n") if line] if self.wanted.status == 0 else []
        self.lines = lines_of(self.wanted.stdout)

    def first_difference(self, ran: Ran) -> str:
        """What of a run is not as the row has it."""
        if ran.status != self.wanted.status:
            return ran.said()
        if ran.stdout != self.wanted.stdout:
            return difference(self.wanted.stdout, ran.stdout)
        return f"standard error is {shown(ran.stderr, 100)}, wanted {shown(self.wanted.stderr, 100)}"

    def judge(self, ran: Ran, is_alone: bool, chosen: int) -> End:
        """How a run ended in which one allocation was refused, or several."""
        raise NotImplementedError

    def check_ways(self, ways: collections.Counter[str]) -> None:
        """Looks at all the runs of a row together."""


class ProgramRow(Row):
    """A run of the program, which tells of the acts for which memory was wanting."""

    is_refused_more = True

    def __init__(self, refuser: Runner, words: Sequence[str], script: bytes, wanted: Ran | None = None) -> None:
        super().__init__(refuser, words, script, wanted)
        self.printed: dict[bytes, list[bytes]] = {}
        self.told = lines_by_act(self.acts, self.lines)[0]

    def lines_of_acts(self, acts: list[bytes]) -> list[bytes]:
        """The lines that the program prints on some of the acts, with nothing refused."""
        script = b"".join(act + b"\n" for act in acts)
        if script not in self.printed:
            ran = self.refuser.run(self.words, script).ran
            if ran.status != 0 or ran.stderr:
                raise Failure(f"nothing refused and acts left out: {ran.said()}")
            self.printed[script] = lines_of(ran.stdout)
        return self.printed[script]

    def refused_line(self, index: int, processes: int) -> bytes:
        """The line that says that memory was wanting for an act, before which so many processes were made."""
        text = self.told[index][0].split(b" ", 1)[1].rsplit(b" = ", 1)[0]
        if self.acts[index] == b"join":
            text = b"p%d join" % processes
        return b"- " + text + REFUSED

    def right_lines(self, refused: set[int]) -> list[bytes]:
        """All lines where memory was wanting for just these acts."""
        kept = [act for index, act in enumerate(self.acts) if index not in refused]
        told, totals = lines_by_act(kept, self.lines_of_acts(kept))
        left = iter(told)
        lines: list[bytes] = []
        processes = 0
        for index in range(len(self.acts)):
            if index in refused:
                lines.append(self.refused_line(index, processes))
            else:
                of_act = next(left)
                processes += bool(MAKES_PROCESS.fullmatch(of_act[-1]))
                lines += of_act
        return lines + totals

    def would_be_told(self, refused: set[int], index: int) -> list[bytes]:
        """The lines of an act where memory was wanting for these before it and not for itself."""
        if index == min(refused):
            return self.told[index]
        acts = [act for at, act in enumerate(self.acts[:index]) if at not in refused]
        return self.lines_of_acts([*acts, self.acts[index]])[-2:-1]

    def check_refused(self, refused: set[int], chosen: int) -> None:
        """Looks whether memory may be wanting for these acts, of which one is chosen to be looked at closely."""
        for index in refused:
            if is_end(self.acts[index]):
                raise Failure(f"act {index + 1} is refused, {shown(self.acts[index], 100)}, which wants no memory")
        index = sorted(refused)[chosen % len(refused)]
        told = self.would_be_told(refused, index)
        if not is_recorded(told):
            raise Failure(f"act {index + 1} is refused, which else is told as {shown(b''.join(told), 100)}")

    def ends_after(self, index: int, told: list[list[bytes]]) -> int:
        """How many exits and closings after an act are told as recorded."""
        after = zip(self.acts[index:], told[index:], strict=True)
        return sum(is_end(act) and is_recorded(lines) for act, lines in after)

    def judge(self, ran: Ran, is_alone: bool, chosen: int) -> End:
        """How a run ended in which one allocation was refused, or several."""
        if ran == self.wanted:
            return End(AS_WANTED, 0, 0)
        if ran == NO_MEMORY:
            return End("no memory", 0, 0)
        if (ran.status, ran.stderr) != (0, b"") or self.wanted.status != 0:
            raise Failure(ran.said())
        given = lines_of(ran.stdout)
        told = lines_by_act(self.acts, given)[0]
        refused = {index for index, lines in enumerate(told) if is_refused(lines)}
        if not refused:
            raise Failure(self.first_difference(ran))
        self.check_refused(refused, chosen)
        wanted = self.right_lines(refused)
        if given != wanted:
            raise Failure(difference(b"".join(wanted), ran.stdout))
        if is_alone and len(refused) != 1:
            raise Failure(f"one refusal, and {len(refused)} acts are refused")
        return End("acts refused", len(refused), self.ends_after(min(refused), told))


class Migrations:
    """Runs migrations in place of a Refuser, each to a new trace that is not there before. What is written is a front
    of the right one, and all of it where the migration came to its end."""

    def __init__(self, refuser: Refuser, new: Path, written: bytes) -> None:
        self.refuser = refuser
        self.new = new
        self.written = written

    def run(self, words: Sequence[str], stdin: bytes = b"", first: int = NEVER, last: int = NEVER) -> Counted:
        """Runs a command with its allocations from `first` to `last` refused."""
        self.new.unlink(missing_ok=True)
        counted = self.refuser.run(words, stdin, first, last)
        given = self.new.read_bytes() if self.new.exists() else b""
        if not self.written.startswith(given) or (counted.ran.status in (0, 8) and given != self.written):
            raise Failure(f"status {counted.ran.status}, and the new trace is not right: {given[-100:]!r}")
        return counted


class TrialRow(Row):
    """A run of the trial, which gives an act again for which memory was wanting."""

    def judge(self, ran: Ran, is_alone: bool, chosen: int) -> End:
        """How a run ended in which one allocation was refused."""
        if ran == self.wanted:
            return End(AS_WANTED, 0, 0)
        if ran == self.wanted._replace(stderr=GIVEN_AGAIN):
            return End("an act given again", 0, 0)
        if ran == NO_MEMORY:
            return End("no memory", 0, 0)
        raise Failure(self.first_difference(ran))

    def may_want_memory(self, act: bytes) -> bool:
        """Whether an act may want memory; an attach wants it for its receipts alone."""
        return not is_end(act) and not (self.words[1] == SCRIPT and act.split(b" ")[1:] == [b"attach"])

    def check_ways(self, ways: collections.Counter[str]) -> None:
        """Looks whether some run of a row, in which an act that may want memory is recorded, gave an act again."""
        acts = [line for line in self.script.split(b"\n") if line]
        told = zip(acts, lines_by_act(acts, self.lines)[0], strict=True)
        recorded = any(is_recorded(lines) and self.may_want_memory(act) for act, lines in told)
        if recorded and not ways["an act given again"]:
            raise Failure("no run gave an act again")


# ---- the rows and what is run beside them


class Script(NamedTuple):
    """The script of a row, the words that its run has beside it, and what it has to give."""

    name: str
    text: bytes
    words: list[str]
    wanted: Ran


def script_of_row(row: Files) -> Script:
    """A row of tests/rows."""
    return Script(row.name, row.script(), row.words(), row.wanted())


def long_data() -> Script:
    """A script with long data, whose lines are more than twice as long as it is."""
    many = bytes(range(256)) * 256
    calls = ["open a rw,creat", f"write 0 x{many[:40_000].hex()}", f"write 0 x{many.hex()}"]
    calls += ["pread 0 0 40000", "pread 0 40000 65536", "pread 0 100 65536", "exit"]
    text = "".join(["join\n", *[f"p0 {call}\n" for call in calls], "close-run\n"]).encode()
    return Script("long data", text, [], plain_model.replay(text))


def scripts() -> list[Script]:
    """All scripts."""
    return [*map(script_of_row, rows()), long_data()]


Makers = Iterable[tuple[str, Callable[[], Row]]]

# The rows of which the records are audited and shown too: with files, pipes, FIFOs, many processes, calls that wait.
TRACED = ["two-processes", "parts-of-a-large-write", "fifo-rendezvous", "what-an-exit-frees", "closing-of-a-run"]


def traces() -> list[tuple[str, bytes]]:
    """The traces that are audited and shown, by their names."""
    found = [(row.name, row.trace()) for row in audits()]
    for row in rows():
        if row.name in TRACED:
            lines = [line for line in row.wanted().stdout.decode().splitlines() if line[0].isdigit()]
            for version, header in ((1, OLD_MAGIC), (2, header_bytes())):
                found.append((f"the records of {row.name} in version {version}", trace_of(lines, header)))
    return found


def trace_rows(refuser: Refuser, program: str) -> Makers:
    """The rows of the program that read a trace."""
    with tempfile.TemporaryDirectory(prefix="fdref-", dir=SCRATCH) as folder:
        for name, trace in traces():
            path = os.path.join(folder, name)
            Path(path).write_bytes(trace)
            wanted = {"audit": audited(trace), "show": shown_trace(trace), "show --acts": shown_trace(trace, acts=True)}
            for line, ran in wanted.items():
                words = [program, *line.split(), path]
                yield f"{line} of {name}", functools.partial(ProgramRow, refuser, words, b"", ran)
            migration, new = migrated(trace), Path(f"{path}.new")
            runner = Migrations(refuser, new, migration.written)
            words = [program, "migrate", path, str(new)]
            yield f"migrate of {name}", functools.partial(ProgramRow, runner, words, b"", migration.ran)


def program_rows(refuser: Refuser, program: str) -> Makers:
    """All rows of the program, each with its name and what makes it."""
    for script in scripts():
        words = [program, "replay", *script.words]
        yield script.name, functools.partial(ProgramRow, refuser, words, script.text, script.wanted)
    for line in ["--help", "replay --version", "play", "replay x", "replay --records 0"]:
        words = [program, *line.split()]
        yield f"fdref {line}", functools.partial(ProgramRow, refuser, words, b"")
    yield from trace_rows(refuser, program)


def trial_rows(refuser: Refuser, trial: str) -> Makers:
    """All rows of the trial: the scripts that end with status 0, given in each of its ways."""
    for script in scripts():
        if script.wanted.status == 0:
            for way in WAYS:
                words = [trial, way, *limits_of(script.words)]
                name = f"trial by {way} of {script.name}"
                yield name, functools.partial(TrialRow, refuser, words, script.text, script.wanted)


def limits_of(words: list[str]) -> list[str]:
    """The numbers of `--records` and `--pipe-capacity`, which the trial has as its last words."""
    pairs = " ".join(words).replace("=", " ").split()
    given = dict(zip(pairs[::2], pairs[1::2], strict=True))
    if "--pipe-capacity" in given:
        return [given.get("--records", str(plain_model.RECORDS_DEFAULT)), given["--pipe-capacity"]]
    return [given["--records"]] if "--records" in given else []


# ---- each allocation of a row


ALONE = "alone"
LATER = "with all later ones"
BUT_THE_LAST = "with all later ones but the last"


class Sweep:
    """The runs of one row with refusals, counted by what was refused and by how they ended."""

    def __init__(self, count: Count, name: str, row: Row) -> None:
        self.count = count
        self.name = name
        self.row = row
        self.ways: dict[str, collections.Counter[str]] = {
            kind: collections.Counter() for kind in (ALONE, LATER, BUT_THE_LAST)
        }
        self.refused: collections.Counter[str] = collections.Counter()
        self.ends: collections.Counter[str] = collections.Counter()

    def run(self, kind: str, number: int, last: int) -> int:
        """Runs the row with its allocations from a number to the last one refused; how many it asked for."""
        count = 0
        try:
            ran, count = self.row.refuser.run(self.row.words, self.row.script, number, last)
            if count < number:
                raise Failure(f"it asked for {count} allocations")
            end = self.row.judge(ran, kind == ALONE, number)
            self.ways[kind][end.how] += 1
            self.refused[kind] += end.refused
            self.ends[kind] += end.ends
            self.count.add(1, 0)
        except Failure as fault:
            self.count.fail(f"{self.name}: allocation {number} refused {kind}", fault)
            self.ways[kind]["failed"] += 1
        return count

    def refuse(self, number: int) -> None:
        """All runs in which this allocation is the first to be refused."""
        if self.run(ALONE, number, number) > number and self.row.is_refused_more:
            count = self.run(LATER, number, NEVER)
            if count > number:
                self.run(BUT_THE_LAST, number, count - 1)

    def check(self) -> None:
        """Looks at all runs in which one allocation was refused."""
        try:
            self.row.check_ways(self.ways[ALONE])
        except Failure as fault:
            self.count.fail(self.name, fault)

    def told(self, which: str) -> str:
        """What was run, in one line."""
        parts = [f"{self.name}: {which} of {self.row.count} allocations refused"]
        for kind, ways in self.ways.items():
            counts = [f"{count} {how}" for how, count in sorted(ways.items())]
            if kind != ALONE and self.refused[kind]:
                counts += [f"{self.refused[kind]} acts in all, {self.ends[kind]} ends recorded after them"]
            if ways:
                parts.append(f"{kind}: {ways.total()} runs ({', '.join(counts)})")
        return "; ".join(parts)


def sweep_row(count: Count, name: str, make: Callable[[], Row], stride: int) -> None:
    """Refuses the allocations of a row, and counts the runs."""
    try:
        row = make()
    except Failure as fault:
        count.fail(name, fault)
        return
    step = 1 if row.count <= LONG else stride
    sweep = Sweep(count, name, row)
    for number in range(1, row.count + 1, step):
        sweep.refuse(number)
    sweep.check()
    print(sweep.told("each" if step == 1 else f"one in {step}"), flush=True)


def sweep_rows(count: Count, makers: Makers, stride: int) -> None:
    """Refuses all rows their allocations, and counts the runs."""
    for name, make in makers:
        sweep_row(count, name, make, stride)


# ---- the whole


def options() -> argparse.Namespace:
    """What the command line asks for."""
    parser = argparse.ArgumentParser(
        description="Refuses the built program and the built trial their allocations in turn."
    )
    parser.add_argument("--program", metavar="PATH", help="the program [default: crates/fdref/out/fdref]")
    parser.add_argument("--trial", metavar="PATH", help="the trial [default: crates/memory_trial/out/memory_trial]")
    text = "of a run with more than 1,000 allocations, refuse one in N [default: 41]"
    parser.add_argument("--stride", metavar="N", type=int, default=STRIDE, help=text)
    return parser.parse_args()


def sweep_part(count: Count, given: str | None, default: str, sweep: Callable[[str], None]) -> list[str]:
    """Runs a sweep of what is built; what is to be told as skipped."""
    path = os.path.abspath(given or default)
    if os.path.isfile(path):
        sweep(path)
        return []
    if given:
        count.fail(path, "it is not there")
        return []
    return [f"skipped: {path} is not built"]


def main() -> int:
    """Runs all sweeps: the exit status."""
    asked = options()
    began = time.monotonic()
    count = Count()
    with tempfile.TemporaryDirectory() as folder:
        refuser = Refuser(build(folder))
        skipped = [
            *sweep_part(
                count,
                asked.program,
                str(FDREF),
                lambda path: sweep_rows(count, program_rows(refuser, path), asked.stride),
            ),
            *sweep_part(
                count,
                asked.trial,
                str(MEMORY_TRIAL),
                lambda path: sweep_rows(count, trial_rows(refuser, path), asked.stride),
            ),
        ]
    seconds = time.monotonic() - began
    print(f"{refuser.refusing} runs with refusals and {refuser.plain} without, in {seconds:.0f} seconds")
    for word in skipped:
        print(word)
    if count.passed + count.failed == 0:
        count.add(0, 1)
    return count.end()


if __name__ == "__main__":
    sys.exit(main())
