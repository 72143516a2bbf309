#!/usr/bin/env python3
"""Does tools/judge.py tell where a program parts from fdref, and do gnulib's tests pass? (a minute)

usage: tests/judged.py [--program PATH] [--only WORD]

The program is crates/fdref/out/fdref where no PATH is given. Logs that are written here are compared. The programs of
tests/c/judge_*.c are compiled and judged: each has to be told so and so, and may leave no file and no process. Last,
tests of gnulib for the calls that fdref has are compiled and judged, which come from Debian's package `gnulib`. Each
has to pass, or to differ for just the reason that tests/parts/gnulib.py has for it. Where the package or a C compiler
cannot be had, it says so and leaves out what needs it. The last line is `N passed, M failed`.
"""

import os
import sys
import tempfile
from collections.abc import Iterator, Sequence

from parts import gnulib, judged_logs, judged_programs
from parts.c_programs import compilers
from support.counting import Case, Count, lacks_compiler
from support.options import ONLY, PROGRAM, asked
from support.signals import heed

GNULIB = "gnulib"

Part = tuple[str, Iterator[Case]]


def gnulib_part(bench: judged_programs.Bench) -> Iterator[Part]:
    """The part that needs gnulib."""
    folder = os.path.join(bench.folder, GNULIB)
    os.mkdir(folder)
    place = gnulib.package(folder)
    if place:
        yield GNULIB, gnulib.cases(gnulib.Bench(place, folder, bench.compiler, bench.shim(), bench.program))
    else:
        print("gnulib cannot be had: its tests are left out", flush=True)


def parts_with(bench: judged_programs.Bench, only: str) -> Iterator[Part]:
    """The parts that need a C compiler."""
    yield "wrong words, and what cannot be run", judged_programs.refused(bench)
    yield "programs", judged_programs.cases(bench)
    # it is not fetched in vain
    if only in GNULIB:
        yield from gnulib_part(bench)


def main(words: Sequence[str]) -> int:
    """Makes all checks: the exit status."""
    heed()
    args = asked(words, "Judges programs by tools/judge.py.", PROGRAM, ONLY)
    count = Count(also=(gnulib.judge.CannotJudge,))
    parts: list[Part] = [("logs", judged_logs.cases()), ("orders", judged_logs.order_cases(args.program))]
    found = compilers()
    if not found:
        lacks_compiler("no program is judged")
        return count.parts(parts, args.only)
    with tempfile.TemporaryDirectory(prefix="fdref-") as folder:
        bench = judged_programs.Bench(found[0], args.program, folder)
        if count.check("the shim", bench.shim):
            parts += parts_with(bench, args.only)
        return count.parts(parts, args.only)


if __name__ == "__main__":
    sys.exit(main(sys.argv[1:]))
