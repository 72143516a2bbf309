#!/usr/bin/env python3
"""Does an unmodified program get the server's answers by the library of clients/preload? (a minute)

usage: tests/preload.py [--program PATH] [--only WORD]

The program is crates/fdref/out/fdref where no PATH is given. The library is built by each compiler that is there, gcc
and clang, with every warning as an error, once also so that undefined behaviour ends the program. With one or two of
these

  - the programs of tests/c/preload_*.c, which check what each call gives, must end well, natively and asking a server,
    and print the same; the logs of both must have the same calls and answers,
  - the server's trace must be legal, and have each line of the log at its place; what else is there must be what the
    library does by itself,
  - programs must end as they do natively, and be told where there is no answer: no server, a full run, a server that
    is gone. What fdref leaves out must be told to a strict program and noted, and fail for another,
  - programs of the system must read and write the right bytes: Python, cat, head, dd, cp, ln, mv, truncate, stat, sh.

Where no C compiler is there, it says so and leaves out all. The last line is `N passed, M failed`, and the exit status
is 1 where M is above 0.
"""

import sys
import tempfile
from collections.abc import Callable, Iterator, Sequence

from parts.preload_builds import Library, documented_command, libraries
from parts.preload_functions import functions
from parts.preload_programs import endings, left_out, programs
from parts.preload_system import commands
from support.counting import Case, Count, lacks_compiler, require
from support.options import ONLY, PROGRAM, asked
from support.signals import heed

TELL_MOST = 10


def is_documented() -> None:
    """The command in the source is that of the tests."""
    words = documented_command()
    require(words[:4] == ["cc", "-O2", "-shared", "-fPIC"] and words[-1] == "-ldl", " ".join(words))


def building(every: Sequence[Library]) -> Iterator[Case]:
    """The library by each compiler."""
    yield "the command in the source", is_documented
    for library in every:
        yield library.name, library.built


def parts_of(program: str, every: Sequence[Library]) -> Iterator[tuple[str, Iterator[Case]]]:
    """The parts of the test, with the first library, the last one, or both."""
    first, last = every[:1], every[-1:]
    both = [*first, *every[1:][-1:]]
    yield "building", building(every)
    yield "programs", with_each(programs, program, both)
    yield "ends", with_each(endings, program, both)
    yield "what is left out", with_each(left_out, program, first)
    yield "functions", with_each(functions, program, first)
    yield "commands", with_each(commands, program, last)


def with_each(
    cases: Callable[[str, Library], Iterator[Case]], program: str, every: Sequence[Library]
) -> Iterator[Case]:
    """These cases with each library."""
    for library in every:
        yield from cases(program, library)


def main(words: Sequence[str]) -> int:
    """Makes all checks: the exit status."""
    heed()
    args = asked(words, "Runs programs with the library of clients/preload.", PROGRAM, ONLY)
    with tempfile.TemporaryDirectory(prefix="fdref-") as folder:
        every = libraries(folder)
        if not every:
            lacks_compiler("the library of clients/preload is not built")
        return Count(TELL_MOST).parts(parts_of(args.program, every), args.only)


if __name__ == "__main__":
    sys.exit(main(sys.argv[1:]))
