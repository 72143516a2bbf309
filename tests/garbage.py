#!/usr/bin/env python3
"""Does garbage ever bring the C and the Python around the program down? (half a minute)

usage: tests/garbage.py [--program PATH] [--seed WORD] [--first N] [--seconds N] [--only WORD]

The program is crates/fdref/out/fdref where no PATH is given. What is tested here is around it, and is not proved. The C
is built with each compiler that is there, with sanitizers of addresses and of undefined behaviour where they link.

  - tools/ask_kernel.c is given scripts whose words, bytes and ends are bent. It must end well, or tell the first line
    that is no act. What is an act for it must be one for the program and for the plain model, and be spelled alike.
    Nothing may be left of a script.
  - bench/load.c has a server that answers rightly up to a moment, and then says anything. It must end by itself, with a
    fault in one line, unless all was right.
  - The clients in Python and in C are sent answers that are bent, cut, doubled, or in many pieces. Each call must give
    what the bytes say, or fail as is documented, and the process must go on, or be lost.
  - Traces that both clients write, of whatever records they take, are never malformed.

With `--seconds N` each part goes on for so long. What was met is told at the end. All choices follow from the seed and
the number in the name of a failure: with that `--seed`, `--first` its number and `--only` its part, it comes first
after what is always tried.

Where no C compiler is there, it says so and leaves out all that is in C. A failure is told in one line, the first ten
of each part. The last line is `N passed, M failed`, and the exit status is 1 where M is above 0.
"""

import itertools
import os
import sys
import tempfile
import time
from collections import Counter
from collections.abc import Callable, Iterable, Iterator, Sequence
from functools import partial
from typing import NamedTuple

from parts import garbage_clients, garbage_load, garbage_scripts, garbage_traces
from parts.c_programs import Build, builds
from support.counting import Case, Count, Failure, lacks_compiler, require
from support.options import ONLY, PROGRAM, SEED, asked, count_option, seconds_option

TELL_MOST = 10


class Setting(NamedTuple):
    """What the parts are made with: the program, a folder, the ways to build C, the seed, the number with which its
    choices begin, and a counter of what is met."""

    program: str
    folder: str
    ways: Sequence[Build]
    seed: str
    first: int
    met: Counter[str]

    def choices(self) -> tuple[str, int, Counter[str]]:
        """What endless cases are made with."""
        return self.seed, self.first, self.met


class Part(NamedTuple):
    """A part of the test: cases that are always the same, and endless ones, with how many of them are always made."""

    plain: Iterable[Case]
    endless: Sequence[tuple[int, Iterator[Case]]]


def sanitized(folder: str) -> list[Build]:
    """The ways to build with sanitizers, or all that there are where none links."""
    found = builds(folder)
    careful = [build for build in found if build.name.endswith("with sanitizers")]
    if found and not careful:
        print("no sanitizers link: the programs are built without them", flush=True)
    return careful or found


def driver(it: Setting) -> Part:
    """The driver of scripts."""
    drivers = [garbage_scripts.Driver(build) for build in it.ways]
    lines = garbage_scripts.lines(drivers, it.program, *it.choices())
    scripts = garbage_scripts.scripts(drivers, *it.choices())
    plain = itertools.chain(garbage_scripts.every_word(drivers, it.met), garbage_scripts.odd_scripts(drivers))
    return Part(plain, [(15, lines), (40, scripts)])


def load(it: Setting) -> Part:
    """The load generator."""
    loads = [garbage_load.Load(build) for build in it.ways]
    return Part(garbage_load.plain_cases(loads), [(60, garbage_load.cases(loads, *it.choices()))])


def client_in_c(it: Setting) -> Part:
    """The client in C."""
    for build in it.ways:
        build.program("driver")
    return Part(garbage_clients.plain_in_c(it.ways), [(40, garbage_clients.in_c(it.ways, *it.choices()))])


def client_in_python(it: Setting) -> Part:
    """The client in Python."""
    return Part(garbage_clients.plain_in_python(), [(300, garbage_clients.in_python(*it.choices()))])


def traces(it: Setting) -> Part:
    """The traces of both clients."""
    edges = garbage_traces.edges_of(it.ways)
    cases = garbage_traces.cases(it.program, it.folder, edges, *it.choices())
    return Part(garbage_traces.plain_cases(it.program, it.folder), [(30, cases)])


# The parts that are about C alone, and all others.
IN_C = {"the driver": driver, "the load": load, "the client in C": client_in_c}
OTHERS = {"the client in Python": client_in_python, "traces": traces}


def cases(make: Callable[[Setting], Part], setting: Setting, seconds: float) -> Iterator[Case]:
    """The cases of a part, which goes on for so long. What it needs is built when the first is wanted."""
    until = time.monotonic() + seconds
    try:
        part = make(setting)
    except Failure as fault:
        yield "what is built", partial(require, False, str(fault))
        return
    yield from part.plain
    for count, endless in part.endless:
        yield from itertools.islice(endless, count)
    while time.monotonic() < until:
        for _, endless in part.endless:
            yield next(endless)


def main(words: Sequence[str]) -> int:
    """Makes all checks: the exit status."""
    about = "Gives garbage to the C and the Python around the program."
    first = count_option("--first", 0, "the number with which the choices of a seed begin")
    args = asked(words, about, PROGRAM, SEED, first, seconds_option("let each part go on for so long"), ONLY)
    # whatever a client raises that it should not is a failure
    count, met = Count(TELL_MOST, (Exception,)), Counter[str]()
    with tempfile.TemporaryDirectory(prefix="fdref-") as given:
        folder = os.path.realpath(given)
        ways = sanitized(folder)
        if not ways:
            lacks_compiler("the driver, the load generator and the client in C are left out")
        setting = Setting(args.program, folder, ways, args.seed, args.first, met)
        parts = (IN_C if ways else {}) | OTHERS
        made = [(name, cases(make, setting, args.seconds)) for name, make in parts.items()]
        for name, part in made:
            if args.only in name:
                count.part(name, part)
    print(f"what was met: {', '.join(f'{name} {number}' for name, number in met.most_common())}")
    return count.end()


if __name__ == "__main__":
    sys.exit(main(sys.argv[1:]))
