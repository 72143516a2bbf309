#!/usr/bin/env python3
"""Does the client in C compile everywhere, and tell what the server answers? (half a minute)

usage: tests/c_client.py [--program PATH] [--seed WORD] [--calls N] [--only WORD]

The program is crates/fdref/out/fdref where no PATH is given. gcc and clang, as far as they are there, compile
clients/c/fdref.h and examples/c by each standard of C and as C++, with every warning as an error. The programs of
tests/c are built with each of them, plainly and with sanitizers of addresses and of undefined behaviour where these
link, and

  - the requests and answers of the client must be those of the tests. Where what comes is no answer, or is cut off,
    the connection must be lost,
  - each function must give what POSIX has, each call and each error must be the model's, and frames may be as large as
    they can be. A server that ends must end no client. System calls that are interrupted, or move few bytes, must
    change nothing, and each limit must hold while a timer interrupts them,
  - 64 clients at once make random calls, N of them in C (10,000 where no number is given), and as many by the client
    in Python. In the order of the places each answer must be that of the plain model. A seed makes the same choices
    each time, but the server may order the calls otherwise,
  - the traces that are written in C must be those of the client in Python, to the byte,
  - the examples must print what the server recorded, and write a trace on which the audit tells the mistake.

Where no C compiler is there, it says so and leaves out all but what can be seen in the header as a text. The last line
is `N passed, M failed`, and the exit status is 1 where M is above 0.
"""

import os
import sys
import tempfile
from collections.abc import Iterator, Sequence
from functools import partial
from pathlib import Path

from parts import c_calls, c_traces
from parts.c_programs import INCLUDES, SOURCES, WARNINGS, builds, can, compilers, compiles
from support.counting import Case, Count, lacks_compiler, same
from support.options import ONLY, PROGRAM, SEED, asked, count_option
from support.running import run

TELL_MOST = 10
STANDARDS = ["-std=c99"], ["-std=c11"], ["-std=c17"], ["-std=c2x"], ["-x", "c++", "-std=c++11"]

# The header before its code, and again after it; and what uses the code of another file.
WITH_CODE = """
#include "fdref.h"
#define FDREF_IMPLEMENTATION
#include "fdref.h"
#include "fdref.h"
"""
WITHOUT_CODE = """
#include "fdref.h"
int main(void) { return fdref_join("/no/such/socket") == 0 && errno == ENOENT ? 0 : 1; }
"""


def two_files(compiler: str, standard: Sequence[str], folder: str) -> None:
    """A program of two files, of which one has the code, in C, and the other one uses it."""
    objects = [os.path.join(folder, "with_code.o"), os.path.join(folder, "without_code.o")]
    for path, text, words in zip(objects, (WITH_CODE, WITHOUT_CODE), (["-std=c99"], standard), strict=True):
        source = Path(path).with_suffix(".c")
        source.write_text(text, encoding="utf-8")
        compiles([compiler, *words, *WARNINGS, *INCLUDES, "-c", str(source), "-o", path])
    program = os.path.join(folder, "two_files")
    compiles([compiler, *objects, "-o", program])
    same((0, b"", b""), run([program]))


def compiling(folder: str) -> Iterator[Case]:
    """The header, in the examples and by itself, by each compiler and standard."""
    examples = [str(SOURCES[name] / f"{name}.c") for name in ("two_readers", "trace")]
    for compiler in compilers():
        for standard in STANDARDS:
            if not can([compiler, *standard], folder):
                print(f"{compiler} has no {standard[-1]}: it is left out", flush=True)
                continue
            command = [compiler, *standard, "-O1", *WARNINGS, *INCLUDES, "-o", os.path.join(folder, "object"), "-c"]
            for example in examples:
                yield f"{compiler} {standard[-1]} {example}", partial(compiles, [*command, example])
            yield f"{compiler}, two files, {standard[-1]}", partial(two_files, compiler, standard, folder)


def main(words: Sequence[str]) -> int:
    """Makes all checks: the exit status."""
    about = "Compiles the client in C, and holds it against the built server."
    args = asked(words, about, PROGRAM, SEED, count_option("--calls", 10_000, "random calls in C"), ONLY)
    program = args.program
    parts = [("the header as a text", c_calls.without_compiler())]
    with tempfile.TemporaryDirectory(prefix="fdref-") as folder:
        every = builds(folder)
        if every:
            parts += [
                ("compiling", compiling(folder)),
                ("a server that answers what it is told", c_calls.told_cases(every)),
                ("the server", c_calls.served_cases(program, every)),
                (f"{args.calls} random calls in C", c_calls.random_cases(program, every, args.seed, args.calls)),
                ("traces in C", c_traces.traces(every, folder)),
                ("examples in C", c_traces.examples(program, every, folder)),
            ]
        else:
            lacks_compiler("clients/c/fdref.h is not compiled, and its functions are not called")
        return Count(TELL_MOST).parts(parts, args.only)


if __name__ == "__main__":
    sys.exit(main(sys.argv[1:]))
