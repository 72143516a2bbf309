#!/usr/bin/env python3
"""Do the tests find those wrong servers of which no contract speaks? (ten minutes)

usage: tests/wrong_servers.py [--program PATH] [--only WORD]

No contract says that sessions go on beside one another, that nobody waits for somebody else's write, or that memory is
there. Where a server is wrong in that, a test has to find it. Each file of tests/wrong_servers has such a server: the
test that finds it, with its words, and the changes of sources that make it. It is compiled without proof from a copy of
the tree with these changes. The test must fail on it; on the right program, which is compiled likewise where no PATH is
given, it must pass.

A line of the table has a wrong server, its test, and whether it is found. The last line is `N passed, M failed`.
"""

import shlex
import shutil
import subprocess
import sys
import tempfile
from collections.abc import Sequence
from functools import partial
from pathlib import Path
from typing import NamedTuple

from support.counting import Count, Failure, require
from support.edits import Change, changed, changes_in, lines_of
from support.options import ONLY, Option, absolute, parsed
from support.places import CRATES, TESTS, TOOLS, TOP, WRONG_SERVERS
from support.running import CannotRun, run

# How many seconds the compiler and a test may take.
COMPILING, TESTING = 1_800, 900
RIGHT = "the right program"
PROGRAM_GIVEN = Option(
    "--program", {"metavar": "PATH", "type": absolute, "default": "", "help": "the right program; else it is compiled"}
)


class WrongServer(NamedTuple):
    """A wrong server: its name in words, the test that has to find it, and what makes it of the right one."""

    name: str
    test: str
    changes: list[Change]


def wrong_server(path: Path) -> WrongServer:
    """The wrong server that a file has."""
    lines = lines_of(path)
    require(lines and lines[0][0] == "test", f"{path} names no test")
    return WrongServer(path.stem.replace("_", " "), lines[0][1], changes_in(lines[1:]))


def copy_of_the_tree(folder: Path) -> None:
    """What the program is compiled from, without what was made of it before."""
    for name in ("crates.txt", "HANDLES"):
        shutil.copy(TOP / name, folder)
    shutil.copytree(CRATES, folder / "crates", ignore=shutil.ignore_patterns("out", "must-fail"))
    shutil.copytree(TOOLS, folder / "tools")


def compiled(folder: Path, changes: Sequence[Change]) -> str:
    """The program of a copy of the tree, made there, in which these changes are made."""
    copy_of_the_tree(folder)
    for path, text in changed(folder, changes).items():
        path.write_text(text, encoding="utf-8")
    words = [sys.executable, str(folder / "tools" / "build.py"), "--unproved"]
    built = subprocess.run(words, capture_output=True, text=True, timeout=COMPILING, check=False)
    if built.returncode != 0:
        raise CannotRun(f"it is not compiled: {built.stderr[-2_000:]}")
    return built.stdout.strip()


def last_line(program: str, test: str) -> tuple[int, str]:
    """How a test of a program ended, and the count that it printed last."""
    name, *words = shlex.split(test)
    ran = run([sys.executable, TESTS / name, "--program", program, *words], seconds=TESTING)
    lines = ran.stdout.decode("utf-8", "replace").splitlines()
    require(lines and lines[-1].endswith(" failed"), f"{test} broke off: {ran.said()}")
    return ran.status, lines[-1]


def passes(program: str, test: str) -> None:
    """Fails unless the right program passes a test, which checks something."""
    status, line = last_line(program, test)
    require(status == 0 and not line.startswith("0 passed"), f"{test}: {line}")


def is_found(server: WrongServer) -> None:
    """Fails unless its test fails on a wrong server. What comes of it is a line of the table."""
    with tempfile.TemporaryDirectory(prefix="fdref-wrong-") as name:
        program = compiled(Path(name), server.changes)
        status, line = last_line(program, server.test)
    told = "found" if status != 0 else "not found"
    print(f"| {server.name} | `{server.test}` | {told}: {line} |", flush=True)
    if status == 0:
        raise Failure(f"{server.test} passes")


def main(words: Sequence[str]) -> int:
    """Builds and tests the wrong servers: the exit status."""
    args = parsed(words, "Builds wrong servers, which tests have to find.", PROGRAM_GIVEN, ONLY)
    servers = [wrong_server(path) for path in sorted(WRONG_SERVERS.glob("*.edit"))]
    chosen = [server for server in servers if args.only in server.name]
    count = Count()
    with tempfile.TemporaryDirectory(prefix="fdref-right-") as name:
        program = args.program or compiled(Path(name), [])
        for test in dict.fromkeys(server.test for server in chosen):
            count.check(f"{RIGHT}: {test}", partial(passes, program, test))
    for server in chosen:
        count.check(server.name, partial(is_found, server))
    if not chosen:
        count.add(0, 1)
    return count.end()


if __name__ == "__main__":
    sys.exit(main(sys.argv[1:]))
