#!/usr/bin/env python3
"""Do README's commands give what README shows, as they stand there? (a minute)

usage: tests/readme.py

A block of commands is fenced by ```sh, and what it prints on standard output by ```text right after it. The program is
to be built, so that `./fdref build` has nothing to do. The command that tests everything is not run, since it runs
this; it is looked for. The last line is `N passed, M failed`.
"""

import re
import sys
from collections.abc import Iterator
from functools import partial
from typing import NamedTuple

from support.counting import Count, require, same
from support.options import end_without
from support.places import FDREF, TOP
from support.running import run

SECONDS = 600
README = TOP / "README.md"
RUN_ALL = "bash .ci/run\n"


class Block(NamedTuple):
    """Commands, and what README shows of what they print."""

    commands: str
    shown: str | None


def blocks(text: str) -> Iterator[Block]:
    """The blocks of commands of a text, in their order."""
    for found in re.finditer(r"^```sh\n(.*?)^```\n(?:\n```text\n(.*?)^```\n)?", text, re.MULTILINE | re.DOTALL):
        yield Block(found[1], found[2])


def gives(block: Block) -> None:
    """Fails unless the commands end well and print what is shown."""
    ran = run(["bash", "-c", block.commands], seconds=SECONDS, folder=TOP)
    require(ran.status == 0, ran.said())
    if block.shown is not None:
        same(block.shown, ran.stdout.decode())


def runs_this() -> None:
    """Fails unless the command that tests everything runs this test too."""
    require("tests/readme.py" in (TOP / ".ci" / "run").read_text(), ".ci/run does not run tests/readme.py")


def main() -> int:
    end_without(str(FDREF))
    count = Count()
    found = list(blocks(README.read_text()))
    count.check("README has commands", partial(require, len(found) >= 5, f"{len(found)} blocks of commands"))
    for block in found:
        name = block.commands.splitlines()[0]
        count.check(name, partial(runs_this) if block.commands == RUN_ALL else partial(gives, block))
    return count.end()


if __name__ == "__main__":
    sys.exit(main())
