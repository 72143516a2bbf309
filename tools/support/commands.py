"""The command that runs fdref, as the tools take it by `--program`, and the room of its pipes."""

import argparse
import os
import shlex
import shutil
import sys

from support.places import FDREF, IS_INSTALLED, TOP
from support.plain_model import PIPE_CAPACITY, PIPE_CAPACITY_LEAST, PIPE_CAPACITY_MOST, Limits
from support.running import CannotRun

UNPROVED = TOP / "out" / "unproved" / "fdref"


class ChosenLimits(Limits):
    """Limits that were asked for: a pipe of the system holds as many bytes."""


def add_program(parser: argparse.ArgumentParser) -> None:
    """The option `--program`."""
    text = "fdref, or a command that takes `replay` as its next word; "
    if IS_INSTALLED:
        text += f"{FDREF} where none is given"
    else:
        text += f"{FDREF.relative_to(TOP)} where none is given, or {UNPROVED.relative_to(TOP)} where that is not there"
    parser.add_argument("--program", metavar="COMMAND", help=text)


def add_capacity(parser: argparse.ArgumentParser) -> None:
    """The option `--pipe-capacity`, which gives limits of a run."""
    text = f"how many bytes a pipe of fdref holds, from {PIPE_CAPACITY_LEAST} to {PIPE_CAPACITY_MOST}; {PIPE_CAPACITY} "
    text += "where no number is given"
    parser.add_argument(
        "--pipe-capacity", metavar="N", dest="limits", type=limits_of_capacity, default=Limits(), help=text
    )


def limits_of_capacity(word: str) -> Limits:
    """The limits of a run whose pipes hold so many bytes."""
    capacity = int(word)
    if not PIPE_CAPACITY_LEAST <= capacity <= PIPE_CAPACITY_MOST:
        least, most = PIPE_CAPACITY_LEAST, PIPE_CAPACITY_MOST
        raise argparse.ArgumentTypeError(f"{word} is no number from {least} to {most}")
    return ChosenLimits(capacity=capacity)


def capacity_words(limits: Limits) -> list[str]:
    """The words by which fdref is told how many bytes its pipes hold; none where it is as many as by default."""
    return [] if limits.capacity == PIPE_CAPACITY else ["--pipe-capacity", str(limits.capacity)]


def program_of(command: str | None) -> list[str]:
    """The words of the command that runs fdref. Where none is given it is the program of this tree, the unproved one
    where there is no other, which is told."""
    if command is None:
        return [built_here()]
    try:
        words = shlex.split(command)
    except ValueError as fault:
        raise CannotRun(f"--program {command}: {fault}") from None
    if not words:
        raise CannotRun("--program has no word")
    # from the root on, so that it stays right in another folder
    program = os.path.abspath(shutil.which(words[0]) or words[0])
    if not os.path.exists(program):
        raise CannotRun(f"no program at {program}")
    return [program, *words[1:]]


def built_here() -> str:
    """The program that is built in this tree, or installed with this tool. That bin/fdref is no proved one tells the
    unproved one beside the tools."""
    if FDREF.exists() and not (IS_INSTALLED and UNPROVED.exists()):
        return str(FDREF)
    if IS_INSTALLED and not UNPROVED.exists():
        raise CannotRun(f"no program at {FDREF}: 'make install' puts it there")
    if not UNPROVED.exists():
        ways = "'./fdref build' proves and builds it in half an hour or more, './fdref build --unproved' compiles one"
        raise CannotRun(f"no program at {FDREF}: {ways} without proof in a minute")
    state = "installed" if IS_INSTALLED else "built"
    print(f"no proved program is {state}, and {UNPROVED} is taken, which is not proved", file=sys.stderr)
    return str(UNPROVED)
