"""The options that several scripts have."""

import argparse
import os
from collections.abc import Sequence
from pathlib import Path
from typing import Any, NamedTuple

from support import summaries
from support.counting import Count
from support.places import FDREF, TOP


def absolute(path: str) -> str:
    """A path from the root on, so that it stays right in another folder."""
    return os.path.abspath(path)


# ---- what an option is


class Option(NamedTuple):
    """An option of a script, what argparse is told of it, and whether it names a program that has to be there."""

    word: str
    told: dict[str, Any]
    is_program: bool = False

    def add(self, parser: argparse.ArgumentParser) -> None:
        """Adds it to the options of a script."""
        parser.add_argument(self.word, **self.told)


def path_option(word: str, what: str, default: Path) -> Option:
    """An option for the path of a built program."""
    text = f"{what} [default: {default.relative_to(TOP)}]"
    return Option(word, {"metavar": "PATH", "type": absolute, "default": str(default), "help": text}, True)


def trial_option(default: Path) -> Option:
    """The option `--trial`, for the path of a trial."""
    return path_option("--trial", "the trial", default)


def count_option(word: str, default: int, what: str) -> Option:
    """An option for a number of things."""
    text = f"{what}; {default} where no number is given"
    return Option(word, {"metavar": "N", "type": int, "default": default, "help": text})


def seconds_option(what: str) -> Option:
    """The option `--seconds`, for the time that a test may take for more than it does always."""
    return Option("--seconds", {"metavar": "N", "type": float, "default": 0, "help": what})


# The program that is tested.
PROGRAM = path_option("--program", "the program", FDREF)
# A word from which all random choices follow.
SEED = Option("--seed", {"metavar": "WORD", "default": "1", "help": "any word; 1 where none is given"})
# Where it is written what a run has counted that is shared out.
SUMMARY = Option(summaries.WORD, dict(summaries.TOLD))
# A word by which some parts of a test are chosen.
ONLY = Option("--only", {"metavar": "WORD", "default": "", "help": "only the parts that have this word in their name"})


# ---- the options of a tool or a bench


def add_path(parser: argparse.ArgumentParser, word: str, what: str, default: Path) -> None:
    """Adds an option for the path of a built program, such as `--program`."""
    path_option(word, what, default).add(parser)


def add_count(parser: argparse.ArgumentParser, word: str, default: int, what: str) -> None:
    """Adds an option for a number of things."""
    count_option(word, default, what).add(parser)


def is_missing(path: str, what: str = "program") -> bool:
    """Whether a program is not there, which is told."""
    if os.path.exists(path):
        return False
    advice = ": './fdref build' makes it" if what == "program" else ""
    print(f"no {what} at {path}{advice}")
    return True


# ---- the options of a test


def parsed(words: Sequence[str], about: str, *options: Option) -> argparse.Namespace:
    """What the command line of a test asks for."""
    parser = argparse.ArgumentParser(description=about)
    for option in options:
        option.add(parser)
    return parser.parse_args(words)


def asked(words: Sequence[str], about: str, *options: Option) -> argparse.Namespace:
    """What the command line of a test asks for. The test ends where a program is not there."""
    args = parsed(words, about, *options)
    for option in options:
        if option.is_program:
            what = option.word.strip("-")
            end_without(getattr(args, what), what)
    return args


def end_without(path: str, what: str = "program") -> None:
    """Ends a test whose program is not there, which is told and counted as one failure."""
    if is_missing(path, what):
        count = Count()
        count.add(0, 1)
        raise SystemExit(count.end())
