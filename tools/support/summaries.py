"""What a run has counted, as a file, so that a run can be shared out over many jobs and its parts be added up.

A summary is one JSON object:

- `program`: the name of the script that ran
- `shares`: what it ran, in their order: each has a `seed`, the numbers of its scripts (`first` and `scripts`; 0 and 0
  where a seed alone decides), and the options (`of`) that scripts depend on
- `versions`: those of `fdref`, `python` and the `system`, each with the number of jobs that had it
- `counts`: numbers by name, and texts in lists
"""

import json
import os
import platform
import tempfile
from argparse import ArgumentParser, ArgumentTypeError
from collections.abc import Iterable, Mapping, Sequence
from pathlib import Path
from typing import Any, NamedTuple, Protocol, Self

from support.counting import Failure
from support.running import run

# A number, texts, or more of both by their names.
Counts = dict[str, Any]

UNKNOWN = "unknown"


class BadSummary(Exception):
    """A file that is no summary, or summaries that cannot be added up; its text says why."""


class Tally(Protocol):
    """What a program counts: given as counts, taken from those of several runs, and told as its last lines."""

    @classmethod
    def of(cls, counts: Counts) -> Self: ...

    def counts(self) -> Counts: ...

    def text(self) -> str: ...

    def status(self) -> int: ...


class Share(NamedTuple):
    """What one job ran."""

    seed: str
    first: int
    scripts: int
    of: str

    def is_met(self, other: "Share") -> bool:
        """Whether something of it is in another one too."""
        if (self.seed, self.of) != (other.seed, other.of):
            return False
        is_apart = self.first + self.scripts <= other.first or other.first + other.scripts <= self.first
        return not is_apart or not self.scripts or not other.scripts

    def text(self) -> str:
        """Its seed and its scripts, for a reader."""
        scripts = f" scripts {self.first} to {self.first + self.scripts - 1}" if self.scripts else ""
        return f"seed {self.seed}{scripts}" + (f" of {self.of}" if self.of else "")


class Summary(NamedTuple):
    """What a run has counted."""

    program: str
    shares: list[Share]
    versions: dict[str, dict[str, int]]
    counts: Counts

    def json(self) -> str:
        """Its text."""
        shares = [share._asdict() for share in self.shares]
        return json.dumps({**self._asdict(), "shares": shares}, indent=1, ensure_ascii=True) + "\n"


# ---- writing


def in_folder(path: str) -> str:
    """A path in a folder that is there, so that it is no news at the end of a night."""
    folder = os.path.dirname(os.path.abspath(path))
    if not os.path.isdir(folder):
        raise ArgumentTypeError(f"there is no folder {folder}")
    return path


# The option by which a script writes one, and what argparse is told of it.
WORD = "--summary"
TOLD: dict[str, Any] = {
    "metavar": "FILE",
    "type": in_folder,
    "help": "writes what was counted, which tools/summary.py adds up",
}


def add_summary(parser: ArgumentParser) -> None:
    """Adds the option `--summary` to those of a tool."""
    parser.add_argument(WORD, **TOLD)


def versions(program: Sequence[str], system: str | None = None) -> dict[str, dict[str, int]]:
    """Those of what answers: fdref, as a command, this Python, and the system, or what stands in for it."""
    try:
        ran = run([*program, "--version"])
        told = ran.stdout.decode("ascii", "replace").strip() if ran.status == 0 else ""
    except (Failure, OSError):
        told = ""
    at_hand = " ".join((platform.system(), platform.release(), platform.machine()))
    found = {"fdref": told or UNKNOWN, "python": platform.python_version(), "system": system or at_hand}
    return {name: {version: 1} for name, version in found.items()}


def write(path: str, summary: Summary) -> None:
    """Writes a summary in one step, so that a job that is ended leaves a whole one or none. Fails with an OSError."""
    where = Path(path)
    with tempfile.NamedTemporaryFile("w", dir=where.parent, prefix=f".{where.name}.", delete=False) as file:
        file.write(summary.json())
    os.chmod(file.name, 0o644)
    os.replace(file.name, path)


# ---- reading


# What is said of a value of each type, and the types of what a summary and a share have.
KINDS: dict[type, str] = {str: "text", int: "number", list: "list", dict: "object"}
OF_SUMMARY: dict[str, type] = {"program": str, "shares": list, "versions": dict, "counts": dict}
OF_SHARE: dict[str, type] = {"seed": str, "first": int, "scripts": int, "of": str}


def values_of(found: Any, wanted: Mapping[str, type]) -> list[Any]:
    """The values of these names in an object, where each is there and has its type."""
    if not isinstance(found, dict):
        raise BadSummary("no object")
    for name, kind in wanted.items():
        if name not in found:
            raise BadSummary(f"{name} is missing")
        if not isinstance(found[name], kind):
            raise BadSummary(f"{name} is no {KINDS[kind]}")
    return [found[name] for name in wanted]


def read(path: str) -> Summary:
    """The summary in a file."""
    try:
        found = json.loads(Path(path).read_text(encoding="ascii"))
        program, shares, versions, counts = values_of(found, OF_SUMMARY)
        return Summary(program, [Share(*values_of(share, OF_SHARE)) for share in shares], versions, counts)
    except OSError as fault:
        raise BadSummary(f"{path}: {fault.strerror}") from None
    except (ValueError, BadSummary) as fault:
        raise BadSummary(f"{path}: no summary: {fault}") from None


# ---- adding


def added(one: Any, other: Any) -> Any:
    """The sum of two counts: numbers are added, texts stand one after another, and names are brought together."""
    if isinstance(one, dict) and isinstance(other, dict):
        return one | {name: added(one[name], count) if name in one else count for name, count in other.items()}
    if isinstance(one, int | list) and type(one) is type(other):
        return one + other
    raise BadSummary(f"counts of different forms: {one!r} and {other!r}")


# A summary, and the path of its file.
Read = tuple[str, Summary]


def in_order(every: Iterable[Read]) -> list[Read]:
    """Summaries in the order in which one run makes their scripts."""
    return sorted(every, key=lambda it: [(share.seed, share.first) for share in it[1].shares])


def check_shares(every: Iterable[Read]) -> None:
    """Fails where something was run twice, and names the files."""
    shares = [(share, path) for path, summary in every for share in summary.shares]
    ordered = sorted(shares, key=lambda it: (it[0].seed, it[0].of, it[0].first))
    for (one, path), (other, other_path) in zip(ordered, ordered[1:], strict=False):
        if one.is_met(other):
            raise BadSummary(f"{other_path}: counted twice: {other.text()}, and in {path} {one.text()}")


def both(one: Summary, path: str, other: Summary) -> Summary:
    """Two summaries in one, of which the other is that of a file."""
    if one.program != other.program:
        raise BadSummary(f"{path}: of different programs: {other.program}, and {one.program} in other files")
    try:
        versions, counts = added(one.versions, other.versions), added(one.counts, other.counts)
    except BadSummary as fault:
        raise BadSummary(f"{path}: beside other files: {fault}") from None
    return Summary(one.program, one.shares + other.shares, versions, counts)


def sum_of(every: Sequence[Read]) -> Summary:
    """The summary of one run that makes what several have made."""
    (_, summary), *others = in_order(every)
    for path, other in others:
        summary = both(summary, path, other)
    check_shares(every)
    return summary
