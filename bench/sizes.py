#!/usr/bin/env python3
"""Prints how many lines of code, tests, definitions and proofs each crate has, and how many edits.

usage: bench/sizes.py

Lines are those of the files, with comments and empty ones. Tests are tests.rt and what stands below a folder tests.
"""

from collections.abc import Callable
from pathlib import Path
from typing import NamedTuple

import paths  # noqa: F401
from support.places import CRATES, TOP


class Sizes(NamedTuple):
    """Lines of code, tests, definitions and proofs, and how many edits there are."""

    code: int
    tests: int
    definitions: int
    proofs: int
    edits: int


def lines(folder: Path, suffix: str, wanted: Callable[[Path], bool] = lambda path: True) -> int:
    """The lines of the files below a folder whose paths in it are wanted."""
    count = 0
    for path in folder.rglob("*" + suffix):
        if path.is_file() and wanted(path.relative_to(folder)):
            count += len(path.read_text(encoding="utf-8").splitlines())
    return count


def crates() -> list[str]:
    """The names in crates.txt, in their order."""
    text = (TOP / "crates.txt").read_text(encoding="utf-8")
    return [line.split(":")[0].strip() for line in text.splitlines() if ":" in line and not line.startswith("#")]


def is_test(path: Path) -> bool:
    """Whether a source file holds tests."""
    return path.name.endswith("tests.rt") or path.parts[0] == "tests"


def sizes(crate: str) -> Sizes:
    """The sizes of a crate."""
    folder = CRATES / crate
    return Sizes(
        lines(folder / "src", ".rt", lambda path: not is_test(path)),
        lines(folder / "src", ".rt", is_test),
        lines(folder / "specs", ".antt"),
        lines(folder / "proofs", ".antt"),
        len(list((folder / "must-fail").glob("*.edit"))),
    )


def row(name: str, values: Sizes) -> None:
    """Prints a line of the table."""
    code, tests, definitions, proofs, edits = values
    print(f"| {name} | {code:,} ({tests:,}) | {definitions:,} | {proofs:,} | {edits} |")


def main() -> None:
    """Prints the table."""
    print("| Crate | Code (tests) | Definitions | Proofs | Edits |")
    print("|---|---|---|---|---|")
    all_sizes = {crate: sizes(crate) for crate in crates()}
    for crate, values in all_sizes.items():
        row(f"`{crate}`", values)
    row("all", Sizes(*map(sum, zip(*all_sizes.values(), strict=True))))


if __name__ == "__main__":
    main()
