#!/usr/bin/env python3
"""Does no more stand twice in the sources and proofs than did? (a few seconds)

usage: tests/repeats.py [--list]

Looked at are all `.rt` and `.antt` files of crates but those of tests, trials and wrong edits. Two places are a pair
where they share six lines or more, as far as they go on alike: either the same lines, or lines of the same shape, in
which names and numbers may be others, but each stands for the same one throughout. Left out are blank lines, comments
and imports, and lines that hold no name. Places that overlap are no pair.

The count of each kind is held at the most that it was. With --list all pairs are printed. The last line is
`N passed, M failed`.
"""

import argparse
import collections
import re
import sys
from collections.abc import Iterator, Sequence
from functools import partial
from pathlib import Path
from typing import NamedTuple

from support.counting import Count, require, same
from support.places import CRATES

LEAST = 6
# How many pairs of places there are at the most, by the ending of their files and by what they share.
MOST = {(".rt", "lines"): 39, (".rt", "shapes"): 209, (".antt", "lines"): 37, (".antt", "shapes"): 121}

COMMENT = {".rt": "//", ".antt": "--"}
IMPORT = re.compile(r"(?:pub )?(?:ghost )?use |mod |pub mod |#!?\[")
WORD = re.compile(r"[^\W\d]\w*|\d[\d_]*")
# Words of the languages, which stand for themselves.
KEPT = frozenset(
    "fn let mut match if else for in while return pub impl trait struct enum const self Self ref move where as ghost "
    "requires ensures invariant use abbrev def theorem lemma data record case of with by then do fun forall exists "
    "Ok Err Some None true false".split()
)


class Line(NamedTuple):
    """A line of a source that is looked at: its file, its number there, its text without what is around it, and that
    text with one mark in the place of all names and numbers."""

    file: str
    number: int
    text: str
    marks: str


class Pair(NamedTuple):
    """Two places that share so many lines."""

    one: Line
    other: Line
    length: int

    def text(self) -> str:
        """The pair, for a reader."""
        return f"{self.length:4} lines: {self.one.file}:{self.one.number} and {self.other.file}:{self.other.number}"


def paths(ending: str) -> list[Path]:
    """The files that are looked at."""
    found = []
    for path in sorted(CRATES.rglob(f"*{ending}")):
        crate, *folders = path.relative_to(CRATES).parts[:-1]
        if not crate.endswith(("_tests", "_trial")) and not {"out", "must-fail", "declared"} & set(folders):
            found.append(path)
    return found


def lines_of(path: Path, ending: str) -> list[Line]:
    """The lines of a file that are looked at."""
    found = []
    for number, text in enumerate(path.read_text(encoding="utf-8").splitlines(), 1):
        text = text.strip()
        if WORD.search(text) and not text.startswith(COMMENT[ending]) and not IMPORT.match(text):
            text = " ".join(text.split())
            found.append(Line(str(path.relative_to(CRATES)), number, text, WORD.sub(marked, text)))
    return found


def marked(found: re.Match[str]) -> str:
    """The mark in the place of a name or a number, or the word that stands for itself."""
    return found[0] if found[0] in KEPT else "$"


def marks(lines: Sequence[Line], at: int) -> tuple[str, ...]:
    """What six lines from a place on have in common with all of their shape."""
    return tuple(line.marks for line in lines[at : at + LEAST])


def shape(lines: Sequence[Line]) -> str:
    """Lines in which each name and number is that of its first place."""
    places: dict[str, str] = {}

    def placed(found: re.Match[str]) -> str:
        word = found[0]
        return word if word in KEPT else places.setdefault(word, f"${len(places)}")

    return "\n".join(WORD.sub(placed, line.text) for line in lines)


def same_text(lines: Sequence[Line]) -> str:
    """Lines as they are."""
    return "\n".join(line.text for line in lines)


LIKE = {"lines": same_text, "shapes": shape}


def pairs(ending: str, kind: str) -> Iterator[Pair]:
    """The pairs of places of files with an ending, the longest run of lines of each. A place is paired with the first
    one that is like it."""
    like = LIKE[kind]
    first: dict[str, tuple[list[Line], int]] = {}
    files = [lines_of(path, ending) for path in paths(ending)]
    met = collections.Counter(marks(lines, at) for lines in files for at in range(len(lines) - LEAST + 1))
    for lines in files:
        at = 0
        while at + LEAST <= len(lines):
            if met[marks(lines, at)] == 1:
                at += 1
                continue
            where = first.setdefault(like(lines[at : at + LEAST]), (lines, at))
            others, start = where
            if others is lines and at < start + LEAST:
                at += 1
                continue
            count = run_length(lines, at, others, start, kind)
            yield Pair(others[start], lines[at], count)
            at += count


def run_length(lines: list[Line], at: int, others: list[Line], start: int, kind: str) -> int:
    """How many lines two places share that share six."""
    like, count = LIKE[kind], LEAST
    most = min(len(lines) - at, len(others) - start, at - start if others is lines else len(lines))
    while count < most and like(lines[at : at + count + 1]) == like(others[start : start + count + 1]):
        count += 1
    return count


def is_at_most(most: int, given: int) -> None:
    """Fails where there are more pairs than there were."""
    require(given <= most, f"{given} pairs, and there were {most}")


# A text, one that is like it, and whether it has its lines and its shape.
ALIKE = [
    ("let a = b + a;", "let a = b + a;", True, True),
    ("let a = b + a;", "let x = y + x;", False, True),
    ("let a = b + a;", "let x = y + y;", False, False),
    ("let a = b + 1;", "let a = b - 1;", False, False),
    ("match a { 7 => b }", "while a { 7 => b }", False, False),
    ("f(a, 1, 2)", "g(c, 3, 4)", False, True),
]


def is_told_apart(one: str, other: str, has_lines: bool, has_shape: bool) -> None:
    """Fails unless two texts are alike as they have to be."""
    first, second = (Line("", 1, text, WORD.sub(marked, text)) for text in (one, other))
    same(has_lines, same_text([first]) == same_text([second]))
    same(has_shape, shape([first]) == shape([second]))
    require(not has_shape or first.marks == second.marks, "one shape, and other marks")


def main(words: Sequence[str]) -> int:
    """Makes all checks: the exit status."""
    parser = argparse.ArgumentParser(description="Counts what stands twice in the sources and proofs.")
    parser.add_argument("--list", action="store_true", help="print all pairs")
    args = parser.parse_args(words)
    count = Count()
    count.check_all((f"{one} and {other}", partial(is_told_apart, one, other, *alike)) for one, other, *alike in ALIKE)
    for (ending, kind), most in MOST.items():
        found = list(pairs(ending, kind))
        print(f"{ending}, {kind}: {len(found)} pairs with {sum(pair.length for pair in found)} lines")
        for pair in sorted(found, key=lambda it: -it.length) if args.list else ():
            print(pair.text())
        count.check(f"{ending}, {kind}", partial(is_at_most, most, len(found)))
    return count.end()


if __name__ == "__main__":
    sys.exit(main(sys.argv[1:]))
