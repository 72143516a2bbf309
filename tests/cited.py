#!/usr/bin/env python3
"""Is each lemma of the proofs cited? (a few seconds)

usage: tests/cited.py [--list]

Looked at are the files of lemmas of all crates: those below `proofs` but the answers and invariants of functions. A
lemma of a file is cited by its own file outside itself, by a file that imports it by its name, or through a name of
its module, and uses it, by a set of rules, or by a word of a source. What only uncited lemmas cite is uncited too.

How many lemmas nothing cites is held at the most that it was. With --list they are printed. The last line is
`N passed, M failed`.
"""

import argparse
import re
import sys
from collections import Counter, defaultdict
from collections.abc import Iterator, Sequence
from functools import partial
from pathlib import Path
from typing import NamedTuple

from support.counting import Count, require, same
from support.places import CRATES

# How many lemmas nothing cites.
MOST = 0

# Files that hold what functions ask for, or worked runs that are there for themselves.
APART = re.compile(r"(?:Answers|Invariants|Goals|Given)$|Rows")
WORD = re.compile(r"[A-Za-z_][\w'\-×]*")
COMMENT = re.compile(r"--[^\n]*")
NAMED = re.compile(r"(?:(?:pub|abbrev|opaque|unfoldable) )*(?:(?:data|record) )?([A-Za-z_][\w'\-×]*)")
BY_NAMES = re.compile(r"use ([\w.+\-]+)\.\{(.*)\}$")
BY_MODULE = re.compile(r"use ([\w.+\-]+) as ([\w\-]+)$")


class File(NamedTuple):
    """A file of statements or proofs: its module, what it imports, and its definitions in turn, each with its name, or
    none where it is none that could be uncited, and its text."""

    module: str
    imports: list[str]
    parts: list[tuple[str | None, str]]


def module(path: Path) -> str:
    """The module of a file below a crate."""
    return ".".join(["Rattle", *path.relative_to(CRATES).with_suffix("").parts])


def read(name: str, text: str) -> File:
    """The file of a module with a text."""
    imports: list[str] = []
    parts: list[tuple[str | None, str]] = []
    for line in COMMENT.sub("", text).splitlines():
        if line.startswith("use "):
            imports.append(line)
        elif parts and (not line.strip() or line[0] in " })]"):
            parts[-1] = (parts[-1][0], f"{parts[-1][1]}\n{line}")
        elif line.strip():
            found = NAMED.match(line)
            parts.append((None if line.startswith(("module", "ruleset")) or not found else found[1], line))
    return File(name, imports, parts)


def cites(file: File) -> Iterator[tuple[str, str]]:
    """The module and the name of each definition of another file that a file uses."""
    body = "\n".join(text for _, text in file.parts)
    words = set(WORD.findall(body))
    for line in file.imports:
        if found := BY_NAMES.match(line):
            for each in found[2].split(","):
                name, _, here = each.strip().partition(" as ")
                if (here or name) in words or "◌" in name:
                    yield found[1], name
        elif found := BY_MODULE.match(line):
            for name in re.findall(rf"(?<![\w.]){re.escape(found[2])}\.([A-Za-z_][\w'\-×]*)", body):
                yield found[1], name


def own_cites(file: File) -> set[str]:
    """The names that a file has outside of the definition of that name."""
    all_words, at_home = Counter[str](), Counter[str]()
    for name, text in file.parts:
        words = Counter(WORD.findall(text))
        all_words.update(words)
        if name:
            at_home[name] += words[name]
    return {word for word, times in all_words.items() if times > at_home[word]}


def uncited(files: Sequence[File], words: set[str]) -> Iterator[tuple[str, str]]:
    """The module and name of each lemma that no file, and none of these words of sources, cites, with those that only
    such lemmas cite."""
    files = list(files)
    while True:
        cited = defaultdict(set)
        for file in files:
            for other, name in cites(file):
                cited[other].add(name)
        gone = set()
        for file in files:
            if ".proofs." in file.module and not APART.search(file.module.rpartition(".")[2]):
                known = cited[file.module] | own_cites(file) | words
                gone |= {(file.module, name) for name, _ in file.parts if name and name not in known}
        if not gone:
            return
        yield from sorted(gone)
        files = [it._replace(parts=[part for part in it.parts if (it.module, part[0]) not in gone]) for it in files]


def of_crates() -> list[tuple[str, str]]:
    """The lemmas of the crates that nothing cites."""
    paths = [it for it in sorted(CRATES.rglob("*.antt")) if "out" not in it.relative_to(CRATES).parts]
    sources = [it for it in CRATES.rglob("*.rt") if "out" not in it.relative_to(CRATES).parts]
    words = {word for it in sources for word in WORD.findall(it.read_text(encoding="utf-8"))}
    return list(uncited([read(module(it), it.read_text(encoding="utf-8")) for it in paths], words))


LEMMAS = """use Rattle.a.specs.S.{Is}
-- a comment that has alone in it
pub first : Is
first = second
second : Is
second = second
module _ where
  third : Is

  third = fourth

fourth : Is
fourth = record {
  is = fifth;
}
fifth : Is
fifth = fifth
pub alone : Is
alone = below
below : Is
below = below
pub renamed : Is
pub ruled : Is
ruleset rules = (ruled)
"""
USERS = {
    "use Rattle.a.proofs.L.{first, renamed as here}\nx = first here": {"alone", "below"},
    "use Rattle.a.proofs.L as laws\nx = laws.alone laws.renamed laws.first": set(),
    "use Rattle.a.proofs.L.{first, alone}\nx = first": {"alone", "below", "renamed"},
    "use Rattle.b.proofs.L as laws\nx = laws.first first": {"first", "second", "alone", "below", "renamed"},
}


def is_found(user: str, wanted: set[str]) -> None:
    """Fails unless just these lemmas are found to be uncited beside a user."""
    files = [read("Rattle.a.proofs.L", LEMMAS), read("Rattle.a.proofs.f.Answers", user)]
    same({("Rattle.a.proofs.L", name) for name in wanted}, set(uncited(files, set())))


def is_at_most(given: int) -> None:
    """Fails where more lemmas are uncited than there were."""
    require(given <= MOST, f"{given} lemmas are uncited, and there were {MOST}")


def main(words: Sequence[str]) -> int:
    """Makes all checks: the exit status."""
    parser = argparse.ArgumentParser(description="Counts the lemmas that nothing cites.")
    parser.add_argument("--list", action="store_true", help="print them")
    args = parser.parse_args(words)
    count = Count()
    count.check_all((user, partial(is_found, user, wanted)) for user, wanted in USERS.items())
    found = of_crates()
    print(f"{len(found)} lemmas that nothing cites")
    for name, lemma in found if args.list else ():
        print(f"{name}: {lemma}")
    count.check("lemmas that nothing cites", partial(is_at_most, len(found)))
    return count.end()


if __name__ == "__main__":
    sys.exit(main(sys.argv[1:]))
