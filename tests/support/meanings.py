"""What the types of the code are seen as: the views of `Model`, and the ghosts of other traits. With them come the
names that these take from folders `Proved`."""

import re
from collections.abc import Iterator
from pathlib import Path
from typing import NamedTuple

from support.counting import require
from support.places import CRATES

PROVED = "Proved"
# Ghosts that are proved and not believed: what holds of each value of a type.
LAWS = {"invariant"}
NAME = r"[^\W\d]\w*"
# A word that names something: no field that is read, and none that is given.
WORD = re.compile(rf"(?<![\w.]){NAME}(?!\w| = )")
FROM_PROVED = re.compile(rf"use Rattle\.\w+\.specs\.{PROVED}\.[\w.]*\{{([^}}]*)\}}")
BLOCK = re.compile(r"^(?:pub(?:\([^)]*\))? )?(?P<kind>impl|trait)\b(?P<head>[^{]*)\{", re.MULTILINE)
# What a block implements: a trait, whose arguments may be nested three deep, for a type.
ARGUMENTS = r"<(?:[^<>]|<(?:[^<>]|<[^<>]*>)*>)*>"
IMPLEMENTED = re.compile(rf"(?P<trait>{NAME})(?:{ARGUMENTS})?\s+for\s+(?P<name>{NAME}|\([^()]*\))")
GHOST = re.compile(rf"^    ghost (?P<name>{NAME})(?: =|:) \{{", re.MULTILINE)


class Ghost(NamedTuple):
    """A ghost of a trait, or of a type's implementation of one: its crate, the trait, the type, its name, what it is,
    and the names in it that come from folders `Proved`. A trait has no type."""

    crate: str
    trait: str
    of_type: str
    name: str
    body: str
    proved: list[str]

    def owner(self) -> str:
        """Whose it is, in words."""
        return f"{self.crate} {self.of_type or self.trait}"


def brought_from_proved(text: str) -> set[str]:
    """The names that a text brings in from folders `Proved`, as it calls them."""
    return {name.split(" as ")[-1].strip() for names in FROM_PROVED.findall(text) for name in names.split(",")}


def without_comments(text: str, mark: str) -> str:
    """A text without the comments that begin with a mark."""
    return re.sub(rf"[ \t]*{mark}[^\n]*", "", text)


def block_from(text: str, at: int) -> str:
    """What stands in the braces that are open at a place of a text."""
    depth, end = 1, at
    while depth:
        depth += {"{": 1, "}": -1}.get(text[end], 0)
        end += 1
    return text[at : end - 1]


def uses(text: str, indent: str) -> str:
    """The imports of ghosts in a text, at this indent."""
    return "\n".join(re.findall(rf"^{indent}ghost (use [^;]*);", text, re.MULTILINE))


def ghosts_in(file: Path) -> Iterator[Ghost]:
    """The ghosts of a source."""
    text = without_comments(file.read_text(), "//")
    of_file = brought_from_proved(uses(text, ""))
    for found in BLOCK.finditer(text):
        trait, of_type = owner_of(found["kind"], found["head"])
        if not trait:
            continue
        block = block_from(text, found.end())
        brought = of_file | brought_from_proved(uses(block, "    "))
        for ghost in GHOST.finditer(block):
            if ghost["name"] not in LAWS:
                body = " ".join(block_from(block, ghost.end()).split())
                named = sorted(brought.intersection(WORD.findall(body)))
                yield Ghost(file.relative_to(CRATES).parts[0], trait, of_type, ghost["name"], body, named)


def owner_of(kind: str, head: str) -> tuple[str, str]:
    """The trait and the type of a block, by what stands before its brace. One that implements no trait has neither."""
    if kind == "trait":
        return re.findall(NAME, head)[0], ""
    of_type = IMPLEMENTED.search(head)
    require(of_type or not re.search(r"\sfor\s", head), f"nobody knows what this implements: impl{head}")
    return (of_type["trait"], of_type["name"]) if of_type else ("", "")


def ghosts() -> list[Ghost]:
    """The ghosts of all sources."""
    return [ghost for file in sorted(CRATES.glob("*/src/**/*.rt")) for ghost in ghosts_in(file)]
