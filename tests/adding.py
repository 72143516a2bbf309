#!/usr/bin/env python3
"""Does docs/ADDING.md list the files that an addition edits, and no others? (a few seconds)

usage: tests/adding.py

Each part of that page lists the files that one kind of addition edits. An item begins with a path, and may have
words in parentheses:

    7. `crates/some_crate/src/file.rt` (`one_word`, `another`): what is done there
    - `crates/some_crate/src/file.rt` (`one_word`): where it is done

Each path has to be there, and each of the words has to stand in its file. A part may name the words of its pattern,
and files that have them for reasons of their own:

    Pattern: `one_word`, `another`.

    Named elsewhere: `tests/edits`, `bench/replay.py` (why).

Then these words are looked for, outside comments, in the sources of the crates and in tests, tools, clients and
bench. A file that has one of them has to be listed, or to be named elsewhere; and a numbered file of these folders
has to have one. What the page says to check with `--only` has to be a function. The last line is
`N passed, M failed`.
"""

import argparse
import re
import sys
from collections.abc import Iterator
from pathlib import Path
from typing import NamedTuple

from support.counting import Count
from support.places import TOP

PAGE = TOP / "docs" / "ADDING.md"
SEARCHED = ("crates/*/src", "crates/*/specs", "crates/*/proofs", "tests", "tools", "clients", "bench")
ENDINGS = {".rt", ".antt", ".py", ".c", ".h", ".edit", ""}
C_COMMENT = r"/\*.*?\*/|//[^\n]*"
COMMENTS = {".rt": r"//[^\n]*", ".antt": r"--[^\n]*", ".c": C_COMMENT, ".h": C_COMMENT}
ITEM = re.compile(r"(\d+\.|-) `([\w/-]+[\w./-]*)`(?: \((`[^`)]+`(?:, `[^`)]+`)*)\))?[:.]")
PATH = re.compile(r"`((?:crates|tests|tools|clients|bench|docs|examples)/[\w./-]+)`")


class Item(NamedTuple):
    """A file of a list, and the words that stand in it; it is edited always, or where the text says so."""

    path: str
    words: list[str]
    always: bool


class Part(NamedTuple):
    """A part of the page: a kind of addition."""

    title: str
    items: list[Item]
    unread: list[str]
    pattern: list[str]
    elsewhere: list[str]


def quoted(text: str) -> list[str]:
    """What stands in backquotes."""
    return re.findall(r"`([^`]+)`", text)


def blocks(text: str) -> Iterator[str]:
    """The paragraphs and items of a part, each as one line."""
    for paragraph in re.split(r"\n\s*\n", text):
        for block in re.split(r"\n(?=\d+\. |- )", paragraph):
            yield " ".join(block.split())


def read_part(text: str) -> Part:
    """Reads a part, from its title on."""
    title, _, rest = text.partition("\n")
    part = Part(title.strip(), [], [], [], [])
    for block in blocks(rest):
        if item := ITEM.match(block):
            mark, path, words = item.groups()
            part.items.append(Item(path, quoted(words or ""), mark != "-"))
        elif re.match(r"(\d+\.|-) `", block):
            part.unread.append(block)
        elif block.startswith("Pattern: "):
            part.pattern.extend(quoted(block))
        elif block.startswith("Named elsewhere: "):
            part.elsewhere.extend(quoted(block))
    return part


def content(path: Path) -> str:
    """The text of a file."""
    return path.read_text(encoding="utf-8", errors="replace")


def has_word(text: str, word: str) -> bool:
    """Whether a word stands in a text by itself."""
    return re.search(rf"(?<!\w){re.escape(word)}(?!\w)", text) is not None


def sources() -> dict[str, str]:
    """The files that are searched, by their paths, without their comments."""
    found = {}
    for folder in (folder for pattern in SEARCHED for folder in TOP.glob(pattern)):
        for path in folder.rglob("*"):
            # pip leaves what it built of the client in Python beside it
            if path.is_file() and path.suffix in ENDINGS and "build" not in path.parts:
                comment = COMMENTS.get(path.suffix)
                text = content(path)
                text = re.sub(comment, "", text, flags=re.DOTALL) if comment else text
                found[path.relative_to(TOP).as_posix()] = text
    return found


def is_in(path: str, listed: str) -> bool:
    """Whether a file is the one that is listed, or stands in that folder."""
    return path == listed or path.startswith(listed.rstrip("/") + "/")


def check(count: Count, is_so: bool, part: str, fault: str) -> None:
    """Counts a check, and tells what is wrong where it fails."""
    if is_so:
        count.add(1, 0)
    else:
        count.fail(part, fault)


def check_items(count: Count, part: Part) -> None:
    """What is listed is there."""
    for block in part.unread:
        check(count, False, part.title, f"this is no item: {block}")
    for path, words, _ in part.items:
        place = TOP / path
        check(count, place.exists(), part.title, f"there is no {path}")
        text = content(place) if place.is_file() else ""
        for word in words:
            check(count, has_word(text, word), part.title, f"{path} has no {word}")


def check_pattern(count: Count, part: Part, texts: dict[str, str]) -> None:
    """The files that have a word of the pattern are those that are listed."""
    found = {path for path, text in texts.items() if any(has_word(text, word) for word in part.pattern)}
    listed = {item.path for item in part.items}
    for path in sorted(found):
        is_listed = any(is_in(path, it) for it in [*listed, *part.elsewhere])
        check(count, is_listed, part.title, f"{path} has a word of the pattern, and is not listed")
    numbered = {item.path for item in part.items if item.always}
    for path in sorted(numbered | set(part.elsewhere)):
        if any(is_in(it, path) for it in texts):
            is_found = any(is_in(it, path) for it in found)
            check(count, is_found, part.title, f"{path} has no word of the pattern")


def check_functions(count: Count, page: str) -> None:
    """What is to be checked alone is a function."""
    for file, function in sorted(set(re.findall(r"--only (\w+)::(\w+)", page))):
        is_there = any(has_word(content(path), f"fn {function}") for path in TOP.glob(f"crates/*/src/{file}.rt"))
        check(count, is_there, "--only", f"no {file}.rt has a function {function}")


def main() -> int:
    argparse.ArgumentParser(description="Holds docs/ADDING.md against the tree.").parse_args()
    count = Count()
    page = content(PAGE)
    texts = sources()
    parts = [read_part(text) for text in re.split(r"^## ", page, flags=re.MULTILINE)[1:]]
    for part in parts:
        check_items(count, part)
        if part.pattern:
            check_pattern(count, part, texts)
    searched = sum(bool(part.pattern and part.items) for part in parts)
    check(count, searched >= 6, "all", f"{searched} parts have a pattern and a list, and not six or more")
    check_functions(count, page)
    in_items = {item.path for part in parts for item in part.items}
    for path in sorted(set(PATH.findall(page)) - in_items):
        check(count, (TOP / path).exists(), "all", f"the page names {path}, which is not there")
    return count.end()


if __name__ == "__main__":
    sys.exit(main())
