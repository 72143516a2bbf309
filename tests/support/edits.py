"""Edits: files that tell a wrong change of the code. Each line is a word, a colon and a text. `file` names a source. An
`old` after it is a text that stands in it exactly once, in place of which the text of the next line, `new`, is put."""

from collections.abc import Iterable, Sequence
from pathlib import Path
from typing import NamedTuple

from support.counting import require

# A line of an edit: its word, and its text.
Line = tuple[str, str]


class Change(NamedTuple):
    """One text of a source, and what is put in its place."""

    file: str
    old: str
    new: str


def lines_of(path: Path) -> list[Line]:
    """The lines of an edit."""
    parted = [line.partition(": ") for line in path.read_text(encoding="utf-8").splitlines() if line]
    return [(word, text) for word, _, text in parted]


def changes_in(lines: Iterable[Line]) -> list[Change]:
    """The changes that these lines tell, in their order."""
    found: list[Change] = []
    file, old = "", ""
    for word, text in lines:
        require(word in ("file", "old", "new") and (word == "new") == bool(old), f"{word} is out of place")
        if word == "file":
            file = text
        elif word == "old":
            require(file and text, "it names no file, or no text")
            old = text
        else:
            require(old != text, f"it changes nothing: {old}")
            found.append(Change(file, old, text))
            old = ""
    require(found and not old, "it has no change, or half of one")
    return found


def changed(folder: Path, changes: Sequence[Change]) -> dict[Path, str]:
    """The sources of a folder that are changed, as they are then."""
    texts: dict[Path, str] = {}
    for file, old, new in changes:
        path = folder / file
        code = texts[path] if path in texts else path.read_text(encoding="utf-8")
        require(code.count(old) == 1, f"this stands {code.count(old)} times in {file}: {old}")
        texts[path] = code.replace(old, new)
    return texts
