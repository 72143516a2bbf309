"""A graph of the calls in `crates/*/src/*.rt`, by names alone.

How a name is resolved, where `crates.txt` lets the caller's crate see the callee's:

- `name(..)`: the function of the caller's file, or that which the file brings in by `use`
- `module::name(..)`: the functions of files with that name
- `Type::name(..)`, `Self::name(..)`: the functions of that type or trait; of a type parameter, those of each trait that
  the caller's file names
- `self.name(..)`, `self.field.name(..)`: the methods of the caller's type, or of the types that the field is declared
  with
- `name(..).name(..)`: the methods of the types that the functions of the first name give
- `.name(..)` else, or where that has none: the methods of each type and trait that the caller's file names, and of the
  traits that such a trait stands on; where none of these has one, that of the only type in sight that has. So a type
  that is named and not meant is counted too, and a name that several types have is lost where the file names none.

Contracts, ghosts and comments are left out. What cannot be seen: functions that are handed on without a call, what the
standard library and the crates of the kit call, and drops.
"""

import re
from collections.abc import Iterator, Mapping
from functools import cached_property
from pathlib import Path
from typing import NamedTuple

from support.places import CRATES, TOP

NAME = r"[A-Za-z_]\w*"
NOISE = re.compile(r'//[^\n]*|b?"(?:[^"\\]|\\.)*"|b?\'(?:[^\'\\]|\\.[^\']*)\'', re.DOTALL)
CLAUSE = re.compile(rf"\b(?:requires|ensures|invariant|variant|decreases|ghost)\b[^{{}};]*$")
BLOCK = re.compile(rf"^(?:pub(?:\([^)]*\))? )?(?:unsafe )?(impl|trait)\b([^{{;]*)\{{", re.MULTILINE)
FUNCTION = re.compile(rf"\bfn ({NAME})")
USE = re.compile(r"^\s*(?:pub(?:\([^)]*\))? )?use ([^;]*);", re.MULTILINE)
GHOST_USE = re.compile(r"\bghost use [^;]*;")
SUPERTRAITS = re.compile(rf"\btrait ({NAME})(?:<[^{{}}]*?>)?: ([^{{;]*)\{{")
STRUCT = re.compile(rf"\bstruct ({NAME})[^{{;(]*\{{")
FIELD = re.compile(rf"({NAME}): ([^,]*)")
CALL = re.compile(rf"(?:\b(self(?:\.{NAME})*))?(\.)?\b((?:{NAME}::)*)({NAME})(?:::<[^()]*?>)?\(")
PAIRS = {"(": ")", "[": "]", "{": "}"}


class Function(NamedTuple):
    """A function: where it is, the type and the trait that it belongs to, if any, and whether it is a method."""

    crate: str
    file: str
    name: str
    owner: str
    trait: str
    is_method: bool

    def text(self) -> str:
        """Its path, for a reader."""
        return f"{self.crate}/{Path(self.file).name} {f'{self.owner}::' if self.owner else ''}{self.name}"


def end_of(text: str, at: int) -> int:
    """The place after the bracket that closes the one at a place."""
    depth = 0
    for place in range(at, len(text)):
        depth += {"(": 1, "[": 1, "{": 1, ")": -1, "]": -1, "}": -1}.get(text[place], 0)
        if depth == 0:
            return place + 1
    return len(text)


def called_before(text: str, at: int) -> str:
    """The name of the call that ends at a place, if one does."""
    if text[at - 1 : at] != ")":
        return ""
    depth = 0
    for place in range(at - 1, -1, -1):
        depth += {")": 1, "(": -1}.get(text[place], 0)
        if depth == 0:
            name = re.search(rf"({NAME})$", text[:place])
            return name[1] if name else ""
    return ""


def without_clauses(text: str) -> str:
    """A text without the braces of its contracts and ghosts."""
    found, start, at = [], 0, 0
    while (at := text.find("{", at)) >= 0:
        clause = CLAUSE.search(text, start, at)
        if clause:
            found.append(text[start : clause.start()])
            start = at = end_of(text, at)
        else:
            at += 1
    return "".join([*found, text[start:]])


def arms(text: str) -> Iterator[tuple[str, int, int]]:
    """The arms of a match whose braces hold this text: the pattern of each, and where it begins and ends."""
    at = 0
    while (arrow := text.find("=>", at)) >= 0:
        start = arrow + 2 + (len(text[arrow + 2 :]) - len(text[arrow + 2 :].lstrip()))
        end = end_of(text, start) if text[start : start + 1] == "{" else comma(text, start)
        yield text[at:arrow], at, end
        at = end + (text[end : end + 1] == ",")


def comma(text: str, at: int) -> int:
    """The place of the first comma from a place on that stands in no bracket, or the end."""
    while at < len(text) and text[at] != ",":
        at = end_of(text, at) if text[at] in PAIRS else at + 1
    return at


def chosen(text: str, facts: Mapping[str, str]) -> str:
    """A body without the arms of matches that a fact excludes. A fact names a type and the one variant that it is."""
    found = re.search(r"\bmatch\b[^{}]*\{", text)
    if not found:
        return text
    end = end_of(text, found.end() - 1)
    kept = []
    for pattern, start, stop in arms(text[found.end() : end - 1]):
        named = re.findall(rf"\b({NAME})::({NAME})", pattern)
        of_facts = [variant == facts[name] for name, variant in named if name in facts]
        if not of_facts or any(of_facts):
            kept.append(text[found.end() + start : found.end() + stop])
    return text[: found.end()] + chosen(" ; ".join(kept), facts) + " ; " + chosen(text[end:], facts)


class Source:
    """A source: its functions with their bodies, what it brings in, and the names in it."""

    def __init__(self, path: Path) -> None:
        self.crate = path.relative_to(CRATES).parts[0]
        self.file = str(path.relative_to(CRATES))
        self.text = without_clauses(GHOST_USE.sub("", NOISE.sub(" ", path.read_text(encoding="utf-8"))))
        self.text = re.sub(r"\s+(?=\.[a-z])", "", self.text)
        self.names = set(re.findall(NAME, self.text))
        self.fields = {(owner, name): set(re.findall(NAME, of)) for owner, name, of in self.declared()}
        self.results: dict[str, set[str]] = {}
        self.bodies = dict(self.functions())

    def declared(self) -> Iterator[tuple[str, str, str]]:
        """The fields of each struct: its name, theirs, and their types."""
        for found in STRUCT.finditer(self.text):
            block = self.text[found.end() : end_of(self.text, found.end() - 1)]
            yield from ((found[1], field[1], field[2]) for field in FIELD.finditer(block))

    @cached_property
    def used(self) -> dict[str, tuple[str, str]]:
        """The crate and the file of each name that is brought in."""
        found = {}
        for text in USE.findall(self.text):
            path, _, last = text.partition("{") if "{" in text else text.rpartition("::")
            parts = [part for part in path.strip().split("::") if part]
            crate = self.crate if parts and parts[0] in ("crate", "super") else parts[0] if parts else ""
            for name in re.findall(NAME, last):
                found[name] = crate, parts[-1] if parts else ""
        return found

    def functions(self) -> Iterator[tuple[Function, str]]:
        """Each function that has a body."""
        blocks = []
        for found in BLOCK.finditer(self.text):
            head = re.sub(r"<(?:[^<>]|<(?:[^<>]|<[^<>]*>)*>)*>", "", found[2])
            names = re.findall(NAME, head.partition(" for ")[2] or head)
            traits = re.findall(NAME, head.partition(" for ")[0]) if " for " in head else []
            owner = names[0] if names else ""
            trait = traits[0] if traits else owner if found[1] == "trait" else ""
            blocks.append((found.start(), end_of(self.text, found.end() - 1), owner, trait))
        for found in FUNCTION.finditer(self.text):
            opened = self.text.find("(", found.end())
            closed = end_of(self.text, opened)
            body = re.compile(r"[{;]").search(self.text, closed)
            within = (block for block in blocks if block[0] < found.start() < block[1])
            _, _, owner, trait = next(within, (0, 0, "", ""))
            if body:
                given = re.findall(NAME, self.text[closed : body.start()])
                self.results.setdefault(found[1], set()).update(owner if name == "Self" else name for name in given)
            if body and body[0] == "{":
                is_method = re.match(r"\(\s*(?:&\s*(?:'\w+ )?)?(?:mut )?self\b", self.text[opened:]) is not None
                text = self.text[body.start() : end_of(self.text, body.start())]
                yield Function(self.crate, self.file, found[1], owner, trait, is_method), text


class Graph:
    """The functions of all crates that the program is made of, and which calls which."""

    def __init__(self) -> None:
        lines = [line.partition("#")[0].partition(":") for line in (TOP / "crates.txt").read_text().splitlines()]
        self.seen_by = {name.strip(): {name.strip(), *words.split()} for name, found, words in lines if found}
        paths = [it for it in sorted(CRATES.glob("*/src/*.rt")) if not it.parts[-3].endswith(("_tests", "_trial"))]
        self.sources = {source.file: source for source in map(Source, paths)}
        self.fields = {key: of for source in self.sources.values() for key, of in source.fields.items()}
        self.name_supertraits()
        self.by_name: dict[str, list[Function]] = {}
        self.results: dict[str, set[str]] = {}
        for source in self.sources.values():
            for name, given in source.results.items():
                self.results.setdefault(name, set()).update(given)
            for function in source.bodies:
                self.by_name.setdefault(function.name, []).append(function)

    def name_supertraits(self) -> None:
        """Adds to the names of each source those of the traits that the traits that it names stand on."""
        found = (it for source in self.sources.values() for it in SUPERTRAITS.finditer(source.text))
        above = {it[1]: set(re.findall(NAME, re.sub(r"<[^<>]*(?:<[^<>]*>[^<>]*)*>", "", it[2]))) for it in found}
        for source in self.sources.values():
            left = list(source.names & above.keys())
            while left:
                new = above.get(left.pop(), set()) - source.names
                source.names |= new
                left += new

    def root(self, file: str, name: str) -> Function:
        """The function of a file that has a name."""
        return next(it for it in self.by_name[name] if it.file == file)

    def callees(self, caller: Function, facts: Mapping[str, str]) -> set[Function]:
        """The functions that one calls, where some types have these variants."""
        source = self.sources[caller.file]
        found = set()
        text = chosen(source.bodies[caller], facts)
        for call in CALL.finditer(text):
            receiver, dot, path, name = call.groups(default="")
            seen = [it for it in self.by_name.get(name, []) if it.crate in self.seen_by[caller.crate]]
            if dot:
                given = self.results.get(called_before(text, call.start()), set()) if not receiver else set()
                methods = [it for it in seen if it.is_method]
                of_given = {it for it in methods if {it.owner, it.trait} - {""} & given}
                found |= of_given or self.methods(methods, caller, source, receiver)
            else:
                found |= {it for it in seen if is_meant(it, caller, source, path.rstrip(":"))}
        return found

    def methods(self, seen: list[Function], caller: Function, source: Source, receiver: str) -> set[Function]:
        """Those of the methods of a name that a call in a source may mean."""
        types = {caller.owner, caller.trait} - {""} if receiver else set()
        for field in receiver.split(".")[1:]:
            types = set().union(*(self.fields.get((owner, field), set()) for owner in types))
        of_receiver = {it for it in seen if {it.owner, it.trait} & types}
        named = of_receiver or {it for it in seen if {it.owner, it.trait} & source.names}
        return named or (set(seen) if len({it.owner for it in seen}) == 1 else set())

    def walk(self, root: Function, facts: Mapping[str, str], others: set[str]) -> dict[Function, int]:
        """How deep each function is that a root reaches, by the shortest way, without those with these names."""
        depths = {root: 0}
        queue = [root]
        for caller in queue:
            for callee in sorted(self.callees(caller, facts)):
                if callee not in depths and callee.name not in others:
                    depths[callee] = depths[caller] + 1
                    queue.append(callee)
        return depths


def is_meant(it: Function, caller: Function, source: Source, path: str) -> bool:
    """Whether a function of a name may be that of a call by a path in a source."""
    last = path.rpartition("::")[2]
    if last == "Self":
        return it.owner == caller.owner and bool(it.owner)
    if not last:
        place = source.used.get(it.name, (caller.crate, Path(caller.file).stem))
        return not it.owner and (it.crate, Path(it.file).stem) == place
    if last[0].islower():
        return not it.owner and Path(it.file).stem == last
    if re.fullmatch(r"[A-Z][a-z]?", last):
        return it.trait in source.names and bool(it.trait)
    return last in (it.owner, it.trait)
