#!/usr/bin/env python3
"""Are the documents short, do their links lead somewhere, and is there what they name? (a few seconds)

usage: tests/documents.py

README has few lines and words, no line of a Markdown file is too long, and all together are short enough. No line of
the definitions and proofs is too long, but for `use` lines, comments and texts that they quote. Each link
leads to a file, and to a heading of it where it names one. Each path in backquotes is there, each name in backquotes
stands somewhere in the sources, and what is named as of a type is one of its functions, variants or fields. Where a
limit is told it is that of the code. The last line is `N passed, M failed`.
"""

import re
import sys
from collections.abc import Iterator
from functools import partial
from pathlib import Path

from support.counting import Count, require
from support.places import TOP

README = TOP / "README.md"
README_LINES, README_WIDTH, README_WORDS = 100, 100, 620
WIDTH = 120
WORDS = 27_000
# How long a line of definitions and proofs may be, which lines may be longer, and how many longer ones are still there.
PROOFS_WIDTH = 160
MAY_BE_LONG = re.compile(r'\s*(?:(?:pub )?use |--)|.*"(?:[^"\\]|\\.){40,}"')
LONG = {"crates/posix_model/proofs/ChangeLaws.antt": 1, "crates/script_text/specs/Answers.antt": 1}

# Where names have to stand that a document has in backquotes, and the endings of such files.
SOURCES = ("crates", "tests", "tools", "clients", "bench", "examples", ".ci")
ENDINGS = {".rt", ".antt", ".py", ".c", ".h", ".edit", ".script", ""}

# Names that a document may have though no source has them: of an example, of scripts, of other programs and crates, of
# the prover.
FREE = re.compile(
    r"\w*dupfd\w*|lowest_from|Dupfd\.antt|fcntl|pN|x[0-9a-f]+|cat|diff|slab|smallvec|Lts|Proof|Rattle\.core",
    re.IGNORECASE,
)
NAME = re.compile(r"[A-Za-z_][\w]*(?:(?:::|\.)[A-Za-z_]\w*)*(?:\(\))?")
PATH = re.compile(r"(?:crates|tests|tools|clients|bench|docs|examples|\.ci)/[\w./-]+")

# Where limits are told: the file, how a line of it begins, and whose numbers of `call_types` stand there.
LIMITS = TOP / "crates/call_types/src/limits.rt"
LIBRARY = "clients/preload/"
PROFILE, HELP, MANUAL = "docs/PROFILE.md", "crates/command_line/src/job.rt", "docs/fdref.1"
TOLD = (
    (PROFILE, "| Descriptors of a process", "OPEN_MAX"),
    (PROFILE, "| Live open file descriptions", "DESCRIPTIONS_MAX"),
    (PROFILE, "| Live processes", "PROCESSES_MAX"),
    (PROFILE, "| Bytes of a name", "NAME_MAX"),
    (PROFILE, "| Names |", "NAMES_MAX"),
    (PROFILE, "| Names of one file", "LINK_MAX"),
    (PROFILE, "| Bytes of a regular file", "FILE_SIZE_MAX"),
    (PROFILE, "| An offset", "OFFSET_MAX"),
    (PROFILE, "| Bytes asked or given", "TRANSFER_MAX"),
    (PROFILE, "| Bytes in a pipe", "PIPE_CAPACITY_DEFAULT PIPE_CAPACITY_MIN PIPE_CAPACITY_MAX"),
    (PROFILE, "| Bytes of a write to a pipe", "PIPE_BUF"),
    (PROFILE, "| Records of a run", "RECORDS_MAX"),
    ("docs/FORMATS.md", "have 10000 records, and a pipe", "PIPE_CAPACITY_DEFAULT"),
    (HELP, 'let help = "Records', "RECORDS_MAX"),
    (HELP, 'let records = "Records', "RECORDS_MAX"),
    (HELP, 'let help = "Bytes that a pipe holds', "PIPE_CAPACITY_MIN PIPE_CAPACITY_MAX PIPE_CAPACITY_DEFAULT"),
    (MANUAL, "records, from 1 to", "RECORDS_MAX"),
    (MANUAL, "bytes, from", "PIPE_CAPACITY_MIN PIPE_CAPACITY_MAX PIPE_CAPACITY_DEFAULT"),
    ("clients/c/fdref.h", "FDREF_PIPE_CAPACITY =", "PIPE_CAPACITY_DEFAULT PIPE_CAPACITY_MIN PIPE_CAPACITY_MAX"),
    ("clients/c/fdref.h", "#define FDREF_OLD_FILE_SIZE", "FILE_SIZE_1"),
    ("docs/FORMATS.md", "to 65,536; and how many a file has at most", "PIPE_CAPACITY_MAX FILE_SIZE_MAX FILE_SIZE_1"),
    ("docs/fdref-tools.1", "bytes, from", "PIPE_CAPACITY_MIN PIPE_CAPACITY_MAX PIPE_CAPACITY_DEFAULT"),
    ("crates/command_line/specs/CommandLine.antt", "IsCapacity None n =", "PIPE_CAPACITY_DEFAULT"),
    ("tools/support/plain_model.py", "PIPE_CAPACITY =", "PIPE_CAPACITY_DEFAULT"),
    ("clients/python/fdref/__init__.py", "PIPE_CAPACITY =", "PIPE_CAPACITY_DEFAULT"),
    ("clients/python/fdref/__init__.py", "PIPE_CAPACITIES =", "PIPE_CAPACITY_MIN PIPE_CAPACITY_MAX"),
    ("tools/support/plain_model.py", "PIPE_CAPACITY_LEAST =", "PIPE_CAPACITY_MIN"),
    ("tools/support/plain_model.py", "PIPE_CAPACITY_MOST =", "PIPE_CAPACITY_MAX"),
    ("tools/support/plain_model.py", "PIPE_BUF =", "PIPE_BUF"),
    ("tools/race.py", "pipes of model and fdref hold", "PIPE_CAPACITY_DEFAULT"),
    ("tools/order.py", "In fdref a pipe has room for", "PIPE_CAPACITY_DEFAULT"),
    ("examples/races/README.md", "the FIFO open; a flag that is set later ends no wait; a pipe holds", "PIPE_CAPACITY_DEFAULT PIPE_BUF"),
    (LIBRARY + "table.h", "enum { NUMBERS =", "OPEN_MAX"),
    (LIBRARY + "bounds.h", "case _PC_PIPE_BUF", "PIPE_BUF"),
    (LIBRARY + "bounds.h", "case _PC_NAME_MAX", "NAME_MAX"),
    (LIBRARY + "bounds.h", "case _PC_LINK_MAX", "LINK_MAX"),
)


def pages() -> list[str]:
    """All Markdown files, by their paths from the top folder."""
    return sorted(str(file.relative_to(TOP)) for file in [README, *(TOP / "docs").rglob("*.md")])


def notes() -> list[str]:
    """Pages whose words are not counted with the documents: how to begin, and what has changed."""
    return sorted(str(file.relative_to(TOP)) for file in TOP.glob("*.md") if file != README)


def text_of(page: str) -> str:
    """What stands in a page."""
    return (TOP / page).read_text()


def is_narrow(page: str, width: int) -> None:
    """Fails at the first line of a page that has too many characters."""
    for number, line in enumerate(text_of(page).splitlines(), 1):
        require(len(line) <= width, f"line {number} has {len(line)} characters")


def proofs() -> list[str]:
    """All definitions and proofs, by their paths from the top folder."""
    files = [*TOP.glob("crates/*/specs/**/*.antt"), *TOP.glob("crates/*/proofs/**/*.antt")]
    return sorted(str(file.relative_to(TOP)) for file in files)


def are_narrow(pages: list[str]) -> None:
    """Fails unless there are such pages, and no line of them is too long that may not be."""
    require(len(pages) > 100, f"only {len(pages)} files of definitions and proofs")
    for page in pages:
        lines = enumerate(text_of(page).splitlines(), 1)
        found = [number for number, line in lines if len(line) > PROOFS_WIDTH and not MAY_BE_LONG.match(line)]
        require(len(found) <= LONG.get(page, 0), f"lines of {page} have more than {PROOFS_WIDTH} characters: {found}")


def is_at_most(most: int, count: int) -> None:
    """Fails unless there are at most so many."""
    require(count <= most, f"{count}, and at most {most} are wanted")


def words(page: str) -> int:
    """How many words a page has."""
    return len(text_of(page).split())


def headings(page: str) -> set[str]:
    """The anchors of a page's headings."""
    titles = re.findall(r"^#+ (.*)$", text_of(page), re.MULTILINE)
    return {re.sub(r"[^\w\- ]", "", title.lower()).replace(" ", "-") for title in titles}


def links(page: str) -> Iterator[str]:
    """Where the links of a page lead, but for those out of the tree."""
    yield from (link for link in re.findall(r"\]\(([^)\s]+)\)", text_of(page)) if "://" not in link)


def leads_somewhere(page: str, link: str) -> None:
    """Fails unless a link leads to a file of the tree and, where it names one, to a heading of it."""
    path, _, anchor = link.partition("#")
    file = ((TOP / page).parent / path).resolve() if path else TOP / page
    require(file.exists(), f"{link} leads nowhere")
    if anchor:
        require(anchor in headings(str(file.relative_to(TOP))), f"{link} names no heading")


def quoted(page: str) -> Iterator[str]:
    """What a page has in backquotes, but for its blocks of code."""
    outside = re.sub(r"^```.*?^```", "", text_of(page), flags=re.MULTILINE | re.DOTALL)
    yield from re.findall(r"`([^`\n]+)`", outside)


def sources() -> set[str]:
    """All words of the sources, and the names of all files."""
    found: set[str] = set()
    for folder in SOURCES:
        for file in (TOP / folder).rglob("*"):
            if "out" in file.parts or not file.is_file():
                continue
            found.update((file.name, file.stem, *Path(file.relative_to(TOP)).parts))
            if file.suffix in ENDINGS:
                found.update(re.findall(r"\w+", file.read_text(errors="replace")))
    return found


# What begins a type, a trait or an implementation in the code, and what one of these has.
OWNER = re.compile(r"(?:pub(?:\(crate\))? )?(?:struct|enum|trait|impl)\b.*")
MEMBER = re.compile(r"    (?:pub(?:\(crate\))? )?(?:const fn|fn|const|type|ghost) (\w+)|    (?:pub(?:\(crate\))? )?([A-Za-z]\w*)\b")


def members() -> dict[str, set[str]]:
    """What each type and trait of the crates has, its implementations together: functions, variants and fields."""
    found: dict[str, set[str]] = {}
    for file in TOP.glob("crates/*/src/**/*.rt"):
        owners: list[str] = []
        for line in text_of(str(file.relative_to(TOP))).splitlines():
            if OWNER.match(line):
                owners = re.findall(r"\b[A-Z]\w*", line)
            elif line == "}":
                owners = []
            member = MEMBER.match(line)
            for owner in owners if member else []:
                found.setdefault(owner, set()).add(member[1] or member[2])
    return found


def is_named(name: str, known: set[str], owned: dict[str, set[str]]) -> None:
    """Fails unless each part of a name stands in the sources, or the whole of it is a file, and unless a type has what
    stands after it."""
    parts = re.findall(r"\w+", name)
    require(name in known or all(part in known for part in parts), f"nothing is called {name}")
    owner, _, member = name.partition("::")
    if owner in owned and re.fullmatch(r"\w+", member):
        require(member in owned[owner], f"{owner} has no {member}")


def is_there(path: str) -> None:
    """Fails unless a path leads to something; a part in capitals or a star stands for any."""
    if re.search(r"/[A-Z]+(/|$)|\*", path):
        return
    require((TOP / path.rstrip("/.")).exists() or bool(re.search(r"(^|/)out(/|$)", path)), f"there is no {path}")


def check_names(count: Count, page: str, known: set[str], owned: dict[str, set[str]]) -> None:
    """Looks for what a page names in backquotes."""
    for name in sorted(set(quoted(page))):
        if PATH.fullmatch(name):
            count.check(page, partial(is_there, name))
        elif NAME.fullmatch(name) and not FREE.fullmatch(name):
            count.check(page, partial(is_named, name, known, owned))


def limits() -> dict[str, int]:
    """The limits of the code, by their names."""
    found = re.findall(r"^pub const (\w+): \w+ = ([\d_]+);", LIMITS.read_text(), flags=re.MULTILINE)
    return {name: int(number) for name, number in found}


def is_told(page: str, start: str, wanted: set[int]) -> None:
    """Fails unless one line of a file begins so, and has these numbers."""
    lines = [line for line in text_of(page).splitlines() if line.strip().startswith(start)]
    require(len(lines) == 1, f"{len(lines)} lines begin with {start}")
    numbers = {int(number) for number in re.findall(r"\d+", re.sub(r"(?<=\d)[,_](?=\d)", "", lines[0]))}
    require(wanted <= numbers, f"{sorted(wanted - numbers)} not in: {lines[0].strip()}")


def main() -> int:
    count = Count()
    known_limits = limits()
    for page, start, names in TOLD:
        count.check(page, partial(is_told, page, start, {known_limits[name] for name in names.split()}))
    count.check("lines of README", partial(is_at_most, README_LINES, len(README.read_text().splitlines())))
    count.check("words of README", partial(is_at_most, README_WORDS, words("README.md")))
    count.check("words of README and docs", partial(is_at_most, WORDS, sum(map(words, pages()))))
    count.check("width of definitions and proofs", partial(are_narrow, proofs()))
    known, owned = sources(), members()
    for page in [*pages(), *notes()]:
        count.check(f"width of {page}", partial(is_narrow, page, README_WIDTH if page == "README.md" else WIDTH))
        for link in links(page):
            count.check(page, partial(leads_somewhere, page, link))
        check_names(count, page, known, owned)
    return count.end()


if __name__ == "__main__":
    sys.exit(main())
