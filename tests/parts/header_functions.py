"""The functions of the C library's headers that take a descriptor or a path, as the preprocessor shows them.

How it is decided. The headers are those of the folders of the compiler, and one level below, that are of the C library:
they name it, or one of its own headers. They are read with _GNU_SOURCE, once also with checks of buffers. A function is
one that libc.so.6 exports for programs, of the version that a new program gets. It takes a descriptor or a path if it
has one of these parameters, by type and name:

  - an int whose name ends in `fd`, `fd2`, `fdin`, `fdout` or `fildes`, or is in DESCRIPTORS; an mqd_t, which is an int,
    and an array of two ints,
  - a char * whose name is in PATHS, and a list of these without a name, as of fts_open,
  - a pointer to what holds descriptors: HOLDERS.

So far that is by names, since C has one type for all ints. tests/parts/preload_functions.py has each further name of a
char * and of an int, and each further type that is an int, and fails where a header has one that is in neither.
"""

import re
import subprocess
from functools import cache
from pathlib import Path
from typing import NamedTuple

from support.counting import require

FURTHER = ("sys", "arpa", "net", "netinet", "rpc")
IS_OF_LIBRARY = re.compile(r"GNU C Library|#\s*include\s*<(?:features|bits/\w+)\.h>")
# What others take to be included already.
STARTS = ("stddef.h", "stdint.h", "stdio.h", "sys/types.h", "sys/socket.h")

IS_DESCRIPTOR = re.compile(r"\w*(?:fd|fd2|fdin|fdout|fildes)")
# the further ints: of preadv2, of the filters of sources, and of what closes from one on
DESCRIPTORS = {"__fp", "__s", "__from"}
QUEUE = "mqd_t"
HOLDERS = re.compile(r"\bstruct (?:pollfd|aiocb|aiocb64|msghdr|mmsghdr)\b|\bfd_set\b|\bposix_spawn_file_actions_t\b")
PATHS = set(
    """__command __dir __dirname __file __filename __from __from_pathname __name __new __old __path __pathname __pattern
    __special __special_file __template __to __to_pathname __wtmp_file __wtmpx_file""".split()
)


class Function(NamedTuple):
    """A function with its parameters, each as it is declared."""

    name: str
    parameters: list[str]


def preprocessed(compiler: str, source: str, options: list[str]) -> str:
    """A source as the preprocessor gives it."""
    words = [compiler, "-E", "-P", "-O2", "-D_GNU_SOURCE", *options, "-x", "c", "-"]
    return subprocess.run(words, input=source, capture_output=True, text=True, check=False).stdout


def folders(compiler: str) -> list[Path]:
    """Where the compiler looks for headers."""
    ran = subprocess.run([compiler, "-E", "-v", "-x", "c", "/dev/null"], capture_output=True, text=True, check=False)
    found = re.search(r"#include <\.\.\.> .*?:\n(.*?)End of search list", ran.stderr, re.DOTALL)
    require(found, "the compiler does not tell where its headers are")
    assert found
    return [Path(line.strip()) for line in found[1].splitlines()]


def headers(compiler: str) -> list[str]:
    """The headers of the C library, as they are included."""
    found: set[str] = set()
    for folder in folders(compiler):
        for below in ("", *FURTHER):
            for path in (folder / below).glob("*.h"):
                if IS_OF_LIBRARY.search(path.read_text(encoding="utf-8", errors="replace")):
                    found.add(str(path.relative_to(folder)))
    return [*STARTS, *sorted(found - set(STARTS))]


def without_bodies(text: str) -> str:
    """A text in which each block in braces is a semicolon."""
    kept, depth = [], 0
    for part in re.split(r"([{}])", text):
        depth += {"{": 1, "}": -1}.get(part, 0)
        if depth == 0:
            kept.append(";" if part == "}" else part)
    return "".join(kept)


def split(text: str) -> list[str]:
    """The parts of a list of parameters."""
    parts, depth, start = [], 0, 0
    for at, letter in enumerate(text):
        depth += {"(": 1, ")": -1}.get(letter, 0)
        if letter == "," and depth == 0:
            parts.append(text[start:at])
            start = at + 1
    return [part.strip() for part in [*parts, text[start:]]]


NESTED = r"\((?:[^()]|\((?:[^()]|\((?:[^()]|\([^()]*\))*\))*\))*\)"
NOISE = re.compile(
    rf"__(?:attribute|asm)__\s*{NESTED}|__asm\s*{NESTED}|__extension__|__restrict\w*|__inline\w*|\bextern\b|^#.*$",
    re.MULTILINE,
)
# A name of a type, and what that is.
NAMED = re.compile(r"typedef (?:const )?([\w ]+?) (\w+)")
IS_INT = re.compile(r"(?:const )?(?:(?:unsigned|signed) )?int|unsigned|signed")
DECLARED = re.compile(rf"(?!typedef)[\w\s*]*?[\s*](\w+)\s*({NESTED})")


def functions_in(text: str) -> dict[str, Function]:
    """The functions that a preprocessed text declares."""
    found: dict[str, Function] = {}
    for declared in statements(text):
        match = DECLARED.fullmatch(declared)
        if match:
            found.setdefault(match[1], Function(match[1], split(match[2][1:-1])))
    return found


def statements(text: str) -> list[str]:
    """What a preprocessed text declares, each in one line."""
    return [" ".join(declared.split()) for declared in without_bodies(NOISE.sub(" ", text)).split(";")]


def types_in(text: str) -> set[str]:
    """The names of types that are an int, at last."""
    named = {match[2]: match[1] for match in map(NAMED.fullmatch, statements(text)) if match}
    found: set[str] = set()
    for name in named:
        kind, seen = name, {name}
        while kind in named and named[kind] not in seen:
            kind = named[kind]
            seen.add(kind)
        found |= {name} if IS_INT.fullmatch(kind) else set()
    return found


@cache
def exported(library: str, is_private: bool = False) -> frozenset[str]:
    """The functions that a library gives to a program, or those too that the C library keeps for itself."""
    ran = subprocess.run(["nm", "-D", "--defined-only", library], capture_output=True, text=True, check=False)
    names = set()
    for _, kind, name in (line.split() for line in ran.stdout.splitlines()):
        symbol, _, version = name.partition("@")
        if kind in "TWi" and not version.startswith("GLIBC_") and (is_private or "PRIVATE" not in version):
            names.add(symbol)
    return frozenset(names)


@cache
def c_library(program: str) -> str:
    """The C library that a program has."""
    ran = subprocess.run(["ldd", program], capture_output=True, text=True, check=False)
    found = re.search(r"libc\.so\S* => (\S+)", ran.stdout)
    require(found, f"{program} has no C library")
    assert found
    return found[1]


def name_of(parameter: str) -> str:
    """The name of a parameter, or that of its type where it has none."""
    found = re.search(r"(\w+)\s*(?:\[.*\])?$", parameter)
    return found[1] if found else ""


def is_text(parameter: str) -> bool:
    """Whether it is a char *, or a list of these without a name."""
    return bool(re.fullmatch(r"(?:const )?char ?\*\s*(?:const )?\w*|char \*\s?const \*", parameter))


def kind_of(parameter: str) -> str:
    """`descriptor`, `ends`, `path`, `paths`, or the name of what holds descriptors; else nothing."""
    name = name_of(parameter)
    held = HOLDERS.search(parameter)
    if held:
        return held[0]
    if re.fullmatch(r"(?:unsigned )?int \w+", parameter):
        return "descriptor" if IS_DESCRIPTOR.fullmatch(name) or name in DESCRIPTORS else ""
    if parameter.startswith(QUEUE):
        return QUEUE
    if re.fullmatch(r"int \w+\s?\[2\]", parameter):
        return "ends"
    if re.fullmatch(r"char \*\s?const \*", parameter):
        return "paths"
    return "path" if is_text(parameter) and name in PATHS else ""


def takes(function: Function) -> bool:
    """Whether a function takes a descriptor or a path."""
    return any(kind_of(parameter) for parameter in function.parameters)


@cache
def texts(compiler: str) -> str:
    """All headers as the preprocessor gives them, without and with checks of buffers."""
    source = "".join(f"#include <{header}>\n" for header in headers(compiler))
    return preprocessed(compiler, source, []) + ";" + preprocessed(compiler, source, ["-D_FORTIFY_SOURCE=2"])


@cache
def declared(compiler: str, program: str) -> dict[str, Function]:
    """All functions that the headers declare and the C library of a program gives."""
    given = exported(c_library(program))
    return {name: function for name, function in functions_in(texts(compiler)).items() if name in given}


@cache
def int_types(compiler: str) -> frozenset[str]:
    """The names that the headers have for types that are an int."""
    return frozenset(types_in(texts(compiler)))


def int_of(parameter: str, types: frozenset[str]) -> tuple[str, str] | None:
    """The type and the name of a parameter that is an int, which may have none; else nothing."""
    found = re.fullmatch(r"(?:const )?((?:unsigned )?int|\w+)(?: (\w+))?", parameter)
    return (found[1], found[2] or "") if found and (IS_INT.fullmatch(found[1]) or found[1] in types) else None
