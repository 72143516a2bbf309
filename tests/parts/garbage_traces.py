"""Traces that the clients write of whatever records they take, and the example of an emulator with other calls."""

import errno
import importlib
import itertools
import os
import random
import re
from collections import Counter
from collections.abc import Callable, Iterator, Sequence
from functools import partial
from pathlib import Path
from typing import Any

from parts.c_programs import BASES, FLAGS, INCLUDES, WARNINGS, Build, compiles
from parts.written_traces import NOTHING
from support import plain_model
from support.auditing import Frames, shown
from support.counting import Case, Failure, require, same
from support.frames import ACTS, ERRORS, TYPES, header_bytes
from support.places import C_TESTS
from support.running import run
from support.sources import numbered, source

import fdref

emulator: Any = importlib.import_module("emulator_trace")

RECORDS, IN_C, CALLS = 30, 100, 12

NUMBERS = [0, 1, 5, 31, 255, 2**31 - 1] * 4 + [-1, 2**31, -(2**31), -(2**31) - 1, 2**32 - 1, 2**32]
NUMBERS += [2**63 - 1, 2**63, -(2**63), -(2**63) - 1, 2**64 - 1, 2**64, 10**30]
SIZES = [0, 1, 2, 16, 17, 300, 65_536, 65_537, 65_700, 65_701]
# What no field is.
ODD: list[Any] = [None, 1.0, float("nan"), "0", b"0", (), [], True, object(), slice(0), errno, Ellipsis]
MODES, OTHER_FLAGS = [*FLAGS.values()][:4], [*FLAGS.values()][4:]
NO_CALLS: list[Any] = [*ACTS.values(), "opne", "", "JOIN", None, 5]
CALLS_OF_CLIENT = [word for word in plain_model.FIELDS if word not in ACTS.values()]


# ---- records at their edges


def number(pick: random.Random) -> int:
    """A number, which most often has a place in every field."""
    return pick.choice(NUMBERS)


def name(pick: random.Random) -> Any:
    """A name of any length, as a text or as bytes."""
    size = pick.choice([0, 1, 2, 64, 65, 255, 256])
    plain = pick.choice([b"n" * size, pick.randbytes(size)])
    odd = pick.choice(["\ud800", "\0", "ä" * 127, "ä" * 128, Path("a"), bytearray(b"a")])
    return pick.choice([plain, plain, os.fsdecode(plain), os.fsdecode(plain), odd])


def data(pick: random.Random) -> Any:
    """Data of any length and type that has bytes, and of some that have none."""
    some = bytes(pick.choice(SIZES[:6] if pick.random() < 0.7 else SIZES))
    odd = pick.choice([bytearray(some), memoryview(some), memoryview(some)[::2], "text", 7])
    return pick.choice([some, some, some, odd])


def flags(pick: random.Random) -> Any:
    """Flags of an open, and other numbers."""
    value = pick.choice(MODES) | sum(flag for flag in OTHER_FLAGS if pick.random() < 0.3)
    return value if pick.random() < 0.9 else pick.choice([value | os.O_SYNC, -1, ~value, *NUMBERS])


def argument(pick: random.Random, reader: plain_model.Reader) -> Any:
    """A value for an argument of a call, which a line of a script would have by this reader."""
    if pick.random() < 0.03:
        return pick.choice(ODD)
    if reader is plain_model.read_whence:
        return pick.choice([*BASES.values(), *BASES.values(), 5])
    chosen: dict[plain_model.Reader, Callable[[random.Random], Any]] = {
        plain_model.read_name: name,
        plain_model.read_data: data,
        plain_model.read_flags: flags,
    }
    return chosen.get(reader, number)(pick)


def outcome(pick: random.Random) -> Any:
    """An outcome."""
    return pick.choice(
        [
            None,
            number(pick),
            data(pick),
            (number(pick), number(pick)),
            fdref.Stat(pick.choice([*TYPES, "socket"]), 0, number(pick), number(pick)),
            fdref.Error(pick.choice([*ERRORS, "EPERM", ""])),
            OSError(pick.choice([errno.EBADF, errno.EPIPE, errno.EPERM, 0, -1]), "text"),
            fdref.CallError(pick.choice(ERRORS), 3),
            pick.choice([fdref.Parked, fdref.Part])(number(pick)),
            pick.choice([None, None, None, *ODD, OSError(), (1,), (1, 2, 3), {}]),
        ]
    )


def readers(word: str) -> tuple[plain_model.Reader, ...]:
    """The readers of the arguments of an act, in their order in the client."""
    given = plain_model.FIELDS.get(word, ())
    return (given[0], *given[:0:-1]) if word in ("pread", "pwrite") else given


def record(pick: random.Random) -> fdref.Record:
    """A record, which most often has a place in a trace."""
    pid = pick.choice([0, 0, 0, 1, fdref.HOUSE, *NUMBERS])
    if pick.random() < 0.2:
        args = pick.choice([(), (), (), (1,)])
        return fdref.Record(pick.choice([pid, fdref.HOUSE]), pick.choice(NO_CALLS), args, outcome(pick))
    word = pick.choice(CALLS_OF_CLIENT)
    args = tuple(argument(pick, reader) for reader in readers(word))
    return fdref.Record(pid, word, args[: pick.choice([len(args)] * 30 + [1])], outcome(pick))


# Records that are at the edges of what a trace holds, and just over them.
EDGES = [
    *(fdref.Record(0, "write", (0, bytes(65_700)), bytes(size)) for size in (329, 330, 331, 65_536)),
    *(fdref.Record(0, "read", (0, 1), bytes(size)) for size in (65_536, 65_537, 65_700)),
    *(fdref.Record(pid, "close-run", (), outcome) for pid in (0, fdref.HOUSE) for outcome in (None, 5)),
    *(fdref.Record(pid, "exit") for pid in (-1, 0, fdref.HOUSE, fdref.HOUSE + 1)),
    *(fdref.Record(0, "fork", (), fdref.Error(error)) for error in (*ERRORS, "EPERM")),
    *(fdref.Record(0, "fstat", (0,), fdref.Stat(kind, 0, 2**64 - 1, 2**32 - 1)) for kind in (*TYPES, "socket")),
    *(fdref.Record(0, "mkfifo", ("n" * size,)) for size in (0, 255, 256)),
    *(fdref.Record(0, "open", ("a", flags), number) for flags in (0, -1) for number in (2**64 - 1, 2**64, -1)),
]


# ---- what is written


def is_well_formed(program: str, path: str, count: int) -> None:
    """A trace has so many records for the plain auditor and the program, and neither calls it malformed."""
    trace = Path(path).read_bytes()
    frames = Frames(trace)
    same((None, 0, count), (frames.fault, frames.rest, len(frames.lines)))
    same(shown(trace), run([program, "show", path]))
    audit = run([program, "audit", path])
    is_verdict = re.fullmatch(rb"legal \d+ rest 0\n|illegal \d+ expected [^\n]+\n", audit.stdout)
    require(is_verdict and audit.status in (0, 7), audit.said())
    same(b"" if count else NOTHING, audit.stderr)


def is_taken(path: str, it: fdref.Record) -> bool:
    """Whether the client in Python takes a record; where it does not, it says why as is documented."""
    try:
        return fdref.write_trace(path, [it]) == 1
    except ValueError as fault:
        require(str(fault).startswith("record 0: "), f"{it!r:.200}: {fault!r:.200}")
        same(header_bytes(), Path(path).read_bytes())
        return False
    except Exception as raised:
        raise Failure(f"{it!r:.200} raises {raised!r}") from None


def plain(value: Any) -> Any:
    """A value, as it is read again."""
    if isinstance(value, OSError):
        return fdref.Error(errno.errorcode[value.errno or 0])
    if isinstance(value, fdref.Stat):
        return value._replace(st_mode=0)
    if isinstance(value, bool):
        return int(value)
    return bytes(value) if isinstance(value, bytearray | memoryview) else value


def plain_record(it: fdref.Record) -> fdref.Record:
    """A record, as it is read again."""
    args = [
        os.fsdecode(value) if reader is plain_model.read_name else plain(value)
        for value, reader in zip(it.args, readers(it.act), strict=True)
    ]
    return fdref.Record(int(it.pid), it.act, tuple(args), plain(it.outcome))


def in_python(program: str, path: str, pick: random.Random, met: Counter[str]) -> None:
    """What the client in Python takes of random records is read again, and is never malformed."""
    taken = are_taken(program, path, [record(pick) for _ in range(RECORDS)])
    met["records of Python taken"] += taken
    met["records of Python refused"] += RECORDS - taken


def are_taken(program: str, path: str, records: Sequence[fdref.Record]) -> int:
    """What the client in Python takes of these is read again, and is never malformed: how many they are."""
    taken = [it for it in records if is_taken(path, it)]
    same(len(taken), fdref.write_trace(path, iter(taken)))
    is_well_formed(program, path, len(taken))
    again = fdref.read_trace(path)
    same(b"", again.rest)
    for given, it in zip(again.records, taken, strict=True):
        wanted = plain_record(it)
        same(wanted, given._replace(outcome=plain(given.outcome)))
    return len(taken)


def in_c(program: str, path: str, edges: str, seed: int, met: Counter[str]) -> None:
    """What the client in C takes is never malformed."""
    done = run([edges, str(seed), str(IN_C), path])
    require(done.status == 0 and not done.stderr, done.said())
    is_well_formed(program, path, int(done.stdout))
    met["records of C taken"] += int(done.stdout)
    met["records of C refused"] += IN_C - int(done.stdout)


# ---- the example


def emulated_call(pick: random.Random) -> tuple[str, tuple[Any, ...]]:
    """A call of the emulator, at edges that it has room for."""
    near = partial(pick.choice, [0, 1, 2, 9, 2**31 - 1] * 6 + [-1, 2**31, 2**63 - 1, 2**63])
    return pick.choice(
        [
            ("open", (pick.choice(["a", "", "n" * 255, "ä"] * 4 + ["n" * 256]), pick.choice([0, 1, 2, 3] * 4 + [-1]))),
            ("write", (0, bytes(pick.choice(SIZES[:-1])))),
            ("pwrite", (near(), bytes(pick.choice(SIZES[:-1])), near())),
            ("read", (near(), near())),
            ("pread", (0, near(), near())),
            ("lseek", (0, near(), pick.choice([0, 1, 2, 3]))),
            ("close", (near(),)),
        ]
    )


def emulated(program: str, path: str, pick: random.Random, met: Counter[str]) -> None:
    """The example writes what its calls came to, or is told which record has no place in a trace."""
    calls = [emulated_call(pick) for _ in range(pick.randrange(CALLS))]
    kept, emulator.CALLS = emulator.CALLS, calls
    count = len(calls) + 2
    try:
        same(0, emulator.main(["--mistake", path] if pick.random() < 0.5 else [path]))
        met["emulators' traces that are whole"] += 1
    except ValueError as fault:
        told = re.match(r"record (\d+): ", str(fault))
        require(told, f"{fault!r}")
        count = int(told[1]) if told else 0
        met["emulators' traces that are refused"] += 1
    finally:
        emulator.CALLS = kept
    is_well_formed(program, path, count)


# ---- cases


def edges_of(ways: Sequence[Build]) -> list[str]:
    """The programs that record at edges in C."""
    found = []
    for build in ways:
        found.append(os.path.join(build.folder, f"{build.name.replace(' ', '-')}-edges"))
        compiles([*build.words, *WARNINGS, *INCLUDES, str(C_TESTS / "edges.c"), "-o", found[-1]])
    return found


def cases(
    program: str, folder: str, edges: Sequence[str], seed: str, first: int, met: Counter[str]
) -> Iterator[Case]:
    """Traces of each kind."""
    path = os.path.join(folder, "trace")
    for number in itertools.count(first):
        pick = source(f"{seed} traces", number)
        name = numbered("trace", seed, number)
        if number % 3 == 0 and edges:
            program_in_c = edges[number // 3 % len(edges)]
            yield f"{name}, in C", partial(in_c, program, path, program_in_c, pick.randrange(2**63), met)
        elif number % 3 == 1:
            yield f"{name}, of the emulator", partial(emulated, program, path, pick, met)
        else:
            yield f"{name}, in Python", partial(in_python, program, path, pick, met)


def plain_cases(program: str, folder: str) -> Iterator[Case]:
    """Traces that are always written."""
    path = os.path.join(folder, "edges")
    yield "a trace without a record", partial(are_taken, program, path, [])
    yield "a trace of records at their edges", partial(are_taken, program, path, EDGES)
