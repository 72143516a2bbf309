"""Traces of version 1 that `fdref migrate` makes traces of version 2 of: all bytes of it, whatever befalls it."""

import os
import tempfile
from collections.abc import Callable, Iterator, Sequence
from functools import partial
from pathlib import Path

from parts.failing_disks import FAILS, FULL, INTERRUPTED, PAGE, Trouble, limited_to, small_disk
from parts.written_traces import NEW_SHORT, SHORT, Named, changed_bytes, old_run, with_byte, written_out
from support.auditing import Migrated, audited, migrated
from support.causes import is_caused
from support.counting import Case, Count, require, same
from support.frames import MIGRATED_HEADER, OLD_MAGIC, trace_of, u32
from support.places import SCRATCH
from support.refusing import build
from support.running import Ran, ran_in, run, run_by_bytes, write_all
from support.serving import outcome_of, started
from support.sources import changed, numbered, source

PIECE = 100
OF_ONE_SCRIPT = 4
# Of the changes of a byte of the short trace, one in so many is migrated.
ONE_IN = 16

CANNOT_READ, CANNOT_WRITE = Ran(4, b"", b"cannot read\n"), Ran(4, b"", b"cannot write\n")


# ---- what is written, and what is said of it


def is_right(program: str, trace: bytes, given: Migrated, verdicts: tuple[Ran, Ran]) -> None:
    """A trace was migrated as the plain auditor does it; and where that came to its end, the verdicts on the old and
    the new trace are one."""
    wanted = migrated(trace)
    same(wanted.ran, given.ran)
    same(wanted.written.hex(), given.written.hex())
    same(audited(trace), verdicts[0])
    same(audited(wanted.written), verdicts[1])
    if given.ran.status == 0:
        same(verdicts[0], verdicts[1])


def check_all(count: Count, program: str, named: Sequence[Named]) -> None:
    """Has traces migrated, and the old and the new ones audited."""
    for at in range(0, len(named), PIECE):
        piece = named[at : at + PIECE]
        with tempfile.TemporaryDirectory(prefix="fdref-", dir=SCRATCH) as folder:
            write_all(folder, [trace for _, trace in piece])
            rans = ran_in(folder, program, len(piece), "migrate $n $n.new")
            old = ran_in(folder, program, len(piece), "audit $n")
            new = ran_in(folder, program, len(piece), "audit $n.new")
            left = [Path(folder, str(number)).read_bytes() for number in range(len(piece))]
            written = [Path(folder, f"{number}.new").read_bytes() for number in range(len(piece))]
        for number, (name, trace) in enumerate(piece):
            given, verdicts = Migrated(rans[number], written[number]), (old[number], new[number])
            count.check(f"{name}, migrated", partial(is_right, program, trace, given, verdicts))
            count.check(f"{name}, afterwards", partial(same, trace.hex(), left[number].hex()))


def definitions() -> Iterator[Case]:
    """What the plain auditor says of a migration, of traces for which it is written out."""
    head = MIGRATED_HEADER
    rows: list[tuple[str, bytes, str, bytes]] = [
        ("nothing", b"", "migrated 0 rest 0", b""),
        ("half a header", OLD_MAGIC[:5], "migrated 0 rest 5", OLD_MAGIC[:5]),
        ("a header but for a byte", OLD_MAGIC[:7], "migrated 0 rest 7", OLD_MAGIC[:7]),
        ("a header", OLD_MAGIC, "migrated 0 rest 0", head),
        ("the short trace", SHORT, "migrated 3 rest 0", head + SHORT[8:]),
        ("its first 50 bytes", SHORT[:50], "migrated 2 rest 6", head + SHORT[8:50]),
        ("an illegal record", with_byte(SHORT, 43, 2), "migrated 3 rest 0", head + with_byte(SHORT, 43, 2)[8:]),
        ("a malformed frame", with_byte(SHORT, 34, 255), "malformed 26", head + SHORT[8:26]),
        ("a malformed first frame", with_byte(SHORT, 16, 0), "malformed 8", head),
        ("a frame that is too long", SHORT + u32(66_049), "malformed 54", head + SHORT[8:]),
        ("another header", with_byte(SHORT, 3, 0), "malformed 0", b""),
        ("version 2", NEW_SHORT, "malformed 0", b""),
        ("eight bytes of version 2", NEW_SHORT[:8], "malformed 0", b""),
        ("seven bytes of version 2", NEW_SHORT[:7], "migrated 0 rest 7", NEW_SHORT[:7]),
    ]
    for name, trace, line, written in rows:
        status = 8 if line.startswith("malformed") else 0
        wanted = Migrated(Ran(status, f"{line}\n".encode(), b""), written)
        yield f"the migration of {name}, by the plain auditor", partial(same, wanted, migrated(trace))


def old_traces(seed: str, count: int) -> Iterator[Named]:
    """So many traces of version 1: of random runs, cut, and changed."""
    for number in range(count):
        pick = source(f"{seed} old", number)
        if number % OF_ONE_SCRIPT == 0:
            whole = old_run(pick).trace()
            trace = whole
        elif number % OF_ONE_SCRIPT == 1:
            trace = whole[: pick.randrange(len(whole) + 1)]
        else:
            trace = changed(pick, whole)
        yield numbered("old trace", seed, number), trace


def check(count: Count, program: str, seed: str, most: int, stride: int) -> None:
    """Makes all checks."""
    count.check_all(definitions())
    check_all(count, program, [(name, trace) for name, trace, _ in written_out()])
    every_byte = [(f"the short trace, {name}", trace) for name, trace in changed_bytes(SHORT)]
    first = source(seed, 0).randrange(ONE_IN)
    check_all(count, program, every_byte[first::ONE_IN])
    check_all(count, program, list(old_traces(seed, most)))
    count.check_all(system_cases(program, stride))


# ---- what the system refuses


def refused(program: str, old: str, new: str, wanted: Ran, left: dict[str, bytes | None]) -> None:
    """A migration that fails, after which these files have these bytes, or are not there."""
    is_caused(wanted, old if wanted == CANNOT_READ else new, run([program, "migrate", old, new]))
    for path, content in left.items():
        there = Path(path).read_bytes() if os.path.lexists(path) else None
        same((path, content), (path, there))


def paths(program: str, folder: str) -> Iterator[Case]:
    """Files that are not there, that are there already, and that are one file."""
    old, gone = os.path.join(folder, "old"), os.path.join(folder, "gone")
    there, empty = os.path.join(folder, "there"), os.path.join(folder, "empty")
    linked, led, astray = (os.path.join(folder, name) for name in ("linked", "led", "astray"))
    for path, content in ((old, SHORT), (there, b"what is there\n"), (empty, b"")):
        Path(path).write_bytes(content)
    os.link(old, linked)
    os.symlink("old", led)
    os.symlink("nowhere", astray)
    nowhere = os.path.join(folder, "nowhere")
    kept = {old: SHORT, there: b"what is there\n", empty: b""}

    def case(from_: str, to: str, wanted: Ran, **more: bytes | None) -> Callable[[], None]:
        left = {os.path.join(folder, name): content for name, content in more.items()}
        return partial(refused, program, from_, to, wanted, {**kept, **left})

    yield "no old trace", case(gone, os.path.join(folder, "new1"), CANNOT_READ, gone=None, new1=None)
    yield "an old trace without a name", case("", os.path.join(folder, "new2"), CANNOT_READ, new2=None)
    yield "a file as a folder", case(f"{old}/x", os.path.join(folder, "new3"), CANNOT_READ, new3=None)
    yield "no old trace, and a new one that is there", case(gone, there, CANNOT_READ, gone=None)
    yield "a folder as the old trace", case(folder, os.path.join(folder, "new4"), CANNOT_READ, new4=None)
    yield "a new trace that is there", case(old, there, CANNOT_WRITE)
    yield "a new trace that is there, without bytes", case(old, empty, CANNOT_WRITE)
    yield "a malformed old trace, and a new one that is there", case(there, empty, CANNOT_WRITE)
    yield "one file", case(old, old, CANNOT_WRITE)
    yield "one file with two names", case(old, linked, CANNOT_WRITE, linked=SHORT)
    yield "one file and a link that leads to it", case(old, led, CANNOT_WRITE, led=SHORT)
    yield "one file and a link that leads to it, turned around", case(led, old, CANNOT_WRITE, led=SHORT)
    yield "a folder as the new trace", partial(refused, program, old, folder, CANNOT_WRITE, kept)
    yield "a new trace in no folder", case(old, f"{gone}/new", CANNOT_WRITE, gone=None)
    yield "a new trace without a name", case(old, "", CANNOT_WRITE)
    yield "a link that leads nowhere", partial(goes_astray, program, old, astray, nowhere)
    yield "a new trace that is a device", case(old, "/dev/null", CANNOT_WRITE)


def goes_astray(program: str, old: str, astray: str, nowhere: str) -> None:
    """A name that is a link is there, though it leads nowhere: nothing is made."""
    is_caused(CANNOT_WRITE, astray, run([program, "migrate", old, astray]))
    require(not os.path.lexists(nowhere), "a file was made behind the link")


def in_pieces(program: str, folder: str, trace: bytes) -> None:
    """An old trace that comes by a pipe, byte by byte."""
    new = os.path.join(folder, f"piped {len(trace)}")
    ran = run_by_bytes([program, "migrate", "/dev/stdin", new], trace)
    same(migrated(trace), Migrated(ran, Path(new).read_bytes()))


def line_is_not_taken(program: str, folder: str, old: str) -> None:
    """An output that takes no line: the new trace is whole all the same."""
    new = os.path.join(folder, "untold")
    with open("/dev/full", "wb", buffering=0) as full:
        same(CANNOT_WRITE, run([program, "migrate", old, new], stdout=full))
    same(migrated(SHORT).written.hex(), Path(new).read_bytes().hex())


# ---- disks that fail


def ends_early(program: str, trace: bytes, size: int, new: str, before: Callable[[], None] | None = None) -> None:
    """A new trace of which so many bytes can be written, or all: these are there."""
    wanted = migrated(trace)
    with tempfile.NamedTemporaryFile(prefix="fdref-", dir=SCRATCH) as file:
        file.write(trace)
        file.flush()
        given = outcome_of(started([program, "migrate", file.name, new], before=before))
        same(trace.hex(), Path(file.name).read_bytes().hex())
    same(wanted.ran if size >= len(wanted.written) else CANNOT_WRITE, given)
    left = Path(new).read_bytes()
    require(left == wanted.written[:size], f"these {len(left)} bytes are not the first {size} of the new trace")


def limited(program: str, trace: bytes, size: int) -> None:
    """A process whose files take so many bytes at most."""
    with tempfile.TemporaryDirectory(prefix="fdref-", dir=SCRATCH) as folder:
        ends_early(program, trace, size, os.path.join(folder, "new"), limited_to(size))


def on_small_disk(program: str, trace: bytes, size: int) -> None:
    """A file system of so many bytes."""
    with small_disk(size) as folder:
        require(folder is not None, "no disk can be mounted any more")
        ends_early(program, trace, size, os.path.join(folder or "", "new"))


def in_trouble(program: str, library: str, trouble: Trouble, kept: int) -> None:
    """A disk that does as it is told: after its first fault nothing more is written."""
    wanted = migrated(SHORT)
    with tempfile.TemporaryDirectory(prefix="fdref-", dir=SCRATCH) as folder:
        old, new = Path(folder, "old"), Path(folder, "new")
        old.write_bytes(SHORT)
        env = {**os.environ, "LD_PRELOAD": library, **trouble.environment()}
        given = outcome_of(started([program, "migrate", str(old), str(new)], env=env))
        same(wanted.ran if kept == len(wanted.written) else CANNOT_WRITE, given)
        same(wanted.written[:kept].hex(), new.read_bytes().hex())


def troubles() -> Iterator[tuple[str, Trouble, int]]:
    """What befalls a disk, and how many bytes of the new trace it takes."""
    length = len(migrated(SHORT).written)
    for number in range(1, length + 2):
        yield f"write {number} of one byte fails", Trouble(1, number, 1, FULL), number - 1
    for number in (1, 24, 25, 47, length):
        yield f"write {number} of one byte answers 0", Trouble(1, number, 1), number - 1
        yield f"write {number} is interrupted 15 times", Trouble(1, number, 15, INTERRUPTED), length
        yield f"write {number} is interrupted 16 times", Trouble(1, number, 16, INTERRUPTED), number - 1


def lengthy() -> bytes:
    """A trace of version 1 of many pages."""
    data = (bytes(range(256)) * 256).hex()
    records = ["p0 join = 0", "p0 open a rw,creat = 0", *[f"p0 write 0 x{data} = 65536"] * 3]
    return trace_of(records, OLD_MAGIC)


def disks(program: str, stride: int) -> Iterator[Case]:
    """Disks on which there is no room for a new trace, and those that fail."""
    short, long = migrated(SHORT).written, lengthy()
    for size in range(len(short) + 1):
        yield f"a new trace of {size} bytes at most", partial(limited, program, SHORT, size)
    for size in range(1, len(long), 5 * stride):
        yield f"a long new trace of {size} bytes at most", partial(limited, program, long, size)
    with small_disk(PAGE) as folder:
        can_mount = folder is not None
    way = on_small_disk if can_mount else limited
    for size in range(PAGE, len(long) + 2 * PAGE, 8 * PAGE):
        yield f"a disk of {size} bytes for a new trace", partial(way, program, long, size)
    with tempfile.TemporaryDirectory(prefix="fdref-", dir=SCRATCH) as folder:
        library = build(folder, FAILS)
        for name, trouble, kept in troubles():
            yield f"a new trace on a disk of which {name}", partial(in_trouble, program, library, trouble, kept)


def system_cases(program: str, stride: int) -> Iterator[Case]:
    """What the system refuses."""
    with tempfile.TemporaryDirectory(prefix="fdref-", dir=SCRATCH) as folder:
        yield from paths(program, folder)
        for trace in (SHORT, SHORT[:50], SHORT[:5], b"", NEW_SHORT, with_byte(SHORT, 34, 255) + b"\0"):
            yield f"a migration byte by byte of {len(trace)} bytes", partial(in_pieces, program, folder, trace)
        old = os.path.join(folder, "old")
        yield "a migration whose line is not taken", partial(line_is_not_taken, program, folder, old)
    yield from disks(program, stride)
