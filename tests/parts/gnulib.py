"""gnulib's tests of the calls that fdref has: each passes under the shim, or differs for one reason.

They are those of Debian's package `gnulib`. Where it is not installed, it is fetched and unpacked into a temporary
folder. The tests are compiled against the C library at hand, without gnulib's own one but for some small functions.
"""

import os
import tempfile
from collections.abc import Iterator
from functools import partial
from pathlib import Path
from typing import NamedTuple

from support.counting import Case, Failure, require, same
from support.running import run

import judge

INSTALLED = Path("/usr/share/gnulib")
FETCH_SECONDS = 90
SECONDS = 30
SESSIONS = 4
LEAST = 15

# What gnulib's own configuration would find out: this C library needs nothing in its place. No test runs a shell or
# itself.
CONFIG = """
#define _GNU_SOURCE 1
#include <stdbool.h>
#include <stdlib.h>
#include <sys/types.h>
#include <unistd.h>
#define system(command) 0
#define execl(path, ...) 0
#define xalloc_die abort
#define O_BINARY 0
#define O_TEXT 0
#define PROMOTED_MODE_T mode_t
#define GNULIB_FILENAMECAT 1
#define GNULIB_NONBLOCKING 1
#define _GL_INLINE_HEADER_BEGIN
#define _GL_INLINE_HEADER_END
#define _GL_INLINE static inline
#define _GL_ATTRIBUTE_CONST
#define _GL_ATTRIBUTE_DEALLOC(f, i)
#define _GL_ATTRIBUTE_DEALLOC_FREE
#define _GL_ATTRIBUTE_MALLOC
#define _GL_ATTRIBUTE_MAYBE_UNUSED
#define _GL_ATTRIBUTE_PURE
#define _GL_ATTRIBUTE_RETURNS_NONNULL
#define _GL_UNUSED
"""

# What comes of a test: it passes, or it fails by one of these, or by a reason of docs/KERNELS.md.
PASSES = "passes"
LEFT_OUT = judge.LEAVES_OUT


class Test(NamedTuple):
    """A test of gnulib, what comes of it, its words, and the functions of gnulib that it needs."""

    name: str
    result: str = PASSES
    words: tuple[str, ...] = ()
    sources: tuple[str, ...] = ()


SAFER = ("dup-safer", "fd-safer")
# Standard input of these is a pipe.
HAS_PIPE = ("pread",)

TESTS = [
    Test("access", f"{LEFT_OUT}chmod"),
    Test("cloexec", sources=("cloexec",)),
    Test("close"),
    Test("creat"),
    Test("dup"),
    Test("dup-safer", sources=(*SAFER, "cloexec", "dup-safer-flag", "fd-safer-flag")),
    Test("dup2"),
    Test("dup3"),
    Test("faccessat", f"{LEFT_OUT}foo in a folder"),
    Test("fcntl"),
    Test("fcntl-safer", f"{LEFT_OUT}the path nonexist.ent/", sources=(*SAFER, "open-safer")),
    Test("fdatasync"),
    Test("fopen", f"{LEFT_OUT}fopen"),
    Test("fread", f"{LEFT_OUT}fopen"),
    Test("fstat"),
    Test("fstatat", f"{LEFT_OUT}foo in a folder"),
    Test("fsync"),
    Test("ftruncate", words=("test-ftruncate.sh",)),
    Test("isatty"),
    Test("link", f"{LEFT_OUT}mkdir"),
    Test("lstat", f"{LEFT_OUT}the path ."),
    Test("mkfifo", f"{LEFT_OUT}the path ."),
    Test("mkfifoat", f"{LEFT_OUT}the path ."),
    Test("nonblocking", sources=("nonblocking",)),
    Test("open", f"{LEFT_OUT}the path nonexist.ent/"),
    Test("openat", f"{LEFT_OUT}foo in a folder"),
    Test("pipe"),
    Test("pipe2", sources=("nonblocking",)),
    Test("pread"),
    Test("pwrite"),
    Test("read"),
    Test("remove", f"{LEFT_OUT}mkdir"),
    Test("rename", f"{LEFT_OUT}mkdir"),
    Test("renameat", f"{LEFT_OUT}foo in a folder", sources=("filenamecat", "filenamecat-lgpl", "basename-lgpl")),
    Test("stat", f"{LEFT_OUT}the path ."),
    Test("truncate", f"{LEFT_OUT}the path /nonexistent"),
    Test("unlink", f"{LEFT_OUT}mkdir", sources=("unlinkdir",)),
    Test("write"),
]


# ---- the package


def fetched(folder: str) -> Path | None:
    """gnulib as the package has it, which is fetched and unpacked into a folder. Nothing is installed."""
    lists, cache = os.path.join(folder, "lists"), os.path.join(folder, "cache")
    for path in (lists, cache):
        os.makedirs(path)
    own = {"Dir::State::lists": lists, "Dir::Cache": cache, "APT::Sandbox::User": "", "Acquire::Retries": "0"}
    words = [word for name, value in own.items() for word in ("-o", f"{name}={value}")]
    try:
        for command in ("update", "download gnulib"):
            run(["apt-get", *words, "-qq", *command.split(" ")], seconds=FETCH_SECONDS, folder=folder)
        package = next(Path(folder).glob("gnulib_*.deb"))
        run(["dpkg-deb", "-x", package, folder], seconds=FETCH_SECONDS)
    except (OSError, Failure, StopIteration):
        return None
    return Path(folder, INSTALLED.relative_to("/"))


def package(folder: str) -> Path | None:
    """Where gnulib is, or None where it cannot be had."""
    place = INSTALLED if INSTALLED.is_dir() else fetched(os.path.join(folder, "package"))
    return place if place and (place / "tests").is_dir() else None


# ---- a test


class Bench(NamedTuple):
    """Where gnulib is, a folder for what is compiled, the compiler, the shim, and fdref."""

    gnulib: Path
    folder: str
    compiler: str
    shim: str
    program: str

    def compiled(self, test: Test) -> str:
        """The path of a test, which is compiled."""
        path = os.path.join(self.folder, f"test-{test.name}")
        tests, own = self.gnulib / "tests", self.gnulib / "lib"
        sources = [tests / f"test-{test.name}.c", *(own / f"{name}.c" for name in test.sources)]
        places = ["-I", self.folder, "-I", str(tests), "-idirafter", str(own)]
        ran = run([self.compiler, "-std=gnu11", "-w", *places, *sources, "-o", path])
        require(ran.status == 0, f"it is not compiled: {ran.said()}")
        return path

    def job(self, test: Test, folder: str, stdin: str) -> judge.Job:
        """The test, as it is judged."""
        words = [word if "." not in word else str(self.gnulib / "tests" / word) for word in test.words]
        job = judge.Job([self.compiled(test), *words], [self.program], self.shim, folder)
        job.stdin, job.seconds, job.sessions = stdin, SECONDS, SESSIONS
        return job


def result_of(verdict: judge.Verdict) -> str:
    """What came of a test: that it passes, the first reason for which it differs, or where it differs without one."""
    require(verdict.both.system.status == 0, f"on this system it {judge.how(verdict.both.system, SECONDS)}")
    require(verdict.audit.startswith("legal "), verdict.audit)
    if verdict.status() == 0:
        return PASSES
    reasons = [finding.reason.name for finding in verdict.findings if finding.reason]
    if reasons and not verdict.unexplained:
        return reasons[0]
    return "\n" + judge.told(verdict, SECONDS, 3)


def result(bench: Bench, test: Test, *, is_strict: bool) -> str:
    """What comes of a test, which is perhaps ended by what fdref leaves out."""
    reading, writing = os.pipe()
    os.close(writing)
    stdin = f"/dev/fd/{reading}" if test.name in HAS_PIPE else os.devnull
    try:
        with tempfile.TemporaryDirectory(prefix="judge-") as folder:
            job = bench.job(test, folder, stdin)
            job.is_strict = is_strict
            return result_of(job.verdict())
    except judge.CannotJudge as fault:
        return str(fault)
    finally:
        os.close(reading)


def comes_of(bench: Bench, test: Test) -> None:
    """A test comes to what the table says, of which there is one text. Where it does not pass, it is asked whether that
    is by what fdref leaves out."""
    given = result(bench, test, is_strict=False)
    if given != PASSES:
        strict = result(bench, test, is_strict=True)
        given = strict if strict.startswith(LEFT_OUT) else given
    same(test.result, given)


def are_enough(bench: Bench) -> None:
    """So many tests are there that they tell something, and each once."""
    names = {test.name for test in TESTS}
    there = [name for name in names if (bench.gnulib / "tests" / f"test-{name}.c").is_file()]
    require(len(there) >= LEAST and len(names) == len(TESTS), f"{len(there)} of {len(TESTS)} tests are there")


def cases(bench: Bench) -> Iterator[Case]:
    """Each test of the table."""
    Path(bench.folder, "config.h").write_text(CONFIG, encoding="ascii")
    yield "tests of gnulib", partial(are_enough, bench)
    for test in TESTS:
        yield f"gnulib's test-{test.name}", partial(comes_of, bench, test)
