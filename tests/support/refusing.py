"""Running built programs with some of their allocations refused, by a library that comes before the C library."""

import os
import signal
import struct
import subprocess
import tempfile
from collections.abc import Sequence
from types import FrameType
from typing import IO, NamedTuple, NoReturn

from support.counting import Failure
from support.running import SECONDS, Ran

NEVER = 2**63
NO_MEMORY = Ran(5, b"", b"no memory\n")
GIVEN_AGAIN = b"given again: 1\n"

# Counts allocations in a file, and refuses those from REFUSE_FIRST to REFUSE_LAST, of all threads together. The
# programs ask by malloc and realloc alone, and the C library for their threads by calloc. The kit's clang has no
# headers.
REFUSES = """
typedef unsigned long size_t;
extern void *__libc_malloc(size_t);
extern void *__libc_calloc(size_t, size_t);
extern void *__libc_realloc(void *, size_t);
extern int *__errno_location(void);
extern char *getenv(const char *);
extern unsigned long strtoul(const char *, char **, int);
extern void *mmap(void *, size_t, int, int, int, long);
enum { READ_AND_WRITE = 3, SHARED = 1, NO_MEMORY = 12 };

static unsigned long *count, first, last;

__attribute__((constructor)) static void begin(void) {
    first = strtoul(getenv("REFUSE_FIRST"), 0, 10);
    last = strtoul(getenv("REFUSE_LAST"), 0, 10);
    int told = (int)strtoul(getenv("REFUSE_TOLD"), 0, 10);
    count = mmap(0, sizeof *count, READ_AND_WRITE, SHARED, told, 0);
}

static int refused(void) {
    if (!count)
        return 0;
    unsigned long now = __atomic_add_fetch(count, 1, __ATOMIC_SEQ_CST);
    if (now < first || last < now)
        return 0;
    *__errno_location() = NO_MEMORY;
    return 1;
}

void *malloc(size_t size) { return refused() ? 0 : __libc_malloc(size); }

void *calloc(size_t count, size_t size) { return refused() ? 0 : __libc_calloc(count, size); }

void *realloc(void *old, size_t size) { return refused() ? 0 : __libc_realloc(old, size); }
"""


def kit() -> str:
    """The folder of the kit whose `rt` stands on the path."""
    page = subprocess.run(["rt", "doc"], stdout=subprocess.PIPE, text=True, check=True)
    return os.path.dirname(page.stdout.strip())


def build(folder: str, text: str = REFUSES) -> str:
    """Builds the library that refuses, or another one from its text, with the kit's clang, and gives its path."""
    source = os.path.join(folder, "refuses.c")
    library = os.path.join(folder, "refuses.so")
    toolchain = os.path.join(kit(), "toolchain")
    with open(source, "w", encoding="utf-8") as file:
        file.write(text)
    words = [os.path.join(toolchain, "bin", "clang"), f"--sysroot={toolchain}"]
    words += ["--target=x86_64-unknown-linux-gnu", "-shared", "-fPIC", "-O1", "-fno-builtin"]
    words += ["-nostdlib", "-fuse-ld=lld", source, "-o", library]
    subprocess.run(words, check=True)
    return library


class Counted(NamedTuple):
    """How a run ended, and how many allocations it asked for."""

    ran: Ran
    allocations: int


def write_anew(file: IO[bytes], content: bytes) -> None:
    """Makes a file hold just these bytes, to be read or written from its start."""
    file.seek(0)
    file.truncate()
    file.write(content)
    file.seek(0)


def read_all(file: IO[bytes]) -> bytes:
    """What a file holds."""
    return os.pread(file.fileno(), os.fstat(file.fileno()).st_size, 0)


def raise_late(_number: int, _frame: FrameType | None) -> NoReturn:
    """Ends the waiting for a run; Popen.wait looks again and again where it is given a time."""
    raise TimeoutError


class Refuser:
    """Runs programs, counts their allocations, and refuses some of them."""

    def __init__(self, library: str) -> None:
        self.library = library
        self.files = [tempfile.TemporaryFile(buffering=0) for _ in range(4)]
        self.told, self.stdin, self.stdout, self.stderr = self.files
        self.refusing = 0
        self.plain = 0
        signal.signal(signal.SIGALRM, raise_late)

    def run(self, words: Sequence[str], stdin: bytes = b"", first: int = NEVER, last: int = NEVER) -> Counted:
        """Runs a command with its allocations from `first` to `last` refused."""
        if first == NEVER:
            self.plain += 1
        else:
            self.refusing += 1
        self.begin()
        for file, content in zip(self.files[1:], (stdin, b"", b""), strict=True):
            write_anew(file, content)
        status = self.wait(words, first, last)
        return Counted(Ran(status, read_all(self.stdout), read_all(self.stderr)), self.counted())

    def environment(self, first: int, last: int) -> dict[str, str]:
        """What a program has to find where its allocations from `first` to `last` are refused."""
        return {
            "LD_PRELOAD": self.library,
            "REFUSE_FIRST": str(first),
            "REFUSE_LAST": str(last),
            "REFUSE_TOLD": str(self.told.fileno()),
        }

    def begin(self) -> None:
        """No allocation was asked for."""
        write_anew(self.told, bytes(8))

    def counted(self) -> int:
        """How many allocations were asked for."""
        return int(struct.unpack("L", read_all(self.told))[0])

    def wait(self, words: Sequence[str], first: int, last: int) -> int:
        """The exit status of a command."""
        process = subprocess.Popen(
            words,
            stdin=self.stdin,
            stdout=self.stdout,
            stderr=self.stderr,
            env=self.environment(first, last),
            pass_fds=[self.told.fileno()],
        )
        signal.alarm(SECONDS)
        try:
            return process.wait()
        except TimeoutError:
            process.kill()
            process.wait()
            raise Failure(f"it had not ended after {SECONDS} seconds") from None
        finally:
            signal.alarm(0)
