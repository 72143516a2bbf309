"""Programs of tests/c with the library of clients/preload: what they are given natively, and by a server."""

import contextlib
import errno
import os
import re
import resource
import select
import signal
import socket
import subprocess
import threading
import time
from collections.abc import Iterator, Sequence
from concurrent.futures import ThreadPoolExecutor
from functools import partial
from pathlib import Path
from typing import NamedTuple

from parts.c_programs import WARNINGS, compiles
from parts.preload_builds import (
    LEFT_OUT,
    NO_ANSWER,
    Given,
    Library,
    agree,
    asking,
    empty_folder,
    ended,
    environment,
    listens,
    natively,
    started,
)
from support.counting import Case, require, same
from support.frames import JOIN
from support.places import C_TESTS
from support.players import until_traced
from support.running import Ran, run
from support.serving import A_WHILE, ALL_RECORDS, SECONDS, Listener, Process, Server, outcome_of

# A program, its words, how many processes it is, and what a shell does before.
PROGRAMS: list[tuple[str, list[str], int, str]] = [
    ("preload_calls", [], 5, ""),
    ("preload_forks", [], 8, ""),
    ("preload_execs", [], 2, ""),
    ("preload_numbers", ["mixed"], 1, ""),
    ("preload_numbers", ["full"], 1, "ulimit -S -n 32"),
    ("preload_numbers", ["closed"], 1, "exec <&-"),
]
SAYS = {"preload_forks": b"said\n", "preload_execs": b"said\n", "preload_numbers mixed": b"said\n"}

# More than a trace has before the calls that a server is to see.
MANY_BYTES = 5_000

# Ways to end, the status of each, and what the program writes before.
ENDS = {
    "exit": (7, b""),
    "_exit": (7, b""),
    "_Exit": (7, b""),
    "quick_exit": (7, b""),
    "abort": (-signal.SIGABRT, b""),
    "broken pipe": (-signal.SIGPIPE, b""),
    "broken pipe, heard": (errno.EPIPE, b"signal\n"),
    "broken pipe, ignored": (errno.EPIPE, b""),
}

# Moves and links from one folder to another, and what comes of them with fdref, which has one of the two.
BETWEEN = {
    "rename out": errno.EXDEV,
    "rename in": errno.EXDEV,
    "renameat out": errno.EXDEV,
    "renameat in": errno.EXDEV,
    "rename beside": 0,
    "link out": errno.EXDEV,
    "link in": errno.EXDEV,
}

NAMES = [
    "fopen", "freopen", "symlink", "readlink", "mkdir", "rmdir", "unlinkat of a directory", "opendir", "mkstemp",
    "mknod", "chmod", "chown", "utimensat", "chdir", "open with other flags", "pipe2 with other flags", "execve",
    "execv", "execvp", "execl", "execle", "execlp", "system", "popen", "posix_spawn", "posix_spawnp",
    "syscall of openat", "syscall of pipe2", "clone", "setrlimit of RLIMIT_FSIZE", "the path /dev/null",
    "the path /dev/none", "none in a folder", "new in a folder",
]  # fmt: skip
DESCRIPTORS = [
    "fdopen", "mmap", "ioctl", "flock", "lockf", "sendfile", "copy_file_range", "splice", "preadv", "pwritev",
    "fallocate", "fchmod", "fchown", "futimens", "fcntl with other flags", "fcntl with another command",
    "renameat2 with flags", "poll", "ppoll", "select", "pselect", "epoll_ctl", "setrlimit of RLIMIT_NOFILE",
    "fpathconf of another limit", "pathconf of another limit", "syscall of fstat", "syscall of dup3",
    "syscall of unlinkat",
]  # fmt: skip
SEEK = "lseek by SEEK_DATA and its kin"
# What ends a strict program before the call that it leads to is noted.
NOTED_BY_OTHERS = ["none in a folder", "new in a folder"]


def both(program: str, library: Library, name: str, words: Sequence[str], sessions: int, before: str) -> None:
    """A program is given the same natively and by a server, which records what is logged."""
    command = [library.program(name), *words]
    native = natively(library, command, before)
    same(Ran(0, SAYS.get(" ".join([name, *words]), b""), b""), native.ran)
    require(native.log, "nothing is logged")
    with Server(program, sessions) as server:
        asked = asking(library, server, command, (), before)
        agree(native, asked)
        ended(server, sessions, asked.log)


def changes_nothing(library: Library) -> None:
    """Without a server and a log the library changes nothing: a program makes its files."""
    with empty_folder() as folder:
        words = [*environment(library, []), library.program("preload_numbers"), "mixed"]
        same(Ran(0, b"said\n", b""), run(words, folder=folder))
        same(["a", "b", "c"], sorted(os.listdir(folder)))


# What a library in between gives, and what is logged of it.
BETWEEN_SAYS = b"9 1 0 0 0 0 -1 4 2\n"
BETWEEN_LOG = """- p0 open a rw,creat = 3
- p0 dup2 3 9 = 9
- p0 lseek 3 0 set = 1
- p0 rename a b = ok
- p0 link a c = ok
- p0 mkfifo f = ok
- p0 ftruncate 3 5 = ok
- p0 unlink a = error EPERM
- p0 open a w,creat,trunc = 4
- p0 write 4 x776f7264 = 2""".splitlines()

# What is logged of one whose functions all fail.
NAMES_LOG = """- p0 open a rw,creat = 3
- p0 open a r = error EXFULL
- p0 open a r = error EXFULL
- p0 open a r = error EXFULL
- p0 open a w,creat,trunc = error EXFULL
- p0 open a w,creat,trunc = error EXFULL
- p0 read 3 2 = error EXFULL
- p0 write 3 x0000 = error EXFULL
- p0 pread 3 1 2 = error EXFULL
- p0 pread 3 1 2 = error EXFULL
- p0 pwrite 3 1 x0000 = error EXFULL
- p0 pwrite 3 1 x0000 = error EXFULL
- p0 read 3 2 = error EXFULL
- p0 write 3 x0000 = error EXFULL
- p0 write 3 x3132 = error EXFULL
- p0 lseek 3 0 set = error EXFULL
- p0 lseek 3 0 set = error EXFULL
- p0 ftruncate 3 1 = error EXFULL
- p0 ftruncate 3 1 = error EXFULL
- p0 dup 3 = error EXFULL
- p0 dup2 3 9 = error EXFULL
- p0 dup2 3 9 = error EXFULL
- p0 pipe = error EXFULL
- p0 pipe = error EXFULL
- p0 mkfifo f = error EXFULL
- p0 mkfifo f = error EXFULL
- p0 link a b = error EXFULL
- p0 link a b = error EXFULL
- p0 rename a b = error EXFULL
- p0 rename a b = error EXFULL
- p0 rename a b = error EXFULL
- p0 unlink a = error EXFULL
- p0 unlink a = error EXFULL
- p0 unlink a = error EXFULL
- p0 getfl 3 = error EXFULL
- p0 getfl 3 = 3
- p0 setfl 3 rw = error EXFULL
- p0 fstat 3 = error EXFULL
- p0 close 3 = error EXFULL
- p0 fork = error EXFULL""".splitlines()

# Programs that do what the library does by itself, and how they end in both runs.
APART = ["cancelled too late", "all closed", "early"]


def calls_between(library: Library, kind: str, words: Sequence[str], stdout: bytes, log: Sequence[str]) -> None:
    """Natively the functions of a library are called that stands between a program and the system's, by the very names
    that the program calls. What such a function asks for is no call of the program, and the log is there without it."""
    between = os.path.join(library.folder, f"{library.name.replace(' ', '-')}-{kind}.so")
    shared = [f"-D{kind}", "-shared", "-fPIC", str(C_TESTS / "preload_between.c"), "-o", between]
    compiles([library.compiler, "-std=c99", "-O1", *WARNINGS, *shared])
    command = [library.program("preload_between"), *words]
    given = started(library, command, [f"LD_PRELOAD={library.built()}:{between}"])
    same(Given(Ran(0, stdout, b""), list(log)), given)


# ---- what the library has to keep apart from what it does itself


def apart(program: str, library: Library, word: str) -> None:
    """A program does what the library does by itself, and is given the same in both runs."""
    command = [library.program("preload_apart"), word]
    native = natively(library, command)
    same(Ran(0, b"", b""), native.ran)
    with Server(program, 1) as server:
        asked = asking(library, server, command)
        agree(native, asked)
        ended(server, 1, asked.log)


class Noted(NamedTuple):
    """What a program was given, and what was noted of it, without places."""

    given: Given
    past: list[str]


def noted(library: Library, word: str, settings: Sequence[str]) -> Noted:
    """What is noted of a program of preload_apart."""
    with empty_folder() as folder:
        past = os.path.join(folder, "past")
        given = started(library, [library.program("preload_apart"), word], [f"FDREF_PAST={past}", *settings])
        lines = Path(past).read_text(encoding="ascii").splitlines()
    return Noted(given, [re.sub(r"^(.) \d+ ", r"\1 ", line) for line in lines])


def noted_asking(program: str, library: Library, word: str, settings: Sequence[str] = (), sessions: int = 1) -> Noted:
    """The same of one that asks a server."""
    with Server(program, sessions, ALL_RECORDS) as server:
        listens(server)
        found = noted(library, word, [f"FDREF_SOCKET={server.path}", *settings])
        ended(server, sessions, found.given.log)
    return found


def hears_between(program: str, library: Library) -> None:
    """Handlers of signals make calls while no call waits. A signal that ended a child is noted with its number."""
    native, asked = noted(library, "signals", ()), noted_asking(program, library, "signals", sessions=2)
    same((Ran(0, b"", b""),) * 2, (native.given.ran, asked.given.ran))
    for lines in (native.past, asked.past):
        same(["- p0 signal 9\tp1"], [line for line in lines if " signal " in line])
    require("- p0 interrupt lseek" not in asked.past, "a call that does not wait is interrupted")


def hears_within(library: Library) -> None:
    """Natively a call of a handler does not change when the call began in which the handler came."""
    command = [library.program("preload_apart"), "a signal within a call"]
    given = started(library, command, ["FDREF_STARTS=1"])
    same(Ran(0, b"", b""), given.ran)
    starts = {line.split(" ")[2]: int(line.split(" ")[0].removeprefix("-@")) for line in given.log}
    require(starts["read"] < starts["write"], "\n".join(given.log))


def starts_timers(program: str, library: Library) -> None:
    """Timers that a program starts are noted."""
    same([], noted(library, "timers", ()).past)
    asked = noted_asking(program, library, "timers")
    same(Ran(0, b"", b""), asked.given.ran)
    same([f"- p0 timer {name}" for name in ("alarm", "ualarm", "setitimer", "timer_settime")], asked.past)


def sets_handlers(program: str, library: Library) -> None:
    """Handlers that a program sets are noted with what they do to a call, each once, and natively that it will be noted
    when they run. There a child has them, too, until an exec."""
    own = ["10\trestarts", "10\tends", "13\tignored", "12\tends", "12\tignored"]
    # what is ignored is so after an exec
    of_program = ["10\tends", "12\tignored", "13\tignored", "0\tnone", "12\tignored", "13\tignored"]
    native, asked = noted(library, "handlers", ()), noted_asking(program, library, "handlers", sessions=2)
    same((Ran(0, b"", b""),) * 2, (native.given.ran, asked.given.ran))
    of_parent, of_child = ([f"- p0 handler {it}" for it in own], [f"- p1 handler {it}" for it in of_program])
    heard = [re.sub("(ends|restarts)$", r"\1 heard", line) for line in of_parent + of_child]
    same((heard, [*of_parent, *of_child[-2:]]), (native.past, asked.past))


def cancels(program: str, library: Library) -> None:
    """A thread is cancelled where it is in the system. One that waits in a call of fdref is not, which is told."""
    same(Ran(0, b"", b""), noted(library, "cancelled", ()).given.ran)
    same(Ran(0, b"", b""), noted_asking(program, library, "cancelled").given.ran)
    same(Ran(0, b"", b""), noted(library, "cancelled while it waits", ()).given.ran)
    asked = noted_asking(program, library, "cancelled while it waits", ["FDREF_STRICT=1"])
    same(Ran(LEFT_OUT, b"", b"fdref: a thread that waits beside others is left out\n"), asked.given.ran)
    same(["! p0 thread read"], asked.past)


def has_no_room(program: str, library: Library) -> None:
    """Where a program limits the size of files it cannot be logged any more."""
    told = b"fdref: the program limits the size of files, and the log with it\n"
    with Server(program, 1) as server, empty_folder() as folder:
        listens(server)
        past = os.path.join(folder, "past")
        command = [library.program("preload_apart"), "small files"]
        for settings in ([], [f"FDREF_SOCKET={server.path}", f"FDREF_PAST={past}"]):
            with empty_folder() as own:
                words = [*environment(library, [f"FDREF_LOG={own}/log", *settings]), *command]
                same(Ran(NO_ANSWER, b"", told), run(words, seconds=SECONDS, folder=own))
        require("p0 limit RLIMIT_FSIZE\n" in Path(past).read_text(encoding="ascii"), "the limit is not noted")


def numbers_others(program: str, library: Library) -> None:
    """Natively it is told once which descriptors no call known to fdref has made, and with fdref what has made them."""
    found = noted(library, "other numbers", ())
    same(Ran(0, b"", b""), found.given.ran)
    same(["! p0 made 6", "! p0 made 7"], found.past)
    same(["- p0 dup 3 = 8", "- p0 dup 3 = 9", "- p0 dup 3 = 6"], found.given.log[-3:])
    same(["- p0 makes socketpair"] * 2, noted_asking(program, library, "other numbers").past)


def names_made(program: str, library: Library) -> None:
    """A name that is made of a pattern is noted."""
    asked = noted_asking(program, library, "a name")
    same([f"! p0 path mkstemp\t{asked.given.ran.stdout.decode('ascii')}"], asked.past)


def clones(program: str, library: Library) -> None:
    """A child that fork did not make may make no call, and its parent goes on."""
    asked = noted_asking(program, library, "clone")
    told = b"fdref: a call comes from a process that fork did not make, as one by clone\n"
    same(Ran(0, b"%d\n" % NO_ANSWER, told), asked.given.ran)
    same(["! p0 call clone"], asked.past)


def handles_forks(program: str, library: Library) -> None:
    """A handler of pthread_atfork may make no call."""
    with Server(program, 2) as server:
        asked = asking(library, server, [library.program("preload_apart"), "handlers of fork"])
        told = b"fdref: a call comes within fork, as from a handler of pthread_atfork\n"
        same(Ran(NO_ANSWER, b"", told), asked.ran)
        ended(server, 2, asked.log)


def ends(program: str, library: Library, word: str) -> None:
    """A program ends in one way, and its exit is recorded."""
    command = [library.program("preload_ends"), word]
    native = natively(library, command)
    status, stdout = ENDS[word]
    same(Ran(status, stdout, b""), native.ran)
    with Server(program, 1) as server:
        asked = asking(library, server, command)
        agree(native, asked)
        ended(server, 1, asked.log)


def is_interrupted(program: str, library: Library) -> None:
    """A handler writes to a real file while a call waits. One that makes a call of fdref ends the program."""
    command = [library.program("preload_ends"), "handler"]
    native = natively(library, command)
    with Server(program, 2) as server:
        asked = asking(library, server, command)
        same(Ran(0, b"signal\n", b""), asked.ran)
        agree(native, asked)
        ended(server, 2, asked.log)
    with Server(program, 2) as server:
        asked = asking(library, server, [*command[:1], "handler that calls"])
        told = b"fdref: a call comes while another one of the process waits, as from a handler of a signal\n"
        same(Ran(NO_ANSWER, b"", told), asked.ran)
        ended(server, 2, asked.log)


def says(process: Process, wanted: bytes, seconds: float) -> None:
    """A program says this within a time."""
    assert process.stdout
    is_ready = select.select([process.stdout], [], [], seconds)[0]
    same(wanted, os.read(process.stdout.fileno(), 99) if is_ready else b"")


def exits_first(program: str, library: Library, way: str) -> None:
    """A child has not ended before its exit is recorded: not while the server is stopped."""
    with Server(program, 2) as server:
        listens(server)
        settings = [f"FDREF_SOCKET={server.path}"]
        words = [*environment(library, settings), library.program("preload_ends"), f"child's {way}"]
        pipe = subprocess.PIPE
        with subprocess.Popen(words, stdin=pipe, stdout=pipe, stderr=pipe, start_new_session=True) as process:
            try:
                says(process, b"leaving\n", SECONDS)
                server.process.send_signal(signal.SIGSTOP)
                assert process.stdin
                os.write(process.stdin.fileno(), b"!")
                says(process, b"", A_WHILE)
                server.process.send_signal(signal.SIGCONT)
                says(process, b"gone\n", SECONDS)
                same(0, process.wait(SECONDS))
                same(0, outcome_of(server.process).status)
            finally:
                if process.poll() is None:
                    os.killpg(process.pid, signal.SIGKILL)


def leaves_out(program: str, library: Library) -> None:
    """A program that has to be strict ends where fdref leaves something out, which is told."""
    words = [*NAMES, *DESCRIPTORS, SEEK]
    with Server(program, len(words), ALL_RECORDS) as server, empty_folder() as folder:
        log: list[str] = []
        for word in words:
            past = os.path.join(folder, "past")
            settings = ["FDREF_STRICT=1", f"FDREF_PAST={past}"]
            given = asking(library, server, [library.program("preload_ends"), word], settings)
            same(Ran(LEFT_OUT, b"", f"fdref: {word} is left out\n".encode()), given.ran)
            notes = Path(past).read_text(encoding="ascii").splitlines()
            os.unlink(past)
            require(word in NOTED_BY_OTHERS or is_noted(word, notes, given.log), f"{word}: {notes}")
            log += given.log
        ended(server, len(words), log)


def is_noted(word: str, notes: list[str], log: list[str]) -> bool:
    """Whether the last of what was noted is this, after the last call that is logged."""
    place, actor = log[-1].split(" ")[:2]
    is_last = bool(notes) and notes[-1].startswith(f"! {place} {actor} ")
    return is_last and word.removeprefix("the path ").removeprefix("setrlimit of ") in notes[-1]


def refuses(program: str, library: Library) -> None:
    """Of a program that need not be strict these calls fail, with descriptors of fdref."""
    words = [*DESCRIPTORS, SEEK]
    with Server(program, len(words), ALL_RECORDS) as server:
        log: list[str] = []
        for word in words:
            given = asking(library, server, [library.program("preload_ends"), word])
            wanted = errno.EINVAL if word == SEEK else errno.ENOSYS
            require(given.ran == (wanted, b"", b""), f"{word}: {given.ran.said()}")
            log += given.log
        ended(server, len(words), log)


def tells_limits(program: str, library: Library) -> None:
    """How many numbers there are is fdref's limit, which cannot be changed, where the system has more; how many there
    could be is the system's."""
    most = resource.getrlimit(resource.RLIMIT_NOFILE)[1]
    with Server(program, 1) as server:
        given = asking(library, server, [library.program("preload_ends"), "limits"], before="ulimit -S -n 64")
        same(Ran(errno.ENOSYS, b"32 %d 32 %d\n32 32\n" % (most, most), b""), given.ran)


def prints_to_the_end(program: str, library: Library) -> None:
    """What is printed past the greatest size of a file is written as far as it goes, and that is an error."""
    with Server(program, 1) as server:
        given = asking(library, server, [library.program("preload_ends"), "full file"])
        same(Ran(errno.EFBIG, b"", b""), given.ran)
        same(["write 3 x776f7264 = 2", "write 3 x7264 = error EFBIG"], given.of_processes()["p0"][-3:-1])
        ended(server, 1, given.log)


def waits_beside(program: str, library: Library) -> None:
    """A thread that waits keeps the others, which is noted, and the end of a strict program."""
    words = [library.program("preload_ends"), "beside a thread"]
    with Server(program, 1) as server, empty_folder() as folder:
        past = os.path.join(folder, "past")
        told = b"fdref: a thread that waits beside others is left out\n"
        given = asking(library, server, words, ["FDREF_STRICT=1", f"FDREF_PAST={past}"])
        same(Ran(LEFT_OUT, b"", told), given.ran)
        place = int(given.log[-1].split(" ")[0])
        same(f"! {place + 1} p0 thread read\n", Path(past).read_text(encoding="ascii"))
        ended(server, 1, given.log)


def is_between(program: str, library: Library, word: str) -> None:
    """A file of one folder comes into another natively. Where fdref has one of the two that is another file system."""
    command = [library.program("preload_ends"), f"between: {word}"]
    native = natively(library, command)
    same(Ran(0, b"", b""), native.ran)
    with Server(program, 1) as server:
        asked = asking(library, server, command)
        same(Ran(BETWEEN[word], b"", b""), asked.ran)
        same(native.of_processes(), asked.of_processes())
        ended(server, 1, asked.log)


def is_without_server(library: Library) -> None:
    """Without a server the program does not begin."""
    command = [library.program("preload_numbers"), "mixed"]
    for path, why in (("/no/such/socket", errno.ENOENT), ("/dev/null", errno.ECONNREFUSED)):
        given = started(library, command, [f"FDREF_SOCKET={path}"])
        told = f"fdref: no server at {path}: {os.strerror(why)}\n".encode()
        same(Given(Ran(NO_ANSWER, b"", told), []), given)
    given = started(library, command, ["FDREF_LOG=/no/such/file"])
    told = f"fdref: the log /no/such/file cannot be opened: {os.strerror(errno.ENOENT)}\n".encode()
    same(Ran(NO_ANSWER, b"", told), given.ran)


def is_ended_before(library: Library) -> None:
    """Nor does it where the server ends before its first answer."""
    listener = Listener()

    def end() -> None:
        taken, _ = listener.socket.accept()
        taken.recv(99)
        taken.close()

    with contextlib.closing(listener):
        ending = threading.Thread(target=end, daemon=True)
        ending.start()
        command = [library.program("preload_numbers"), "mixed"]
        given = started(library, command, [f"FDREF_SOCKET={listener.path}"])
        ending.join(SECONDS)
        told = f"fdref: {listener.path}: the server ended, or had no memory, descriptor or thread for this process\n".encode()
        same(Given(Ran(NO_ANSWER, b"", told), []), given)


def is_without_a_place(program: str, library: Library) -> None:
    """So it is where the server has as many processes as it takes, for a program and for a child of one."""
    with Server(program, 1) as server, Server(program, 1) as other, ThreadPoolExecutor() as pool:
        listens(server)
        listens(other)
        # a server ends with its only session, so that of the other one goes on until both are told
        with socket.socket(socket.AF_UNIX) as holder:
            holder.connect(other.path)
            holder.sendall(JOIN)
            until_traced(other, 1)
            asked, asked_other = (environment(library, [f"FDREF_SOCKET={it.path}"]) for it in (server, other))
            # each waits as long for its first answer as the library lets it
            parent = pool.submit(run, [*asked, library.program("preload_forks")], seconds=3 * SECONDS)
            late = pool.submit(run, [*asked_other, library.program("preload_numbers"), "mixed"], seconds=3 * SECONDS)
            told = (
                "no answer: all sessions are taken, the server can take no further connection or is late, or no "
                "fdref listens there\n"
            )
            same(Ran(NO_ANSWER, b"", f"fdref: the child cannot be attached: {told}".encode()), parent.result())
            same(Ran(NO_ANSWER, b"", f"fdref: {other.path}: {told}".encode()), late.result())


def is_full(program: str, library: Library) -> None:
    """Where the run can have no more records, that is no answer."""
    with Server(program, 1, 20) as server:
        given = asking(library, server, [library.program("preload_ends"), "many calls"])
        same(Ran(NO_ANSWER, b"", b"fdref: lseek is refused: RunFull\n"), given.ran)
        same("- p0 lseek 3 0 set = refused RunFull", given.log[-1])
        ended(server, 1, given.log)


def has_recorded(server: Server) -> bool:
    """Whether the trace of a server has many calls already."""
    return os.path.exists(server.trace) and os.path.getsize(server.trace) > MANY_BYTES


def vanishes(server: Server) -> None:
    """Kills a server that has recorded many calls."""
    until = time.monotonic() + SECONDS
    while not has_recorded(server) and time.monotonic() < until:
        time.sleep(0.01)
    server.process.kill()


def is_lost(program: str, library: Library) -> None:
    """Where the server is gone, that is no answer."""
    with Server(program, 1, ALL_RECORDS) as server:
        killer = threading.Thread(target=vanishes, args=[server])
        killer.start()
        given = asking(library, server, [library.program("preload_ends"), "many calls"])
        killer.join()
        told = f"fdref: the connection is lost in lseek: {os.strerror(errno.ECONNRESET)}\n".encode()
        same(Ran(NO_ANSWER, b"", told), given.ran)


def goes_high(library: Library) -> None:
    """A native run has its log though a program takes every high number."""
    given = natively(library, [library.program("preload_numbers"), "high"], "ulimit -S -n 1024")
    same(Ran(0, b"", b""), given.ran)
    same([f"- p0 dup2 3 {fd} = {fd}" for fd in range(32, 1024)], [line for line in given.log if "dup2" in line])
    same("- p0 dup 3 = 4", given.log[-1])


def programs(program: str, library: Library) -> Iterator[Case]:
    """What the programs are given."""
    for name, words, sessions, before in PROGRAMS:
        yield " ".join([name, *words, library.name]), partial(both, program, library, name, words, sessions, before)
    yield f"high numbers, {library.name}", partial(goes_high, library)
    yield f"neither server nor log, {library.name}", partial(changes_nothing, library)
    between = partial(calls_between, library)
    yield f"a library in between, {library.name}", partial(between, "BETWEEN", [], BETWEEN_SAYS, BETWEEN_LOG)
    yield f"names in between, {library.name}", partial(between, "NAMES", ["names"], b"", NAMES_LOG)
    for word in APART:
        yield f"{word}, {library.name}", partial(apart, program, library, word)
    yield f"other numbers, {library.name}", partial(numbers_others, program, library)
    yield f"a signal within a call, {library.name}", partial(hears_within, library)


def endings(program: str, library: Library) -> Iterator[Case]:
    """How programs end."""
    for word in ENDS:
        yield f"{word}, {library.name}", partial(ends, program, library, word)
    for way in ("exit", "_exit", "_Exit", "quick_exit"):
        yield f"a child's {way}, {library.name}", partial(exits_first, program, library, way)
    for word in BETWEEN:
        yield f"{word}, {library.name}", partial(is_between, program, library, word)
    yield f"limits of numbers, {library.name}", partial(tells_limits, program, library)
    yield f"prints to the end of a file, {library.name}", partial(prints_to_the_end, program, library)
    yield f"a thread that waits, {library.name}", partial(waits_beside, program, library)
    yield f"handlers of signals, {library.name}", partial(is_interrupted, program, library)
    yield f"handlers between calls, {library.name}", partial(hears_between, program, library)
    yield f"timers, {library.name}", partial(starts_timers, program, library)
    yield f"handlers that are set, {library.name}", partial(sets_handlers, program, library)
    yield f"threads that are cancelled, {library.name}", partial(cancels, program, library)
    yield f"small files, {library.name}", partial(has_no_room, program, library)
    yield f"a name that is made, {library.name}", partial(names_made, program, library)
    yield f"clone, {library.name}", partial(clones, program, library)
    yield f"handlers of fork, {library.name}", partial(handles_forks, program, library)
    yield f"no server, {library.name}", partial(is_without_server, library)
    yield f"a server that ends before it answers, {library.name}", partial(is_ended_before, library)
    yield f"no place, {library.name}", partial(is_without_a_place, program, library)
    yield f"a run that is full, {library.name}", partial(is_full, program, library)
    yield f"a server that is gone, {library.name}", partial(is_lost, program, library)


def left_out(program: str, library: Library) -> Iterator[Case]:
    """What fdref leaves out."""
    yield f"told, {library.name}", partial(leaves_out, program, library)
    yield f"refused, {library.name}", partial(refuses, program, library)
