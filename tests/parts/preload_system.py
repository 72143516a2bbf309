"""Programs of the system with the library of clients/preload, as they are."""

import shutil
import sys
from collections.abc import Iterator, Sequence
from functools import partial

from parts.preload_builds import Library, agree, asking, ended, natively
from support.counting import Case, require, same
from support.plain_model import data_text
from support.running import Ran
from support.serving import SECONDS, Client, Server

# What Python makes of its functions: open64, fcntl for dup, pipe2, readv and so on.
SCRIPT = """
import fcntl, os, stat
a = os.open("a", os.O_RDWR | os.O_CREAT)
print(a, os.write(a, b"hello world"), os.lseek(a, 0, os.SEEK_SET), os.read(a, 5), os.pread(a, 9, 6))
b = os.dup(a)
print(b, os.get_inheritable(b), os.lseek(b, 0, os.SEEK_CUR))
os.set_inheritable(b, True)
print(os.get_inheritable(b), os.isatty(b))
r, w = os.pipe()
print(r, w, os.open("/dev/null", os.O_RDONLY))
child = os.fork()
if child == 0:
    os.write(w, b"from the child")
    os._exit(3)
print(os.waitstatus_to_exitcode(os.waitpid(child, 0)[1]), os.read(r, 99))
os.close(w)
print(os.read(r, 99), os.fstat(a).st_size, os.stat("a").st_size, os.path.exists("a"), os.path.exists("b"))
os.ftruncate(a, 4)
os.truncate("a", 3)
print(os.readv(a, [bytearray(2), bytearray(2)]), os.writev(a, [b"ab", b"cd"]), os.pread(a, 99, 0))
os.link("a", "b")
os.unlink("a")
os.mkfifo("f")
print(os.stat("b").st_nlink, stat.S_ISFIFO(os.stat("f").st_mode), os.dup2(a, 20), os.path.exists("a"))
print(fcntl.fcntl(20, fcntl.F_SETFL, os.O_APPEND), hex(fcntl.fcntl(a, fcntl.F_GETFL)), os.get_blocking(r))
os.set_blocking(r, False)
print(os.get_blocking(r), os.get_blocking(20))
os.rename("b", "c")
os.replace("c", "f")
print(os.path.exists("b"), os.path.exists("c"), stat.S_ISREG(os.stat("f").st_mode))
try:
    os.open("a", os.O_RDONLY)
except OSError as error:
    print(error)
"""


class Asked:
    """A client beside the program, by which files are made and read."""

    def __init__(self, client: Client) -> None:
        self.client = client
        self.answer("join")

    def answer(self, request: str) -> str:
        """The outcome of a request."""
        self.client.ask(request)
        return self.client.answer().partition(" ")[2]

    def write(self, name: str, content: bytes) -> None:
        """Makes a file with these bytes."""
        fd = self.answer(f"open {name} w,creat")
        same(str(len(content)), self.answer(f"write {fd} {data_text(content)}"))
        same("ok", self.answer(f"close {fd}"))

    def holds(self, name: str, content: bytes) -> None:
        """A file has these bytes."""
        fd = self.answer(f"open {name} r")
        same(data_text(content), self.answer(f"pread {fd} 0 65536"))
        same("ok", self.answer(f"close {fd}"))

    def lacks(self, name: str) -> None:
        """A file is not there."""
        same("error ENOENT", self.answer(f"open {name} r"))

    def leave(self) -> None:
        """Ends the client's process."""
        self.client.stop()
        require(self.client.is_hung_up(SECONDS), "the server does not hang up")


def python(program: str, library: Library) -> None:
    """Python is given the same natively and by a server."""
    command = [sys.executable, "-I", "-c", SCRIPT]
    native = natively(library, command)
    same((0, b""), (native.ran.status, native.ran.stderr))
    require(b"from the child" in native.ran.stdout and len(native.log) > 20, native.ran.said())
    with Server(program, 2) as server:
        asked = asking(library, server, command)
        agree(native, asked)
        ended(server, 2, asked.log)


def command(
    program: str,
    library: Library,
    words: Sequence[str],
    stdout: bytes,
    left: dict[str, bytes | None],
) -> None:
    """A program prints the right bytes of the files `a` and `b`, and leaves these files, or none of a name."""
    with Server(program, 2) as server:
        beside = Asked(server.client())
        beside.write("a", b"first\n")
        beside.write("b", b"the second\n")
        given = asking(library, server, words)
        same(Ran(0, stdout, b""), given.ran)
        for name, content in left.items():
            if content is None:
                beside.lacks(name)
            else:
                beside.holds(name, content)
        beside.leave()


def shell(program: str, library: Library) -> None:
    """A shell writes to a file, and programs that it starts read it, and write one."""
    command = ["sh", "-c", "echo x > a; echo y >> a; cat a; echo $?; cat a > b; cat < b"]
    with Server(program, 4) as server:
        given = asking(library, server, command)
        same(Ran(0, b"x\ny\n0\nx\ny\n", b""), given.ran)
        ended(server, 4, given.log)


COMMANDS: list[tuple[list[str], bytes, dict[str, bytes | None]]] = [
    (["cat", "a", "./b"], b"first\nthe second\n", {}),
    (["head", "-c", "5", "b"], b"the s", {}),
    (["dd", "if=a", "of=c", "bs=3", "seek=2", "status=none"], b"", {"c": bytes(6) + b"first\n"}),
    (["dd", "if=a", "of=b", "bs=2", "count=2", "conv=notrunc", "status=none"], b"", {"b": b"firssecond\n"}),
    (["cp", "a", "c"], b"", {"a": b"first\n", "c": b"first\n"}),
    (["cp", "a", "b"], b"", {"b": b"first\n"}),
    (["ln", "a", "c"], b"", {"c": b"first\n"}),
    (["mv", "a", "c"], b"", {"a": None, "c": b"first\n"}),
    (["mv", "a", "b"], b"", {"a": None, "b": b"first\n"}),
    (["truncate", "-s", "3", "a"], b"", {"a": b"fir"}),
    (["stat", "-c", "%s %h %F", "a"], b"6 1 regular file\n", {}),
]


def commands(program: str, library: Library) -> Iterator[Case]:
    """What programs of the system are given."""
    yield f"python, {library.name}", partial(python, program, library)
    for words, stdout, left in COMMANDS:
        if shutil.which(words[0]):
            yield f"{' '.join(words)}, {library.name}", partial(command, program, library, words, stdout, left)
        else:
            print(f"no {words[0]}: it is left out", flush=True)
    yield f"sh, {library.name}", partial(shell, program, library)
