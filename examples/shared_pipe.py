#!/usr/bin/env python3
"""Who gets which bytes of a pipe? Two processes ask, each in a thread of its own.

usage: examples/shared_pipe.py --socket PATH
       examples/shared_pipe.py --program PROGRAM

PATH is where `fdref serve --socket PATH --trace FILE --sessions 2 --records 100` listens. With PROGRAM, which is
`./fdref`, or './fdref --unproved' once that is built, the example starts a server of its own and ends with it.

A parent makes a pipe and forks. The child reads it and waits, since nothing is there. The parent writes
more than the child has asked for, and then reads what is left. Each line has the place of its record.
"""

import argparse
import os
import shlex
import subprocess
import sys
import tempfile
import threading
import time
from collections.abc import Sequence
from pathlib import Path

sys.path.insert(0, str(Path(__file__).resolve().parents[1] / "clients" / "python"))

import fdref

SECONDS = 10
# The exit status where no server can be asked, or it refuses a call.
NO_SERVER = 3
TOLD: list[tuple[int, str]] = []


def tell(place: int, text: str) -> None:
    """Keeps a line for the end."""
    TOLD.append((place, text))


def read_waiting(child: fdref.Process, is_waiting: threading.Event) -> None:
    """The child reads five bytes, and tells when it waits for them."""

    def waits(place: int, moved: int) -> None:
        tell(place, "the child reads 5 bytes and waits")
        is_waiting.set()

    child.on_wait = waits
    some = child.read(0, 5)
    tell(child.place, f"the child gets {some!r}")


def ask(path: str, parent: fdref.Process) -> None:
    """The parent makes a pipe, forks, and writes when the child waits. Both live until all is shown."""
    tell(parent.place, f"the parent is process {parent.pid}")
    reading, writing = parent.pipe()
    tell(parent.place, f"the parent makes a pipe: it reads from {reading} and writes to {writing}")
    pid = parent.fork()
    tell(parent.place, f"the parent forks process {pid}")
    with fdref.attach(path, pid) as child:
        tell(child.place, f"the child is process {child.pid}")
        is_waiting = threading.Event()
        reader = threading.Thread(target=read_waiting, args=(child, is_waiting))
        reader.start()
        if not is_waiting.wait(SECONDS):
            raise SystemExit("the child does not wait")
        count = parent.write(writing, b"hello world")
        tell(parent.place, f"the parent writes {count} bytes")
        reader.join()
        some = parent.read(reading, 100)
        tell(parent.place, f"the parent gets {some!r}")
        show()


def show() -> None:
    """Prints the lines in the order of their places."""
    print("\n".join(f"{place} {text}" for place, text in sorted(TOLD)), flush=True)


def joined(path: str, server: subprocess.Popen[bytes], name: str) -> fdref.Process:
    """The first process of a server that is only starting. Fails with an OSError where that ends before it serves."""
    while server.poll() is None:
        try:
            return fdref.join(path)
        except (FileNotFoundError, ConnectionRefusedError):
            time.sleep(0.01)
    raise OSError(f"{name} ended with status {server.returncode} before it served")


def ask_own(program: Sequence[str]) -> int:
    """Asks a server of its own, which a program starts: the exit status of that."""
    with tempfile.TemporaryDirectory() as folder:
        path = os.path.join(folder, "socket")
        trace = os.path.join(folder, "trace")
        serve = [*program, "serve", "--socket", path, "--trace", trace, "--sessions", "2", "--records", "100"]
        with subprocess.Popen(serve) as server:
            try:
                with joined(path, server, program[0]) as parent:
                    ask(path, parent)
                return server.wait()
            finally:
                server.kill()


def main(words: Sequence[str]) -> int:
    """Asks: the exit status, which is 3 where there is no server, or it refuses a call."""
    parser = argparse.ArgumentParser(description="Who gets which bytes of a pipe?")
    which = parser.add_mutually_exclusive_group(required=True)
    which.add_argument("--socket", metavar="PATH", help="where a server listens")
    which.add_argument("--program", help="the program and its first words, to start a server of its own")
    args = parser.parse_args(words)
    try:
        if not args.socket:
            return ask_own(shlex.split(args.program))
        with fdref.join(args.socket) as parent:
            ask(args.socket, parent)
        return 0
    except fdref.Refused as refused:
        why = str(refused)
    except OSError as fault:
        why = f"{fault.filename}: {fault.strerror}" if fault.filename else str(fault)
    print(f"shared_pipe.py: {why}", file=sys.stderr)
    return NO_SERVER


if __name__ == "__main__":
    sys.exit(main(sys.argv[1:]))
