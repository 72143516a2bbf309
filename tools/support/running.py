"""Running a program with a time limit."""

import os
import re
import subprocess
import tempfile
from collections.abc import Sequence
from os import PathLike
from pathlib import Path
from typing import IO, NamedTuple

from support.counting import Failure, require
from support.places import SCRATCH

SECONDS = 60

Word = str | bytes | PathLike[str]


class Ran(NamedTuple):
    """How a run ended, and what it wrote."""

    status: int
    stdout: bytes
    stderr: bytes

    def how(self) -> str:
        """How it ended."""
        return f"signal {-self.status}" if self.status < 0 else f"status {self.status}"

    def said(self) -> str:
        """All that it wrote and how it ended, in one line."""
        text = (self.stdout + self.stderr).decode("utf-8", "replace")
        lines = [line.strip() for line in text.split("\n") if line.strip()]
        return f"{self.how()}: {'; '.join(lines)[:400]}"


class CannotRun(Failure):
    """What could not be run: a program, a script, or a driver that is not compiled."""


class StillRunning(Failure):
    """A program that had to be killed."""

    def __init__(self, seconds: float) -> None:
        super().__init__(f"still running after {seconds} seconds")


def run(
    words: Sequence[Word],
    stdin: bytes | int | IO[bytes] = b"",
    stdout: int | IO[bytes] = subprocess.PIPE,
    seconds: float = SECONDS,
    folder: str | PathLike[str] | None = None,
) -> Ran:
    """Runs a program on an input, which comes by a pipe where it is bytes, in a folder, and at most so many seconds."""
    text, source = (stdin, None) if isinstance(stdin, bytes) else (None, stdin)
    try:
        done = subprocess.run(
            words,
            input=text,
            stdin=source,
            stdout=stdout,
            stderr=subprocess.PIPE,
            timeout=seconds,
            cwd=folder,
            check=False,
        )
    except subprocess.TimeoutExpired:
        raise StillRunning(seconds) from None
    return Ran(done.returncode, done.stdout or b"", done.stderr)


def run_by_bytes(words: Sequence[Word], stdin: bytes) -> Ran:
    """Runs a program on an input that comes by a pipe, byte by byte. Nothing bounds how long the bytes take."""
    reading, writing = os.pipe()
    with subprocess.Popen(words, stdin=reading, stdout=subprocess.PIPE, stderr=subprocess.PIPE) as process:
        os.close(reading)
        with os.fdopen(writing, "wb", buffering=0) as to:
            for byte in stdin:
                to.write(bytes([byte]))
        stdout, stderr = process.communicate(timeout=SECONDS)
    return Ran(process.returncode, stdout, stderr)


def ran_all(program: str, contents: Sequence[bytes], words: str = "audit") -> list[Ran]:
    """What a program with these words gives for a file of each content."""
    with tempfile.TemporaryDirectory(prefix="fdref-", dir=SCRATCH) as folder:
        write_all(folder, contents)
        return ran_in(folder, program, len(contents), f"{words} $n")


def write_all(folder: str, contents: Sequence[bytes]) -> None:
    """Makes a file of each content, whose name is its number."""
    for number, content in enumerate(contents):
        Path(folder, str(number)).write_bytes(content)


def ran_in(folder: str, program: str, count: int, words: str) -> list[Ran]:
    """What a program gives in a folder with these words, in which `$n` is one number after another, up to a count. One
    shell starts it for all of them, which takes less time."""
    one = f'"$0" {words}; echo "status $?"; echo "status $?" >&2'
    loop = f"n=0; while [ $n -lt {count} ]; do {one}; n=$((n + 1)); done"
    ran = run(["sh", "-c", loop, program], seconds=SECONDS + count, folder=folder)
    outs = re.findall(rb"(.*?)status (\d+)\n", ran.stdout, re.DOTALL)
    errors = re.findall(rb"(.*?)status \d+\n", ran.stderr, re.DOTALL)
    require(len(outs) == len(errors) == count, f"{len(outs)} of {count} runs, {ran.said()}")
    return [Ran(int(status), out, error) for (out, status), error in zip(outs, errors, strict=True)]
