#!/usr/bin/env python3
"""How an emulator has its calls judged: it writes what they came to as a trace.

usage: examples/emulator_trace.py [--mistake] [--records N] FILE

The emulator has one process and one file. It runs a few calls, and writes FILE. `fdref audit FILE` then tells
whether fdref's calls come to the same. With --mistake, its pread moves the offset of the file, and the audit names
the first record that is wrong and what it should have been. With --records N the trace says that the run was to have
N records at most: where N is too small, the audit names the record after which it could not end any more.
"""

import argparse
import errno
import os
import sys
from collections.abc import Sequence
from pathlib import Path
from typing import Any

sys.path.insert(0, str(Path(__file__).resolve().parents[1] / "clients" / "python"))

import fdref


class Emulator:
    """The emulator: descriptor 0 is the file."""

    def __init__(self, pread_moves: bool) -> None:
        self.pread_moves, self.data, self.offset = pread_moves, bytearray(), 0

    def open(self, name: str, flags: int) -> int:
        return 0

    def write(self, fd: int, data: bytes) -> int:
        return self.pwrite(fd, data, self.moved(len(data)))

    def pwrite(self, fd: int, data: bytes, offset: int) -> int:
        self.data[offset : offset + len(data)] = data
        return len(data)

    def read(self, fd: int, n: int) -> bytes:
        given = bytes(self.data[self.offset : self.offset + n])
        self.offset += len(given)
        return given

    def pread(self, fd: int, n: int, offset: int) -> bytes:
        if self.pread_moves:
            self.offset = offset + n
        return bytes(self.data[offset : offset + n])

    def lseek(self, fd: int, pos: int, how: int) -> int:
        self.offset = pos
        return pos

    def close(self, fd: int) -> None:
        if fd != 0:
            raise OSError(errno.EBADF, "not open")

    def moved(self, count: int) -> int:
        self.offset += count
        return self.offset - count


RECORDS_MOST = 1_000_000

CALLS: list[tuple[str, tuple[Any, ...]]] = [
    ("open", ("a", os.O_RDWR | os.O_CREAT)),
    ("write", (0, b"hello")),
    ("lseek", (0, 2, os.SEEK_SET)),
    ("pread", (0, 1, 0)),
    ("read", (0, 9)),
    ("close", (7,)),
    ("close", (0,)),
]


def number_of_records(word: str) -> int:
    """How many records a run has at most, as a word."""
    number = int(word)
    if not 0 <= number <= RECORDS_MOST:
        raise argparse.ArgumentTypeError(f"{number} is no number of records: 0, or from 1 to {RECORDS_MOST}")
    return number


def main(words: Sequence[str]) -> int:
    """Runs the calls and writes the trace: the exit status."""
    parser = argparse.ArgumentParser(description="Writes what an emulator's calls came to as a trace.")
    parser.add_argument("--mistake", action="store_true", help="let pread move the offset")
    records = "how many records the run was to have at most; 0, nobody knows, where no number is given"
    parser.add_argument("--records", type=number_of_records, default=0, metavar="N", help=records)
    parser.add_argument("file", metavar="FILE")
    args = parser.parse_args(words)
    emulator = Emulator(args.mistake)
    done = [fdref.Record(0, "join", (), 0)]
    for name, values in CALLS:
        try:
            outcome = getattr(emulator, name)(*values)
        except OSError as error:
            outcome = error
        done.append(fdref.Record(0, name, values, outcome))
    try:
        fdref.write_trace(args.file, [*done, fdref.Record(0, "exit")], most_records=args.records)
    except OSError as fault:
        parser.exit(1, f"emulator_trace.py: {args.file}: {fault.strerror}\n")
    return 0


if __name__ == "__main__":
    sys.exit(main(sys.argv[1:]))
