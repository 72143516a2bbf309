#!/usr/bin/env python3
"""Times the decoder and the encoder of frames.

usage: bench/frames.py [--runs N] [TRIAL]

TRIAL is crates/frame_trial/out/frame_trial where none is given. It decodes a stream, or encodes the
values of one, many times, and prints nothing but a count, which is looked at. A time is the best of
N runs (3), less that of a run that does it once. The streams are

  - `small`: requests of a session that writes and reads 8 bytes, seeks, asks, opens and closes,
  - `64 KiB writes`: writes of 65,536 bytes that differ,
  - `small answers`: numbers, 8 bytes that were read, what fstat tells, errors,
  - `64 KiB reads`: answers of 65,536 bytes,
  - `small records`: records of such requests and their answers.

A stream is given in pieces of 65,536 bytes. `growth` is the cost of a value in a stream ten times as
long over its cost in the short one: 1.00 where it does not depend on the length. The last lines give
`small` in other pieces.
"""

import argparse
import subprocess
import sys
import time
from collections.abc import Iterator, Sequence

import paths  # noqa: F401
from support.frames import framed, u32, u64
from support.options import absolute, is_missing
from support.places import FRAME_TRIAL

PIECE = 65_536
VALUES = 20_000_000
BYTES = 20_000_000_000


def small_requests() -> Iterator[bytes]:
    """Payloads of small requests."""
    eight = u32(8) + b"fdref 01"
    yield from [b"\x10\x07\x04name", *[b"\x13" + u32(0) + eight, b"\x12" + u32(0) + u32(8)] * 20]
    yield from [
        b"\x16" + u32(0) + u64(0) + b"\x00",
        b"\x15" + u32(0) + u64(64) + eight,
        b"\x14" + u32(0) + u64(64) + u32(8),
        b"\x1e" + u32(0),
        b"\x11" + u32(0),
    ]


def small_answers() -> Iterator[bytes]:
    """Payloads of small answers."""
    for number in range(12):
        yield from [
            b"\x01" + u64(number) + b"\x02" + u64(8),
            b"\x01" + u64(number) + b"\x03" + u32(8) + b"fdref 01",
            b"\x01" + u64(number) + b"\x01",
            b"\x01" + u64(number) + b"\x06\x01",
            b"\x01" + u64(number) + b"\x05\x00" + u64(64) + u32(1),
        ]


def small_records() -> Iterator[bytes]:
    """Payloads of small records of process 3."""
    eight = u32(8) + b"fdref 01"
    for act, outcome in [
        (b"\x13" + u32(0) + eight, b"\x02" + u64(8)),
        (b"\x12" + u32(0) + u32(8), b"\x03" + eight),
        (b"\x16" + u32(0) + u64(0) + b"\x00", b"\x02" + u64(0)),
        (b"\x1e" + u32(0), b"\x05\x00" + u64(64) + u32(1)),
        (b"\x11" + u32(0), b"\x06\x01"),
    ]:
        yield from [u32(3) + act + outcome] * 12


LONG = bytes(range(256)) * 256

STREAMS = {
    "small": ("requests", list(small_requests()) * 20),
    "64 KiB writes": ("requests", [b"\x13" + u32(0) + u32(PIECE) + LONG] * 16),
    "small answers": ("answers", list(small_answers()) * 20),
    "64 KiB reads": ("answers", [b"\x01" + u64(7) + b"\x03" + u32(PIECE) + LONG] * 16),
    "small records": ("records", list(small_records()) * 20),
}


class Bench:
    """Runs the trial, and times it."""

    def __init__(self, trial: str, runs: int) -> None:
        self.trial = trial
        self.runs = runs

    def seconds(self, job: str, kind: str, stream: bytes, size: int, times: int, wanted: int) -> float:
        """The seconds of a job that is done so many times."""
        best = float("inf")
        words = [self.trial, job, kind, str(size), str(times)]
        for _ in range(self.runs):
            began = time.monotonic()
            done = subprocess.run(words, input=stream, stdout=subprocess.PIPE, check=True)
            took = time.monotonic() - began
            if int(done.stdout) != wanted * times:
                raise SystemExit(f"{job} {kind}: {done.stdout!r}, wanted {wanted * times}")
            best = min(best, took)
        return best

    def per_stream(self, job: str, kind: str, payloads: list[bytes], size: int, times: int) -> float:
        """The seconds for a stream."""
        stream = framed(*payloads)
        wanted = len(payloads) if job == "decode" else len(stream)
        whole = self.seconds(job, kind, stream, size, times + 1, wanted)
        return (whole - self.seconds(job, kind, stream, size, 1, wanted)) / times


def main(words: Sequence[str]) -> int:
    """Times all streams: the exit status."""
    parser = argparse.ArgumentParser(description="Times the decoder and the encoder of frames.")
    parser.add_argument("trial", nargs="?", type=absolute, default=str(FRAME_TRIAL), metavar="TRIAL")
    parser.add_argument("--runs", type=int, default=3, help="how many; the best counts")
    args = parser.parse_args(words)
    if is_missing(args.trial, "trial"):
        return 1
    bench = Bench(args.trial, args.runs)
    for name, (kind, payloads) in STREAMS.items():
        stream = framed(*payloads)
        times = max(1, min(VALUES // len(payloads), BYTES // len(stream)) // 10)
        for job in ("decode", "encode"):
            short = bench.per_stream(job, kind, payloads, PIECE, times)
            long = bench.per_stream(job, kind, payloads * 10, PIECE, max(1, times // 10))
            rate = len(payloads) / short
            print(
                f"{job} {name}: {1e9 / rate:.0f} ns a value, {rate / 1e6:.2f} million a second, "
                f"{len(stream) / short / 1e9:.2f} GB/s, growth {long / short / 10:.2f}",
                flush=True,
            )
    kind, payloads = STREAMS["small"]
    for size in (16, 256, 4_096, 1_048_576):
        short = bench.per_stream("decode", kind, payloads, size, 200)
        print(f"decode small in pieces of {size}: {short / len(payloads) * 1e9:.0f} ns a value")
    return 0


if __name__ == "__main__":
    sys.exit(main(sys.argv[1:]))
