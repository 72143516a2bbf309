#!/usr/bin/env python3
"""Times sessions over memory.

usage: bench/sessions.py [--trial PATH] [--requests N]

Runs crates/session_trial/out/session_trial (or PATH) on a session of N small requests (400,000 where no
number is given) and on one of a tenth as many, which come in pieces of 64 KiB or in one piece each, and
prints what a request costs: read, decoded, recorded, answered and written. The answers are printed in
hexadecimal, which is some 60 ns of it.
"""

import argparse
import subprocess
import sys
import time
from collections.abc import Sequence

import paths  # noqa: F401
from support.frames import call_frame, session_frames
from support.options import add_count, add_path, is_missing
from support.places import SESSION_TRIAL

MIXES = {
    "fstat": ("p0 pipe", "p0 fstat 0"),
    "pwrite of 8 bytes": ("p0 open a rw,creat", "p0 pwrite 0 8 x6162636465666768"),
}


def seconds(trial: str, text: bytes, most: int) -> float:
    """The best time of three runs."""
    words = [trial, "1000000", "knows", f"{most},0,0,0", "1048576,0,0,0"]
    best = float("inf")
    for _ in range(3):
        begin = time.perf_counter()
        subprocess.run(words, input=text, stdout=subprocess.DEVNULL, check=True)
        took = time.perf_counter() - begin
        best = min(best, took)
    return best


def main(words: Sequence[str]) -> int:
    """Times both sessions: the exit status."""
    parser = argparse.ArgumentParser(description="Times sessions over memory.")
    add_path(parser, "--trial", "the trial", SESSION_TRIAL)
    add_count(parser, "--requests", 400_000, "how many")
    args = parser.parse_args(words)
    if is_missing(args.trial, "trial"):
        return 1
    for what, (first, each) in MIXES.items():
        one = call_frame(each)
        for pieces, most in (("64 KiB", 65_536), ("one request", len(one))):
            counts = (args.requests // 10, args.requests)
            few, many = (session_frames([first]) + one * count for count in counts)
            short, long = (seconds(args.trial, text, most) for text in (few, many))
            each_ns = (long - short) / (args.requests - args.requests // 10) * 1e9
            print(f"{what}, in pieces of {pieces}: {each_ns:.0f} ns a request, growth {long / short / 10:.2f}")
    return 0


if __name__ == "__main__":
    sys.exit(main(sys.argv[1:]))
