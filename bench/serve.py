#!/usr/bin/env python3
"""Times the built server beside a bare echo of frames over the same kind of socket.

usage: bench/serve.py [--program PATH] [--against OLD] [--scale X] [--rounds N] [--cc COMMAND]

Compiles bench/load.c, and puts the same load on `fdref serve` (crates/fdref/out/fdref, or PATH) and on an
echo that answers each request with a frame of the same size and does nothing else. What the echo does is
as much as this machine's sockets give. Each line has the median of N rounds (3 where no number is given),
in which the two take turns, and their ratio, with the ratio that is aimed at. X makes all runs longer or
shorter. A run of sleepers is held against one without, and a long run against one of a tenth, in time
and in memory. At last a server with an idle client tells how much of a processor it takes.

With OLD, another fdref is put under the same load in turns with PATH, and what it does is told too: it
may be one that writes no trace. Every second round has the turns the other way round. How many times as
fast PATH is, is the median of what each round says, since a machine's own pace moves from round to round.
"""

import argparse
import os
import re
import statistics
import subprocess
import sys
import tempfile
import threading
import time
from collections.abc import Callable, Iterator, Sequence
from contextlib import contextmanager
from functools import cache, partial
from pathlib import Path

import paths  # noqa: F401
from support.frames import JOIN
from support.options import absolute, add_count, add_path, is_missing
from support.places import FDREF
from support.serving import Client, is_listening, serve_words

LOAD = Path(__file__).resolve().parent / "load.c"
SECONDS = 300
RECORDS_MOST = 1_000_000

# what it is, the words of the load (mode, connections, depth), how many requests each connection makes, and the ratio
# that is aimed at
BESIDE_ECHO = [
    ("fstat, 1 connection, 1 in flight", "fstat", 1, 1, 100_000, 0.85),
    ("fstat, 1 connection, 16 in flight", "fstat", 1, 16, 400_000, 0.5),
    ("fstat, 64 connections, 1 in flight", "fstat", 64, 1, 6_000, 1.0),
    ("pwrite of 8 bytes, 1 connection, 1 in flight", "pwrite", 1, 1, 100_000, None),
    ("pipe, 1 pair, 1 in flight", "pipe", 2, 1, 50_000, None),
    ("pipe, 16 pairs, 1 in flight", "pipe", 32, 1, 5_000, None),
]
SLEEPERS = 62
IDLE_SECONDS = 5


@cache
def writes_trace(program: str) -> bool:
    """Whether a program's server writes a trace."""
    shown = subprocess.run([program, "serve", "--help"], stdout=subprocess.PIPE, check=True)
    return b"--trace" in shown.stdout


class Bench:
    """The servers, and the load that is put on them."""

    def __init__(self, folder: str, scale: float, rounds: int, compiler: str) -> None:
        self.folder = folder
        self.scale = scale
        self.rounds = rounds
        self.peak = 0
        # how long a request kept a processor, in each run of a program
        self.costs: dict[str, list[float]] = {}
        self.load = os.path.join(folder, "load")
        words = [compiler, "-std=c11", "-O2", "-Wall", "-Wextra", "-pedantic", "-pthread", "-o", self.load, str(LOAD)]
        subprocess.run(words, check=True)

    def echo(self, mode: str, connections: int, depth: int, requests: int) -> float:
        """Requests a second of the echo."""
        return self.run("echo", mode, connections, depth, requests)

    @contextmanager
    def server(self, program: str, count: int) -> Iterator[subprocess.Popen[bytes]]:
        """A server of so many sessions, as soon as it listens."""
        path = os.path.join(self.folder, "socket")
        words = serve_words(program, path, count, RECORDS_MOST, os.path.join(self.folder, "trace"))
        if not writes_trace(program):
            at = words.index("--trace")
            del words[at : at + 2]
        with subprocess.Popen(words, stdout=subprocess.PIPE) as server:
            try:
                while not is_listening(path) and server.poll() is None:
                    time.sleep(0.01)
                yield server
            finally:
                server.kill()
        os.unlink(path)

    def fdref(self, program: str, mode: str, connections: int, depth: int, requests: int) -> float:
        """Requests a second of an fdref, which is started for it."""
        count = connections + (mode == "sleepers")
        with self.server(program, count) as server:
            rate = self.run("fdref", mode, connections, depth, requests)
            stdout, status, self.peak, spent = self.ended(server)
        self.costs.setdefault(program, []).append(spent / (requests * max(connections, 1)))
        if status != 0 or not stdout.startswith(f"sessions {count} ".encode()):
            raise SystemExit(f"the server ended with status {status} and {stdout!r}")
        return rate

    def idle(self, program: str) -> float:
        """How much of a processor a server takes whose one client has joined and asks nothing."""
        with self.server(program, 1) as server:
            client = Client(os.path.join(self.folder, "socket"), server)
            client.send(JOIN)
            client.answer()
            before = processor_seconds(server.pid)
            time.sleep(IDLE_SECONDS)
            after = processor_seconds(server.pid)
            client.vanish()
            self.ended(server)
        return (after - before) / IDLE_SECONDS

    def ended(self, server: subprocess.Popen[bytes]) -> tuple[bytes, int, int, float]:
        """What a server printed that ends by itself, its status, its most bytes of memory, its processor seconds."""
        watch = threading.Timer(SECONDS, server.kill)
        watch.start()
        assert server.stdout
        stdout = server.stdout.read()
        _, status, usage = os.wait4(server.pid, 0)
        watch.cancel()
        server.returncode = os.waitstatus_to_exitcode(status)
        return stdout, server.returncode, usage.ru_maxrss * 1024, usage.ru_utime + usage.ru_stime

    def memory(self, program: str, requests: int) -> int:
        """The most bytes that fdref has in memory while it answers so many requests of one connection."""
        self.fdref(program, "fstat", 1, 16, requests)
        return self.peak

    def run(self, which: str, mode: str, connections: int, depth: int, requests: int) -> float:
        """Requests a second of whoever listens."""
        path = os.path.join(self.folder, "socket")
        words = [self.load, which, path, mode, str(connections), str(depth), str(requests)]
        done = subprocess.run(words, stdout=subprocess.PIPE, timeout=SECONDS, check=True)
        told = re.fullmatch(rb"(\d+) requests a second\n", done.stdout)
        if not told:
            raise SystemExit(f"the load printed {done.stdout!r}")
        return float(told[1])

    def rates(self, *measures: Callable[[], float]) -> list[tuple[float, ...]]:
        """What each measure tells in each round. They take turns, every second time the other way round."""
        rounds: list[list[float]] = []
        for number in range(self.rounds):
            order = measures if number % 2 == 0 else measures[::-1]
            told = [measure() for measure in order]
            rounds.append(told if number % 2 == 0 else told[::-1])
        return list(zip(*rounds, strict=True))

    def in_turns(self, *measures: Callable[[], float]) -> list[float]:
        """The medians of measures that take turns."""
        return [statistics.median(rates) for rates in self.rates(*measures)]

    def count(self, requests: int) -> int:
        """How many requests are made in place of so many."""
        return max(int(requests * self.scale), 100)


def aim(value: float | str | None) -> str:
    """What is aimed at, if anything."""
    return f", aim {value}" if value else ""


def processor_seconds(pid: int) -> float:
    """How long the threads of a process have been on a processor."""
    threads = Path(f"/proc/{pid}/task").glob("*/schedstat")
    return sum(int(thread.read_text().split()[0]) for thread in threads) / 1e9


def cost(bench: Bench, program: str) -> str:
    """How long a request of a program kept a processor, in the middle of all runs since the last measure."""
    return f"{statistics.median(bench.costs[program]) * 1e6:.2f} us of a processor"


def beside(old: Sequence[Sequence[float]], new: Sequence[float]) -> str:
    """What the other fdref does, if there is one, and how many times as fast the new one is in a round."""
    if not old:
        return ""
    times = statistics.median(now / before for now, before in zip(new, old[0], strict=True))
    return f"; the other {statistics.median(old[0]):.0f}, times {times:.3f}"


def measure(bench: Bench, program: str, others: Sequence[str]) -> None:
    """Prints a line for each measure."""
    for what, mode, connections, depth, requests, wanted in BESIDE_ECHO:
        load = (mode, connections, depth, bench.count(requests))
        fdrefs = [partial(bench.fdref, it, *load) for it in (program, *others)]
        bench.costs.clear()
        echoes, rates, *old = bench.rates(partial(bench.echo, *load), *fdrefs)
        fdref, echo = statistics.median(rates), statistics.median(echoes)
        ratio = f"ratio {fdref / echo:.2f}{aim(wanted)}"
        costs = ", ".join(cost(bench, it) for it in (program, *others))
        print(f"{what}: fdref {fdref:.0f} a second, echo {echo:.0f}, {ratio}{beside(old, rates)}; {costs}", flush=True)
    calls = bench.count(100_000)
    many, none = bench.in_turns(
        *(partial(bench.fdref, program, "sleepers", count, 1, calls) for count in (SLEEPERS, 0))
    )
    times = f"times {none / many:.2f}{aim('at most 1.4')}"
    print(f"fstat beside {SLEEPERS} sleepers: {many:.0f} a second, beside none {none:.0f}, {times}", flush=True)
    few = bench.count(80_000)
    short, long = bench.in_turns(
        *(partial(bench.fdref, program, "fstat", 1, 16, count) for count in (few, 10 * few))
    )
    growth = f"growth {10 * short / long:.1f} for 10"
    print(f"{few} records: {short:.0f} a second, ten times as many: {long:.0f}, {growth}", flush=True)
    for who, it in zip(("fdref", "the other"), (program, *others), strict=False):
        more = bench.memory(it, 10 * few) - bench.memory(it, few)
        print(f"memory of an answered fstat, {who}: {more / (9 * few):.0f} bytes{aim('less than 200')}", flush=True)
        share = 100 * bench.idle(it)
        print(f"an idle server, {who}: {share:.2f}% of a processor over {IDLE_SECONDS} seconds", flush=True)


def main(words: Sequence[str]) -> int:
    """Times all: the exit status."""
    parser = argparse.ArgumentParser(description="Times the built server beside a bare echo of frames.")
    add_path(parser, "--program", "the program", FDREF)
    parser.add_argument("--against", metavar="OLD", type=absolute, help="another fdref, for comparison")
    scale = "makes all runs so many times as long, at most 1.2; 1 where no number is given"
    parser.add_argument("--scale", type=float, default=1.0, metavar="X", help=scale)
    add_count(parser, "--rounds", 3, "rounds of each measure")
    parser.add_argument("--cc", default="cc", metavar="COMMAND", help="the C compiler [default: cc]")
    args = parser.parse_args(words)
    others = [args.against] if args.against else []
    if any(is_missing(program) for program in (args.program, *others)):
        return 1
    with tempfile.TemporaryDirectory(prefix="fdref-") as folder:
        measure(Bench(folder, args.scale, args.rounds, args.cc), args.program, others)
    return 0


if __name__ == "__main__":
    sys.exit(main(sys.argv[1:]))
