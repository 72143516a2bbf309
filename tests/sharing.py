#!/usr/bin/env python3
"""Do jobs that share a run out add up to what one run counts? (half a minute)

usage: tests/sharing.py [--program PATH] [--only WORD]

The program is crates/fdref/out/fdref where no PATH is given. Runs are shared out over two jobs by GNU parallel, or,
where that is not installed, by this test, which says so. What tools/summary.py prints of their summaries has to end as
one run does that makes the scripts of both, with its status. Jobs with seeds of their own have the sums of both.
Summaries that cannot be added up are refused.

Where no C compiler is there, it says so and leaves out what asks the system. The last line is `N passed, M failed`, and
the exit status is 1 where M is above 0.
"""

import json
import os
import re
import shlex
import shutil
import subprocess
import sys
import tempfile
from collections.abc import Iterator, Sequence
from functools import partial
from pathlib import Path
from typing import Any

from parts.c_programs import compilers
from support import tallies
from support.counting import Case, Count, lacks_compiler, require, same
from support.drivers import compiled
from support.options import ONLY, PROGRAM, asked
from support.places import TESTS, TOOLS
from support.running import Ran, run

SECONDS = 300


class Bench:
    """fdref, a folder for what is written, and what runs jobs side by side."""

    def __init__(self, program: str, folder: str) -> None:
        self.program = program
        self.folder = folder
        told = run(["parallel", "--version"]).stdout if shutil.which("parallel") else b""
        self.has_parallel = told.startswith(b"GNU parallel")

    def path(self, name: str) -> str:
        """A path in the folder."""
        return os.path.join(self.folder, name)

    def jobs(self, words: Sequence[str], values: Sequence[str]) -> list[str]:
        """The summaries of jobs side by side: each has one of these values in the place of `{}`."""
        summaries = [self.path(f"{value}.json") for value in values]
        for path in summaries:
            Path(path).unlink(missing_ok=True)
        command = [sys.executable, *words, "--summary", self.path("{}.json")]
        if self.has_parallel:
            env = ["env", f"PARALLEL_HOME={self.folder}"]
            run([*env, "parallel", "--will-cite", "-j2", shlex.join(command), ":::", *values], seconds=SECONDS)
        else:
            both = [[word.replace("{}", value) for word in command] for value in values]
            for job in [subprocess.Popen(one, stdout=subprocess.DEVNULL, stderr=subprocess.DEVNULL) for one in both]:
                job.wait(SECONDS)
        return summaries

    def summed(self, summaries: Sequence[str], *words: str) -> Ran:
        """What tools/summary.py prints of summaries."""
        return run([sys.executable, str(TOOLS / "summary.py"), *words, *summaries])

    def written(self, name: str, content: object) -> str:
        """The path of a file that holds this as JSON."""
        Path(self.path(name)).write_text(json.dumps(content), encoding="ascii")
        return self.path(name)


def without_versions(text: bytes) -> bytes:
    """What tools/summary.py prints, without its lines of versions, of which there has to be one of each."""
    found = re.fullmatch(rb"fdref: .* \(2 jobs\)\npython: .* \(2 jobs\)\nsystem: .* \(2 jobs\)\n(.*)", text, re.DOTALL)
    require(found, f"no versions of two jobs: {text!r}")
    return bytes(found[1]) if found else b""


def ends_as_one(bench: Bench, status: int, words: Sequence[str], number: str, half: int) -> None:
    """Two jobs of so many scripts end as one run of twice as many."""
    one = run([sys.executable, *words, number, str(2 * half)], seconds=SECONDS)
    summaries = bench.jobs([*words, number, str(half), "--first", "{}"], ["0", str(half)])
    both = bench.summed(summaries, "--files", "2")
    last = without_versions(both.stdout)
    same((status, status), (one.status, both.status))
    require(last and one.stdout.endswith(last), f"one run ends with {one.stdout[-900:]!r}, and two jobs with {last!r}")


def counts(path: str) -> dict[str, Any]:
    """The counts of a summary."""
    found: dict[str, Any] = json.loads(Path(path).read_text(encoding="ascii"))["counts"]
    return found


def enemies_add_up(bench: Bench) -> None:
    """Jobs with seeds of their own pass as many checks as both."""
    words = [str(TESTS / "enemy.py"), "--program", bench.program, "--only", "plain auditor", "--seed", "{}"]
    summaries = bench.jobs(words, ["a", "b"])
    (one, other) = [counts(path)["kinds"]["lies that the plain auditor finds"] for path in summaries]
    passed = one["passed"] + other["passed"]
    require(one["passed"] > 0 and one["failed"] == other["failed"] == 0, f"{one}, {other}")
    ran = bench.summed(summaries)
    wanted = f"lies that the plain auditor finds: {passed} passed, 0 failed\n{passed} passed, 0 failed\n".encode()
    same((0, wanted), (ran.status, without_versions(ran.stdout)))


def numbers(counts: dict[str, int]) -> list[int]:
    """What is counted of all races of a kind."""
    return [counts[name] for name in ("scripts", "histories", "distinct", "calls")]


def races_add_up(bench: Bench, driver: str) -> None:
    """Jobs that race by seeds of their own have raced as much as both."""
    words = [str(TOOLS / "race.py"), "--program", bench.program, "--driver", driver, "--kind", "names", "--seed", "{}"]
    summaries = bench.jobs([*words, "--seconds", "1"], ["a", "b"])
    (one, other) = [counts(path)["names"] for path in summaries]
    require(one["histories"] > 0 and other["histories"] > 0, f"{one}, {other}")
    scripts, histories, distinct, calls = (sum(both) for both in zip(numbers(one), numbers(other), strict=True))
    text = without_versions(bench.summed(summaries).stdout).decode()
    start = f"names: {scripts} scripts, {histories} histories, {distinct} distinct, {calls} calls"
    require(text.startswith(start), f"wanted {start}, given {text}")
    require(text.endswith(" 0 without an order and without a reason\n"), text)


def folder_is_asked_for_first(bench: Bench) -> None:
    """A summary that could not be written is told before anything runs."""
    path = bench.path("no/summary.json")
    ran = run([sys.executable, str(TOOLS / "compare.py"), "--random", "1", "--summary", path])
    require(ran.status == 2 and f"there is no folder {bench.path('no')}".encode() in ran.stderr, ran.said())


# ---- sums by hand

SHARE: dict[str, Any] = {"seed": "1", "first": 0, "scripts": 2_000, "of": ""}
VERSIONS = {"fdref": {"fdref 1": 1}, "python": {"3": 1}, "system": {"S": 1}}
SCRIPTS: dict[str, Any] = {"passed": 2_000, "failed": 0, "scripts": 2_000, "acts": 9, "calls": {}, "often": []}


def scripts_of(bench: Bench, first: int, ends: Sequence[str]) -> str:
    """The summary of 2,000 random scripts that have met some ends, the first of which has this number."""
    share = {**SHARE, "first": first}
    met = {**SCRIPTS, "ends": dict.fromkeys(ends, 1)}
    summary = {"program": "random_runs.py", "shares": [share], "versions": VERSIONS, "counts": met}
    return bench.written(f"{first}.json", summary)


def all_is_met(bench: Bench) -> None:
    """That 4,000 scripts have met each end is asked of their sum, and not of 2,000."""
    first, *others = tallies.ENDS
    one, other = scripts_of(bench, 0, others), scripts_of(bench, 2_000, others[:-1])
    same(0, bench.summed([one]).status)
    ran = bench.summed([one, other], "--into", bench.path("sum.json"))
    lines = ran.stdout.decode().splitlines()[-3:]
    text = "4000 scripts, of which those that were run have 18 acts, 0 of them calls"
    same((1, [text, f"FAILED all scripts: none has met {first}", "4000 passed, 1 failed"]), (ran.status, lines))
    again = bench.summed([bench.path("sum.json")])
    same((1, ran.stdout), (again.status, again.stdout))
    ran = bench.summed([one, scripts_of(bench, 2_000, [first])])
    same((0, b"4000 passed, 0 failed"), (ran.status, ran.stdout.splitlines()[-1]))


def struck_of(bench: Bench, first: int, acts: int, failed: int) -> str:
    """The summary of a comparison in which so many acts were struck, and so many scripts could not be run."""
    struck = {"count": acts, "first": [f"p0 close {first + at}" for at in range(min(acts, 8))]}
    counts = {
        "scripts": 1,
        "calls": 5,
        "unexplained": 0,
        "failed": failed,
        "by_reason": {"more than 8 links": acts},
        "struck": struck,
        "last": {"count": 0, "first": []},
    }
    shares = [{**SHARE, "first": first, "scripts": 1}]
    summary = {"program": "compare.py", "shares": shares, "versions": VERSIONS, "counts": counts}
    return bench.written(f"{first}.json", summary)


def struck_acts_add_up(bench: Bench) -> None:
    """Of acts that were struck the first are named, in the order of one run. A script that did not run is status 3."""
    ran = bench.summed([struck_of(bench, 20, 1, 1), struck_of(bench, 10, 8, 0)])
    acts = "; ".join(f"p0 close {number}" for number in range(10, 18))
    wanted = ["2 scripts, 10 calls, 9 differences", "       9 more than 8 links (own; page of link)"]
    wanted += ["       0 without a reason", "       1 not compared"]
    wanted += [f"       9 acts were struck and not compared: {acts}; .."]
    same((3, wanted), (ran.status, ran.stdout.decode().splitlines()[3:]))


def is_refused(bench: Bench, names: Sequence[str], why: str) -> None:
    """Files that cannot be added up are told, with status 2."""
    ran = bench.summed(names)
    same((2, b""), (ran.status, ran.stdout))
    require(ran.stderr.startswith(b"summary.py: ") and why.encode() in ran.stderr, ran.said())


def refused_cases(bench: Bench) -> Iterator[Case]:
    """What cannot be added up."""
    whole, later = scripts_of(bench, 0, []), scripts_of(bench, 1_999, [])
    other = struck_of(bench, 5_000, 1, 0)
    unknown = bench.written("unknown", {"program": "edits.py", "shares": [], "versions": {}, "counts": {}})
    bare = bench.written("bare", {"program": "race.py", "shares": [], "versions": {}, "counts": {"names": {}}})
    lacking = bench.written("lacking", {"program": "race.py", "shares": [], "counts": {}})
    share = bench.written("share", {"program": "race.py", "shares": [{"seed": 1}], "versions": {}, "counts": {}})
    counts = {**SCRIPTS, "acts": "one", "ends": {}}
    odd = bench.written("odd", {"program": "random_runs.py", "shares": [], "versions": {}, "counts": counts})
    twice = f"{whole}: counted twice: seed 1 scripts 0 to 1999, and in {whole} seed 1"
    yield "a file twice", partial(is_refused, bench, [whole, whole], twice)
    again = f"{later}: counted twice: seed 1 scripts 1999 to 3998, and in {whole} seed 1 scripts 0 to 1999"
    yield "a script twice", partial(is_refused, bench, [whole, later], again)
    yield "two programs", partial(is_refused, bench, [whole, other], f"{other}: of different programs")
    yield "no file", partial(is_refused, bench, [bench.path("none")], "none: No such file")
    yield "too few files", partial(is_refused, bench, ["--files", "2", whole], "1 file, and there have to be 2")
    yield "no summary", partial(is_refused, bench, [bench.written("list", [])], "no summary")
    yield "no such program", partial(is_refused, bench, [unknown], f"{unknown}: of edits.py")
    missing = f"{bare}: not the counts of race.py: scripts is missing"
    yield "no counts", partial(is_refused, bench, [bare], missing)
    yield "no versions", partial(is_refused, bench, [lacking], f"{lacking}: no summary: versions is missing")
    yield "no seed", partial(is_refused, bench, [share], f"{share}: no summary: seed is no text")
    yield "counts of other forms", partial(is_refused, bench, [odd, whole], "counts of different forms")
    yield "the folder of a summary", partial(folder_is_asked_for_first, bench)


# ---- the whole


def shared_cases(bench: Bench) -> Iterator[Case]:
    """Runs that are shared out, which need no compiler."""
    words = [str(TESTS / "random_runs.py"), "--often", "getfl,rename", "--program"]
    yield "random runs", partial(ends_as_one, bench, 0, [*words, bench.program], "--scripts", 60)
    wrong = Path(bench.path("wrong"))
    wrong.write_text(f'#!/bin/sh\n"{bench.program}" "$@" | sed "s/ = ok$/ = 0/"\n', encoding="utf-8")
    wrong.chmod(0o755)
    yield "random runs of a wrong program", partial(ends_as_one, bench, 1, [*words, str(wrong)], "--scripts", 3)
    yield "enemies", partial(enemies_add_up, bench)


def asked_cases(bench: Bench) -> Iterator[Case]:
    """Runs that ask the system, and are shared out."""
    ask, driver = compiled("ask_kernel", "c99", bench.folder), compiled("race_kernel", "c11", bench.folder)
    words = [str(TOOLS / "compare.py"), "--program", bench.program, "--ask", ask, "--seed", "shared"]
    yield "comparisons", partial(ends_as_one, bench, 0, words, "--random", 8)
    yield "races", partial(races_add_up, bench, driver)


def main(words: Sequence[str]) -> int:
    """Makes all checks: the exit status."""
    args = asked(words, "Adds up what jobs have counted that share a run out.", PROGRAM, ONLY)
    with tempfile.TemporaryDirectory(prefix="fdref-") as folder:
        bench = Bench(args.program, folder)
        if not bench.has_parallel:
            print("GNU parallel is not installed: this test runs the jobs itself")
        parts = [("shared", shared_cases(bench))]
        if compilers():
            parts.append(("system", asked_cases(bench)))
        else:
            lacks_compiler("no system is asked")
        sums = [("all is met", partial(all_is_met, bench)), ("struck acts", partial(struck_acts_add_up, bench))]
        return Count().parts([*parts, ("sums", iter(sums)), ("refused", refused_cases(bench))], args.only)


if __name__ == "__main__":
    sys.exit(main(sys.argv[1:]))
