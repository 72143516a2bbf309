"""Counting checks: which pass, which fail and why, and the exit status that comes of them."""

import subprocess
import sys
from collections.abc import Callable, Iterable
from pathlib import Path

# A case: its name, and what checks it, which raises what was wrong.
Case = tuple[str, Callable[[], object]]


class Failure(Exception):
    """What was given in place of what is wanted."""


# What a check may raise that fails and does not break off the test.
FAULTS: tuple[type[Exception], ...] = (Failure, OSError, ValueError, subprocess.TimeoutExpired)


def require(condition: object, text: str) -> None:
    """Fails with a text unless a condition holds."""
    if not condition:
        raise Failure(text)


def same(wanted: object, given: object) -> None:
    """Fails unless two values are equal."""
    require(wanted == given, f"wanted {wanted}, given {given}")


# What the end of a count tells that was not tried for want of a C compiler.
_untried: list[str] = []


def lacks_compiler(told: str) -> None:
    """Lets the end of the count tell what was not tried, since there is no C compiler."""
    _untried.append(told)


class Count:
    """How many checks passed and how many failed. Each failure is printed, or the first so many of them."""

    def __init__(self, tell_most: int | None = None, also: tuple[type[Exception], ...] = ()) -> None:
        self.passed = 0
        self.failed = 0
        self.tell_most = tell_most
        self.faults = FAULTS + also

    def add(self, passed: int, failed: int) -> None:
        """Counts what was counted elsewhere."""
        self.passed += passed
        self.failed += failed

    def fail(self, name: str, fault: object) -> None:
        """Counts a failure, and prints it."""
        self.failed += 1
        if self.tell_most is None or self.failed <= self.tell_most:
            print(f"FAILED {name}: {fault}", flush=True)

    def check(self, name: str, case: Callable[[], object]) -> bool:
        """Makes one check: whether it passed."""
        try:
            case()
        except self.faults as fault:
            self.fail(name, fault)
            return False
        self.passed += 1
        return True

    def check_all(self, cases: Iterable[Case]) -> None:
        """Makes a check of each case."""
        for name, case in cases:
            self.check(name, case)

    def part(self, name: str, cases: Iterable[Case]) -> None:
        """Makes the checks of one part of a test, and prints their count after its name."""
        part = Count(self.tell_most)
        part.faults = self.faults
        part.check_all(cases)
        print(f"{name}: {part.line()}", flush=True)
        self.add(part.passed, part.failed)

    def parts(self, parts: Iterable[tuple[str, Iterable[Case]]], only: str) -> int:
        """Makes the checks of the parts that have this word in their name, one at least: the exit status."""
        chosen = [(name, cases) for name, cases in parts if only in name]
        for name, cases in chosen:
            self.part(name, cases)
        if not chosen:
            self.add(0, 1)
        return self.end()

    def line(self) -> str:
        """The count, as the last line of a test has it."""
        return f"{self.passed} passed, {self.failed} failed"

    def end(self) -> int:
        """Prints the last line of a test, after what it has not tried, and gives its exit status."""
        for told in _untried:
            print(f"not tried for want of a C compiler: tests/{Path(sys.argv[0]).name}: {told}")
        print(self.line())
        return 1 if self.failed else 0
