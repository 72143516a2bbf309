"""Telling what a tool waits for or does, where that takes long: on standard error, and how long it may take at most."""

import os
import sys
import threading
import time
from collections.abc import Callable
from pathlib import Path
from types import TracebackType
from typing import Self

from support.trees import children_of, parents

# How long a wait may take until it is told.
TELL_SECONDS = 10.0
# How many processes are told, and what the letters of the system's states mean.
PROCESSES_MOST = 4
STATES = {"R": "computes", "T": "is stopped by a signal", "t": "is traced", "D": "waits for a device", "Z": "has ended"}


# How long a tool that says nothing of itself may compute until that is told.
COMPUTES_SECONDS = 5.0


def tell(told: str, who: str = "judge.py") -> None:
    """Tells at once."""
    print(f"{who}: {told}", file=sys.stderr, flush=True)


def waits_for(what: str, most: float) -> str:
    """What is waited for, for a reader; 0 is as long as that takes."""
    return f"waits for {what}" + (f", for {most:g} seconds at most" if most else "")


class Long:
    """Something that a tool does, which is told once where it takes long."""

    def __init__(self, told: str, who: str, seconds: float = COMPUTES_SECONDS) -> None:
        self.timer = threading.Timer(seconds, tell, [told, who])
        self.timer.daemon = True

    def __enter__(self) -> Self:
        self.timer.start()
        return self

    def __exit__(
        self, kind: type[BaseException] | None, raised: BaseException | None, trace: TracebackType | None
    ) -> None:
        self.timer.cancel()


class Waiting(Long):
    """Something that judge.py waits for, which is told once where it takes long."""

    def __init__(self, what: str, most: float = 0) -> None:
        super().__init__(waits_for(what, most), "judge.py", TELL_SECONDS)


class Late:
    """The same of what is asked for now and then."""

    def __init__(self, what: Callable[[], str]) -> None:
        self.what = what
        self.until = time.monotonic() + TELL_SECONDS
        self.is_told = False

    def look(self) -> None:
        """Tells it once, where it is late."""
        if not self.is_told and time.monotonic() > self.until:
            self.is_told = True
            tell(self.what())


def doing(number: int) -> str:
    """What a process does, as the system tells it, or nothing where it is gone."""
    process = Path("/proc", str(number))
    try:
        name = process.joinpath("comm").read_text(errors="replace").strip()
        state = process.joinpath("stat").read_text(errors="replace").rpartition(")")[2].split()[0]
        place = process.joinpath("wchan").read_text(errors="replace").strip("0\n")
    except (OSError, IndexError):
        return ""
    asleep = f"waits in {place}" if place else "waits"
    return f"process {number} ({name}) {STATES.get(state, asleep)}"


def all_doing(but: int = 0) -> str:
    """What all processes do that this one has started, but for those of one, if it is given. Some are told, or that none
    is seen."""
    by_parent = parents()
    others = {but} | children_of({but}, by_parent) if but else set()
    numbers = children_of({os.getpid()}, by_parent) - others
    told = [text for number in sorted(numbers) if (text := doing(number))]
    more = [f"{len(told) - PROCESSES_MOST} more"] if len(told) > PROCESSES_MOST else []
    return ", ".join([*told[:PROCESSES_MOST], *more]) or "none of its processes is seen"
