#!/usr/bin/env python3
"""Prints what tools/ask_kernel.c would print on a system that does all that the profile says.

usage: tests/stand_ins/settled_driver.py < script

It is the plain model, whose calls go on as soon as they can, and whose large writes are told as those
of a real system are, whose bytes in a pipe cannot be seen. tools/compare.py has to find no difference
in it, though pipes are filled. On a real system their room is mostly larger.
"""

import re
import sys
from pathlib import Path

sys.path.insert(0, str(Path(__file__).resolve().parents[1]))

from support import plain_model
from support.runs import Settled, line_of


def is_large(process: plain_model.Process) -> bool:
    """Whether it waits in a write that may go in by parts."""
    return isinstance(process.waits, plain_model.WaitingWrite) and not process.waits.is_whole


def lines_of(script: bytes, limits: plain_model.Limits = plain_model.DEFAULTS) -> list[str]:
    """The lines of a script, on a system that has these limits."""
    run = Settled(limits)
    told: list[tuple[str, str, str]] = []
    for line in script.split(b"\n"):
        if not line:
            continue
        before = len(run.lines)
        run.take(plain_model.read_act(line))
        new = [line_of(text.rstrip("\n")) for text in run.lines[before:]]
        for it in new:
            outcome = "?" if it.outcome.startswith("part ") else it.outcome
            if outcome.startswith("parked ") and is_large(run.world.processes[it.number()]):
                outcome = "parked ?"
            told.append((it.place, it.act, outcome))
        # whether there is room cannot be seen, so each large write that waits is told to have moved on, perhaps
        if re.search(r" (read|close|dup2|exit)\b", new[-1].act):
            large = [number for number, process in run.world.processes.items() if is_large(process)]
            told += [("", f"p{number} resume", "?") for number in large]
    places = iter(range(len(told)))
    lines = [f"{'-' if place == '-' else next(places)} {act} = {outcome}" for place, act, outcome in told]
    bytes_in = "?" if any(map(is_large, run.world.processes.values())) else run.world.bytes_in
    return [*lines, f"records {next(places, len(told))} in {bytes_in} out {run.world.bytes_out}"]


def main() -> None:
    """Runs the script, and prints its lines."""
    print("\n".join(lines_of(sys.stdin.buffer.read())))


if __name__ == "__main__":
    main()
