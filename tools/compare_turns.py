"""Pipes of which a system gives the writing end the lower number, which the page of pipe leaves open.

There the ends change places after each such pipe, by acts that the system alone is given: three dup2 and a close, after
which no other process has seen anything. Their lines are left out of its run. So what comes later is the same on both
sides, and is compared.
"""

from collections.abc import Iterator, Mapping, Sequence

from support import plain_model
from support.histories import Noted
from support.pipe_ends import change, is_turned
from support.plain_model import OPEN_MAX
from support.runs import Line

from compare_runs import act_of, places_of_script

# For the number of an act of a script, the acts that come after it.
Moves = Mapping[int, Sequence[bytes]]


def moves_of(lines: Sequence[Line]) -> Iterator[tuple[int, list[bytes]]]:
    """The acts that let the ends of each such pipe change places, with the number of its act, where its process has a
    free descriptor for them."""
    tables: dict[int, set[int]] = {}
    waiting: dict[int, plain_model.Act] = {}
    numbers = {place: number for number, place in enumerate(places_of_script(lines))}
    for place, line in enumerate(lines):
        if not line.place.isdigit() or line.act.startswith("house "):
            continue
        who, act = line.number(), plain_model.read_act(act_of(line).encode())
        if line.outcome.startswith("parked "):
            waiting[who] = act
            continue
        call = waiting.get(who, act) if act.word == "resume" else act
        table = tables.setdefault(who, set())
        noted = Noted(0, 0, call, line.outcome)
        change(table, noted, tables)
        free = next((fd for fd in range(OPEN_MAX) if fd not in table), None)
        if is_turned(noted) and free is not None:
            writing, reading = sorted(map(int, line.outcome.split(" ")))
            yield numbers[place], moves(who, writing, reading, free)


def moves(who: int, writing: int, reading: int, free: int) -> list[bytes]:
    """The acts by which the ends of a pipe change places."""
    steps = [(writing, free), (reading, writing), (free, reading)]
    return [*(b"p%d dup2 %d %d" % (who, *step) for step in steps), b"p%d close %d" % (who, free)]


def with_moves(script: Sequence[bytes], added: Moves) -> list[bytes]:
    """A script with these acts."""
    return [line for number, act in enumerate(script) for line in (act, *added.get(number, ()))]


def without_moves(script: Sequence[bytes], added: Moves, lines: Sequence[Line]) -> list[Line] | None:
    """The run of a script with these acts, without their lines; or None where one of them was refused."""
    are_added = [at > 0 for number in range(len(script)) for at in range(1 + len(added.get(number, ())))]
    gone = {place for place, is_added in zip(places_of_script(lines), are_added, strict=True) if is_added}
    if not all(is_moved(lines[place]) for place in gone):
        return None
    found: list[Line] = []
    records = 0
    for place, line in enumerate(lines):
        if place not in gone:
            found.append(line._replace(place=str(records)) if line.place.isdigit() else line)
            records += line.place.isdigit()
    _, told, rest = found[-1].outcome.split(" ", 2)
    left = str(int(told) - len(gone)) if told.isdigit() else told
    return [*found[:-1], found[-1]._replace(outcome=f"records {left} {rest}")]


def is_moved(line: Line) -> bool:
    """Whether an end has got its new place, or has left the one between."""
    return line.outcome in (line.act.rpartition(" ")[2], "ok")
