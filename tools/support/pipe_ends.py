"""Pipes whose writing end a system gives the lower number.

The page of pipe, by XSH 2.14, asks for the two lowest numbers, and not for their order. In fdref the reading end has
the lower one. There the ends change places after such a pipe, by calls that nobody else sees: three dup2 and a close.
"""

from collections.abc import Sequence

from support import plain_model
from support.histories import Noted
from support.plain_model import OPEN_MAX


def is_turned(noted: Noted) -> bool:
    """Whether a pipe was given whose writing end has the lower number."""
    ends = noted.outcome.split(" ")
    return noted.act.word == "pipe" and len(ends) == 2 and ends[0].isdigit() and int(ends[0]) > int(ends[1])


def turned(history: Sequence[Noted]) -> list[Noted] | None:
    """A history as it is where the reading ends have the lower numbers, with the calls that change their places; or
    None where no pipe is such a one, or there is no free descriptor for these calls."""
    ordered = sorted(history, key=lambda noted: noted.start)
    if not any(map(is_turned, ordered)):
        return None
    tables: dict[int, set[int]] = {}
    found: list[Noted] = []
    for noted in ordered:
        table = tables.setdefault(noted.process, set())
        change(table, noted, tables)
        if not is_turned(noted):
            found.append(noted)
            continue
        writing, reading = sorted(map(int, noted.outcome.split(" ")))
        free = next((fd for fd in range(OPEN_MAX) if fd not in table), None)
        if free is None:
            return None
        found.append(noted._replace(outcome=f"{writing} {reading}"))
        moves = [(writing, free), (reading, writing), (free, reading)]
        found += [exchanging(noted, "dup2", move, str(move[1])) for move in moves]
        found.append(exchanging(noted, "close", (free,), "ok"))
    return found


def exchanging(pipe: Noted, word: str, fields: tuple[int, ...], outcome: str) -> Noted:
    """A call that is made when a pipe comes back."""
    assert pipe.end is not None
    return Noted(pipe.end, pipe.end, plain_model.Act(pipe.process, word, fields), outcome)


def change(table: set[int], noted: Noted, tables: dict[int, set[int]]) -> None:
    """Notes which descriptors a process has after a call."""
    given = [int(word) for word in noted.outcome.split(" ") if word.isdigit()]
    form = plain_model.CALLS.get(noted.act.word)
    if form and form.gives in (plain_model.DESCRIPTOR, plain_model.PAIR):
        table.update(given)
    elif noted.act.word == "close" and noted.outcome == "ok":
        table.discard(noted.act.fields[0])
    elif noted.act.word == "fork" and given:
        tables[given[0]] = set(table)
