"""Which lines are calls of a history, and which histories have one form."""

from collections.abc import Iterator
from functools import partial

from parts.order_tool import BAD, EARLY, GOOD, LATER, WAITING
from parts.told_histories import EXPLAINED, IMPOSSIBLE, Told
from support.counting import Case, Failure, same
from support.histories import BadHistory, form, history_text, read_histories


def is_bad(line: str, number: int = 2) -> None:
    """A line is no call of a history, and is told by its number."""
    try:
        read_histories(f"1 2 p0 join = 0\n{line}\n")
    except BadHistory as fault:
        same(number, fault.line)
        return
    raise Failure("it is read")


def is_read_again(histories: list[Told]) -> None:
    """What is written of a history is read as that history."""
    for one in histories:
        same([one.history()], read_histories(history_text(one.history())))


def forms_differ() -> None:
    """Two histories have one form where they differ in their times alone, and not where they differ in more."""
    like = [GOOD, GOOD.replace("10 20", "3 19"), LATER, GOOD.replace("90 95", "99 99"), GOOD.replace("60", "55")]
    unlike = [BAD, EARLY, GOOD.replace("50 60", "50 54"), GOOD.replace("90 95", "100 101"), WAITING]
    first, *forms = [form(read_histories(text)[0]) for text in [GOOD, *like, *unlike]]
    same([True] * len(like) + [False] * len(unlike), [it == first for it in forms])


def leaves_out() -> None:
    """A call that was not asked is no part of a history, and data have one spelling."""
    text = "1 2 p0 join = 0\n3 4 p0 open / r = not asked\n5 6 p0 read 0 2 = 61*2\n"
    same("1 2 p0 join = 0\n5 6 p0 read 0 2 = x6161\n", history_text(read_histories(text)[0]))


BAD_LINES_OF_HISTORIES = [
    "3 4 p0 opne a r = 0",
    "3 4 p0 open a r",
    "3 4 p0 open a r =",
    "3 4 p0 open a r = ",
    "3 p0 open a r = 0",
    "3 4 open a r = 0",
    "03 4 p0 open a r = 0",
    "-3 4 p0 open a r = 0",
    "4 3 p0 open a r = 0",
    " 3 4 p0 open a r = 0",
    "3 4 p0  open a r = 0",
    "3 - p0 open a r = 0",
    "3 4 p0 read 0 9 = parked ?",
    "3 4 p0 read 0 9 = parked 0",
    "3 4 p0 resume = x61",
    "3 4 p0 join = 1",
    "1 4 p0 open a r = 0",
    "3 4 p1 open a r = 0",
    "3 4 close-run = ok",
    "3 4 p0 open a r,x = 0",
    "3 4 p0 open a r = zero",
    "3 4 p0 open a r = x61",
    "3 4 p0 open a r = 00",
    "3 4 p0 open a r = -1",
    "3 4 p0 open a r = 0 1",
    "3 4 p0 pipe = 0",
    "3 4 p0 read 0 9 = 1",
    "3 4 p0 read 0 9 = x6",
    "3 4 p0 pread 0 0 9 = ok",
    "3 4 p0 close 0 = 0",
    "3 4 p0 fstat 0 = regular 0",
    "3 4 p0 fstat 0 = regular 0 one",
    "3 4 p0 fstat 0 = file 0 1",
    "3 4 p0 write 0 x61 = error",
    "3 4 p0 write 0 x61 = error ebadf",
    "3 4 p0 write 0 x61 = error 0",
    "3 4 p0 write 0 x61 = EBADF",
    "3 4 p0 exit = 0",
    "3 4 p0 rename a b = still",
]
# Answers of a system that no run of fdref gives: they are no faults of a line.
ODD_ANSWERS = ["fstat 0 = other 0 1", "read 0 9 = error EISDIR", "read 0 9 = error 38", "read 0 9 = 61*70000"]


def cases() -> Iterator[Case]:
    """Lines that are calls, and lines that are none."""
    for line in BAD_LINES_OF_HISTORIES:
        yield f"bad line {line}", partial(is_bad, line)
    for call in ODD_ANSWERS:
        yield f"an odd answer, {call}", partial(read_histories, f"1 2 p0 join = 0\n3 4 p0 {call}\n")
    yield "a call after one that waits", partial(is_bad, "3 - p0 read 0 9 = parked ?\n5 6 p0 fstat 0 = pipe 0 0", 3)
    yield "a call after an exit", partial(is_bad, "3 4 p0 exit = ok\n5 6 p0 fstat 0 = pipe 0 0", 3)
    yield "lines are read again", partial(is_read_again, [*EXPLAINED, *IMPOSSIBLE])
    yield "forms", forms_differ
    yield "what is left out of a history", leaves_out
