"""Writes that wait at the end of a history, though what was read tells that there is room for the rest of them, or no
process has the other end of their pipe open; and reads of which that is so.

How many bytes a pipe holds is left open, but each holds PIPE_BUF: where all that may be in it, and all that is left of
a write, are no more than that together, that write is done. It is done, too, where each of its bytes was read, whatever
else is in the pipe. That holds in whatever order the calls took effect.

Where it is known how many pages a pipe has, each write takes at least one of them, and no more than its bytes fill. A
page is free again once all its bytes were read. So there is one free where fewer can be in use, in whatever order.
"""

import itertools
import math
from collections import Counter
from collections.abc import Iterator, Sequence
from typing import NamedTuple

from support import plain_model
from support.footprints import Footprints
from support.histories import UNKNOWN, WAITS, Noted
from support.plain_model import PIPE_BUF, Description, Pipe

# The end of a pipe without which each call on it does not wait.
OTHER_END = {"read": "w", "write": "r"}


def is_overdue(history: Sequence[Noted], place: int, behind: Sequence[Description | None], page: int | None) -> bool:
    """Whether a call of a history is a read or write of a pipe that waits at the end, and has to be done. It is known
    on which description each read and write is made, and how many bytes a page has, where the pipe may have just
    one."""
    noted, at = history[place], behind[place]
    if is_without_other_end(history, place):
        return True
    if noted.act.word != "write" or noted.outcome != WAITS or not at or not at.pipe or "w" not in at.mode:
        return False
    data: bytes = noted.act.fields[1]
    both = list(zip(history, behind, strict=True))
    if not data or any(is_elsewhere(*it) for it in both):
        return False
    calls = [it for it, to in both if is_at(it, to, at.pipe)]
    given = Counter(b"".join(map(data_read, calls)))
    others = [most_moved(it) for it in calls if it is not noted]
    if (given - Counter(b"".join(others))).total() >= len(data):
        return True
    left = len(data) + sum(map(len, others)) - given.total()
    return left <= PIPE_BUF and (left <= 0 or page is None or not may_be_full(calls, page))


def is_without_other_end(history: Sequence[Noted], place: int) -> bool:
    """Whether a call of a history is a read or write of a pipe that waits at the end, where no process has the other
    end open, in whatever order the calls took effect: each has what its own calls gave it, as far as that is known."""
    noted = history[place]
    end = OTHER_END.get(noted.act.word)
    if end is None or noted.outcome != WAITS or not noted.act.fields[1]:
        return False
    footprints = Footprints(history)
    at = footprints.touches[place].at
    tables = footprints.last.values()
    if at is None or not at.may_be_pipe or any(table is None for table in tables):
        return False
    return not any(it.file == at.file and end in it.mode for table in tables for it in (table or {}).values())


def is_elsewhere(noted: Noted, at: Description | None) -> bool:
    """Whether it is a write by a descriptor that the model does not have, so that it may have gone into any pipe."""
    return noted.act.word == "write" and at is None and not noted.outcome.startswith("error ")


def is_at(noted: Noted, at: Description | None, pipe: Pipe) -> bool:
    """Whether it is a read or write of a pipe, by the end that is there for it."""
    return at is not None and at.pipe is pipe and noted.act.word[0] in at.mode


def data_read(noted: Noted) -> bytes:
    """The bytes that a call is known to have read."""
    return (plain_model.read_data(noted.outcome.encode()) or b"") if noted.act.word == "read" else b""


def most_moved(noted: Noted) -> bytes:
    """The bytes that a call has written at most: none where at most PIPE_BUF wait, as these go in at once."""
    if noted.act.word != "write" or noted.outcome == "error EAGAIN":
        return b""
    data: bytes = noted.act.fields[1]
    if noted.outcome.isdigit():
        return data[: int(noted.outcome)]
    return b"" if noted.outcome == WAITS and len(data) <= PIPE_BUF else data


def may_be_full(calls: Sequence[Noted], page: int) -> bool:
    """Whether a pipe of one page may have been filled to its end since it was empty, so that it has no room though
    little is in it, as far as its reads and writes tell."""
    if any(is_last_in_vain(calls, it) for it in calls):
        return False
    moments = (it.end for it in calls if it.end is not None)
    emptied = max((moment for moment in moments if is_emptied(calls, moment)), default=-1)
    return sum(len(it.act.fields[1]) for it in calls if it.act.word == "write" and it.start > emptied) > page


def is_emptied(calls: Sequence[Noted], moment: int) -> bool:
    """Whether a pipe was empty at a moment, as all was read that may have been written, and no call was under way."""
    before = [it for it in calls if it.start <= moment]
    are_over = all(it.end is not None and it.end <= moment for it in before)
    return are_over and sum(len(most_moved(it)) for it in before) == sum(len(data_read(it)) for it in before)


def is_last_in_vain(calls: Sequence[Noted], last: Noted) -> bool:
    """Whether a call is a read of a pipe that found nothing, after all other calls but those that wait."""
    if last.act.word != "read" or last.outcome not in (WAITS, "error EAGAIN"):
        return False
    return all(it is last or it.precedes(last) or (it.outcome == WAITS and it.start < last.start) for it in calls)


# ---- pages


class Filled(NamedTuple):
    """A write, and how many bytes are in each page that it may have taken."""

    noted: Noted
    sizes: list[int]


def pages_free(history: Sequence[Noted], place: int, behind: Sequence[Description | None], page: int) -> int:
    """How many pages of a pipe are free all the time in which a write to it has no room, if not all of it fits, in
    whatever order the calls took effect: at the end of the history where it waits there. It is known on which
    description each read and write is made, and how many bytes a page has."""
    noted, at = history[place], behind[place]
    both = list(zip(history, behind, strict=True))
    if noted.act.word != "write" or not at or not at.pipe or any(is_elsewhere(*it) for it in both):
        return 0
    calls = [it for it, to in both if is_at(it, to, at.pipe) and (it is not noted or it.end is None)]
    reads = [it for it in calls if noted.end is None or it.precedes(noted)]
    writes = [it for it in calls if it.act.word == "write" and not noted.precedes(it)]
    given, pages = Counter(b"".join(map(data_read, reads))), at.pipe.capacity // page
    filled = [Filled(it, sizes) for it in writes if (sizes := sizes_of(it, page))]
    if are_ordered(filled):
        used = used_in_order(filled, calls, given.total(), pages, page)
    else:
        used = sum(used_at_most(group, given) for group in alike(filled))
    return max(pages - used, 0)


def sizes_of(noted: Noted, page: int) -> list[int]:
    """How many bytes a write has in each page that it may have taken. One that waits, though there is a page for the
    rest of it, has not taken that."""
    if noted.outcome == WAITS:
        return [page] * ((len(noted.act.fields[1]) - 1) // page)
    count = len(most_moved(noted))
    return [min(page, count - at) for at in range(0, count, page)]


def alike(filled: Sequence[Filled]) -> Iterator[list[Filled]]:
    """Groups of writes of which no two have a byte in common, so that it is known how many bytes of each were read."""
    groups: list[list[Filled]] = []
    for it in filled:
        own = set(it.noted.act.fields[1])
        same = [group for group in groups if any(own & set(other.noted.act.fields[1]) for other in group)]
        groups = [group for group in groups if group not in same] + [[*(one for group in same for one in group), it]]
    yield from groups


def used_at_most(group: Sequence[Filled], given: Counter[int]) -> int:
    """How many pages some writes still take at most, once these bytes were read: what was written first is read first,
    and of writes at once the one that leaves most pages in use."""
    left = sum(given[byte] for byte in set().union(*(it.noted.act.fields[1] for it in group)))
    rest: list[int] = []
    gone = 0
    for it in group:
        end = sum(sum(other.sizes) for other in group if other is not it and not it.noted.precedes(other.noted))
        for size in it.sizes:
            end += size
            gone += size if end <= left else 0
            rest += [size] if end > left else []
    sums = itertools.accumulate(sorted(rest, reverse=True))
    return sum(count > left - gone for count in sums)


def are_ordered(filled: Sequence[Filled]) -> bool:
    """Whether each of some writes came back before the next one began."""
    return all(one.noted.precedes(other.noted) for one, other in itertools.pairwise(filled))


def used_in_order(filled: Sequence[Filled], calls: Sequence[Noted], left: int, pages: int, page: int) -> int:
    """How many pages some writes, one after another, still take at most, once so many bytes were read: each has pages
    of its own, unless more than there are would have been in use then, or goes on in the last page, where it fits."""
    ends = list(itertools.accumulate(size for it in filled for size in it.sizes))
    begins = [0, *itertools.accumulate(sum(it.sizes) for it in filled)]
    read = [most_read(calls, it.noted) for it in filled]
    # a page that was emptied before a write is not gone on in
    tails = [at for at, most in enumerate(read) if begins[at] <= min(left, most)]
    used = max((used_together(filled[at:], left - begins[at], page) for at in tails), default=0)
    counts = itertools.accumulate(len(it.sizes) for it in filled)
    own = (sum(end > most for end in ends[:count]) for count, most in zip(counts, read, strict=True))
    return used if any(count > pages for count in own) else max(used, sum(end > left for end in ends))


def most_read(calls: Sequence[Noted], write: Noted) -> float:
    """How many bytes the reads of a pipe may have given when a write came back; any number where it has not."""
    if write.end is None:
        return math.inf
    begun = [it for it in calls if it.act.word == "read" and it.start <= (write.end or 0)]
    return sum(it.act.fields[1] if it.outcome == UNKNOWN else len(data_read(it)) for it in begun)


def used_together(filled: Sequence[Filled], left: int, page: int) -> int:
    """How many pages some writes still take, once so many bytes were read, if each goes on in the page of the one
    before it, where what it has beside whole pages fits there."""
    sizes: list[int] = []
    for it in filled:
        count = sum(it.sizes)
        rest = count % page
        if rest and sizes and sizes[-1] + rest <= page:
            sizes[-1] += rest
            count -= rest
        sizes += [min(page, count - at) for at in range(0, count, page)]
    return sum(end > left for end in itertools.accumulate(sizes))
