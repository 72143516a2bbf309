"""Histories in which a write of more than PIPE_BUF bytes to a pipe goes in by parts, and other calls come between: the
page of write leaves that open, with nonblock and without. In fdref such a write goes in at once where there is room.

Where the parts end is told by what was read: where a read ends, or goes on with the bytes of another write. Each part
is then a write of its own, made in the time of the whole. One that waits at the end has its last part wait.

One that waits, and ends early since the last reader has gone, gives what it moved in all: how much that is is left
open, too. It is a write of just that, and one of the rest, which finds no reader. One of more bytes than fdref takes in
a call is several, of which fdref takes each.
"""

import os
from collections import deque
from collections.abc import Callable, Iterable, Iterator, Sequence

from support import plain_model
from support.histories import UNKNOWN, WAITS, Noted
from support.plain_model import PIPE_BUF, TRANSFER_MAX, Act, Limits
from support.runs import ALL_RECORDS
from support.searching import Step

# A write that went in by more parts is not looked for.
PARTS_MOST = 64


class Taken:
    """A write whose bytes are read: how many of them were, and where its parts end."""

    def __init__(self, noted: Noted) -> None:
        self.noted = noted
        self.data: bytes = noted.act.fields[1]
        self.count = 0
        self.ends: set[int] = set()

    def same(self, data: bytes) -> int:
        """How many bytes are those that come next of it."""
        return len(os.path.commonprefix([self.data[self.count : self.count + len(data)], data]))

    def take(self, count: int) -> None:
        """Takes so many of its bytes."""
        self.count += count
        self.ends.add(self.count)

    def parts(self, most_at_once: int) -> list[Noted]:
        """The write, or its parts, if it has more bytes than go in at once. Where it waits at the end, or its answer is
        not known, so it is with the last part: what was read of it has gone in."""
        moved_all = str(len(self.data))
        if len(self.data) <= most_at_once or self.noted.outcome not in (moved_all, WAITS, UNKNOWN):
            return [self.noted]
        if len(self.ends) > PARTS_MOST:
            return [self.noted]
        ends = sorted({*self.ends, len(self.data)})
        pieces = [self.data[begin:end] for begin, end in zip([0, *ends], ends, strict=False)]
        parts = [self.noted._replace(act=with_data(self.noted.act, it), outcome=str(len(it))) for it in pieces]
        if self.noted.outcome != moved_all:
            parts[-1] = parts[-1]._replace(outcome=self.noted.outcome)
        return parts


def with_data(act: Act, data: bytes) -> Act:
    """A write of other bytes."""
    return act._replace(fields=(act.fields[0], data))


def reads_of(history: Sequence[Noted]) -> Iterator[tuple[Noted, bytes]]:
    """The reads that gave bytes, with these, in the order in which they came back."""
    back = (noted for noted in history if noted.act.word == "read" and noted.end is not None)
    for noted in sorted(back, key=lambda it: it.end or 0):
        data = plain_model.read_data(noted.outcome.encode())
        if data:
            yield noted, data


def in_parts(history: Sequence[Noted], most_at_once: int = PIPE_BUF) -> list[Noted] | None:
    """A history with the parts of its writes of more than so many bytes, or None where none has parts."""
    has_pipe = any(noted.act.word in ("pipe", "mkfifo") for noted in history)
    sizes = (len(noted.act.fields[1]) for noted in history if noted.act.word == "write")
    if not has_pipe or max(sizes, default=0) <= most_at_once:
        return None
    parts = {at: it.parts(most_at_once) for at, it in taken_in(history).items()}
    parted = [it for at, noted in enumerate(history) for it in parts.get(at, [noted])]
    return parted if len(parted) > len(history) else None


def taken_in(history: Sequence[Noted]) -> dict[int, Taken]:
    """The writes of a history by their places, with what was read of each."""
    taken = {at: Taken(noted) for at, noted in enumerate(history) if noted.act.word == "write"}
    later = deque(sorted(taken.values(), key=lambda it: it.noted.start))
    begun: list[Taken] = []
    for noted, data in reads_of(history):
        while later and not noted.precedes(later[0].noted):
            begun.append(later.popleft())
        while data:
            best = max(begun, key=lambda it: it.same(data), default=None)
            count = best.same(data) if best else 0
            if not best or not count:
                break
            best.take(count)
            begun = [it for it in begun if it is not best or it.count < len(it.data)]
            data = data[count:]
    return taken


def ends_in(history: Sequence[Noted]) -> dict[int, set[int]]:
    """For the place of each write of a history, where its parts may end, as what was read tells."""
    return {at: it.ends for at, it in taken_in(history).items() if len(it.ends) <= PARTS_MOST}


def rests_in(history: Sequence[Noted], parted: Iterable[Noted]) -> list[Noted]:
    """The parts of the small writes of a history, but for the first of each, where it has such parts."""
    rests: list[Noted] = []
    parts = iter(parted)
    for noted in history:
        part = next(parts)
        size = len(noted.act.fields[1]) if part is not noted else 0
        left = size - len(part.act.fields[1]) if size else 0
        while left:
            part = next(parts)
            left -= len(part.act.fields[1])
            rests += [part] if size <= PIPE_BUF else []
    return rests


# ---- writes that end early, and calls of more bytes than fdref takes

# What getfl tells of an end of a pipe for writing, which waits or does not.
WAITING, NOT_WAITING = "2", "66"
# What calls a call is given to fdref as.
Rewrite = Callable[[Noted], list[Noted]]


def is_short(noted: Noted) -> bool:
    """Whether a call is a write of more than PIPE_BUF bytes that moved some of them, and not all."""
    is_large = noted.act.word == "write" and len(noted.act.fields[1]) > PIPE_BUF
    return is_large and noted.outcome.isdigit() and 0 < int(noted.outcome) < len(noted.act.fields[1])


def is_past_most(noted: Noted) -> bool:
    """Whether a call reads or writes more bytes than fdref takes."""
    if noted.act.word not in ("read", "write"):
        return False
    last: bytes | int = noted.act.fields[1]
    return (len(last) if isinstance(last, bytes) else last) > TRANSFER_MAX


def ended_early(noted: Noted) -> list[Noted]:
    """A short write as one of what it moved, and one of the rest, which finds no reader."""
    if not is_short(noted):
        return [noted]
    moved, data = int(noted.outcome), noted.act.fields[1]
    first = noted._replace(act=with_data(noted.act, data[:moved]))
    rest = noted._replace(act=with_data(noted.act, data[moved:][:TRANSFER_MAX]), outcome="error EPIPE")
    return [*chunks(first), rest]


def unblocked(noted: Noted) -> list[Noted]:
    """A short write as one of what it moved, while its descriptor waits at first and does not in the end."""
    if not is_short(noted):
        return [noted]
    first = noted._replace(act=with_data(noted.act, noted.act.fields[1][: int(noted.outcome)]))
    asks = noted.act._replace(word="getfl", fields=noted.act.fields[:1])
    return [noted._replace(act=asks, outcome=WAITING), *chunks(first), noted._replace(act=asks, outcome=NOT_WAITING)]


def chunks(noted: Noted) -> list[Noted]:
    """A write that moved all, or one that waits once all but its last bytes are in, as writes that fdref takes."""
    data: bytes = noted.act.fields[1]
    pieces = [data[at : at + TRANSFER_MAX] for at in range(0, len(data), TRANSFER_MAX)]
    told = [*(str(len(it)) for it in pieces[:-1]), str(len(pieces[-1])) if noted.outcome.isdigit() else noted.outcome]
    return [
        noted._replace(act=with_data(noted.act, it), outcome=outcome) for it, outcome in zip(pieces, told, strict=True)
    ]


def is_over(noted: Noted) -> bool:
    """Whether a write moved all its bytes."""
    return noted.outcome == str(len(noted.act.fields[1]))


def clipped(noted: Noted) -> list[Noted]:
    """A call of no more bytes than fdref takes, in place of one of more; a write that moved all as several."""
    if not is_past_most(noted):
        return [noted]
    if noted.act.word == "write":
        data = with_data(noted.act, noted.act.fields[1][:TRANSFER_MAX])
        return chunks(noted) if is_over(noted) else [noted._replace(act=data)]
    return [noted._replace(act=noted.act._replace(fields=(noted.act.fields[0], TRANSFER_MAX)))]


def chunked(noted: Noted) -> list[Noted]:
    """The same, but a short write as one that ended early, and one that waits as several."""
    if is_short(noted):
        return ended_early(noted)
    waits = noted.act.word == "write" and is_past_most(noted) and noted.outcome == WAITS
    return chunks(noted) if waits else clipped(noted)


def rewritten(history: Iterable[Noted], rewrite: Rewrite) -> list[Noted]:
    """A history in which calls are given to fdref as others."""
    return [it for noted in history for it in rewrite(noted)]


def are_cut_off(history: Sequence[Noted], rewrite: Rewrite, steps: Sequence[Step], limits: Limits) -> bool:
    """Whether each short write that is given as one of what it moved, and one of the rest, may wait in an order; and
    none that is given as one of fewer bytes, since it moves what fits."""
    short = [(noted.act, [it.act for it in rewrite(noted)]) for noted in history if is_short(noted)]
    rests = {acts[-1] for _, acts in short if acts[1:]}
    fewer = {acts[0] for act, acts in short if not acts[1:] and acts[0] != act}
    run = plain_model.Run(ALL_RECORDS, limits)
    for act, outcome in steps:
        process = run.world.processes.get(act.actor) if isinstance(act.actor, int) else None
        at = process.table.get(act.fields[0]) if process and act.word == "write" else None
        is_rest = act in rests and outcome == "error EPIPE"
        if at and (is_rest or act in fewer) and at.nonblock == is_rest:
            return False
        run.take(act)
    return True


def are_of_pipes(history: Sequence[Noted], steps: Sequence[Step], limits: Limits) -> bool:
    """Whether each step of an order that is no act of a history, but a part of one, is made on a pipe."""
    whole = {noted.act for noted in history}
    run = plain_model.Run(ALL_RECORDS, limits)
    for act, _ in steps:
        process = run.world.processes.get(act.actor) if isinstance(act.actor, int) else None
        at = process.table.get(act.fields[0]) if process and act.word in ("read", "write") else None
        if at and not at.pipe and act not in whole:
            return False
        run.take(act)
    return True
