"""Answers in place of those of reads of a pipe that are not known: a history is right if some answers make it so.

Where a write goes in by parts, and where reads share, is told by the bytes that were read. A read whose bytes are not
known is taken to have given those that no other read of its pipe did, in the order in which they were written.
"""

import os
from collections.abc import Iterable, Sequence

from support import plain_model
from support.footprints import Footprints
from support.histories import UNKNOWN, Noted
from support.sharing import data_of, file_of, is_of_pipe


def with_guesses(history: Sequence[Noted]) -> list[Noted] | None:
    """A history in which each read of a pipe whose answer is not known has one, as far as there are bytes for it, or
    None where there is no such read."""
    touches = Footprints(history).touches
    files: dict[object, list[int]] = {}
    for at, noted in enumerate(history):
        if noted.act.word in ("read", "write") and is_of_pipe(touches[at]):
            files.setdefault(file_of(touches[at]), []).append(at)
    guessed = list(history)
    for places in files.values():
        back = sorted((history[at].end or 0, at) for at in places if is_unknown_read(history[at]))
        left = left_over([history[at] for at in places]) if back else b""
        for _, at in back:
            given, left = left[: history[at].act.fields[1]], left[history[at].act.fields[1] :]
            if given:
                guessed[at] = history[at]._replace(outcome=plain_model.data_text(given))
    return guessed if guessed != list(history) else None


def is_unknown_read(noted: Noted) -> bool:
    """Whether a call is a read that has come back with an answer that is not known."""
    return noted.act.word == "read" and noted.end is not None and noted.outcome == UNKNOWN


def left_over(calls: Iterable[Noted]) -> bytes:
    """The bytes of some writes that some reads were not given; none where these were given others."""
    told = list(calls)
    left = bytearray(b"".join(written_by(noted) for noted in told if noted.act.word == "write"))
    for data in map(data_of, told):
        at = done = 0
        while done < len(data):
            after = left.find(data[done], at)
            at = after if after >= 0 else left.find(data[done])
            if at < 0:
                return b""
            same = len(os.path.commonprefix([bytes(left[at : at + len(data) - done]), data[done:]]))
            del left[at : at + same]
            done += same
    return bytes(left)


def written_by(noted: Noted) -> bytes:
    """The bytes of a write that may have gone in."""
    data: bytes = noted.act.fields[1]
    if noted.outcome.startswith("error "):
        return b""
    return data[: int(noted.outcome)] if noted.outcome.isdigit() else data
