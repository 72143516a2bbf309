"""Which calls of a history are the last that look at a file: after them its bytes make no difference any more.

The answer of a write, a pwrite or an ftruncate of a regular file does not depend on what is in it, nor on where an
offset is, as long as the file stays small. So once all calls that look at a file have come, worlds that differ only in
its bytes and offsets go on in the same way, and a search need not tell them apart.
"""

from collections.abc import Sequence

from support.footprints import Footprints
from support.histories import Noted
from support.plain_model import Limits

# Calls on a descriptor whose answers do not depend on bytes and offsets.
BLIND = ("write", "pwrite", "ftruncate")
CHANGES_NO_BYTES = ("close", "dup", "dup2", "getfl", "setfl")


def last_looks(history: Sequence[Noted], footprints: Footprints, limits: Limits) -> dict[int, int]:
    """For the place of each call that changes the bytes of a regular file: the bits of all calls that look at them, or
    at an offset there."""
    looks: dict[object, int] = {}
    if not is_small(history, limits.size) or not all(touch.is_known for touch in footprints.touches):
        return {}
    calls = [(place, noted.act.word, footprints.touches[place].at) for place, noted in enumerate(history)]
    for place, word, at in calls:
        if at and word not in BLIND and word not in CHANGES_NO_BYTES:
            looks[at.file] = looks.get(at.file, 0) | 1 << place
    return {place: looks.get(at.file, 0) for place, word, at in calls if at and word in BLIND and not at.may_be_pipe}


def is_small(history: Sequence[Noted], size: int) -> bool:
    """Whether no file can come near a size."""
    reached = moved = 0
    for noted in history:
        word, fields = noted.act.word, noted.act.fields
        if word in ("write", "pwrite"):
            moved += len(fields[-1])
        if word in ("pwrite", "ftruncate", "lseek"):
            reached += abs(fields[1])
    return moved + reached < size
