"""The bytes of a regular file, of which most may be zeros that nobody wrote: a file may have 2^40 of them.

Kept are the length, and blocks of the bytes that were written. A block ends where nothing was written after it; what is
in no block is a zero.
"""

from collections.abc import Mapping
from typing import NamedTuple

BLOCK = 65_536


class Held(NamedTuple):
    """Contents as a value: the length, and the blocks in their order, without zeros at their ends. So contents of the
    same bytes are the same value."""

    length: int
    blocks: tuple[tuple[int, bytes], ...]

    def read(self, start: int, count: int) -> bytes:
        """At most so many bytes from a place on, up to the end."""
        return taken(dict(self.blocks), start, min(start + count, self.length))


# The contents of a file that was just made.
NOTHING = Held(0, ())


class Contents:
    """The bytes of a regular file."""

    def __init__(self, held: Held = NOTHING) -> None:
        self.length = held.length
        self.blocks = {number: bytearray(block) for number, block in held.blocks}

    def __len__(self) -> int:
        return self.length

    def read(self, start: int, count: int) -> bytes:
        """At most so many bytes from a place on, up to the end."""
        return taken(self.blocks, start, min(start + count, self.length))

    def write(self, start: int, data: bytes) -> None:
        """Puts bytes at a place, which may be past the end: what is between them is zeros."""
        self.length = max(self.length, start + len(data))
        done = 0
        while done < len(data):
            number, at = divmod(start + done, BLOCK)
            piece = data[done : done + BLOCK - at]
            block = self.blocks.setdefault(number, bytearray())
            block += bytes(max(at - len(block), 0))
            block[at : at + len(piece)] = piece
            done += len(piece)

    def resize(self, length: int) -> None:
        """Cuts bytes off, or adds zeros."""
        last, kept = divmod(length, BLOCK)
        if length < self.length:
            self.blocks = {number: block for number, block in self.blocks.items() if number * BLOCK < length}
            if last in self.blocks:
                del self.blocks[last][kept:]
        self.length = length

    def clear(self) -> None:
        """Takes all bytes away."""
        self.resize(0)

    def held(self) -> Held:
        """These contents as a value."""
        stripped = ((number, bytes(block.rstrip(b"\0"))) for number, block in sorted(self.blocks.items()))
        return Held(self.length, tuple([(number, block) for number, block in stripped if block]))


def taken(blocks: Mapping[int, bytes | bytearray], start: int, end: int) -> bytes:
    """The bytes between two places, of which those in no block are zeros."""
    pieces = []
    while start < end:
        number, at = divmod(start, BLOCK)
        size = min(BLOCK - at, end - start)
        pieces.append(bytes(blocks.get(number, b"")[at : at + size]).ljust(size, b"\0"))
        start += size
    return b"".join(pieces)
