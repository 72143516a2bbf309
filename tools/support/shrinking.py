"""Making a script short that shows a difference."""

import re
import time
from collections.abc import Callable

# Whether a script, which is given by its lines, still shows the difference.
Differs = Callable[[list[bytes]], bool]


def shrunk(lines: list[bytes], differs: Differs, seconds: float, tries: int | None = None) -> list[bytes]:
    """The shortest script with a difference that is found in so long, and in so many tries."""
    end = time.monotonic() + seconds
    left = tries

    def still_differs(fewer: list[bytes]) -> bool:
        nonlocal left
        if left is not None:
            left -= 1
        return (left is None or left >= 0) and time.monotonic() < end and differs(fewer)

    before: list[bytes] | None = None
    while lines != before:
        before = lines
        lines = smaller_words(fewer_lines(lines, still_differs), still_differs)
    return lines


def fewer_lines(lines: list[bytes], differs: Differs) -> list[bytes]:
    """Leaves out what can be left out, first large pieces and at last single lines."""
    size = len(lines)
    while size:
        at = 0
        while at < len(lines):
            fewer = without(lines, at, size)
            if differs(fewer):
                lines = fewer
            else:
                at += size
        size //= 2
    return lines


def without(lines: list[bytes], at: int, size: int) -> list[bytes]:
    """Lines without a piece; where processes came in it, those that come later have lower numbers then."""
    pieces = (lines[:at], lines[at : at + size])
    before, gone = (sum(line.endswith((b"join", b"fork")) for line in piece) for piece in pieces)

    def renumbered(actor: re.Match[bytes]) -> bytes:
        number = int(actor[1])
        return b"p%d" % (number - gone if number >= before + gone else number)

    return lines[:at] + [re.sub(rb"^p(\d{1,10})\b", renumbered, line) for line in lines[at + size :]]


def smaller_words(lines: list[bytes], differs: Differs) -> list[bytes]:
    """Makes numbers smaller, data plainer and flags fewer, word by word."""
    for at in range(len(lines)):
        for place, word in enumerate(lines[at].split(b" ")):
            for simpler in simpler_words(word):
                words = lines[at].split(b" ")
                words[place] = simpler
                tried = [*lines[:at], b" ".join(words), *lines[at + 1 :]]
                if differs(tried):
                    lines = tried
                    break
    return lines


def simpler_words(word: bytes) -> list[bytes]:
    """Words like a word, the plainest first."""
    number = re.fullmatch(rb"(p|-|[0-9a-f]{2}\*|)(\d{1,19})", word)
    if number:
        value = int(number[2])
        less = sorted({0, 1, 2, 3, 512, 513, value // 2, value - 1})
        return [number[1] + b"%d" % it for it in less if 0 <= it < value]
    if re.fullmatch(rb"x([0-9a-f]{2})+", word):
        return [b"x", b"x61", b"61*%d" % (len(word) // 2), word[:-2]]
    flags = word.split(b",")
    return [b",".join(flags[:at] + flags[at + 1 :]) for at in range(1, len(flags))]
