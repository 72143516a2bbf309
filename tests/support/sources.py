"""Sources of random choices. Each has a seed and a number, which a failure tells, so that it can be looked at again."""

import random


def source(seed: str, number: int) -> random.Random:
    """The source with a number of a seed: it makes the same choices each time."""
    return random.Random(f"{seed} {number}")


def numbered(what: str, seed: str, number: int) -> str:
    """The name of what was chosen by a source, as in `script 7 of seed 1`."""
    return f"{what} {number} of seed {seed}"


def changed(pick: random.Random, some: bytes) -> bytes:
    """Bytes of which a few are changed, left out or put in."""
    text = bytearray(some)
    for _ in range(pick.choice([1, 1, 1, 2, 3])):
        at = pick.randrange(len(text) + 1)
        how = pick.choice(["change", "change", "nudge", "drop", "insert", "end"])
        if how == "insert":
            text[at:at] = bytes([pick.randrange(256)])
        elif at < len(text):
            if how == "change":
                text[at] = pick.randrange(256)
            elif how == "nudge":
                text[at] = (text[at] + pick.choice([-1, 1])) % 256
            elif how == "drop":
                del text[at]
            elif pick.random() < 0.3:
                del text[at:]
    return bytes(text)
