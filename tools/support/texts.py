"""Telling of outputs: short forms of long ones, and where two differ."""

import io


def shown(text: bytes, most: int = 60) -> str:
    """A piece of output, short and on one line."""
    return repr(text[:most])[1:] + ("..." if len(text) > most else "")


def several(number: int, one: str, more: str = "") -> str:
    """A number of things, as `1 call`, `2 calls` and, where the plural has another form, `2 histories`."""
    return f"{number} {one if number == 1 else more or f'{one}s'}"


def difference(wanted: bytes, given: bytes, names: tuple[str, str] = ("wanted", "given")) -> str:
    """The first line in which two outputs differ, which have these names."""
    for number, (one, other) in enumerate(zip(_lines(wanted), _lines(given), strict=False), 1):
        if one != other:
            return f"line {number}: {names[0]} {shown(one, 100)}, {names[1]} {shown(other, 100)}"
    return "no line differs"


def _lines(text: bytes) -> list[bytes]:
    """The lines of a text, each with its LF, and nothing after them."""
    return [*io.BytesIO(text), b""]
