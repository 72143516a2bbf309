"""The second line of standard error, which says why a path could not be used."""

import os
import re

from support.counting import require, same
from support.running import Ran

# What a system says: its text, and its number; or why it was not even asked.
SAID = rb"(?:[A-Z][^\n]* \(os error [0-9]+\)|path must be shorter than SUN_LEN)"


def names_cause(text: bytes, wanted: bytes, path: str, cause: bytes = SAID) -> None:
    """A text is the line that is wanted, and after it a line that names this path and what was said of it."""
    want = re.escape(wanted) + re.escape(os.fsencode(path)) + b": " + cause + b"\n"
    require(re.fullmatch(want, text), f"standard error is {text!r}, wanted {wanted!r} and a line for {path}")


def unaccepted(path: str) -> bytes:
    """Standard error of a server that has no descriptor left for a further connection to a path."""
    return b"cannot listen\n%b: no further connection: Too many open files (os error 24)\n" % os.fsencode(path)


def without_cause(text: bytes) -> bytes:
    """Standard error of a server without the line that says why there was no further connection, if it has one."""
    return re.sub(rb"(?<=^cannot listen\n)[^\n]*: no further connection: [^\n]*\n", b"", text)


def trace_lost(path: str, said: str) -> bytes:
    """Standard error of a server whose trace is not whole, by what the system said of a write to it."""
    return b"trace fault\n%b: %b\n" % (os.fsencode(path), said.encode())


def unsynced(said: str) -> str:
    """What is told where all was written, and the system said this of a sync."""
    return f"all is written, and cannot be synced: {said}"


def is_caused(wanted: Ran, path: str, given: Ran) -> None:
    """A run ended as is wanted, and a line more says what the system said of this path."""
    names_cause(given.stderr, wanted.stderr, path)
    same(wanted, given._replace(stderr=wanted.stderr))
