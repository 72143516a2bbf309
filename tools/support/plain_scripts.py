"""Scripts for people, as docs/FORMATS.md has them: the plain lines for which theirs stand."""

import re

from support.plain_model import FIELDS, read_data

WORD = re.compile(rb"[^ ]*")
STRING = re.compile(rb'"((?:[ !#-\[\]-~]|\\[ntr"\\])*)"(?= |$)')
ESCAPE = re.compile(rb"\\(.)")
ESCAPED = {b"n": b"\n", b"t": b"\t", b"r": b"\r", b'"': b'"', b"\\": b"\\"}


def place_of_data(words: list[bytes]) -> int | None:
    """Which word of a line is its data, if the call that it begins with has some."""
    fields = FIELDS.get(words[1].decode("latin-1"), ()) if len(words) > 1 else ()
    return 2 + fields.index(read_data) if read_data in fields else None


def plain_line(line: bytes) -> bytes:
    """A line without its comment, and with data in place of a string. What is no string is left as it is."""
    words: list[bytes] = []
    at = 0
    while at <= len(line) and line[at : at + 1] != b"#":
        string = STRING.match(line, at) if len(words) == place_of_data(words) else None
        found = string or WORD.match(line, at)
        assert found
        data = ESCAPE.sub(lambda it: ESCAPED[it[1]], string[1]) if string else b""
        words.append(b"x" + data.hex().encode() if string else found[0])
        at = found.end() + 1
    return b" ".join(words) if at > len(line) else b" ".join(words).rstrip(b" ")
