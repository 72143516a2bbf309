#!/usr/bin/env python3
"""Do scripts for people and objects for scripts say what they should? (a minute)

usage: tests/texts.py [--program PATH] [--seed WORD] [--scripts N] [--only WORD]

The program is crates/fdref/out/fdref where no PATH is given. It is held against readers and writers of our own:

  - `replay --text` on scripts that are written out here, with comments, strings and their faults, and on N random
    scripts (300 where no number is given) in which data stands as strings and comments are strewn: it must give
    what `replay` gives for the plain script, with data of printable bytes as strings,
  - what stands for the same scripts in Python, as tools/compare.py --text reads them,
  - `show --text` and `show --acts --text` on traces of random scripts: what they print is read again by
    `replay --text`,
  - `show --json` on the same traces: each object, read by Python's reader, spells the line of `show`,
  - what is told of a carriage return, of a comment or string without --text, of what is no string, of a script that
    is too long, and of words that go together with no other.

A failure is told in one line. The last line is `N passed, M failed`, and the exit status is 1 where M is above 0.
"""

import json
import random
import re
import sys
import tempfile
from collections.abc import Iterator, Sequence
from functools import partial
from typing import Any

from parts.written_traces import random_records
from support import plain_model
from support.auditing import script_lines, shown
from support.counting import Case, Count, Failure, require, same
from support.frames import trace_of
from support.options import ONLY, PROGRAM, SEED, asked, count_option
from support.plain_scripts import plain_line
from support.running import Ran, run
from support.sources import numbered, source

TELL_MOST = 10
OF_DATA = ("write", "pwrite", "read", "pread", "resume")
ESCAPES = {"n": "\n", "t": "\t", "r": "\r", '"': '"', "\\": "\\"}
FLAGS = {"-": 0, "r": 1, "w": 2, "rw": 3, "creat": 4, "excl": 8, "trunc": 16, "append": 32, "nonblock": 64}
ESCAPED = {char: f"\\{letter}" for letter, char in ESCAPES.items()}


# ---- strings, by readers and writers of our own


def string_of(data: bytes) -> str | None:
    """The string of data that are not none, and that have a string."""
    text = data.decode("latin-1")
    if not text or any(char not in ESCAPED and not " " <= char <= "~" for char in text):
        return None
    return '"' + "".join(ESCAPED.get(char, char) for char in text) + '"'


def strung(line: str) -> str:
    """A line of a record, with its data as a string where they have one."""
    words = line.split(" ")
    if len(words) < 3 or words[2] not in OF_DATA:
        return line
    for at, word in enumerate(words[3:], 3):
        if re.fullmatch("x([0-9a-f]{2})+", word):
            words[at] = string_of(bytes.fromhex(word[1:])) or word
            break
    return " ".join(words)


def strung_lines(text: bytes) -> bytes:
    """All lines of a run so."""
    return "\n".join(strung(line) for line in text.decode("latin-1").split("\n")).encode("latin-1")


# ---- scripts that are written out

SETUP = "join\np0 open a rw,creat\n"
# What stands in a script, and what the plain script has there.
SPELLED: list[tuple[str, str, str]] = [
    ("a string", 'p0 write 0 "hello\\n"', "p0 write 0 x68656c6c6f0a"),
    ("each escape", r'p0 write 0 "\n\t\r\"\\"', "p0 write 0 x0a090d225c"),
    ("a string with spaces and a hash", 'p0 write 0 "a # b  c"', "p0 write 0 x6120232062202063"),
    ("a string at a position", 'p0 pwrite 0 5 "x"', "p0 pwrite 0 5 x78"),
    ("no bytes", 'p0 write 0 ""', "p0 write 0 x"),
    ("many equal bytes", f'p0 write 0 "{"a" * 30}"', f"p0 write 0 x{'61' * 30}"),
    ("a comment behind a call", "p0 fstat 0 # what is it", "p0 fstat 0"),
    ("a comment behind spaces", "p0 fstat 0    # what is it", "p0 fstat 0"),
    ("a comment behind a string", 'p0 write 0 "a#b" # c "d"', "p0 write 0 x612362"),
    ("a line of a comment", "# all of it", ""),
    ("a hash in a name", "p0 open a#b rw,creat", "p0 open a#b rw,creat"),
    ("a quote in a name", 'p0 open "a" rw,creat', 'p0 open "a" rw,creat'),
    ("names like data", "p0 link a x6869", "p0 link a x6869"),
]
# What is told where a line is no act.
A_STRING = r'a string of at most 65700 bytes, as "hi\n": bytes from 32 to 126, '
A_STRING += r'\n, \t, \r, \" and \\, and a quote that ends the word'
WITH_TEXT = "an act; comments and strings are read with --text"
DATA = plain_model.EXPECTED[plain_model.read_data]
FD = plain_model.EXPECTED[plain_model.read_fd]
NAME = plain_model.EXPECTED[plain_model.read_name]
POSITION = plain_model.EXPECTED[plain_model.read_place]
END = "the end of the line"
# A line, at which column it is no act with --text, and what is expected there.
FAULTY: list[tuple[str, str, int, str]] = [
    ("a string without an end", 'p0 write 0 "hello', 12, A_STRING),
    ("a quote alone", 'p0 pwrite 0 5 "', 15, A_STRING),
    ("a string with a comment in it", 'p0 write 0 "a # b', 12, A_STRING),
    ("a string with another escape", r'p0 write 0 "\x41"', 12, A_STRING),
    ("a string with more behind it", 'p0 write 0 "a"b', 12, A_STRING),
    ("a string that is not printable", 'p0 write 0 "\x07"', 12, A_STRING),
    ("a string of too many bytes", f'p0 write 0 "{"a" * (plain_model.DATA_MOST + 1)}"', 12, A_STRING),
    ("a word behind a string", 'p0 write 0 "a" b', 16, END),
    ("a quote behind a string", 'p0 write 0 "abc" "b', 18, END),
    ("a word behind a string with escapes", r'p0 write 0 "\n\n" b', 19, END),
    ("a string in place of a number", 'p0 write "0" x61', 10, FD),
    ("no string in place of a number", 'p0 write "0 x61', 10, FD),
    ("a string and no string", 'p0 pwrite 0 "a" "b', 13, POSITION),
    ("a string in no call of data", 'p0 fstat "0"', 10, FD),
    ("a quote in data", 'p0 write 0 x61"', 12, DATA),
    ("a comment in place of a word", "p0 write 0 # x61", 11, DATA),
    ("a comment without a space before it", "p0 fstat 0# x", 10, FD),
]
# The same of a plain script.
PLAIN_FAULTY: list[tuple[str, str, int, str]] = [
    ("a comment", "# a", 1, WITH_TEXT),
    ("a comment behind an act", "p0 fstat 0 # a", 12, WITH_TEXT),
    ("a comment in place of data", "p0 write 0 # x61", 12, WITH_TEXT),
    ("a comment in place of a name", "p0 unlink #% a", 11, WITH_TEXT),
    ("a comment without a space before it", "p0 fstat 0# a", 10, FD),
    ("a string", 'p0 write 0 "a"', 12, WITH_TEXT),
    ("a string without an end", 'p0 pwrite 0 5 "', 15, WITH_TEXT),
    ("a string in place of a number", 'p0 write "0" x61', 10, FD),
    ("a string behind an act", 'p0 write 0 x61 "a"', 16, END),
    ("a name with a quote", 'p0 unlink "%"', 11, NAME),
    ("no data", "p0 write 0 a#", 12, DATA),
    ("no data at all", "p0 write 0", 11, DATA),
]
# Lines of a plain script in which these bytes are some of a name.
LEGAL = ["p0 open # rw,creat", "p0 open #a rw,creat", "p0 open a#b rw,creat", 'p0 open "a" rw,creat', 'p0 link a "#']


def spelled(program: str, text: str, plain: str) -> None:
    """A text runs as the plain script for which it stands, and tools/compare.py takes it as that."""
    same(plain.encode("latin-1"), plain_line(text.encode("latin-1")))
    wanted = plain_model.replay(f"{SETUP}{plain}\np0 pread 0 0 99\n".encode())
    given = run([program, "replay", "--text"], f"{SETUP}{text}\np0 pread 0 0 99\n".encode("latin-1"))
    same(wanted._replace(stdout=strung_lines(wanted.stdout)), given)


def faulty(program: str, words: Sequence[str], line: str, column: int, expected: str) -> None:
    """A fault is told at the column of the text, with what could stand there. A plain line for it has one as well."""
    try:
        plain_model.read_act(plain_line(line.encode("latin-1")) if words else line.encode("latin-1"))
        raise Failure("its plain line is an act")
    except plain_model.NotAnAct:
        pass
    told = f"line 4 column {column}: not an act\nexpected {expected}\n"
    same(Ran(3, b"", told.encode()), run([program, "replay", *words], f"\n{SETUP}{line}\n".encode("latin-1")))


def legal(program: str, script: bytes) -> None:
    """A plain script runs as the model says, without a fault."""
    ran = run([program, "replay"], script)
    same(plain_model.replay(script), ran)
    same(0, ran.status)


def written_out(program: str) -> Iterator[Case]:
    """What is written out here."""
    for name, text, plain in SPELLED:
        yield name, partial(spelled, program, text, plain)
    for words, faults in ((["--text"], FAULTY), ([], PLAIN_FAULTY)):
        for name, line, column, expected in faults:
            yield " ".join([*words, name]), partial(faulty, program, words, line, column, expected)
    for line in LEGAL:
        yield f"plain: {line}", partial(legal, program, f"{SETUP}{line}\n".encode())
    comment = run_of_text(b"# nothing\n", Ran(0, b"records 0 in 0 out 0\n", b""))
    yield "nothing but a comment", partial(comment, program)
    long = "a" * plain_model.SCRIPT_MOST
    too_long = Ran(3, b"", f"{plain_model.TOO_LONG}\n".encode())
    yield "a comment that is too long", partial(run_of_text(f"#{long}".encode(), too_long), program)
    half = long[: plain_model.SCRIPT_MOST // 2]
    yield "a string that is too long", partial(run_of_text(f'p0 write 0 "{half}"'.encode(), too_long), program)


def run_of_text(text: bytes, wanted: Ran) -> Any:
    """A run of a text that ends so."""

    def check(program: str) -> None:
        same(wanted, run([program, "replay", "--text"], text))

    return check


# ---- faults that are told in other words


def carriage_return(program: str, words: Sequence[str], script: bytes, line: int, column: int) -> None:
    """A line that ends in a carriage return is told as that."""
    wanted = f"line {line} column {column}: not an act\nexpected a line without a carriage return at its end\n"
    same(Ran(3, b"", wanted.encode()), run([program, "replay", *words], script))


def goes_alone(program: str, words: Sequence[str], trace: str) -> None:
    """Objects go together with no other form."""
    ran = run([program, "show", *words, trace])
    same((2, b""), ran[:2])
    require(b"cannot be used with" in ran.stderr and b"Usage: fdref show" in ran.stderr, ran.said())


def told(program: str) -> Iterator[Case]:
    """Faults of scripts and of words."""
    for words in ([], ["--text"]):
        how = " ".join(words) or "plain"
        yield f"{how}: the first line", partial(carriage_return, program, words, b"join\r\np0 pipe\r\n", 1, 1)
        yield f"{how}: a later line", partial(carriage_return, program, words, b"join\n\np0 pipe\r\n", 3, 4)
        yield f"{how}: the last line", partial(carriage_return, program, words, b"join\np0 close 0\r", 2, 10)
        yield f"{how}: another fault too", partial(carriage_return, program, words, b"p0 close x\r\n", 1, 10)
    with tempfile.NamedTemporaryFile(prefix="fdref-") as trace:
        for words in (["--json", "--acts"], ["--text", "--json"], ["--acts", "--text", "--json"]):
            yield f"words {' '.join(words)}", partial(goes_alone, program, words, trace.name)


# ---- objects


def outcome_text(outcome: dict[str, Any]) -> str:
    """What a line has for the outcome of an object."""
    ((kind, value),) = outcome.items()
    match kind:
        case "done":
            require(value is True, f"done is {value!r}")
            return "ok"
        case "number":
            return str(value)
        case "data":
            return plain_model.data_text(bytes.fromhex(value))
        case "pair":
            return f"{value[0]} {value[1]}"
        case "stat":
            return f"{value['kind']} {value['size']} {value['links']}"
        case "flags":
            return str(sum(FLAGS[word] for word in value.split(",")))
        case _:
            require(kind in ("error", "parked", "part"), f"an outcome {kind}")
            return f"{kind} {value}"


def line_of_object(text: str) -> str:
    """The line of `show` that an object spells."""
    record = json.loads(text, object_pairs_hook=list)
    names = [name for name, _ in record]
    require(names[:3] == ["place", "process", "call"] and names[-1] == "outcome", f"names {names}")
    place, process, word = (value for _, value in record[:3])
    fields = [
        plain_model.data_text(bytes.fromhex(value)) if name == "data" else str(value) for name, value in record[3:-1]
    ]
    actor = process if process == "house" else f"p{process}"
    return " ".join([str(place), actor, word, *fields, "=", outcome_text(dict_of(record[-1][1]))])


def dict_of(pairs: Any) -> Any:
    """Objects as dicts again."""
    if isinstance(pairs, list) and pairs and all(isinstance(pair, tuple) for pair in pairs):
        return {name: dict_of(value) for name, value in pairs}
    return pairs


# ---- random scripts and their traces


def in_text(pick: random.Random, line: str) -> str:
    """An act as a person may write it."""
    words = line.split(" ")
    if len(words) > 1 and words[1] in ("write", "pwrite") and words[-1].startswith("x"):
        words[-1] = string_of(bytes.fromhex(words[-1][1:])) or words[-1]
    comment = pick.choice(["", "", "", " # then", '   # "so"'])
    return " ".join(words) + comment


def printable(pick: random.Random, line: str) -> str:
    """An act whose data can be a string, more often than not."""
    words = line.split(" ")
    if len(words) > 1 and words[1] in ("write", "pwrite") and pick.random() < 0.8:
        data = "".join(pick.choice('ab Z~"\\\n\t\r#') for _ in range(pick.randrange(1, 30)))
        words[-1] = plain_model.data_text(data.encode())
    return " ".join(words)


def random_case(program: str, seed: str, number: int) -> None:
    """A random script, plain and in text; and its trace, in each form."""
    pick = source(f"{seed} text", number)
    records = random_records(pick)
    acts = [printable(pick, line) for line in script_lines(records)]
    wanted = plain_model.replay("\n".join(acts).encode())
    texts = [in_text(pick, line) for line in acts]
    plain = [plain_model.read_act(plain_line(line.encode())) for line in texts]
    same([plain_model.read_act(line.encode()) for line in acts], plain)
    text = "\n".join(texts).encode()
    same(wanted._replace(stdout=strung_lines(wanted.stdout)), run([program, "replay", "--text"], text))
    lines = [line for line in wanted.stdout.decode().splitlines()[:-1] if not line.startswith("-")]
    trace = trace_of(lines)
    with tempfile.NamedTemporaryFile(prefix="fdref-") as file:
        file.write(trace)
        file.flush()
        shown_so = shown(trace)
        same(shown_so._replace(stdout=strung_lines(shown_so.stdout)), run([program, "show", "--text", file.name]))
        asked_for = run([program, "show", "--acts", "--text", file.name])
        plain_acts = shown(trace, acts=True)
        again = run([program, "replay", "--text"], asked_for.stdout)
        same(run([program, "replay"], plain_acts.stdout).stdout, unstrung(again.stdout))
        objects = run([program, "show", "--json", file.name])
    same((0, b""), (objects.status, objects.stderr))
    same(lines, [line_of_object(line) for line in objects.stdout.decode().splitlines()])


def unstrung(text: bytes) -> bytes:
    """Lines with strings, with plain data again."""

    def data(match: re.Match[str]) -> str:
        inside = re.sub(r"\\(.)", lambda escape: ESCAPES[escape[1]], match[1])
        return " " + plain_model.data_text(inside.encode("latin-1"))

    lines = text.decode("latin-1").split("\n")
    return "\n".join(
        re.sub(r' "((?:[^"\\]|\\.)*)"', data, line, count=1) if line.split(" ")[2:3] and line.split(" ")[2] in OF_DATA else line
        for line in lines
    ).encode("latin-1")


def random_cases(program: str, seed: str, count: int) -> Iterator[Case]:
    """So many random scripts."""
    for number in range(count):
        yield numbered("script", seed, number), partial(random_case, program, seed, number)


def hashed(program: str) -> None:
    """A name that begins with a hash: in acts that are to be read again it is spelled otherwise."""
    lines = ["0 p0 join = 0", "1 p0 open #a#b rw,creat = error EINVAL", "2 p0 link #a#b # = error EINVAL"]
    acts = b"join\np0 open %23a#b rw,creat\np0 link %23a#b %23\n"
    with tempfile.NamedTemporaryFile(prefix="fdref-") as file:
        file.write(trace_of(lines))
        file.flush()
        same(acts, run([program, "show", "--acts", "--text", file.name]).stdout)
        same("\n".join(lines) + "\n", run([program, "show", "--text", file.name]).stdout.decode())
    wanted = "\n".join(lines) + "\nrecords 3 in 0 out 0\n"
    same(wanted, run([program, "replay", "--text"], acts).stdout.decode())


# ---- the whole


def main(words: Sequence[str]) -> int:
    """Makes all checks: the exit status."""
    numbers = [count_option("--scripts", 300, "random scripts")]
    args = asked(words, "Has scripts with comments and strings run, and traces shown so.", PROGRAM, SEED, *numbers, ONLY)
    parts = [
        ("what is written out", written_out(args.program)),
        ("what is told", told(args.program)),
        ("names", [("that begin with a hash", partial(hashed, args.program))]),
        ("random scripts", random_cases(args.program, args.seed, args.scripts)),
    ]
    return Count(TELL_MOST).parts(parts, args.only)


if __name__ == "__main__":
    sys.exit(main(sys.argv[1:]))
