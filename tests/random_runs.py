#!/usr/bin/env python3
"""Does the program print what a plain model prints, on random scripts? (a minute)

usage: tests/random_runs.py [--seed S] [--scripts N] [--first K] [--often WORDS] [--program PATH] [--jobs J]
                            [--summary FILE]

The model is tools/support/plain_model.py. It is written from docs/PROFILE.md and docs/FORMATS.md alone, so
a difference is a fault of the program, of the model, or of the two documents.

Of six scripts four are walks: each act is chosen beside a run of the model, with fields that mostly
make sense in the world that it has come to. One has good lines in all spellings, and one a bad line
among good ones. Some runs have few records, so that they fill up, and half have pipes of another
capacity than that of a run that is not told one. Script K of seed S is always the same. WORDS are
words of calls, as `getfl,setfl,rename`, of which a third of all calls are to be.

A difference in exit status, standard output or standard error is shrunk to a short script, for at
most a minute, and told with what both gave. In a run of 4,000 scripts or more it is a failure, too,
where an error number of the profile, or another way in which an act can end, is told of no act at
all. The last line is `N passed, M failed`, and the exit status is 1 where M is above 0.
"""

import multiprocessing
import random
import re
import sys
from argparse import ArgumentTypeError
from collections import Counter
from collections.abc import Callable, Iterator, Sequence
from typing import NamedTuple

from support import plain_model, summaries
from support.options import PROGRAM, SEED, SUMMARY, Option, asked, count_option
from support.plain_model import DEFAULTS, FIELDS, FILE_SIZE_MAX, RECORDS_DEFAULT, Limits
from support.running import Ran, StillRunning, run
from support.shrinking import shrunk
from support.sources import numbered, source
from support.tallies import ScriptsTally
from support.walks import CAPACITIES, FLAGS, NAMES, ODD_NAMES, OFTEN, flags_text, name_text, walked

SECONDS = 20
TELL_MOST = 10
SHRINK_MOST = 5_000
SHRINK_SECONDS = 60
KILLED = -9
NO_CALLS = (b"attach", b"resume", b"exit")

END = re.compile(rb"(?: = (error [A-Z]+|parked|part|still|refused [A-Za-z]+)|: (not an act))")


# ---- lines in all spellings, good and bad

# What chooses a field.
Maker = Callable[[random.Random], str]


def any_number(low: int, high: int) -> Maker:
    """The maker of numbers of a range: small, or about a bound."""

    def make(pick: random.Random) -> str:
        near = pick.choice([0, 0, 0, 1, 2, 10, 512, 65_536, FILE_SIZE_MAX, low, high])
        return str(min(max(near + pick.choice([-1, 0, 0, 1]), low), high))

    return make


def any_name(pick: random.Random) -> str:
    """A name, mostly one that a file can have."""
    if pick.random() < 0.7:
        return name_text(pick, pick.choice(NAMES + ODD_NAMES))
    count = pick.choice([1, 2, 3, 10, 63, 64, 65, 254, 255])
    return "".join(pick.choice(["a", "Z", "~", "!", "%25", "%00", "%ff", "%2f", "%61", "*", ","]) for _ in range(count))


def any_data(pick: random.Random) -> str:
    """Data, often of a length about a limit."""
    count = pick.choice([0, 1, 2, 15, 16, 17, 18, 40, 65_536, 65_537, 65_699, 65_700])
    if pick.random() < (0.9 if count > 1_000 else 0.4):
        return f"{pick.choice([0, 97, 255]):02x}*{count}"
    byte = pick.choice([b"a", b"\0", b"\xff"])
    return "x" + (pick.choice([b"", b"", b"b"]) + byte * count)[:count].hex()


ANY_FIELD: dict[plain_model.Reader, Maker] = {
    plain_model.read_name: any_name,
    plain_model.read_data: any_data,
    plain_model.read_flags: lambda pick: flags_text(
        pick, pick.choice(["r", "w", "rw", "-"]), dict.fromkeys(FLAGS, 0.4)
    ),
    plain_model.read_whence: lambda pick: pick.choice(["set", "cur", "end"]),
    plain_model.read_fd: any_number(-(2**31), 2**31 - 1),
    plain_model.read_count: any_number(0, 2**32 - 1),
    plain_model.read_place: any_number(-(2**63), 2**63 - 1),
}

# words that are no field of a kind, or only just one
ODD_NUMBERS = (
    b"-0|00|01|+1|1.0|0x1|--1|1-|x|2147483648|-2147483649|-1|4294967296|9223372036854775808|-9223372036854775809|"
    + b"9" * 5_000
)
ODD_FIELDS: dict[plain_model.Reader, bytes] = {
    plain_model.read_name: b"|".join(
        [b"%%|%6|%6g|%6A|a%|%|\x7f|\xc3\xa4", b"a" * 255, b"a" * 256, b"%61" * 255, b"%61" * 256]
    ),
    plain_model.read_data: (
        b"x6|xA0|xaB|x6g|X61|61|61*|61*65701|61*01|61*-1|6*1|6A*1|A6*1|616*1|61**1|*1|x" + b"61" * 65_701
    ),
    plain_model.read_flags: (
        b",r|,wr|,r|r,creat,creat|r,append,creat|w,CREAT|creat|-,excl|--|r,nonblock,append|rw,trunc,excl|r|w,creat"
    ),
    plain_model.read_whence: b"SET|start|set,|0|curr",
    plain_model.read_fd: ODD_NUMBERS,
    plain_model.read_count: ODD_NUMBERS,
    plain_model.read_place: ODD_NUMBERS,
}
ODD_WORDS = (
    b"|0|-1|p|P0|p0|p00|p-1|p+1|p-0|p4294967295|p4294967296|p0x|join|close-run|exit|Join|house|#|\t|\r|\0|\xff|set|x"
).split(b"|")


def good_line(pick: random.Random, often: Sequence[str] = ()) -> bytes:
    """A line that is an act, whatever comes of it."""
    word = pick.choice(["join", "close-run", *FIELDS, *FIELDS, *FIELDS])
    if often and pick.random() < OFTEN:
        word = pick.choice(often)
    if word not in FIELDS:
        return word.encode()
    actor = any_number(0, 2**32 - 1)(pick) if pick.random() < 0.2 else pick.randrange(3)
    return " ".join([f"p{actor}", word, *(ANY_FIELD[kind](pick) for kind in FIELDS[word])]).encode()


def with_odd_field(pick: random.Random) -> bytes:
    """A line of which one field is odd."""
    kind = pick.choice(list(ODD_FIELDS))
    word = pick.choice([word for word in FIELDS if kind in FIELDS[word]])
    fields = [ANY_FIELD[it](pick).encode() for it in FIELDS[word]]
    fields[FIELDS[word].index(kind)] = pick.choice(ODD_FIELDS[kind].split(b"|"))
    return b" ".join([b"p0", word.encode(), *fields])


def damaged(pick: random.Random, line: bytes) -> bytes:
    """A line with one thing changed in it, mostly so that it is no act any more."""
    words = line.split(b" ")
    at, word = pick.randrange(len(line) + 1), pick.randrange(len(words))
    odd, byte = pick.choice(ODD_WORDS), bytes([pick.choice(b" \t\r\0#+-0%x*,pa\x7f\x80\xff")])
    before, after = words[:word], words[word + 1 :]
    ways = [
        line[:at] + byte + line[at:],
        line[:at] + byte + line[at + 1 :],
        line[:at] + line[at + 1 :],
        line[:at],
        line + pick.choice([b" ", b"\r", b"\t", b" 0", b" x"]),
        b" ".join([*before, words[word].upper(), *after]),
        b" ".join([*before, odd, *after]),
        b" ".join([*before, odd, words[word], *after]),
        b" ".join([*before, *after]),
    ]
    return pick.choice(ways)


def good_lines(pick: random.Random, length: int, often: Sequence[str] = ()) -> list[bytes]:
    """Lines that are acts."""
    lines = [b"join"] * pick.randrange(3)
    return lines + [b"" if pick.random() < 0.1 else good_line(pick, often) for _ in range(length)]


def bad_lines(pick: random.Random, length: int, often: Sequence[str] = ()) -> list[bytes]:
    """Good lines among which one or a few are mostly bad."""
    lines = good_lines(pick, length, often) or [b"join"]
    for at in pick.choices(range(len(lines)), k=pick.choice([1, 1, 1, 2, 3])):
        lines[at] = pick.choice([damaged(pick, lines[at]), with_odd_field(pick), with_odd_field(pick)])
    return lines


# ---- one script


class Checked(NamedTuple):
    """Whether a script passes, how many acts it runs, how often each call is among them, and how they end."""

    passes: bool
    acts: int
    calls: Counter[str]
    ends: set[str]


class Script:
    """A script, the number of records that its run may have, and the limits of the run."""

    def __init__(self, lines: list[bytes], records: int, limits: Limits) -> None:
        self.lines = lines
        self.records = records
        self.limits = limits
        self.text = b"\n".join(lines)

    def words(self) -> list[str]:
        """The words of the command after `replay`."""
        numbers = [
            ("--records", self.records, RECORDS_DEFAULT),
            ("--pipe-capacity", self.limits.capacity, DEFAULTS.capacity),
        ]
        return [word for option, number, default in numbers if number != default for word in (option, str(number))]

    def wanted(self) -> Ran:
        """What the model gives."""
        return plain_model.replay(self.text, self.records, self.limits)

    def given(self, program: str) -> Ran:
        """What the program gives; one that is killed gives no more than that."""
        try:
            return run([program, "replay", *self.words()], self.text, seconds=SECONDS, folder="/")
        except StillRunning as fault:
            return Ran(KILLED, b"", f"{fault}\n".encode())

    def differs(self, program: str) -> bool:
        """Whether the two give something else."""
        return self.wanted() != self.given(program)

    def checked(self, program: str) -> Checked:
        """How it passes."""
        ran = self.given(program)
        ends = {(told or fault).decode() for told, fault in END.findall(ran.stdout + ran.stderr)}
        acts = [line.split(b" ") for line in self.lines if line and ran.status == 0]
        calls = Counter(words[1].decode() for words in acts if len(words) > 1 and words[1] not in NO_CALLS)
        return Checked(self.wanted() == ran, len(acts), calls, ends)

    def shrunk(self, program: str) -> "Script":
        """A short script that differs as well."""

        def differs(lines: list[bytes]) -> bool:
            return Script(lines, self.records, self.limits).differs(program)

        return Script(shrunk(self.lines, differs, SHRINK_SECONDS, SHRINK_MOST), self.records, self.limits)


def script_of(seed: str, number: int, often: Sequence[str] = ()) -> Script:
    """The script with a number of a seed, in which some calls come often."""
    pick = source(seed, number)
    records = RECORDS_DEFAULT
    limits = pick.choice([DEFAULTS, Limits(capacity=pick.choice(CAPACITIES))])
    if number % 6 == 0:
        lines = good_lines(pick, pick.randrange(40), often)
    elif number % 6 == 1:
        lines = bad_lines(pick, pick.randrange(20), often)
    elif pick.random() < 0.25:
        records = pick.choice([pick.randrange(1, 6), pick.randrange(5, 40), pick.randrange(20, 200)])
        lines = walked(pick, records, records + 15, often, limits)
    else:
        lines = walked(pick, records, pick.choice([5, 10, 20, 40, 60, 100, 150, 300]), often, limits)
    return Script(lines if pick.random() < 0.1 else [*lines, b""], records, limits)


# ---- telling


def clipped(text: bytes) -> str:
    """A text for a reader: long lines are cut in the middle, and so are many."""
    lines = [line if len(line) <= 200 else line[:100] + b"..." + line[-60:] for line in text.split(b"\n")]
    lines = lines if len(lines) <= 80 else [*lines[:40], b"...", *lines[-40:]]
    return b"\n".join(lines).decode("ascii", "backslashreplace").rstrip("\n")


def difference(script: Script, program: str) -> str:
    """What to tell of a script that differs."""
    script = script.shrunk(program)
    parts = [f"with {' '.join(script.words()) or 'no options'}; shrunk to", clipped(script.text)]
    for who, ran in ("the model", script.wanted()), ("the program", script.given(program)):
        parts += [f"{who} ends with status {ran.status} and", clipped(ran.stdout + ran.stderr)]
    return "\n".join(parts) + "\n"


# ---- the whole

# The program, and what a script is made of: a seed, a number, and the calls that come often.
Task = tuple[str, str, int, Sequence[str]]


def check(task: Task) -> Checked:
    """How a script passes."""
    program, seed, number, often = task
    return script_of(seed, number, often).checked(program)


def checked(tasks: list[Task], jobs: int) -> Iterator[Checked]:
    """How each script passes, in their order."""
    if jobs == 1:
        yield from map(check, tasks)
    else:
        with multiprocessing.Pool(jobs) as pool:
            yield from pool.imap(check, tasks, chunksize=20)


def words_of_calls(text: str) -> list[str]:
    """The words of an option, which are those of calls."""
    words = text.split(",")
    wrong = [word for word in words if word not in FIELDS or word.encode() in NO_CALLS]
    if wrong:
        raise ArgumentTypeError(f"no call is {wrong[0]!r}")
    return words


OFTEN_OPTION = Option(
    "--often",
    {"metavar": "WORDS", "type": words_of_calls, "default": [], "help": "calls that come often, as getfl,setfl,rename"},
)


def main(words: Sequence[str]) -> int:
    """Makes all checks: the exit status."""
    about = "Runs random scripts on the built program and on a plain model."
    scripts, jobs = count_option("--scripts", 1_000, "how many"), count_option("--jobs", 1, "how many run at a time")
    first = count_option("--first", 0, "the number of the first of them")
    args = asked(words, about, SEED, scripts, first, OFTEN_OPTION, PROGRAM, jobs, SUMMARY)
    program, often = args.program, args.often
    tally = ScriptsTally(often)
    tasks: list[Task] = [(program, args.seed, args.first + at, often) for at in range(args.scripts)]
    for task, it in zip(tasks, checked(tasks, args.jobs), strict=True):
        tally.add(it.acts, it.calls, it.ends)
        number = task[2]
        if it.passes:
            tally.count.add(1, 0)
        elif tally.count.failed < TELL_MOST:
            text = difference(script_of(args.seed, number, often), program)
            tally.count.fail(numbered("script", args.seed, number), text)
        else:
            tally.count.fail(numbered("script", args.seed, number), "it differs")
    if args.summary:
        share = summaries.Share(args.seed, args.first, args.scripts, ",".join(often))
        versions = summaries.versions([program])
        summaries.write(args.summary, summaries.Summary("random_runs.py", [share], versions, tally.counts()))
    print(tally.text())
    return tally.status()


if __name__ == "__main__":
    sys.exit(main(sys.argv[1:]))
