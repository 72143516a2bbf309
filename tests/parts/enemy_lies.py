"""Traces that are right up to a lie: random runs of the model of which the records are changed, moved or forged."""

import random
from collections.abc import Callable, Iterator, Sequence

from parts.written_traces import Named, enough, random_records
from support import plain_model
from support.auditing import Judge, act_of, audited, illegal
from support.counting import same
from support.frames import ERRORS, HOUSE, OLD_MAGIC, SIZES, TYPES, header_bytes, trace_of
from support.plain_model import DEFAULTS, Limits
from support.runs import line_of
from support.sources import numbered, source

# The records of a run, as lines. Their places are not looked at.
Records = Sequence[str]
# A way to lie: it gives the changed records of a run, with those of another one at hand, or None where it can't.
Lie = Callable[[random.Random, Records, Records], list[str] | None]

OUTCOMES = ("ok", "0", "x", "0 1", "regular 0 1", "parked 0", "part 1", "error EBADF", "error EAGAIN")
ODD_ACTORS = (0, 1, 2, 3, 63, 64, 2**31, HOUSE - 1)


def told(act: str, outcome: str) -> str:
    """A record."""
    return f"0 {act} = {outcome}"


def with_record(records: Records, at: int, *others: str) -> list[str]:
    """Records with others in place of one."""
    return [*records[:at], *others, *records[at + 1 :]]


def with_outcome(records: Records, at: int, outcome: str) -> list[str]:
    """Records of which one has another outcome."""
    return with_record(records, at, told(line_of(records[at]).act, outcome))


def chosen(pick: random.Random, records: Records, fits: Callable[[str], object]) -> int | None:
    """The place of a random record with an outcome that fits."""
    places = [at for at, record in enumerate(records) if fits(line_of(record).outcome)]
    return pick.choice(places) if places else None


# ---- another outcome


def one_off(pick: random.Random, outcome: str) -> str:
    """An outcome that is only just another one."""
    words = outcome.split(" ")
    if words[0] == "error":
        at = ERRORS.index(words[1]) + pick.choice([-1, 1])
        return f"error {ERRORS[at % len(ERRORS)]}"
    numbers = [at for at, word in enumerate(words) if word.isdigit()]
    if numbers and (words[0] not in TYPES or pick.random() < 0.8):
        at = pick.choice(numbers)
        words[at] = str(int(words[at]) + pick.choice([-1, 1]) if words[at] != "0" else 1)
        return " ".join(words)
    if words[0] in TYPES:
        return " ".join([TYPES[(TYPES.index(words[0]) + 1) % len(TYPES)], *words[1:]])
    data = plain_model.read_data(outcome.encode())
    if data is None:
        return pick.choice(["0", "x", "error EBADF"])
    return plain_model.data_text(other_data(pick, data))


def other_data(pick: random.Random, data: bytes) -> bytes:
    """Data with a bit that is another one, or with a byte more or less."""
    at = pick.randrange(len(data) + 1)
    if at == len(data):
        return data + pick.choice([b"\0", data[:1] or b"a"]) if len(data) < plain_model.TRANSFER_MAX else data[1:]
    if pick.random() < 0.3:
        return data[:at] + data[at + 1 :]
    return data[:at] + bytes([data[at] ^ 1 << pick.randrange(8)]) + data[at + 1 :]


def reply_one_off(pick: random.Random, records: Records, _: Records) -> list[str] | None:
    """A reply is one off."""
    at = chosen(pick, records, len)
    return None if at is None else with_outcome(records, at, one_off(pick, line_of(records[at]).outcome))


def part_for_number(pick: random.Random, records: Records, _: Records) -> list[str] | None:
    """A part or a wait stands in place of a number, or the other way round, or one of them in place of the other."""
    at = chosen(pick, records, lambda outcome: outcome.split(" ")[0] in ("parked", "part"))
    if at is None or pick.random() < 0.5:
        at = chosen(pick, records, str.isdigit)
        if at is None:
            return None
    number = line_of(records[at]).outcome.split(" ")[-1]
    ways = [f"part {number}", f"parked {number}", number]
    return with_outcome(records, at, pick.choice([way for way in ways if way != line_of(records[at]).outcome]))


def neighbours_outcome(pick: random.Random, records: Records, _: Records) -> list[str] | None:
    """A record has the outcome of the one beside it, mostly of one with the same act."""
    at = pick.randrange(len(records))
    word = line_of(records[at]).act.split(" ")[1]
    alike = [line_of(it) for it in records if line_of(it).act.split(" ")[1] == word]
    outcomes = [line_of(it).outcome for it in records[max(at - 1, 0) : at + 2]]
    outcomes = [it.outcome for it in alike] if pick.random() < 0.5 else outcomes
    others = [it for it in outcomes if it != line_of(records[at]).outcome]
    return with_outcome(records, at, pick.choice(others or OUTCOMES))


# ---- another actor, and forged records


def actors(records: Records) -> list[int]:
    """All processes of some records, those that are odd, and the one that would be next."""
    known = {int(actor) for it in records if (actor := line_of(it).act.split(" ")[0][1:]).isdigit()}
    return sorted({*known, *ODD_ACTORS, max(known, default=0) + 1})


def other_actor(pick: random.Random, records: Records, _: Records) -> list[str] | None:
    """A record is of another process."""
    at = pick.randrange(len(records))
    line = line_of(records[at])
    actor, _, act = line.act.partition(" ")
    if actor == "house":
        return with_record(records, at, told(f"p{pick.choice(actors(records))} exit", "ok"))
    others = [number for number in actors(records) if actor != f"p{number}"]
    return with_record(records, at, told(f"p{pick.choice(others)} {act}", line.outcome))


def forged_exit(pick: random.Random, records: Records, _: Records) -> list[str] | None:
    """An exit that did not take place is put in, or another one stands in place of one that did."""
    exits = [at for at, it in enumerate(records) if line_of(it).act.endswith(" exit")]
    actor = pick.choice(actors(records))
    if exits and pick.random() < 0.4:
        at = pick.choice(exits)
        outcome = pick.choice(["ok", "error ESRCH", "0", "parked 0"])
        act = line_of(records[at]).act if outcome != "ok" else f"p{actor} exit"
        return with_record(records, at, told(act, outcome))
    at = pick.randrange(len(records) + 1)
    return [*records[:at], told(f"p{actor} exit", "ok"), *records[at:]]


def after_closing(pick: random.Random, records: Records, others: Records) -> list[str] | None:
    """Records go on after a closing, which may be one that did not take place."""
    closing = told("house close-run", "ok")
    way = pick.randrange(5)
    if way == 0:
        at = pick.randrange(len(records) + 1)
        return [*records[:at], closing, *records[at:]]
    closed = [*(it for it in records if not line_of(it).act.startswith("house")), closing]
    if way == 1:
        number = pick.choice(actors(records))
        outcome = pick.choice(["error EAGAIN", "error EAGAIN", str(number)])
        return [*closed, told(f"p{number} join", outcome), *others[:3]]
    if way == 2:
        return [*closed, told(f"p{pick.choice(actors(records))} fork", "error EAGAIN")]
    return [*closed, *pick.choices([*records, *others], k=3)] if way == 3 else [*closed, closing]


# ---- other orders


def spliced(pick: random.Random, records: Records, others: Records) -> list[str] | None:
    """Records of one run go on with those of another one."""
    first, second = pick.randrange(len(records) + 1), pick.randrange(len(others) + 1)
    if pick.random() < 0.3:
        second = min(first, len(others))
    if pick.random() < 0.3:
        third = pick.randrange(first, len(records) + 1)
        return [*records[:first], *others[second : second + 3], *records[third:]]
    return [*records[:first], *others[second:]]


def repeated(pick: random.Random, records: Records, _: Records) -> list[str] | None:
    """A record, or a few, stand there twice."""
    at = pick.randrange(len(records))
    some = records[at : at + pick.choice([1, 1, 1, 2, 5])]
    later = at + len(some) if pick.random() < 0.6 else pick.randrange(at, len(records) + 1)
    return [*records[:later], *some, *records[later:]]


def left_out(pick: random.Random, records: Records, _: Records) -> list[str] | None:
    """A record, or a few, are missing."""
    at = pick.randrange(len(records))
    return [*records[:at], *records[at + pick.choice([1, 1, 1, 2, 5]) :]]


def swapped(pick: random.Random, records: Records, _: Records) -> list[str] | None:
    """Two records have changed their places, mostly those beside each other."""
    if len(records) < 2:
        return None
    at = pick.randrange(len(records) - 1)
    other = at + 1 if pick.random() < 0.7 else pick.randrange(len(records))
    new = list(records)
    new[at], new[other] = new[other], new[at]
    return new


LIES: dict[str, Lie] = {
    "a reply one off": reply_one_off,
    "a part for a number": part_for_number,
    "another actor": other_actor,
    "two runs spliced": spliced,
    "a record repeated": repeated,
    "a record left out": left_out,
    "two records swapped": swapped,
    "a neighbour's outcome": neighbours_outcome,
    "a forged exit": forged_exit,
    "records after the closing": after_closing,
}


# ---- traces


def run_of(pick: random.Random) -> list[str]:
    """The records of a random run, which often goes on to its closing."""
    records = random_records(pick)
    if pick.random() < 0.5:
        return records
    judge = Judge()
    for text in records:
        judge.outcome_of(act_of(line_of(text).act))
    judge.take(plain_model.Act("house", "close-run"))
    return [*records, *(text.rstrip("\n") for text in judge.lines if not text.startswith("-"))]


def lies(seed: str, use: str, runs: int) -> Iterator[tuple[str, Named]]:
    """Each kind of lie in so many runs: the kind, and the trace with its name. A seed has others for each use."""
    for number in range(runs):
        pick = source(f"{seed} {use}", number)
        records, others = run_of(pick), run_of(pick)
        for kind, lie in LIES.items():
            changed = lie(pick, records, others)
            if changed is not None:
                yield kind, (numbered(f"{kind}, run", seed, number), trace_of(changed))
        for kind, header in headers(pick, records):
            yield kind, (numbered(f"{kind}, run", seed, number), trace_of(records, header))


def headers(pick: random.Random, records: Records) -> Iterator[tuple[str, bytes]]:
    """Headers under which records are wrong that are right in a run of the limits that are told by default."""
    least = enough(records, DEFAULTS)
    yield "too few records", header_bytes(pick.choice([least - 1, least - 1, pick.randrange(1, least)]))
    yield "just enough records", header_bytes(least)
    limits = Limits(pick.choice(SIZES), pick.choice([512, 513, 1_023, 1_025, 65_536]))
    yield "other limits", header_bytes(pick.choice([0, least]), limits)
    yield "another version", OLD_MAGIC


def finds_one_off(seed: str, number: int) -> None:
    """The plain auditor itself finds a reply that is one off, where it is and with what it should be."""
    pick = source(f"{seed} found", number)
    records = random_records(pick)
    at = pick.randrange(len(records))
    right = line_of(records[at]).outcome
    wrong = one_off(pick, right)
    same(illegal(at, right), audited(trace_of(with_outcome(records, at, wrong))))
