"""Races by hand: how many outcomes and positions each has, what is asked for, witnesses, and what is no race."""

import re
from collections.abc import Iterator, Sequence
from functools import partial
from itertools import cycle, product
from math import factorial, prod

from parts.random_races import given
from support import plain_model
from support.commands import capacity_words
from support.counting import Case, require, same
from support.outcomes import Explorer, Race, answer_of, printed, read_race, too_many
from support.places import EXAMPLES
from support.plain_model import DEFAULTS, SCRIPT_MOST, TOO_LONG, Limits
from support.running import Ran, run
from support.runs import Line, line_of

BIG_WRITE = EXAMPLES / "big-write.race"
RACES = EXAMPLES / "races"
FORKED = "join\np0 pipe\np0 fork\np1 attach\n"
# Sizes of pipes for which witnesses are asked, beside that of a run that is told none.
ROOMS = [DEFAULTS, Limits(capacity=512), Limits(capacity=3_000)]


def prints(program: Sequence[str], wanted: Ran, text: str, *words: str) -> None:
    """The program gives just this for a race."""
    same(wanted, given(program, text.encode(), DEFAULTS, *words))


def outcomes_are(program: Sequence[str], text: str, texts: Sequence[str], states: int) -> None:
    """A race has these outcomes, and so many positions."""
    prints(program, printed(read_race(text.encode()), texts, states), text)


# ---- outcomes and positions, counted


def all_over(*counts: int) -> int:
    """In how many ways calls of several processes can follow each other, of which each makes so many."""
    return factorial(sum(counts)) // prod(map(factorial, counts))


def has_counts(program: Sequence[str], text: str, outcomes: int, states: int) -> None:
    """A race has so many outcomes and so many positions, and those that the search finds."""
    texts = Explorer(read_race(text.encode())).texts()
    same(outcomes, len(texts))
    outcomes_are(program, text, texts, states)


def shared_reads(counts: Sequence[int]) -> str:
    """Processes that read a byte at a time by one offset, each so often. No byte stands twice in the file."""
    data = bytes(range(65, 65 + sum(counts))).hex()
    script = f"join\np0 open f rw,creat\np0 write 0 x{data}\np0 lseek 0 0 set\n"
    script += "".join(f"p0 fork\np{child} attach\n" for child in range(1, len(counts)))
    return script + "race\n" + "".join(f"p{process} read 0 1\n" * count for process, count in enumerate(counts))


def own_calls(counts: Sequence[int]) -> str:
    """Processes that make so many calls each which nobody else sees."""
    return "join\n" * len(counts) + "race\n" + "".join(f"p{who} getfl 0\n" * count for who, count in enumerate(counts))


def counted_cases(program: Sequence[str]) -> Iterator[Case]:
    """Races whose outcomes and positions can be counted by a formula, and the example."""
    for counts in [(1, 1), (1, 1, 1), (2, 1), (2, 2, 2), (3, 2, 1), (4, 4), (1, 1, 1, 1), (3, 3, 2), (6,)]:
        states = sum(all_over(*begun) for begun in product(*(range(count + 1) for count in counts)))
        case = partial(has_counts, program, shared_reads(counts), all_over(*counts), states)
        yield f"reads by one offset, {counts}", case
        states = prod(count + 1 for count in counts)
        yield f"calls of their own, {counts}", partial(has_counts, program, own_calls(counts), 1, states)
    yield "big-write", partial(has_counts, program, BIG_WRITE.read_text(), 8, 44)
    yield "no call", partial(outcomes_are, program, "join\nrace\n", [""], 1)
    yield "nobody", partial(outcomes_are, program, "race", [""], 1)
    yield "empty lines", partial(outcomes_are, program, "\njoin\n\nrace\n\np0 getfl 9\n\n", ["error EBADF"], 2)
    never = FORKED + "race\np0 read 0 1\np0 close 0\np1 close 0\n"
    yield "a call that waits for ever", partial(outcomes_are, program, never, ["waits 0, -, ok"], 4)
    part = FORKED + "race\np0 write 1 61*2000\np1 read 0 100\np0 close 1\n"
    yield "a write that waits with a part", partial(outcomes_are, program, part, ["waits 1124, 61*100, -"], 6)


# ---- what is asked for


def asked_cases(program: Sequence[str]) -> Iterator[Case]:
    """Each outcome is found where it is asked for, alone or in part, and others are not."""
    for file in [BIG_WRITE, *(RACES / f"{name}.race" for name in ("512-and-513-bytes", "link-beside-unlink"))]:
        yield file.stem, partial(are_found_alone, program, read_race(file.read_bytes()))
    file = "join\np0 open f rw,creat\np0 write 0 61*40\nrace\n"
    for read, spellings in (
        ("p0 pread 0 0 3", ["61*3", "x616161"]),
        ("p0 pread 0 0 17", ["61*17", "x" + "61" * 17]),
        ("p0 pread 0 40 3", ["x", "62*0"]),
    ):
        answer = Explorer(read_race(f"{file}{read}\n".encode())).texts()[0]
        for spelling in spellings:
            case = partial(outcomes_are, program, f"{file}{read} = {spelling}\n", [answer], 2)
            yield f"{read} = {spelling[:9]}", case
        yield f"{read} = 61*4", partial(outcomes_are, program, f"{file}{read} = 61*4\n", [], 2)
    for call, answer in (("pipe", "1 2"), ("fstat 0", "regular 40 1"), ("close 9", "error EBADF"), ("close 0", "ok")):
        for asked in (answer, "?", "-", "18446744073709551615", "4294967295 0", "fifo 0 18446744073709551615"):
            texts = [answer] if asked in (answer, "?") else []
            yield f"{call} = {asked}", partial(outcomes_are, program, f"{file}p0 {call} = {asked}\n", texts, 2)


def states_of(program: Sequence[str], race: Race) -> int:
    """How many positions the program meets in a race."""
    last = re.search(rb"states (\d+)\n\Z", given(program, race.text().encode()).stdout)
    assert last
    return int(last[1])


def are_found_alone(program: Sequence[str], race: Race) -> None:
    """Each outcome that is asked for in full is the only one; `?` asks for nothing; and where one answer is left out or
    is another one, the outcomes are those that agree."""
    states, texts = states_of(program, race), Explorer(race).texts()
    prints(program, printed(race, texts, states), race.text(["?"] * len(race.calls)))
    for text in texts:
        answers = text.split(", ")
        prints(program, printed(race, [text], states), race.text(answers))
        for at, other in zip(range(len(answers)), cycle(["?", "-", "waits 7", "?", "error ENOSPC"]), strict=False):
            asked = [*answers[:at], other, *answers[at + 1 :]]
            agree = [text for text in texts if agrees(asked, text.split(", "))]
            prints(program, printed(race, agree, states), race.text(asked))


def agrees(asked: Sequence[str], answers: Sequence[str]) -> bool:
    """Whether each answer is the one that is asked for, or any may be."""
    return all(one in ("?", answer) for one, answer in zip(asked, answers, strict=True))


# ---- witnesses


def witness_cases(program: Sequence[str]) -> Iterator[Case]:
    """Each outcome has an order that ends in it."""
    for file in [BIG_WRITE, *sorted(RACES.glob("*.race"))]:
        for limits in ROOMS if "bytes" in file.stem or file is BIG_WRITE else ROOMS[:1]:
            case = partial(all_lead_there, program, read_race(file.read_bytes()), limits)
            yield f"{file.stem} in pipes of {limits.capacity}", case
    nothing = Ran(1, b"", b"no such outcome\n")
    for number in ("8", "4294967295"):
        yield f"outcome {number}", partial(prints, program, nothing, BIG_WRITE.read_text(), "--witness", number)
    yield "none agrees", partial(none_agrees, program)


def lines_for(program: Sequence[str], race: Race, limits: Limits, *words: str) -> list[str]:
    """The lines that the program prints for a race, where it ends well."""
    done = given(program, race.text().encode(), limits, *words)
    require(done.status == 0 and not done.stderr, done.said())
    return done.stdout.decode("ascii").splitlines()


def apart(lines: Sequence[str]) -> tuple[list[str], list[list[str]]]:
    """The lines that are printed without witnesses, and those of the witness of each outcome."""
    plain: list[str] = []
    behind: list[list[str]] = []
    for line in lines:
        if re.match("race |outcomes? ", line):
            plain.append(line)
            behind += [[]] if line.startswith("outcome ") else []
        else:
            behind[-1].append(line)
    return plain, behind


def all_lead_there(program: Sequence[str], race: Race, limits: Limits) -> None:
    """The witnesses stand behind the lines of their outcomes, as records and as acts, and each leads there."""
    texts = Explorer(race, limits).texts()
    plain, records = apart(lines_for(program, race, limits, "--witness", "all"))
    same(printed(race, texts, int(plain[-1].split(" ")[-1])).stdout.decode().splitlines(), plain)
    same_plain, acts = apart(lines_for(program, race, limits, "--witness", "all", "--acts"))
    same(plain, same_plain)
    same(acts[0], lines_for(program, race, limits, "--witness", "0", "--acts"))
    same(records[-1], lines_for(program, race, limits, "--witness", str(len(texts) - 1)))
    for text, told, asked in zip(texts, records, acts, strict=True):
        leads_there(program, race, limits, text, told, asked)


def leads_there(
    program: Sequence[str], race: Race, limits: Limits, text: str, told: Sequence[str], acts: Sequence[str]
) -> None:
    """Records are an order of the race that ends in an outcome, and the program replays their acts."""
    script = [*acts, *(f"p{process} resume" for process in race.lanes())]
    ran = run([*program, "replay", *capacity_words(limits)], "".join(f"{line}\n" for line in script).encode())
    replayed = ran.stdout.decode("ascii").splitlines()
    same(told, replayed[: len(told)])
    same(["still"] * len(race.lanes()), [line_of(line).outcome for line in replayed[len(told) : -1]])
    same(text, ", ".join(answers_of(race, [line_of(line) for line in told])))


def answers_of(race: Race, lines: Sequence[Line]) -> list[str]:
    """The answers in the lines of an order, in which each process makes its calls, or waits in one."""
    lanes = race.lanes()
    told: dict[int, list[str]] = {process: [] for process in lanes}
    for line in lines[len(race.setup) :]:
        own = told[line.number()]
        if line.act.endswith(" resume"):
            own.pop()
        else:
            same(plain_model.act_text(lanes[line.number()][len(own)]), line.act)
        own.append(line.outcome)
    for process, own in told.items():
        is_waiting = bool(own) and answer_of(own[-1]).startswith("waits ")
        require(is_waiting or len(own) == len(lanes[process]), f"p{process} has calls left, and does not wait")
    return race.answers(told)


def none_agrees(program: Sequence[str]) -> None:
    """Where no outcome agrees with what is asked for, there is no witness."""
    text = "join\nrace\np0 pipe = ok\n"
    prints(program, Ran(1, b"race 0 p0 pipe\noutcomes 0 states 2\n", b""), text, "--witness", "all")
    prints(program, Ran(1, b"", b"no such outcome\n"), text, "--witness", "0")


# ---- what is no race

NOT_A_CALL = "not a call\nexpected a call of a process, as p0 read 0 5"
REFUSED = "refused\nexpected an act that leaves a record: a join, an attach, or a call or exit of an attached process"
WAITS = "waits\nexpected a call that comes back before the race"
ABSENT = "not attached\nexpected a call of a process that is attached when the race begins"
NO_ANSWER = "not an answer\nexpected ? or an answer, as 5, x6869, ok, error EBADF, waits 0 or -"
NO_RACE = "no race\nexpected a line race after the acts before it"
ACTOR_OR_RACE = "not an act\nexpected a process, as p0, or join or race"
PROCESS = "not an act\nexpected a process, as p0"
ACT = "not an act\nexpected a call, attach, resume or exit"
CALL = "not an act\nexpected a call"
NO_RETURN = "not an act\nexpected a line without a carriage return at its end"

BAD_RACES = [
    ("", NO_RACE),
    ("join\np0 pipe\n", NO_RACE),
    ("join\nrace \n", f"line 2 column 1: {ACTOR_OR_RACE}"),
    ("join\n race\n", f"line 2 column 1: {ACTOR_OR_RACE}"),
    ("join\r\nrace\r\n", f"line 1 column 1: {NO_RETURN}"),
    ("join\nrace\r\n", f"line 2 column 1: {NO_RETURN}"),
    ("race\n\np0 pipe\r", f"line 3 column 4: {NO_RETURN}"),
    ("race\np0 opne = ?\r\n", f"line 2 column 4: {NO_RETURN}"),
    ("race\np0 pipe = ?\r\n", f"line 2 column 11: {NO_ANSWER}"),
    ("join\np0 opne\nrace\r\n", f"line 2 column 4: {ACT}"),
    ("# none\nrace\n", f"line 1 column 1: {ACTOR_OR_RACE}"),
    ("join\nraec\np0 pipe\n", f"line 2 column 1: {ACTOR_OR_RACE}"),
    ("join\np0\nrace\n", f"line 2 column 3: {ACT}"),
    ("join\np0 race\n", f"line 2 column 4: {ACT}"),
    ("race\nrace\n", f"line 2 column 1: {PROCESS}"),
    ("race\n\n p0 pipe\n", f"line 3 column 1: {PROCESS}"),
    ("race\njion = ok\n", f"line 2 column 1: {PROCESS}"),
    ("join\nrace\np0 foo\n", f"line 3 column 4: {CALL}"),
    ("join\nrace\np0\n", f"line 3 column 3: {CALL}"),
    ("race\np0 opne = ?\n", f"line 2 column 4: {CALL}"),
    ("join\n\np0 pipe 1\nrace\n", "line 3 column 9: not an act\nexpected the end of the line"),
    ("join\np0 pipe = 0 1\nrace\n", "line 2 column 9: not an act\nexpected the end of the line"),
    ("race\np0 close\n", "line 2 column 9: not an act\nexpected a descriptor, from -2147483648 to 2147483647"),
    ("race\np0 lseek 0 0 x = ?\n", "line 2 column 14: not an act\nexpected set, cur or end"),
    ("race\np0 pipe  = 0 1\n", "line 2 column 9: not an act\nexpected the end of the line"),
    ("race\njoin\n", f"line 2: {NOT_A_CALL}"),
    ("race\nclose-run\n", f"line 2: {NOT_A_CALL}"),
    ("race\n\np0 attach\n", f"line 3: {NOT_A_CALL}"),
    ("race\np0 resume = 0\n", f"line 2: {NOT_A_CALL}"),
    ("race\np0 exit = no\n", f"line 2: {NOT_A_CALL}"),
    ("p0 pipe\nrace\n", f"line 1: {REFUSED}"),
    ("join\np0 fork\np1 pipe\nrace\n", f"line 3: {REFUSED}"),
    ("join\np0 resume\nrace\n", f"line 2: {REFUSED}"),
    ("join\nclose-run\nrace\n", f"line 2: {REFUSED}"),
    ("join\n\np0 exit\np0 exit\nrace\n", f"line 4: {REFUSED}"),
    ("join\np0 pipe\np0 read 0 1\nrace\n", f"line 3: {WAITS}"),
    ("join\np0 pipe\np0 write 1 61*1025\np0 pipe\nrace\n", f"line 3: {WAITS}"),
    ("join\np0 mkfifo a\np0 open a r\np0 pipe\nrace\n", f"line 3: {WAITS}"),
    ("race\np0 pipe\n", f"line 2: {ABSENT}"),
    ("join\np0 fork\nrace\np0 pipe\np1 pipe\np2 pipe\n", f"line 5: {ABSENT}"),
    ("join\np0 exit\nrace\np0 pipe\n", f"line 4: {ABSENT}"),
    ("join\nrace\np0 fork\np1 pipe\n", f"line 4: {ABSENT}"),
    # the first fault is told: what is read before what is made, and each in the order of its lines
    ("p0 pipe\nrace\np0 pipe = no\n", f"line 3 column 11: {NO_ANSWER}"),
    ("p0 pipe\nrace\np0 pipe\n", f"line 1: {REFUSED}"),
    ("race\np0 exit\np0 opne\n", f"line 2: {NOT_A_CALL}"),
    ("p0 opne\n", f"line 1 column 4: {ACT}"),
    ("race\n" + "\n" * SCRIPT_MOST, TOO_LONG),
]

BAD_ANSWERS = """
 |no|OK|ok |? |??|- |--|= 0|0 = 0|01|+1|-1|18446744073709551616|x6|xAA|61*65701|waits|waits |waits -1|waits 01
waits 4294967296|waits 0 0|error|error EIO|error EBADF |error ebadf|error EBADF EBADF|0 1 2|0  1|0 x|regular|regular 0
regular 0 1 2|regular 0 x|pipe 01 0|socket 0 0|parked 0|part 1|still|refused|1 ok|ok 1|x61 x62|\t0
"""


def fault_cases(program: Sequence[str]) -> Iterator[Case]:
    """What is no race, and what is told of it."""
    for text, told in BAD_RACES:
        wanted = Ran(3, b"", f"{told}\n".encode())
        yield f"race {text[:40]!r}", partial(prints, program, wanted, text)
        if told != TOO_LONG:
            yield f"race {text[:40]!r}, a witness", partial(prints, program, wanted, text, "--witness", "0")
    for answer in BAD_ANSWERS.strip("\n").replace("\n", "|").split("|"):
        wanted = Ran(3, b"", f"line 3 column 14: {NO_ANSWER}\n".encode())
        yield f"answer {answer!r}", partial(prints, program, wanted, f"join\nrace\np0 getfl 0 = {answer}\n")
    for words in (["--states", "0"], ["--states", "100000001"], ["--states", "x"], ["--witness", "-1"], ["--witness"]):
        yield f"words {words}", partial(is_no_command, program, words)
    for words in (["--witness", "01x"], ["--witness", "All"], ["--pipe-capacity", "511"], ["--records", "9"], ["file"]):
        yield f"words {words}", partial(is_no_command, program, words)
    yield "states", partial(states_are_bounded, program)


def is_no_command(program: Sequence[str], words: Sequence[str]) -> None:
    """The program does not take these words."""
    done = given(program, b"race\n", DEFAULTS, *words)
    require(done.status == 2 and not done.stdout and done.stderr, done.said())


def states_are_bounded(program: Sequence[str]) -> None:
    """A race may have as many positions as are allowed, and no more."""
    text = BIG_WRITE.read_text()
    prints(program, given(program, text.encode()), text, "--states", "44")
    for states in (1, 43):
        prints(program, too_many(states), text, "--states", str(states))
        prints(program, too_many(states), text, "--states", str(states), "--witness", "all")


# ---- the examples


PART = re.compile(r"^## \[(.+?)\]\(\1\.race\)\n(.*?)(?=^## |\Z)", re.MULTILINE | re.DOTALL)
TOLD = re.compile(r"^- `(.*)`$", re.MULTILINE)


def example_cases(program: Sequence[str]) -> Iterator[Case]:
    """The examples have the outcomes that their page tells, and each has a part of it."""
    told = dict(PART.findall((RACES / "README.md").read_text()))
    yield "the page of examples", partial(same, sorted(file.stem for file in RACES.glob("*.race")), sorted(told))
    for name, part in told.items():
        yield name, partial(row_is_right, program, (RACES / f"{name}.race").read_text(), TOLD.findall(part))


def row_is_right(program: Sequence[str], text: str, wanted: Sequence[str]) -> None:
    """An example has the outcomes of its row."""
    race = read_race(text.encode())
    same(wanted, Explorer(race).texts())
    prints(program, printed(race, wanted, states_of(program, race)), text)
