"""The lines of a run that a driver prints for a script, and whether they are that: what is not the run of its script
cannot be compared with fdref."""

import itertools
import re
from collections.abc import Mapping, Sequence
from types import MappingProxyType
from typing import NamedTuple, NoReturn

from support import plain_model
from support.histories import ERROR, NOT_ASKED, NUMBER, PATTERNS, given_by
from support.outcomes import script_line
from support.running import CannotRun
from support.runs import Line, line_of
from support.texts import several, shown

# What is not seen of a write that waits.
UNSEEN = "?"
LINE = re.compile(rb"(?:-|0|[1-9][0-9]*) \S.* = \S.*")
TOTALS = re.compile(rb"records [0-9]+ in (?:[0-9]+|\?) out [0-9]+")
TOTALS_FORM = "`records R in I out O`"
# The outcomes of acts that leave no record, and the calls that may wait.
NO_RECORD = re.compile(r"still|refused [A-Z][A-Za-z]*")
MAY_WAIT = ("open", "read", "write")
# How much of a line is shown.
SHOWN = 120


class NoRun(CannotRun):
    """What a driver prints that is not the run of its script: what is told of it after the driver's name."""

    def __init__(self, text: str, driver: str = "ask_kernel") -> None:
        super().__init__(f"{driver}{text}")
        self.text = text

    def of(self, driver: str) -> "NoRun":
        """The same of a driver that has another name."""
        return NoRun(self.text, driver)


# ---- lines of a run


def act_of(line: Line) -> str:
    """A line's act, as it stands in a script."""
    word = line.act.partition(" ")[2]
    return word if word in ("join", "close-run") else line.act


def bytes_of_write(line: Line) -> int:
    """How many bytes the write of a line has."""
    return len(plain_model.read_data(line.act.split(" ")[3].encode()) or b"")


def is_told_back(line: Line) -> bool:
    """Whether a line tells that a call came back: no act of the script stands for it."""
    return line.act.endswith(" resume") and line.place != "-"


def ends_of_closing(lines: Sequence[Line]) -> set[int]:
    """The places of the exits that closing the run has made."""
    unattached: set[str] = set()
    found: set[int] = set()
    for place, line in enumerate(lines):
        who, _, word = line.act.partition(" ")
        if word == "fork" and line.outcome.isdigit():
            unattached.add(f"p{line.outcome}")
        elif word == "attach" and line.outcome == "ok":
            unattached.discard(who)
        elif word == "exit" and who in unattached and line.place != "-":
            found.add(place)
    return found


def places_of_script(lines: Sequence[Line]) -> list[int]:
    """The places of the lines that stand for the acts of a script."""
    ends = ends_of_closing(lines)
    return [place for place, line in enumerate(lines) if line.act and not is_told_back(line) and place not in ends]


# ---- acts that others stand for


class Known:
    """What is known of a run: the places of the differences that have a reason, for places of others the acts that
    fdref is given instead, and how many links a file has at most, which are more than fdref's where its model is
    asked."""

    def __init__(
        self,
        instead: Mapping[int, Sequence[plain_model.Act]] = MappingProxyType({}),
        link_max: int = plain_model.LINK_MAX,
    ) -> None:
        self.places: set[int] = set()
        self.instead = instead
        self.link_max = link_max

    def is_of_model(self) -> bool:
        """Whether fdref's model is asked in its place, which has more links."""
        return self.link_max > plain_model.LINK_MAX

    def given(self, lines: Sequence[Line], place: int) -> list[str]:
        """The acts that fdref is given for a line, as they stand in a script."""
        return list(map(script_line, self.instead[place])) if place in self.instead else [act_of(lines[place])]

    def but(self, place: int, acts: Sequence[plain_model.Act]) -> "Known":
        """The same, where it is given these for a line."""
        other = Known({**self.instead, place: acts}, self.link_max)
        other.places = set(self.places)
        return other

    def joined(self, lines: Sequence[Line], found: Sequence[Line]) -> list[Line]:
        """What fdref has printed for these acts, as a line for each of the system."""
        joined: list[Line] = []
        at = 0
        for place, line in enumerate(lines):
            count = len(self.given(lines, place))
            here = found[at : at + count]
            at += count
            if place in self.instead:
                here = [line._replace(outcome=together([it.outcome for it in here], line.outcome))]
            joined += here
        joined += found[at:]
        more = sum(len(acts) - 1 for acts in self.instead.values())
        _, records, rest = joined[-1].outcome.split(" ", 2)
        return [*joined[:-1], joined[-1]._replace(outcome=f"records {int(records) - more} {rest}")]


def together(outcomes: Sequence[str], otherwise: str) -> str:
    """What acts give together that stand for one; where there are none, what that one gave."""
    if len(outcomes) < 2 or not is_taken(outcomes[0]):
        return outcomes[0] if outcomes else otherwise
    given = [it for it in outcomes if is_taken(it)]
    if outcomes[0].isdigit():
        return str(sum(map(int, given)))
    return plain_model.data_text(b"".join(plain_model.read_data(it.encode()) or b"" for it in given))


def is_taken(outcome: str) -> bool:
    """Whether an act was neither refused nor ended in an error."""
    return not outcome.startswith(("error ", "refused ", "parked "))


# ---- the run of a script


def run_of(script: Sequence[bytes], output: bytes) -> list[Line]:
    """The lines of the run of a script, of which a driver has printed this. Fails where it is not that run."""
    lines = lines_of(output)
    check_acts(script, lines)
    Outcomes().check(lines)
    return lines


def lines_of(output: bytes) -> list[Line]:
    """The lines that a driver has printed, that of the totals at the end."""
    *records, last = output.splitlines() or [b""]
    for place, text in enumerate(records):
        if TOTALS.fullmatch(text):
            wrong(place, f"has the totals, and {several(len(records) - place, 'line')} after it")
        if not LINE.fullmatch(text) or not text.isascii():
            wrong(place, f"is no line of a run: {shown(text, SHOWN)}")
    if not TOTALS.fullmatch(last):
        raise NoRun(f" does not print {TOTALS_FORM} in the end; its last line is {shown(last, SHOWN)}")
    return [line_of(text.decode("ascii")) for text in (*records, last)]


def check_acts(script: Sequence[bytes], lines: Sequence[Line]) -> None:
    """Fails unless the acts of a run are those of its script, each in its order and as a line of a run spells it."""
    places = places_of_script(lines)
    for place, line in itertools.zip_longest(places, script):
        if place is None:
            left = len(script) - len(places) - 1
            more = f", nor {several(left, 'act')} after it" if left else ""
            raise NoRun(f" did not run {told(line.decode())}{more}")
        if line is None:
            wrong(place, f"is no act of the script: {told(act_of(lines[place]))}")
        check_act(place, act_of(lines[place]), line)


def check_act(place: int, given: str, line: bytes) -> None:
    """Fails unless an act of a run is that of a line of its script."""
    act = plain_model.read_act(line)
    wanted = script_line(act)
    if given == wanted:
        return
    try:
        is_same = plain_model.read_act(given.encode()) == act
    except plain_model.NotAnAct:
        wrong(place, f"has no act: {told(given)}, where the script has {told(wanted)}")
    if is_same:
        wrong(place, f"spells an act otherwise than docs/FORMATS.md: {told(given)}, not {told(wanted)}")
    raise NoRun(f" did not run {told(wanted)}: line {place + 1} has {told(given)}")


class Waiting(NamedTuple):
    """A call that waits: its word, and whether it is not seen how many bytes it has moved."""

    word: str
    is_unseen: bool


class Outcomes:
    """The lines of a run up to one, as far as they decide what the next may say."""

    def __init__(self) -> None:
        self.records = 0
        self.waiting: dict[str, Waiting] = {}
        # how many writes of which it is not seen how much went in have not come back
        self.unseen = 0

    def check(self, lines: Sequence[Line]) -> None:
        """Fails unless each line has an outcome that it may have."""
        for place, line in enumerate(lines[:-1]):
            expected = self.expected(line)
            if expected:
                wrong(place, f"gives `{line.outcome}` for {told(line.act)}; expected {expected}")
        _, records, _, bytes_in, *_ = lines[-1].outcome.split(" ")
        if int(records) != self.records:
            wrong(len(lines) - 1, f"tells of {several(int(records), 'record')}, and {self.records} are before it")
        if bytes_in == UNSEEN and not self.unseen:
            wrong(len(lines) - 1, "does not tell the bytes that went in, and no write of more than 512 bytes waits")

    def expected(self, line: Line) -> str:
        """What a line could say that does not say it, or nothing."""
        if line.place == "-":
            return "" if NO_RECORD.fullmatch(line.outcome) else "still, refused with a name, or a place of a record"
        if int(line.place) != self.records:
            return f"it at place {self.records}"
        self.records += 1
        who, word, *_ = line.act.split(" ")
        # an attach is an act of the one who attaches, and who waits goes on to wait
        waits = None if word == "attach" else self.waiting.pop(who, None)
        self.unseen -= waits is not None and waits.is_unseen and word == "resume"
        return self.expected_back(line, who, waits) if word == "resume" else self.expected_first(line, who, word)

    def expected_first(self, line: Line, who: str, word: str) -> str:
        """What could be said of a call, or of another act, that is made."""
        if line.outcome == NOT_ASKED and may_be_unasked(line):
            return ""
        if line.outcome.startswith("parked ") and word in MAY_WAIT:
            return self.expected_of_waiting(line, who, Waiting(word, line.outcome.endswith(UNSEEN)))
        waits = ", or that it waits" if word in MAY_WAIT else ""
        return "" if is_given(word, line.outcome) else f"{given_by(word)}, an error, as error EBADF{waits}"

    def expected_of_waiting(self, line: Line, who: str, waits: Waiting) -> str:
        """What could be said of a call that begins to wait."""
        self.waiting[who] = waits
        self.unseen += waits.is_unseen
        if waits.word != "write":
            return "" if line.outcome == "parked 0" else "parked 0"
        if waits.is_unseen:
            is_large = bytes_of_write(line) > plain_model.PIPE_BUF
            return "" if is_large else "parked 0, since it has no more than 512 bytes"
        if re.fullmatch(f"parked {NUMBER}", line.outcome):
            return ""
        is_large = bytes_of_write(line) > plain_model.PIPE_BUF
        return "parked N, with N bytes moved" + (f", or parked {UNSEEN}" if is_large else "")

    def expected_back(self, line: Line, who: str, waits: Waiting | None) -> str:
        """What could be said of a call that waited, and has come back or moved on."""
        if not waits:
            return f"it of a process that waits, which {who} does not"
        is_part = waits.word == "write" and re.fullmatch(f"part {NUMBER}", line.outcome) is not None
        if is_part or (waits.is_unseen and line.outcome == UNSEEN):
            self.waiting[who] = waits
            self.unseen += waits.is_unseen
            return ""
        parts = ", part N with N bytes moved so far" if waits.word == "write" else ""
        parts += f", {UNSEEN}" if waits.is_unseen else ""
        expected = f"{given_by(waits.word)}{parts}, or an error, as error EPIPE"
        return "" if is_given(waits.word, line.outcome) else expected


def is_given(word: str, outcome: str) -> bool:
    """Whether an act may come to this: an error or what it gives, as docs/FORMATS.md spells it."""
    if not re.fullmatch(f"{PATTERNS.get(given_by(word), NUMBER)}|{ERROR}", outcome):
        return False
    data = plain_model.read_data(outcome.encode()) if given_by(word) == plain_model.DATA else None
    return data is None or plain_model.data_text(data) == outcome


def may_be_unasked(line: Line) -> bool:
    """Whether a driver need not make a call: its name leads out of the folder, or it opens for nothing."""
    act = plain_model.read_act(act_of(line).encode())
    fields = list(zip(plain_model.FIELDS.get(act.word, ()), act.fields, strict=True))
    names = [value for reader, value in fields if reader is plain_model.read_name]
    leads_out = any(name in (b".", b"..") or b"/" in name or b"\0" in name for name in names)
    return leads_out or (act.word == "open" and act.fields[1].startswith("-"))


def check_alike(system: Sequence[Line], fdref: Sequence[Line], place: int) -> None:
    """Fails where two runs of the same acts have another act at a place: closing the run has ended other processes."""
    if place >= len(fdref):
        raise CannotRun(f"fdref prints {several(len(fdref), 'line')} of {len(system)}")
    if place >= len(system) or system[place].act != fdref[place].act:
        given = told(system[place].act) if place < len(system) else "nothing"
        wrong(place, f"has {given}, where closing the run gives {told(fdref[place].act)}")


def told(act: str) -> str:
    """An act, for a reader: a long one is cut in the middle."""
    return f"`{act if len(act) <= SHOWN else act[: SHOWN - 43] + '...' + act[-40:]}`"


def wrong(place: int, why: str) -> NoReturn:
    """Fails for the line at a place of a run."""
    raise NoRun(f": line {place + 1} {why}")
