"""A plain auditor of traces, written from docs/FORMATS.md and docs/PROFILE.md alone.

`audited(trace)` gives what `fdref audit` has to give for a file that holds these bytes, `completed(trace)` what `fdref
audit --complete` has to, `shown(trace)` what `fdref show` has to, and `migrated(trace)` what `fdref migrate` has to,
with the bytes that it has to write. It judges the records by the plain model, one after another, and knows nothing of
the program.
"""

from collections.abc import Iterable, Iterator
from typing import NamedTuple

from support import plain_model
from support.frames import MAGIC, MIGRATED_HEADER, MOST, OLD_HEADER_LENGTH, Header, Malformed, line_of, read_header
from support.plain_model import DEFAULTS, Limits
from support.running import Ran
from support.runs import line_of as run_line_of

# More records than any trace has.
NO_LIMIT = 2**64


class Judge(plain_model.Run):
    """The model beside the records of a trace: what it records for each act, of whoever it is."""

    def __init__(self, limits: Limits = DEFAULTS) -> None:
        super().__init__(NO_LIMIT, limits)

    def outcome_of(self, act: plain_model.Act) -> str | None:
        """The outcome that an act has now, or None where the model records nothing for it."""
        process = self.world.processes.get(act.actor) if isinstance(act.actor, int) else None
        if act.word == "join" and act.actor != self.world.next_number:
            return None
        if act.word == "exit" and process:
            # that of a child which nobody has attached is a record, too: the closing makes it
            self.end(process)
        elif act.word == "close-run" and not self.world.is_closed:
            # the children without a connection have exits of their own before it, or live on
            self.world.is_closed = True
            self.record(act, "ok")
        else:
            self.take(act)
        line = run_line_of(self.lines.pop().rstrip("\n"))
        return None if line.place == "-" else line.outcome

    def can_end(self, records: int) -> bool:
        """Whether so many records are enough for those up to now, for an exit of each process that lives, and for the
        closing that is to come."""
        return records - self.records >= len(self.world.processes) + (not self.world.is_closed)


def act_of(text: str) -> plain_model.Act:
    """The act of a record's line, with its actor."""
    actor, word = text.split(" ")[:2]
    if word == "close-run":
        return plain_model.Act("house", word)
    if word == "join":
        return plain_model.Act(int(actor[1:]), word)
    return plain_model.read_act(text.encode())


class Frames:
    """The header of a trace, if it is whole and right, the whole records as lines, where each ends, and what ends them:
    a rest, or a fault and where it is."""

    def __init__(self, trace: bytes) -> None:
        self.header: Header | None = None
        self.lines: list[str] = []
        self.ends: list[int] = []
        self.fault: int | None = None
        at = 0
        try:
            self.header = read_header(trace)
        except Malformed:
            self.fault = 0
        if self.header:
            at = self.read(trace, self.header.length)
        self.rest = len(trace) - at

    def read(self, trace: bytes, at: int) -> int:
        """Reads frames from a place on, and gives where it ends."""
        while len(trace) - at >= 4:
            length = int.from_bytes(trace[at : at + 4], "big")
            end = at + 4 + length
            if end > len(trace) and length <= MOST["records"]:
                break
            try:
                if length > MOST["records"]:
                    raise Malformed
                self.lines.append(line_of("records", trace[at + 4 : end], len(self.lines)))
            except Malformed:
                self.fault = at
                break
            at = end
            self.ends.append(end)
        return at


class Audit:
    """The audit of a trace: its verdict, as `fdref audit` gives it, and the model after the records that are legal, of
    a kind that may note more."""

    def __init__(self, trace: bytes, kind: type[Judge] = Judge) -> None:
        self.frames = Frames(trace)
        header = self.frames.header
        self.records = header.records if header else 0
        self.judge = kind(header.limits if header else DEFAULTS)
        # whether the record that decides it is right, and leaves too few for the end of the run
        self.is_endless = False
        self.verdict = self.judged()

    def judged(self) -> Ran:
        """The verdict, which the first record decides that is not the model's, or after which a run of so many records
        could not end any more; and else the end of the trace."""
        for place, text in enumerate(self.frames.lines):
            line = run_line_of(text)
            wanted = self.judge.outcome_of(act_of(line.act))
            if wanted != line.outcome:
                return illegal(place, wanted)
            if self.records and not self.judge.can_end(self.records):
                self.is_endless = True
                return illegal(place, None)
        if self.frames.fault is not None:
            return Ran(8, b"malformed %d\n" % self.frames.fault, b"")
        return legal(len(self.frames.lines), self.frames.rest)


def legal(records: int, rest: int = 0) -> Ran:
    """The verdict on a trace of so many records, all right, and so many bytes after them."""
    told = b"" if records else b"nothing to judge: the trace has no whole record\n"
    return Ran(0, b"legal %d rest %d\n" % (records, rest), told)


def illegal(place: int, wanted: str | None) -> Ran:
    """The verdict on a trace whose record at a place is wrong, with the outcome that it should have, or None."""
    return Ran(7, f"illegal {place} expected {wanted or 'none'}\n".encode(), b"")


def why_none(trace: bytes, said: str) -> str:
    """Why an audit of a trace, which has said this, expects no outcome of a record."""
    audit = Audit(trace)
    own = audit.verdict.stdout.decode("ascii").strip()
    if own != said:
        return f"but by the plain model it is {own}"
    if audit.is_endless:
        return "after it too few records are left for the run to end"
    act = run_line_of(audit.frames.lines[int(said.split(" ")[1])]).act
    return f"the model records nothing for `{act}` there"


def audited(trace: bytes) -> Ran:
    """What `fdref audit` gives for a trace."""
    return Audit(trace).verdict


def completed(trace: bytes) -> Ran:
    """What `fdref audit --complete` gives for a trace."""
    audit = Audit(trace)
    lines = audit.frames.lines
    is_closed = bool(lines) and act_of(run_line_of(lines[-1]).act).word == "close-run"
    if audit.verdict.status or (is_closed and not audit.frames.rest):
        return audit.verdict
    fault = b"not complete\nexpected house close-run as the last record, and nothing after it\n"
    return Ran(1, audit.verdict.stdout, fault)


def script_lines(lines: Iterable[str]) -> Iterator[str]:
    """The lines of a script that asks for the acts of some records. None asks for the exit of a child that was never
    attached, which the closing makes. At most so many children are minded as may live."""
    children: list[str] = []
    for text in lines:
        line = run_line_of(text)
        actor, word = line.act.split(" ")[:2]
        if word != "exit" or actor not in children:
            yield word if word in ("join", "close-run") else line.act
        if word == "exit" or (word == "attach" and line.outcome == "ok"):
            children = [child for child in children if child != actor]
        elif word == "fork" and line.outcome.isdigit() and len(children) < plain_model.PROCESSES_MAX:
            children.append(f"p{line.outcome}")


def shown(trace: bytes, acts: bool = False) -> Ran:
    """What `fdref show` gives for a trace, or `fdref show --acts`: its whole records, and what is left over."""
    frames = Frames(trace)
    lines = script_lines(frames.lines) if acts else frames.lines
    text = "".join(f"{line}\n" for line in lines).encode()
    if frames.fault is not None:
        return Ran(8, text, b"malformed %d\n" % frames.fault)
    return Ran(0, text, b"rest %d\n" % frames.rest if frames.rest else b"")


class Migrated(NamedTuple):
    """What `fdref migrate` gives for a trace, and the bytes that it writes."""

    ran: Ran
    written: bytes


def migrated(trace: bytes) -> Migrated:
    """The migration of a trace, which has version 1 where it is not malformed: its header is changed, all else is not.
    Nothing is judged."""
    frames = Frames(trace)
    is_old = not trace.startswith(MAGIC)
    fault = frames.fault if is_old else 0
    if fault is None and not frames.header:
        # a part of the header, which has no other part in version 2
        return Migrated(Ran(0, b"migrated 0 rest %d\n" % len(trace), b""), trace)
    if fault == 0:
        return Migrated(Ran(8, b"malformed 0\n", b""), b"")
    told = b"migrated %d rest %d\n" % (len(frames.lines), frames.rest)
    written = MIGRATED_HEADER + trace[OLD_HEADER_LENGTH : len(trace) if fault is None else fault]
    return Migrated(Ran(0, told, b"") if fault is None else Ran(8, b"malformed %d\n" % fault, b""), written)
