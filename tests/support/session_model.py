"""A plain model of a session: what it is served and what becomes of its streams, from docs/FORMATS.md and the calls by
`plain_model`.

`Session(text, ..).wanted()` gives all that the trial may print, crates/session_trial, by when its threads come to run.
"""

from collections.abc import Callable, Iterable, Iterator
from enum import Enum
from functools import lru_cache
from typing import NamedTuple

from support import plain_model
from support.frames import Stream, framed, recorded, refused

READS_MAX = 1_048_576
INTERRUPTIONS_MAX = 16
PIECE_MOST = 65_536
GATHERED_MOST = 65_536
AHEAD_MOST = 16


class Manner(NamedTuple):
    """How a stream answers.

    The most bytes of a call, the call that fails (0 for none), how many are interrupted before each other one, and the
    flush that fails (0 for none).
    """

    most: int = 2**32
    fails_at: int = 0
    interruptions: int = 0
    flush_fails_at: int = 0


PLAIN = Manner()


# ---- the streams of a session


class Calls:
    """The calls on a stream: how many there were, how many at the end were interrupted, and whether one failed."""

    def __init__(self, manner: Manner, calls: int = 0, interruptions: int = 0) -> None:
        self.manner = manner
        self.calls, self.interruptions = calls, interruptions
        self.failed = False

    def is_broken(self) -> bool:
        """Whether nothing more is asked of the stream."""
        return self.failed or self.interruptions >= INTERRUPTIONS_MAX

    def call(self, use: Callable[[], int]) -> int | None:
        """One call: how many bytes `use` gives or takes, or nothing where the call is interrupted or fails."""
        self.calls += 1
        if self.calls == self.manner.fails_at:
            self.failed, self.interruptions = True, 0
        elif self.calls % (self.manner.interruptions + 1):
            self.interruptions += 1
        else:
            self.interruptions = 0
            return use()
        return None


class Reader(Calls):
    """What a session reads: bytes to be read from their start on."""

    def __init__(self, text: bytes, manner: Manner) -> None:
        super().__init__(manner)
        self.text = text
        self.at = 0

    def give(self) -> int:
        """How many bytes one call reads."""
        count = min(max(self.manner.most, 1), PIECE_MOST, len(self.text) - self.at)
        self.at += count
        return count

    def read(self) -> int | None:
        """Reads once more: how many bytes, none at the end, or nothing."""
        return self.call(self.give)


class Sent(NamedTuple):
    """What became of a writer: how many bytes it took, its calls and flushes, and if its answers were cut once more."""

    size: int = 0
    calls: int = 0
    interruptions: int = 0
    failed: bool = False
    flushes: int = 0
    is_cut: bool = False


@lru_cache(100_000)
def taken(manner: Manner, calls: int, interruptions: int, count: int) -> tuple[int, int, int, bool]:
    """How many of so many bytes a writer takes by its next calls, its calls then, and whether one failed."""
    each = manner.interruptions + 1
    left = count
    if manner.most and each <= INTERRUPTIONS_MAX:
        # those that surely do as they should, all at once
        safe = (manner.fails_at - 1 - calls) // each if manner.fails_at > calls else count
        many = min(safe, count // manner.most)
        calls, left = calls + many * each, left - many * manner.most
    stream = Calls(manner, calls, interruptions)
    while left and not stream.is_broken():
        some = stream.call(lambda: min(left, manner.most))
        stream.failed |= some == 0
        left -= some or 0
    return count - left, stream.calls, stream.interruptions, stream.failed


def written(manner: Manner, sent: Sent, size: int) -> tuple[Sent, bool]:
    """A writer to which all up to this size is written, and which is flushed then; and whether it took all that."""
    count, calls, interruptions, failed = taken(manner, sent.calls, sent.interruptions, size - sent.size)
    is_whole = sent.size + count == size
    flushes = sent.flushes + is_whole
    if is_whole:
        failed = flushes == manner.flush_fails_at
    after = Sent(sent.size + count, calls, interruptions, failed, flushes, sent.is_cut)
    return after, is_whole and not failed


# ---- the thread that reads


class Pump:
    """What is read: the requests, why no more is read, and for each read how many requests were whole by then."""

    def __init__(self, text: bytes, manner: Manner) -> None:
        self.requests: list[str] = []
        self.reads: list[tuple[int, str]] = []
        self.end = self.read(Reader(text, manner))
        self.piece_ends = {whole for whole, _ in self.reads}

    def read(self, reader: Reader) -> str:
        """Reads to the end, and tells it."""
        start = 0
        while reader.calls < READS_MAX and not reader.is_broken():
            count = reader.read()
            fault = None
            if count:
                stream = Stream("requests", reader.text[start : reader.at])
                self.requests += [line for _, line in stream.frames]
                start += stream.whole
                fault = stream.fault
            line = f"{reader.calls} {reader.interruptions} {'failed' if reader.failed else 'whole'}"
            self.reads.append((len(self.requests), line))
            if fault:
                return "Malformed"
            if count == 0:
                return "Closed"
        return "ReadFault"

    def line(self, limit: int) -> str:
        """What became of the reads, where there is no room for the request with this number."""
        told = (line for whole, line in self.reads if whole >= limit)
        return next(told, self.reads[-1][1])


# ---- a session


class Over(Exception):
    """The session is over, and this is its end."""

    def __init__(self, end: str) -> None:
        super().__init__(end)
        self.end = end


class Stand(NamedTuple):
    """How far a session has come: its requests, answers, their bytes, receipts and totals, and if its process lives."""

    taken: int
    answers: int
    size: int
    receipts: int
    records: int
    bytes_in: int
    bytes_out: int
    is_alive: bool


class Writing(Enum):
    """Whether what is answered is written, before anything else takes place."""

    IS = "it is"
    IF_MUCH = "it is, if it is much"
    MAY_BE = "the threads come to that or not"
    MAY_BE_ONCE = "the same, but they come to that only once"


class Session:
    """One session: what is sent, how its streams answer, and the acts of others that take place meanwhile."""

    def __init__(
        self,
        text: bytes,
        records: int = 10_000,
        reads: Manner = PLAIN,
        writes: Manner = PLAIN,
        meanwhile: Iterable[str] = (),
        kernel: str = "knows",
    ) -> None:
        self.text = text
        self.records = records
        self.writes = writes
        self.meanwhile = list(meanwhile)
        self.kernel = kernel
        manners = [",".join(map(str, manner)) for manner in (reads, writes)]
        self.words = [str(records), kernel, *manners, *self.meanwhile]
        self.pump = Pump(text, reads)

    def outcomes(self) -> Iterator["Outcome"]:
        """All that may come of it, by when its threads come to run.

        Behind each call that waits there may be no room for the seventeenth request, or the call goes on before that.
        """
        talk = Talk(self, len(self.pump.requests) + 1)
        yield from talk.outcomes()
        for number in sorted(talk.waited):
            if number + AHEAD_MOST < len(self.pump.requests):
                yield from Talk(self, number + AHEAD_MOST + 1).outcomes()

    def wanted(self) -> Iterator[bytes]:
        """What the trial may print."""
        return (outcome.text() for outcome in self.outcomes())


class Talk:
    """What a session comes to, served by the model, where there is no room for the request with this number."""

    def __init__(self, session: Session, limit: int) -> None:
        self.session = session
        self.limit = limit
        self.run = plain_model.Run(session.records)
        self.meanwhile = session.meanwhile
        self.process: int | None = None
        self.is_spent = False
        self.taken = 0
        self.waited: set[int] = set()
        self.answered = bytearray()
        self.answers = 0
        self.receipts: list[str] = []

    def outcomes(self) -> Iterator["Outcome"]:
        """All that may come of it, by when the answers are written."""
        states = {Sent()}
        end = ""
        for writing in self.steps():
            if isinstance(writing, str):
                end, writing = writing, Writing.IS
            stand = self.stand()
            unsent = {sent for sent in states if sent.size < stand.size}
            if writing == Writing.IS:
                states -= unsent
            elif writing == Writing.IF_MUCH:
                unsent = {sent for sent in unsent if stand.size - sent.size >= GATHERED_MOST}
                states -= unsent
            elif writing == Writing.MAY_BE_ONCE:
                unsent = {sent._replace(is_cut=True) for sent in unsent if not sent.is_cut}
            for sent in unsent:
                after, is_whole = written(self.session.writes, sent, stand.size)
                if is_whole:
                    states.add(after)
                else:
                    yield Outcome(self, stand, after, "WriteFault")
            if not states:
                return
        yield from (Outcome(self, stand, sent, end) for sent in states)

    def stand(self) -> Stand:
        """How far it has come."""
        return Stand(
            self.taken,
            self.answers,
            len(self.answered),
            len(self.receipts),
            self.run.records,
            self.run.world.bytes_in,
            self.run.world.bytes_out,
            self.process is not None and not self.is_spent,
        )

    def steps(self) -> Iterator[Writing | str]:
        """Takes up the requests. It stops where answers may be written, and tells the end last."""
        pump = self.session.pump
        try:
            for self.taken, line in enumerate(pump.requests[: self.limit - 1], 1):
                yield Writing.IF_MUCH
                yield from self.take(line)
                yield self.writing()
            yield self.read_end(self.limit)
        except Over as over:
            yield over.end

    def read_end(self, limit: int) -> str:
        """Why no more is read, where there is no room for the request with this number."""
        pump = self.session.pump
        return pump.end if limit > len(pump.requests) else "Ahead"

    def last_read(self) -> int:
        """The request for which there is no room once no more is taken up, if so many come."""
        return min(self.limit, self.taken + AHEAD_MOST + 1)

    def writing(self) -> Writing:
        """Whether answers are written before the next request.

        They are where a piece ends, but for those behind a call that waits. The thread that waits answers too: once as
        it starts, and whenever such a call has gone on.
        """
        since = self.taken - max(self.waited, default=-AHEAD_MOST)
        if self.taken in self.session.pump.piece_ends and since > AHEAD_MOST:
            return Writing.IS
        return Writing.MAY_BE if self.waited else Writing.MAY_BE_ONCE

    def take(self, line: str) -> Iterator[Writing]:
        """Takes up a request, which is told as its line."""
        if (self.process is None) != (line == "join" or line.endswith(" attach = still")):
            raise Over("Malformed")
        if self.process is not None:
            yield from self.call(line)
        elif line == "join":
            self.open(plain_model.Act(None, "join"))
        else:
            self.open(plain_model.Act(int(line.split(" ")[1][1:]), "attach"))

    def open(self, act: plain_model.Act) -> None:
        """Takes up the request that opens the session."""
        place, outcome = self.act(act)
        if place is None:
            raise Over("RunFull")
        self.process = int(self.receipts[0].split(" ")[1][1:])
        if outcome.startswith("error "):
            self.is_spent = True
            raise Over("Closed")

    def call(self, line: str) -> Iterator[Writing]:
        """Takes up a call, and goes on with it until it has ended."""
        act = plain_model.read_act(line[len("- ") : -len(" = still")].encode("latin-1"))
        outcome = self.act(act._replace(actor=self.process))[1]
        while outcome.startswith(("parked ", "part ")):
            self.waited.add(self.taken)
            yield Writing.IS
            outcome = self.finish()

    def finish(self) -> str:
        """Takes up the call that waits."""
        if self.session.kernel == "forgets-waiting":
            self.is_spent = True
            raise Over("Foreign")
        resume = plain_model.Act(self.process, "resume")
        place, outcome = self.act(resume)
        if outcome == "still":
            self.run_others()
            place, outcome = self.act(resume)
        if outcome == "still":
            self.hang_up()
            raise Over(self.read_end(self.last_read()))
        if place is None:
            self.hang_up()
            raise Over("RunFull")
        return outcome

    def act(self, act: plain_model.Act) -> tuple[int | None, str]:
        """Lets an act take place and answers it: its place, if it is recorded, and what came of it."""
        self.run.take(act)
        line = self.run.lines[-1].rstrip("\n")
        outcome = line.rpartition(" = ")[2]
        if not line.startswith("- "):
            place = int(line.split(" ")[0])
            self.receipts.append(line)
            self.answer(recorded(place, outcome))
            return place, outcome
        if outcome.startswith("refused "):
            self.answer(refused(outcome.split(" ")[1]))
        return None, outcome

    def answer(self, payload: bytes) -> None:
        """Gives an answer, which is to be written."""
        self.answered += framed(payload)
        self.answers += 1

    def hang_up(self) -> None:
        """Ends the process."""
        self.is_spent = True
        assert self.process is not None
        self.run.end(self.run.world.processes[self.process])
        self.receipts.append(self.run.lines[-1].rstrip("\n"))

    def run_others(self) -> None:
        """Runs the acts that stand ready, each of a process that they have opened themselves."""
        acts, self.meanwhile = self.meanwhile, []
        own: set[int | str | None] = set()
        for act in (plain_model.read_act(line.encode()) for line in acts):
            if act.word in ("join", "attach"):
                number = self.run.world.next_number if act.word == "join" else act.actor
                self.run.take(act)
                if not self.run.lines[-1].startswith("- ") and " = error " not in self.run.lines[-1]:
                    own.add(number)
            elif act.word == "close-run" or act.actor in own:
                self.run.take(act)
                if act.word == "exit":
                    own.discard(act.actor)


class Outcome(NamedTuple):
    """What may come of a session: how far it came, what became of its writer, and its end, but for the process's."""

    talk: Talk
    stand: Stand
    sent: Sent
    end: str

    def text(self) -> bytes:
        """What the trial prints."""
        talk, stand, sent, end = self
        receipts, records = talk.receipts[: stand.receipts], stand.records
        if end == "WriteFault":
            end = f"WriteFault {sent.size}"
        if stand.is_alive and talk.session.kernel == "forgets-all":
            end = "Foreign"
        elif stand.is_alive:
            receipts.append(f"{records} p{talk.process} exit = ok")
            records += 1
        lines = [
            f"written {talk.answered[: sent.size].hex()}",
            f"end {end}",
            f"answers {stand.answers}",
            # once the session is over, the requests behind it are read as far as there is room for them
            f"reads {talk.session.pump.line(min(talk.limit, stand.taken + AHEAD_MOST + 1))}",
            f"writes {sent.calls} {sent.interruptions} {'failed' if sent.failed else 'whole'}",
            f"flushes {sent.flushes}",
            *(receipts or ["no seat"]),
            f"records {records} in {stand.bytes_in} out {stand.bytes_out}",
        ]
        return "".join(f"{line}\n" for line in lines).encode()
