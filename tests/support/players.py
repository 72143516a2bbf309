"""Clients that keep what they were told, as lines of the trace, and the traces of servers that run still."""

import socket
import time
from collections import deque
from collections.abc import Sequence
from pathlib import Path

from support import plain_model
from support.auditing import Frames
from support.counting import Failure, require
from support.frames import HEADER_LENGTH, request_frame
from support.serving import SECONDS, Client, Server

# The process of a join that was refused, which has no number.
ANYBODY = "p?"


class Player:
    """A client, and the number of its process, once it has one. It may ask ahead: it is answered in that order."""

    def __init__(self, client: Client) -> None:
        self.client = client
        self.number: int | None = None
        self.asked: deque[str] = deque()
        self.waits = False
        self.told: dict[int, str] = {}

    def ask(self, *requests: str, piece: int = 2**30) -> None:
        """Sends requests, all at once or in pieces of so many bytes: `join`, `attach N`, or calls as in a script."""
        self.asked.extend(requests)
        frames = b"".join(map(request_frame, requests))
        for at in range(0, len(frames), piece):
            self.client.send(frames[at : at + piece])

    def hear(self) -> str:
        """The next answer, as lines have it. A call that waits is answered again."""
        answer = self.client.answer()
        self.keep(answer)
        return answer

    def keep(self, answer: str) -> None:
        """Keeps an answer to the first request that has none yet."""
        place, _, outcome = answer.partition(" ")
        if place != "-":
            self.told[int(place)] = self.line(outcome)
        self.waits = outcome.startswith(("parked ", "part "))
        if not self.waits:
            self.asked.popleft()

    def line(self, outcome: str) -> str:
        """The line of a record with this outcome, without its place."""
        word, _, rest = self.asked[0].partition(" ")
        if word == "join":
            self.number = int(outcome) if outcome.isdigit() else None
            return f"{ANYBODY if self.number is None else f'p{self.number}'} join = {outcome}"
        if word == "attach":
            self.number = int(rest) if outcome == "ok" else None
            return f"p{rest} attach = {outcome}"
        act = plain_model.read_act(f"p{self.number} {self.asked[0]}".encode())
        return f"{plain_model.act_text(plain_model.Act(self.number, 'resume') if self.waits else act)} = {outcome}"

    def gets(self, *wanted: str) -> None:
        """The next answers are these."""
        for answer in wanted:
            given = self.hear()
            require(given == answer, f"wanted {answer}, given {given}")

    def has_ended(self, seconds: float = SECONDS) -> bool:
        """Whether the server has hung up, and not sent more; it has to do one of both in this time."""
        self.client.socket.settimeout(seconds)
        try:
            return not self.client.socket.recv(1, socket.MSG_PEEK)
        except TimeoutError:
            raise Failure(f"it is not hung up on in {seconds} seconds") from None
        except ConnectionResetError:
            return True
        finally:
            self.client.socket.settimeout(SECONDS)

    def is_hung_up_on(self, seconds: float = SECONDS) -> None:
        """The server hangs up in this time, and sends nothing more before."""
        if not self.has_ended(seconds):
            raise Failure(f"it is told {self.client.answer()} in place of an end")


def traced(server: Server) -> list[str]:
    """The lines of the records that the trace holds so far."""
    return Frames(Path(server.trace).read_bytes()).lines


def until_traced(server: Server, count: int) -> list[str]:
    """The same, once there are so many; a server that only starts has no trace yet."""
    until, trace = time.monotonic() + SECONDS, Path(server.trace)
    while (given := frames_in(trace.read_bytes()) if trace.exists() else 0) < count:
        require(time.monotonic() < until, f"in {SECONDS} seconds {given} records were traced, {count} are wanted")
        time.sleep(0.002)
    return traced(server)


def frames_in(trace: bytes) -> int:
    """How many whole frames a trace has, by their lengths alone."""
    count, at = 0, HEADER_LENGTH
    while len(trace) >= at + 4:
        at += 4 + int.from_bytes(trace[at : at + 4], "big")
        count += at <= len(trace)
    return count


def are_told(lines: Sequence[str], told: dict[int, str]) -> None:
    """What was told of each place is what the trace has there."""
    for place, line in sorted(told.items()):
        require(place < len(lines), f"place {place} is told, and not in the trace")
        is_same = lines[place] == f"{place} {line}"
        is_like = line.startswith(ANYBODY) and lines[place].endswith(line.removeprefix(ANYBODY))
        require(is_same or is_like, f"told {place} {line}, the trace has {lines[place]}")
