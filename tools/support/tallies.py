"""What tests count that can be shared out over many jobs: how it is added up, and how it is told at the end."""

from collections import Counter
from collections.abc import Iterable, Sequence
from typing import Self

from support.counting import Case, Count
from support.frames import ERRORS, Malformed
from support.summaries import Counts
from support.texts import several

# What a run of so many random scripts has to meet, each at least once.
MEETS_ALL = 4_000
ENDS = [f"error {error}" for error in ERRORS]
ENDS += ["parked", "part", "still", "refused RunFull", "refused NotHere", "refused Waiting", "not an act"]

TELL_MOST = 10


class ScriptsTally:
    """What tests/random_runs.py counts: scripts that pass, acts, calls by their words, and scripts by ends met."""

    def __init__(self, often: Sequence[str]) -> None:
        self.often = list(often)
        self.count = Count()
        self.scripts = self.acts = 0
        self.calls: Counter[str] = Counter()
        self.ends: Counter[str] = Counter()

    @classmethod
    def of(cls, counts: Counts) -> Self:
        """What other runs have counted, in which the same calls came often."""
        tally = cls(list(dict.fromkeys(counts["often"])))
        tally.count.add(counts["passed"], counts["failed"])
        tally.scripts, tally.acts = counts["scripts"], counts["acts"]
        tally.calls, tally.ends = Counter(counts["calls"]), Counter(counts["ends"])
        return tally

    def counts(self) -> Counts:
        """What is counted, for a summary."""
        counts = {"passed": self.count.passed, "failed": self.count.failed, "scripts": self.scripts, "acts": self.acts}
        return {**counts, "calls": dict(self.calls), "ends": dict(self.ends), "often": self.often}

    def add(self, acts: int, calls: Counter[str], ends: Iterable[str]) -> None:
        """Counts what a script has met."""
        self.scripts += 1
        self.acts += acts
        self.calls += calls
        self.ends.update(ends)

    def missed(self) -> list[str]:
        """The ends that none of so many scripts has met that all should be met."""
        return [end for end in ENDS if not self.ends[end]] if self.scripts >= MEETS_ALL else []

    def text(self) -> str:
        """The last lines."""
        scripts, acts = several(self.scripts, "script"), several(self.acts, "act")
        lines = [f"{scripts}, of which those that were run have {acts}, {self.calls.total()} of them calls"]
        lines += [f"{word}: {several(self.calls[word], 'call')}" for word in self.often]
        total = Count()
        total.add(self.count.passed, self.count.failed + bool(self.missed()))
        lines += [f"FAILED all scripts: none has met {', '.join(self.missed())}"] if self.missed() else []
        return "\n".join([*lines, total.line()])

    def status(self) -> int:
        """The exit status."""
        return 1 if self.count.failed or self.missed() else 0


class KindsTally:
    """What tests/enemy.py counts: checks by their kinds, of which only a few failures are told, and what the servers
    met."""

    def __init__(self, only: str = "") -> None:
        # what is read of a wrong program may be anything
        self.count = Count(TELL_MOST, (Malformed, LookupError))
        self.only = only
        self.kinds: dict[str, Count] = {}
        self.met: Counter[str] = Counter()

    @classmethod
    def of(cls, counts: Counts) -> Self:
        """What other runs have counted."""
        tally = cls()
        for kind, it in counts["kinds"].items():
            tally.kinds.setdefault(kind, Count()).add(it["passed"], it["failed"])
            tally.count.add(it["passed"], it["failed"])
        tally.met = Counter(counts["met"])
        return tally

    def counts(self) -> Counts:
        """What is counted, for a summary."""
        kinds = {kind: {"passed": count.passed, "failed": count.failed} for kind, count in self.kinds.items()}
        return {"kinds": kinds, "met": dict(self.met)}

    def check(self, kind: str, cases: Iterable[Case]) -> None:
        """Makes the checks of a kind, if it is asked for."""
        if self.only in kind:
            passed, failed = self.count.passed, self.count.failed
            self.count.check_all(cases)
            self.kinds.setdefault(kind, Count()).add(self.count.passed - passed, self.count.failed - failed)

    def text(self) -> str:
        """The last lines: the counts of all kinds, what the servers met, and the sum."""
        lines = [f"{kind}: {count.line()}" for kind, count in self.kinds.items()]
        met = ", ".join(f"{name} {count}" for name, count in self.met.most_common())
        lines += [f"the runs of servers: {met}"] if met else []
        return "\n".join([*lines, self.count.line()])

    def status(self) -> int:
        """The exit status."""
        return 1 if self.count.failed else 0
