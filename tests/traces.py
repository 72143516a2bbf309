#!/usr/bin/env python3
"""Are traces written, judged and shown rightly, whole, cut and damaged ones? (two minutes)

usage: tests/traces.py [--program PATH] [--seed WORD] [--runs N] [--changed N] [--migrated N] [--stride N] [--jobs J]
                       [--only WORD]

The program is crates/fdref/out/fdref where no PATH is given. What it must say of a trace is what the plain
auditor says, tools/support/auditing.py. It is run

  - on traces whose verdicts are written out here,
  - on a trace of 54 bytes, and on the same records in version 2, with each byte turned to every value, and on
    each front of both; on each front of small traces of random scripts; and on such traces of version 2 with
    every small number of records in their headers,
  - on N traces of random scripts (2,000 where no number is given) of which one record has another outcome
    or another act, and on others of which a few bytes are changed, left out or put in, of both versions,
  - as `migrate`, on N traces of version 1 (400) that are whole, cut and changed: the new trace has the bytes that
    it has to have and, where all was read, the same verdict,
  - as `show`, on records with every act and every kind of outcome, right or not,
  - as a server that writes a trace, in N runs (4,000) of random scripts whose acts clients make. What they
    were told must be what the trace holds, which must be right to the last record, and which `replay` makes
    again out of its acts. Where a call waits for ever the server is killed: its trace must hold all that was
    told. Run K of a seed has the same acts each time,
  - on what the system refuses: files that cannot be read or written, a server that is killed, words that are
    no command line,
  - as a server whose trace cannot be written: on disks that fill up after every number of bytes (of a long trace
    one in 5,003, or one in that many as `--stride` says), and at every write of one byte, that fail to sync, and
    that are interrupted,

and the client in clients/python and its example write traces and read them.

A failure is told in one line. The last line is `N passed, M failed`, and the exit status is 1 where M is above 0.
"""

import concurrent.futures
import multiprocessing
import os
import random
import re
import signal
import sys
import tempfile
import time
from collections.abc import Callable, Iterator, Sequence
from functools import partial
from pathlib import Path
from typing import NamedTuple

from parts import failing_disks, migrations, python_traces, traced_runs
from parts.written_traces import (
    NEW_SHORT,
    SHORT,
    Named,
    RandomRun,
    changed_bytes,
    enough,
    fronts,
    random_records,
    random_run,
    written_out,
)
from support import plain_model
from support.auditing import Frames, audited, illegal, legal, shown
from support.causes import is_caused, trace_lost, unsynced
from support.counting import FAULTS, Case, Count, require, same
from support.frames import ERRORS, HEADER_LENGTH, MOST, OLD_MAGIC, header_bytes, trace_of, u32
from support.options import ONLY, PROGRAM, SEED, asked, count_option
from support.running import Ran, ran_all, run, run_by_bytes
from support.runs import line_of
from support.serving import A_WHILE, Client, Server, outcome_of, report, serve_words, started
from support.sources import changed, numbered, source
from support.texts import difference

TELL_MOST = 10
PIECE = 250

# How many changed traces are made of one random script.
OF_ONE_SCRIPT = 5

# How many small traces are cut, and of how many bytes at most each is.
SMALL = 12
SMALL_MOST = 400
# How many traces are given other numbers of records, and how many of these numbers are too small at most.
COUNTED = 12
COUNTED_MOST = 40


# ---- many audits


def judge_all(count: Count, program: str, named: Sequence[Named], jobs: int) -> None:
    """Has the program judge traces, many at once, and compares its verdicts with those of the plain auditor."""
    pieces = [named[at : at + PIECE] for at in range(0, len(named), PIECE)]
    with concurrent.futures.ThreadPoolExecutor(jobs) as pool:
        given = pool.map(lambda piece: ran_all(program, [trace for _, trace in piece]), pieces)
        for piece, verdicts in zip(pieces, given, strict=True):
            count.check_all(
                (name, partial(same, audited(trace), verdict))
                for (name, trace), verdict in zip(piece, verdicts, strict=True)
            )


# ---- verdicts that are written out


def check_written_out(count: Count, program: str) -> None:
    """The program and the plain auditor give the verdicts that are written out."""
    rows = list(written_out())
    for (name, trace, wanted), given in zip(rows, ran_all(program, [trace for _, trace, _ in rows]), strict=True):
        count.check(f"{name}, by the plain auditor", partial(same, wanted, audited(trace)))
        count.check(name, partial(same, wanted, given))


# ---- traces of which one record is changed


def other_outcome(pick: random.Random, outcome: str, others: Sequence[str]) -> str:
    """Another outcome, often one that is nearly the same."""
    words = outcome.split(" ")
    numbers = [at for at, word in enumerate(words) if word.isdigit()]
    if numbers and pick.random() < 0.6:
        at = pick.choice(numbers)
        words[at] = str(int(words[at]) + 1 if words[at] == "0" else int(words[at]) + pick.choice([-1, 1]))
        return " ".join(words)
    if outcome.startswith("x") and len(outcome) > 1 and pick.random() < 0.6:
        data = bytearray.fromhex(outcome[1:])
        data[pick.randrange(len(data))] ^= 1 << pick.randrange(8)
        return plain_model.data_text(bytes(data))
    if outcome == "ok" or outcome.startswith("error"):
        return pick.choice(["ok", "0", *(f"error {error}" for error in ERRORS)])
    return pick.choice([*others, "ok", "0", "x", "0 1", "regular 0 1", "parked 0", "part 1", "error EBADF"])


class Change(NamedTuple):
    """A trace of which one record is changed, the place, and the verdict on it."""

    trace: bytes
    verdict: Ran


def is_short(record: str) -> bool:
    """Whether a record has no more bytes than a frame may have."""
    return len(trace_of([record])) <= len(trace_of([])) + 4 + MOST["records"]


def with_other_record(pick: random.Random, right: RandomRun) -> Change:
    """A trace of which these records are right, but for one that has another outcome or another act."""
    while True:
        records = list(right.records)
        place = pick.randrange(len(records))
        record, other = line_of(records[place]), line_of(pick.choice(records))
        outcome = other_outcome(pick, record.outcome, [line_of(line).outcome for line in records])
        changed_record = f"{place} {record.act} = {outcome}"
        if pick.random() < 0.75 and outcome != record.outcome and is_short(changed_record):
            records[place] = changed_record
            return Change(trace_of(records, right.header), illegal(place, record.outcome))
        records[place] = f"{place} {other.act} = {record.outcome}"
        trace = trace_of(records, right.header)
        verdict = audited(trace)
        if verdict.stdout.startswith(b"illegal %d " % place):
            return Change(trace, verdict)


def with_other_records(seed: str, count: int) -> Iterator[tuple[str, Change]]:
    """So many of them."""
    for number in range(count):
        pick = source(f"{seed} changed", number)
        if number % OF_ONE_SCRIPT == 0:
            run_of_script = random_run(pick)
        yield numbered("changed trace", seed, number), with_other_record(pick, run_of_script)


def with_damage(seed: str, count: int) -> Iterator[Named]:
    """So many traces of which a few bytes are changed, left out or put in."""
    for number in range(count):
        pick = source(f"{seed} damaged", number)
        if number % OF_ONE_SCRIPT == 0:
            whole = random_run(pick).trace()
        yield numbered("damaged trace", seed, number), changed(pick, whole)


def check_changed(count: Count, program: str, seed: str, most: int, jobs: int) -> None:
    """The program finds the record that is changed, as the plain auditor does, and judges damaged bytes like it."""
    changes = list(with_other_records(seed, most))
    for name, change in changes:
        count.check(f"{name}, by the plain auditor", partial(same, change.verdict, audited(change.trace)))
    judge_all(count, program, [(name, change.trace) for name, change in changes], jobs)
    judge_all(count, program, list(with_damage(seed, most // 4)), jobs)


# ---- small traces, cut and with other numbers of records


def small_runs(seed: str, count: int) -> Iterator[tuple[str, RandomRun]]:
    """So many random runs whose traces are small."""
    number = found = 0
    while found < count:
        it = random_run(source(f"{seed} small", number))
        if len(it.trace()) <= SMALL_MOST:
            found += 1
            yield numbered("small trace", seed, number), it
        number += 1


def check_cut(count: Count, program: str, seed: str, jobs: int) -> None:
    """The program judges each front of small traces as the plain auditor does."""
    for name, it in small_runs(seed, SMALL):
        judge_all(count, program, list(fronts(name, it.trace())), jobs)


def of_few_records(seed: str, number: int) -> tuple[list[str], int]:
    """The records of a random run, and the fewest that such a run may have."""
    records = random_records(source(f"{seed} counted", number))
    return records, enough(records, plain_model.DEFAULTS)


def is_counted(records: Sequence[str], most: int, least: int) -> None:
    """The plain auditor itself takes records of a run that may have enough, and no others."""
    verdict = audited(trace_of(records, header_bytes(most)))
    if most >= least:
        same(legal(len(records)), verdict)
    else:
        require(verdict.status == 7 and verdict.stdout.endswith(b" expected none\n"), verdict.said())


def check_counted(count: Count, program: str, seed: str, jobs: int) -> None:
    """The program finds runs that have more records than they were told, as the plain auditor does."""
    for number in range(COUNTED):
        records, least = of_few_records(seed, number)
        first = 1 if least < COUNTED_MOST else least - COUNTED_MOST
        numbers = range(first, least + 3)
        name = numbered("counted trace", seed, number)
        for most in numbers:
            count.check(f"{name}, of {most} records", partial(is_counted, records, most, least))
        named = [(f"{name}, of {most} records", trace_of(records, header_bytes(most))) for most in numbers]
        judge_all(count, program, named, jobs)


# ---- what is shown

# Records with every act and every kind of outcome. No run has them: what is shown is not judged.
ANY_RECORDS = """p7 join = 7; p0 attach = ok; p4294967295 attach = error ESRCH; p1 resume = part 4294967295
p1 exit = ok; p7 fork = 8; p7 fork = 9; p9 attach = error ESRCH; p9 exit = ok; p8 attach = ok; p8 exit = ok
p9 exit = ok; house close-run = ok; p0 open a/b%25%00%ff -,creat,excl,trunc,append,nonblock = error EINVAL
p0 open % r = 0; p0 open x w = parked 0; p0 open y rw = 31; p0 close -2147483648 = error EBADF
p0 read 0 4294967295 = x; p0 read 0 17 = 61*17; p0 read 0 16 = x61616161616161616161616161616161
p0 read 1 2 = parked 1; p0 write 1 x = 0; p0 write 1 00*65700 = error EINVAL; p0 write 1 x6162 = 18446744073709551615
p0 read 0 1 = ff*65536; p0 pread 0 -9223372036854775808 5 = error EINVAL; p0 pwrite 0 9223372036854775807 x00ff = 2
p0 lseek 0 -1 set = 0; p0 lseek 0 0 cur = 0; p0 lseek 0 1 end = error EOVERFLOW; p0 ftruncate 0 0 = ok; p0 dup 0 = 1
p0 dup2 2147483647 -1 = 0; p0 pipe = 4294967295 0; p0 mkfifo f = ok; p0 link a b = error EEXIST; p0 unlink a = ok
p0 fstat 0 = regular 18446744073709551615 4294967295; p0 fstat 1 = fifo 0 0; p0 fstat 2 = pipe 1 1
p0 fork = 4294967295; p0 getfl 0 = 35; p0 getfl -2147483648 = 18446744073709551615; p0 getfl 1 = error EBADF
p0 setfl 2147483647 -,creat,excl,trunc,append,nonblock = ok; p0 setfl 0 rw = 5; p0 rename a/b%25%00%ff % = ok
p0 rename b a = error EINVAL"""


def any_records() -> list[str]:
    """These records as lines."""
    lines = [line for row in ANY_RECORDS.split("\n") for line in row.split("; ")]
    lines += [f"p0 fork = error {error}" for error in ERRORS]
    return [f"{place} {line}" for place, line in enumerate(lines)]


def check_shown(count: Count, program: str) -> None:
    """The program shows whole records, and what is left over."""
    records = any_records()
    whole = trace_of(records, OLD_MAGIC)
    text = "".join(f"{record}\n" for record in records).encode()
    count.check("records of every kind, by the plain auditor", partial(same, Ran(0, text, b""), shown(whole)))
    traces = [("records of every kind", whole), ("a fault after them", whole + u32(1) + b"\0")]
    traces += [("records of every kind, in version 2", trace_of(records))]
    traces += fronts_of(OLD_MAGIC, whole[-80:])
    traces += fronts_of(header_bytes(9), whole[-80:])
    traces += [(name, trace) for name, trace, _ in written_out()]
    traces += [*fronts("the short one", SHORT), *fronts("the short one in version 2", NEW_SHORT)]
    headers = [(name, trace) for name, trace in changed_bytes(NEW_SHORT) if trace[HEADER_LENGTH:] == SHORT[8:]]
    traces += [(f"its header, {name}", trace) for name, trace in headers[::17]]
    for words, acts in (("show", False), ("show --acts", True)):
        given = ran_all(program, [trace for _, trace in traces], words)
        for (name, trace), ran in zip(traces, given, strict=True):
            wanted = shown(trace, acts)
            where = f"{words}, {name}"
            left = (wanted.status, wanted.stderr)
            count.check(f"{where}, the rest", partial(same, left, (ran.status, ran.stderr)))
            count.check(f"{where}, its lines", partial(is_text, wanted.stdout, ran.stdout))


def is_text(wanted: bytes, given: bytes) -> None:
    """Fails with the first line in which two outputs differ."""
    require(wanted == given, difference(wanted, given))


def fronts_of(header: bytes, frames: bytes) -> list[Named]:
    """The fronts of some bytes after a header."""
    length = len(header)
    return [(f"{end} bytes after {length} of a header", header + frames[:end]) for end in range(len(frames) + 1)]


# ---- what the system refuses


def refused(program: str, words: Sequence[str], status: int, stderr: bytes) -> None:
    """A command that ends at once, and prints nothing on standard output."""
    same(Ran(status, b"", stderr), run([program, *words]))


def mistake(program: str, words: Sequence[str], part: bytes) -> None:
    """Words that are no command line: the text names a part of them and says how the command is used."""
    ran = run([program, *words])
    same((2, b""), ran[:2])
    usage = rb"(?m)^Usage: .*\b" + words[0].encode() + rb"\b"
    require(part in ran.stderr and re.search(usage, ran.stderr), f"standard error is {ran.stderr[:300]!r}")


def mistakes(program: str, trace: str) -> Iterator[Case]:
    """Command lines that are refused."""
    rows: list[tuple[list[str], bytes]] = [
        (["audit"], b"<FILE>"),
        (["audit", trace, "more"], b"more"),
        (["audit", trace, trace], trace.encode()),
        (["audit", "--acts", trace], b"--acts"),
        (["audit", "--records", "5", trace], b"--records"),
        (["show"], b"<FILE>"),
        (["show", "--acts"], b"<FILE>"),
        (["show", trace, "more"], b"more"),
        (["show", "--acts", "--acts", trace], b"--acts"),
        (["show", "--act", trace], b"--act"),
        (["migrate"], b"<IN>"),
        (["migrate", trace], b"<OUT>"),
        (["migrate", trace, f"{trace}.new", "more"], b"more"),
        (["migrate", "--acts", trace, f"{trace}.new"], b"--acts"),
    ]
    for words, part in rows:
        yield f"words {' '.join(words)}", partial(mistake, program, words, part)


def shows_help(program: str, word: str) -> None:
    """The help of a command names its file."""
    ran = run([program, word, "--help"])
    require(ran.status == 0 and b"<FILE>" in ran.stdout and not ran.stderr, ran.said())


def in_pieces(program: str, word: str, trace: bytes) -> None:
    """A trace that comes by a pipe, byte by byte."""
    ran = run_by_bytes([program, word, "/dev/stdin"], trace)
    same(audited(trace) if word == "audit" else shown(trace), ran)


def output_is_full(program: str, words: Sequence[str]) -> None:
    """An output that takes nothing."""
    with open("/dev/full", "wb", buffering=0) as full:
        same(Ran(4, b"", b"cannot write\n"), run([program, *words], stdout=full))


def cannot_read(program: str, word: str, path: str) -> None:
    """A file that cannot be read: what the system said of it is told."""
    is_caused(Ran(4, b"", b"cannot read\n"), path, run([program, word, path]))


def another_server_writes(program: str) -> None:
    """A trace that another server is writing is refused, and left as it is."""
    with Server(program, 1) as server, tempfile.TemporaryDirectory(prefix="fdref-") as folder:
        client = server.client()
        client.ask("join")
        client.gets("0 0")
        words = serve_words(program, os.path.join(folder, "socket"), 1, 9, server.trace)
        given = outcome_of(started(words))
        wanted = f"cannot write\n{server.trace}: another server may be writing its trace there: it is locked\n"
        same(Ran(4, b"", wanted.encode()), Ran(*given))
        client.vanish()
        server.ended(report(1, 3), 0, b"")
        same(legal(3, 0), run([program, "audit", server.trace]))


def without_a_lock(program: str) -> None:
    """Two servers may write to one device, though it cannot be synced."""
    with tempfile.TemporaryDirectory(prefix="fdref-") as folder:
        paths = [os.path.join(folder, name) for name in ("one", "two")]
        servers = [started(serve_words(program, path, 1, 9, os.devnull)) for path in paths]
        for path, server in zip(paths, servers, strict=True):
            Client(path, server).vanish()
        for server in servers:
            told = trace_lost(os.devnull, unsynced("Invalid argument (os error 22)"))
            same(Ran(4, report(1, 1), told), Ran(*outcome_of(server)))


def cannot_make_trace(program: str, trace: str, folder: str) -> None:
    """A trace that cannot be made: no socket is made either."""
    path = os.path.join(folder, "socket")
    is_caused(Ran(4, b"", b"cannot write\n"), trace, outcome_of(started(serve_words(program, path, 1, 9, trace))))
    require(not os.path.exists(path), "a socket was made")


def killed(program: str, pause: float) -> None:
    """A server that is killed in mid-run leaves the beginning of a right trace, with all that was told long ago."""
    with Server(program, 2) as server:
        first, second = server.client(), server.client()
        told = []
        for client in (first, second):
            client.ask("join")
            told.append(client.answer())
        for number in range(50):
            first.ask(f"open n{number} rw,creat" if number < 20 else "fstat 0")
            told.append(first.answer())
        time.sleep(pause)
        second.ask("pipe")
        os.killpg(server.process.pid, signal.SIGKILL)
        server.process.wait()
        trace = Path(server.trace).read_bytes()
    left = Frames(trace)
    # one that is killed at once may not have come to the end of its header
    head = server.header if pause else server.header[: len(trace)]
    same(head.hex(), trace[:HEADER_LENGTH].hex())
    count = len(left.lines)
    require(count in ((52, 53) if pause else range(54)), f"{count} records, and 52 were told")
    verdict = legal(count, left.rest)
    same(verdict, audited(trace))
    same([f"{place} {line.rpartition(' = ')[2]}" for place, line in enumerate(left.lines)][:52], told[:count])
    with tempfile.NamedTemporaryFile(prefix="fdref-") as file:
        file.write(trace)
        file.flush()
        same(verdict, run([program, "audit", file.name]))


def system_cases(program: str) -> Iterator[Case]:
    """Command lines, and what the system refuses."""
    with tempfile.TemporaryDirectory(prefix="fdref-") as folder:
        trace, gone = os.path.join(folder, "trace"), os.path.join(folder, "gone")
        Path(trace).write_bytes(SHORT)
        yield from mistakes(program, trace)
        for word in ("audit", "show"):
            yield f"help of {word}", partial(shows_help, program, word)
            bad = {"no file": gone, "a folder": folder, "a file as a folder": f"{trace}/x", "no name": ""}
            for what, path in bad.items():
                yield f"{word} of {what}", partial(cannot_read, program, word, path)
            yield f"{word} byte by byte", partial(in_pieces, program, word, SHORT[:50])
            for end in (7, 8, 9, 23, 24, 66):
                yield f"{word} byte by byte of version 2, {end}", partial(in_pieces, program, word, NEW_SHORT[:end])
            yield f"{word} to a full device", partial(output_is_full, program, [word, trace])
        for what, path in (("in no folder", f"{gone}/trace"), ("that is a folder", folder), ("without a name", "")):
            yield f"a trace {what}", partial(cannot_make_trace, program, path, folder)
    yield "a trace that another server writes", partial(another_server_writes, program)
    yield "two servers that write to one device", partial(without_a_lock, program)
    for pause in (0, A_WHILE):
        yield f"a server that is killed after {pause} seconds", partial(killed, program, pause)


# ---- random runs of a live server


def live_run(task: tuple[str, str, int]) -> traced_runs.Checked | str:
    """How a run was, or why it fails."""
    try:
        return traced_runs.checked(*task)
    except FAULTS as fault:
        return str(fault)


def check_live(count: Count, program: str, seed: str, runs: int, jobs: int) -> None:
    """Runs of which the acts are those of random scripts, a few at once."""
    tasks = [(program, seed, number) for number in range(runs)]
    records = has_ended = 0
    with multiprocessing.Pool(jobs) as pool:
        for number, it in enumerate(pool.imap(live_run, tasks)):
            if isinstance(it, str):
                count.fail(numbered("run", seed, number), it)
            else:
                count.add(1, 0)
                records += it.records
                has_ended += it.has_ended
    killed_runs = count.passed - has_ended
    print(f"{runs} runs with {records} records; {killed_runs} had to be killed", flush=True)


# ---- the whole


def main(words: Sequence[str]) -> int:
    """Makes all checks: the exit status."""
    numbers = [
        count_option("--runs", 4_000, "random runs of a live server"),
        count_option("--changed", 2_000, "traces with a record that is changed"),
        count_option("--migrated", 400, "traces of version 1 that are migrated"),
        count_option("--stride", 5_003, "of the sizes of a file for a long trace, take one in N"),
        count_option("--jobs", 2, "how many run at a time"),
    ]
    args = asked(words, "Has the built program write, judge and show traces.", PROGRAM, SEED, *numbers, ONLY)
    program = args.program

    def every_byte(count: Count) -> None:
        for trace in (SHORT, NEW_SHORT):
            judge_all(count, program, list(changed_bytes(trace)), args.jobs)

    parts: list[tuple[str, Callable[[Count], None]]] = [
        ("verdicts that are written out", lambda count: check_written_out(count, program)),
        ("every byte of a short trace", every_byte),
        ("every front of small traces", lambda count: check_cut(count, program, args.seed, args.jobs)),
        ("numbers of records", lambda count: check_counted(count, program, args.seed, args.jobs)),
        ("migrations", lambda count: migrations.check(count, program, args.seed, args.migrated, args.stride)),
        ("changed records", lambda count: check_changed(count, program, args.seed, args.changed, args.jobs)),
        ("what is shown", lambda count: check_shown(count, program)),
        ("command lines and the system", lambda count: count.check_all(system_cases(program))),
        ("disks that fail", lambda count: count.check_all(failing_disks.cases(program, args.stride))),
        ("the client in Python", lambda count: count.check_all(python_traces.cases(program, args.seed))),
        ("a live server", lambda count: check_live(count, program, args.seed, args.runs, args.jobs)),
    ]
    total = Count()
    chosen = [(what, check) for what, check in parts if args.only in what]
    for what, check in chosen:
        count = Count(TELL_MOST)
        check(count)
        print(f"{what}: {count.line()}", flush=True)
        total.add(count.passed, count.failed)
    if not chosen:
        total.add(0, 1)
    return total.end()


if __name__ == "__main__":
    sys.exit(main(sys.argv[1:]))
