"""Limits of a system that the standard leaves open, as far as a history tells of them: a reason to answer otherwise
than fdref, whose limits are its own.

What a history tells has to be one limit. Where a system refuses what it gives elsewhere it has none, and no reason.
"""

from collections.abc import Callable, Iterator, Sequence
from typing import NamedTuple

from support import plain_model
from support.histories import UNKNOWN, Noted
from support.pipe_ends import change
from support.plain_model import OFFSET_MAX, OPEN_MAX, PIPE_BUF
from support.runs import Line

from compare_reasons import OWN, Difference, Reason, free_descriptors, gives_descriptors, names_of, reason_of
from compare_runs import act_of

# What each system has at least: descriptors (_POSIX_OPEN_MAX), bytes of a name (_POSIX_NAME_MAX), and bytes of a file,
# which has 32 bits for its size (FILESIZEBITS).
OPEN_LEAST, NAME_LEAST, SIZE_LEAST = 20, 14, 2**31 - 1
# PIPE_BUF of no known system is larger.
PIECE_MOST = 32_768

# ---- what a history tells of a limit


class Told(NamedTuple):
    """What a call tells of a limit: up to what it gives, or from what on it refuses."""

    given: int = -1
    refused: float = float("inf")


def is_one_limit(it: Difference, told: Callable[[Sequence[Line]], Iterator[Told]]) -> bool:
    """Whether a system refuses nowhere in a history what it gives elsewhere."""
    found = list(told(it.lines))
    return max((one.given for one in found), default=-1) < min((one.refused for one in found), default=0)


def acts_of(lines: Sequence[Line]) -> Iterator[tuple[int, plain_model.Act, str]]:
    """The acts of lines, each with the number of its process, and its outcome."""
    for line in lines:
        if line.act and not line.act.startswith("house "):
            yield line.number(), plain_model.read_act(act_of(line).encode()), line.outcome


def descriptors_told(lines: Sequence[Line]) -> Iterator[Told]:
    """What a history tells of the number of descriptors."""
    tables: dict[int, set[int]] = {}
    unknown: set[int] = set()
    for who, act, outcome in acts_of(lines):
        table = tables.setdefault(who, set())
        if outcome == UNKNOWN:
            unknown.add(who)
        free = [fd for fd in range(len(table) + 2) if fd not in table]
        if outcome == "error EMFILE" and who not in unknown:
            yield Told(refused=free[1 if act.word == "pipe" else 0])
        elif act.word == "dup2" and outcome == "error EBADF" and act.fields[0] in table and act.fields[1] >= 0:
            yield Told(refused=act.fields[1])
        change(table, Noted(0, 0, act, outcome), tables)
        if act.word == "fork" and who in unknown and outcome.isdigit():
            unknown.add(int(outcome))
        yield Told(given=max(table, default=-1))


def sizes_told(lines: Sequence[Line]) -> Iterator[Told]:
    """What a history tells of the greatest size of a file. Under append no place tells where a write begins."""
    acts = list(acts_of(lines))
    has_append = any("append" in str(field) for _, act, _ in acts for field in act.fields)
    for _, act, outcome in acts:
        if act.word == "fstat" and outcome.startswith("regular "):
            yield Told(given=int(outcome.split(" ")[1]))
        elif act.word == "ftruncate":
            yield Told(given=act.fields[1] if outcome == "ok" else -1)
            yield Told(refused=act.fields[1] if outcome == "error EFBIG" else float("inf"))
        elif act.word == "pwrite" and not has_append:
            _, start, data = act.fields
            end = start + int(outcome) if outcome.isdigit() and data else -1
            is_short = 0 <= end < start + len(data)
            yield Told(end, end + 1 if is_short else start + 1 if outcome == "error EFBIG" else float("inf"))


def names_told(lines: Sequence[Line]) -> Iterator[Told]:
    """What a history tells of the length of names."""
    for _, act, outcome in acts_of(lines):
        length = max(map(len, names_of(act)), default=-1)
        is_taken = not outcome.startswith("error ") and outcome != UNKNOWN
        yield Told(length if is_taken else -1, length if outcome == "error ENAMETOOLONG" else float("inf"))


def pieces_told(lines: Sequence[Line]) -> Iterator[Told]:
    """What a history tells of PIPE_BUF: a write of fewer bytes, or of as many, is not cut short."""
    for _, act, outcome in acts_of(lines):
        is_part = act.word == "write" and outcome.isdigit() and 0 < int(outcome) < len(act.fields[1])
        yield Told(refused=len(act.fields[1]) if is_part else float("inf"))


# ---- limits


def is_larger_piece(it: Difference) -> bool:
    """A write to a pipe of more bytes than PIPE_BUF of the profile, which goes in whole or not at all on the system: it
    has no room for all of them, though an empty pipe has."""
    if not it.words("write") or not it.at or not it.at.pipe or not it.at.nonblock or it.system != "error EAGAIN":
        return False
    is_piece = PIPE_BUF < it.count() <= min(it.at.pipe.capacity, PIECE_MOST)
    is_part = it.fdref.isdigit() and int(it.fdref) < it.count()
    return is_piece and is_part and it.count() < min(one.refused for one in pieces_told(it.lines))


def is_more_descriptors(it: Difference) -> bool:
    """A descriptor past those of the profile: of those that are free the lowest, or the one that dup2 is given."""
    if not is_one_limit(it, descriptors_told):
        return False
    if it.words("dup2"):
        return it.at is not None and it.act.fields[1] >= OPEN_MAX and it.system == str(it.act.fields[1])
    first, second = free_descriptors(it)
    given = [f"{first} {second}", f"{second} {first}"] if it.words("pipe") else [str(first)]
    return gives_descriptors(it) and it.gives("error EMFILE") and it.system in given


def is_fewer_descriptors(it: Difference) -> bool:
    """A descriptor that a system does not have, though the profile has: none of those that each system has."""
    if it.fdref.startswith("error ") or not is_one_limit(it, descriptors_told):
        return False
    if it.words("dup2"):
        return it.act.fields[1] >= OPEN_LEAST and it.system == "error EBADF"
    is_past = free_descriptors(it)[1 if it.words("pipe") else 0] >= OPEN_LEAST
    return gives_descriptors(it) and it.system == "error EMFILE" and is_past


def is_larger_file(it: Difference) -> bool:
    """A file that is larger than those of the profile."""
    if not is_one_limit(it, sizes_told):
        return False
    if it.words("ftruncate"):
        return it.gives("error EFBIG") and it.system == "ok"
    if not it.words("write", "pwrite") or not it.at or it.at.pipe or it.system != str(it.count()):
        return False
    end = it.start(it.at) + it.count()
    return it.world.limits.size < end <= OFFSET_MAX and (it.gives("error EFBIG") or it.fdref.isdigit())


def is_smaller_file(it: Difference) -> bool:
    """A file that is smaller than those of the profile, and as large as each system has them."""
    if not is_one_limit(it, sizes_told):
        return False
    if it.words("ftruncate"):
        is_past = it.gives("ok") and it.act.fields[1] > SIZE_LEAST
        return is_past and it.system in ("error EFBIG", "error EINVAL")
    if not it.words("write", "pwrite") or not it.at or it.at.pipe or not it.fdref.isdigit():
        return False
    if it.system == "error EFBIG":
        return it.count() > 0 and it.start(it.at) >= SIZE_LEAST
    is_part = it.system.isdigit() and 0 < int(it.system) < int(it.fdref)
    return is_part and it.start(it.at) + int(it.system) >= SIZE_LEAST


def is_no_space(it: Difference) -> bool:
    """A name that is to be made, or bytes that are to be written, for which a file system has no space."""
    if it.system != "error ENOSPC" or it.fdref.startswith("error "):
        return False
    if it.words("write", "pwrite"):
        return it.at is not None and not it.at.pipe and it.count() > 0
    is_made = it.words("mkfifo", "link", "rename") or (it.words("open") and "creat" in it.flags())
    return is_made and it.names()[-1] not in it.world.names


def is_many_files(it: Difference) -> bool:
    """A file that a system does not open, since too many are open in it."""
    return it.words("open", "pipe") and it.system == "error ENFILE" and not it.fdref.startswith("error ")


def is_no_process(it: Difference) -> bool:
    """A child for which a system has no room."""
    return it.words("fork") and it.fdref.isdigit() and it.system in ("error EAGAIN", "error ENOMEM")


def is_long_name(it: Difference) -> bool:
    """A name that is too long for a system, and longer than those that each system takes."""
    is_past = it.system == "error ENAMETOOLONG" and any(len(name) > NAME_LEAST for name in it.names())
    return is_past and is_one_limit(it, names_told)


# Reasons by limits of a system, which the standard leaves open. Scripts that are compared have the first alone: what
# runs them sets the limits of the profile, where the system has as many descriptors.
LIMITS = [
    Reason("fewer than 32 descriptors", OWN, "XBD limits.h, _POSIX_OPEN_MAX", is_fewer_descriptors),
    Reason("more than 32 descriptors", OWN, "XBD limits.h, OPEN_MAX", is_more_descriptors),
    Reason("more than 1,099,511,627,776 bytes in a file", OWN, "page of write", is_larger_file),
    Reason("fewer than 1,099,511,627,776 bytes in a file", OWN, "XBD limits.h, FILESIZEBITS", is_smaller_file),
    Reason("no space in the file system", OWN, "pages of open, mkfifo, link, rename and write", is_no_space),
    Reason("too many files open in the system", OWN, "pages of open and pipe", is_many_files),
    Reason("no room for a child", OWN, "page of fork", is_no_process),
    Reason("names of at most 64 bytes that are too long", OWN, "XBD limits.h, _POSIX_NAME_MAX", is_long_name),
    Reason("PIPE_BUF is more than 512 bytes", OWN, "pages of limits.h and write", is_larger_piece),
]


FEWER = LIMITS[0]


def reason_or_limit(difference: Difference) -> Reason | None:
    """The first reason that fits a difference, or the limit."""
    return reason_of(difference) or next((reason for reason in LIMITS if reason.fits(difference)), None)
