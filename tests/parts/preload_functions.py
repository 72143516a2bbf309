"""What the library of clients/preload does with each function that takes a descriptor or a path: a table of them all.

tests/c/descriptor_functions.txt is held against the headers and against the library. Each function of which the table
says that it is told is called, with a descriptor and a name of fdref.
"""

import errno
import os
import re
from collections.abc import Iterator
from functools import partial
from pathlib import Path

from parts import header_functions
from parts.header_functions import Function, exported, kind_of
from parts.preload_builds import LEFT_OUT, Library, asking, empty_folder, ended
from support.counting import Case, require, same
from support.places import C_TESTS
from support.running import Ran
from support.serving import ALL_RECORDS, Server

TABLE = C_TESTS / "descriptor_functions.txt"
ANSWERED, TOLD, UNSEEN, NONE = "answered", "told", "cannot be seen", "none of fdref's"

# Names of a char * that are no paths.
NOT_PATHS = set(
    """__String __accept __action __arg __argz __asc __assertion __before __buf __buffer __bufp __cat_name __cmd
    __codeset __cp __dbname __delim __dest __domain __domainname __dst __entry __envz __envz2 __errbuf __f __fmt
    __fname __format __fromcode __fs_name __fstype __function __haystack __host __hostname __ident __ifname __key
    __label __line __list __locale __locuser __mode __modes __msg_ptr __msgid __msgid1 __msgid2 __needle __netgroup
    __nptr __opt __pass __pfx __prompt __property __proto __reject __remuser __resolved __response __rhost __s __s1
    __s2 __serv __service __shortopts __src __statebuf __str __string __string1 __string2 __tag __text __tocode
    __tty __user __ut_host __ut_line __ut_name __value __version __with __words""".split()
)
# Names of an int that is no descriptor, and other names of its type; functions whose int has no name, as that of ctype.h.
NOT_DESCRIPTORS = set(
    """___argc ___flags __access_rights __action __advice __advise __af __algorithm __argc __aux __base __bufsize __c
    __category __category_mask __cflags __cmd __count __datalen __delim __delimiter __denom __descriptors
    __detachstate __domain __duration __ecode __eflags __ent __err __err_num __errcode __errnum __event_f_flags
    __exponent __facility __fdtype __flag __flags __how __howto __i __id __ifindex __inc __index __inherit
    __interrupt __key __kind __len __level __line __lineno __major __mask __maxevents __minor __mode __modes
    __ms_flags __msg_prio __msgflg __msqid __multx __n __name __nbytes __ndigit __nelem __nent __nfds __nochdir
    __noclose __nsems __nstype __number __numer __offset __oflag __op __operation __option __optional_actions
    __options __optname __override __param __pkey __plusy __policy __port __pref __pri __prio __prioceiling
    __profcnt __proj_id __prot __proto __protocol __pshared __queue_selector __quote __replace __request __res
    __robustness __rport __savemask __scale __schedpolicy __scope __seconds __seed __segments __semflg __semid
    __semnum __sep __set __severity __shmflg __shmid __sig __signal __signo __size __spec __state __status
    __stay_open __stayopen __suffixlen __suser __timeout __turn_on __type __val __value __vlen __w __wd __whence __x
    __year flags""".split()
)
NOT_TYPES = set(
    """__clockid_t __gid_t __id_t __mode_t __pid_t __re_size_t __socklen_t __uid_t __uint32_t __useconds_t char32_t
    clockid_t id_t in_addr_t key_t mode_t nl_item pid_t pthread_key_t regoff_t socklen_t speed_t tss_t uint32_t
    wchar_t wint_t""".split()
)
NAMELESS = re.compile(r"_?(?:is|to)\w+|__overflow|_obstack_\w+|fts(?:64)?_\w+")

# These run programs, or make another call: preload_programs.py has them.
ELSEWHERE = re.compile(r"posix_spawnp?|system|popen|syscall|(?:__)?clone")
# No header has these.
LETTERS = {"__xmknod": ["4n4b"], "__xmknodat": ["4wn4b"]}
# These make a file of the system, or look for a free name there, and do not fail.
MAKE = re.compile(r"mk\w*temp\w*|tempnam|fts\w*_open|updwtmpx?|\w*backtrace_symbols_fd|fchdir")
SESSIONS = 60


def table() -> dict[str, str]:
    """What is done with each function: the verdict, and a reason of those that need one."""
    found: dict[str, str] = {}
    verdict = ""
    for line in TABLE.read_text(encoding="ascii").splitlines():
        if line.startswith("#") or not line:
            continue
        if not line.startswith(" "):
            verdict = line
            continue
        for name in line.split():
            require(name not in found, f"{name} stands twice")
            found[name] = verdict
    return found


def has_verdicts() -> None:
    """Each function is answered, told, cannot be seen or is none, and the last two have a reason."""
    for name, verdict in table().items():
        word, _, reason = verdict.partition(": ")
        require(word in (ANSWERED, TOLD, UNSEEN, NONE), f"{name}: {verdict}")
        require(bool(reason) == (word in (UNSEEN, NONE)), f"{name}: {verdict}")


def of_headers(library: Library) -> dict[str, Function]:
    """What the headers declare and the C library gives."""
    return header_functions.declared(library.compiler, library.program("preload_tells"))


def knows_names(library: Library) -> None:
    """The name of each char * in the headers is known."""
    every = {
        header_functions.name_of(parameter)
        for function in of_headers(library).values()
        for parameter in function.parameters
        if header_functions.is_text(parameter) and parameter.rstrip().endswith(header_functions.name_of(parameter))
    }
    same(set(), {name for name in every if name.startswith("__")} - header_functions.PATHS - NOT_PATHS)


def knows_ints(library: Library) -> None:
    """Of each int in the headers, by its name or that of its type, it is known whether it is a descriptor."""
    types = header_functions.int_types(library.compiler)
    require(header_functions.QUEUE in types and "int8_t" not in types, f"other types: {sorted(types)}")
    unknown = set()
    for function in of_headers(library).values():
        for parameter in function.parameters:
            kind, name = header_functions.int_of(parameter, types) or ("", "")
            if not kind or kind in NOT_TYPES or kind_of(parameter) or name in NOT_DESCRIPTORS:
                continue
            if name or not NAMELESS.fullmatch(function.name):
                unknown.add(f"{parameter} of {function.name}")
    same(set(), unknown)


def has_all(library: Library) -> None:
    """The table has each function of the headers that takes a descriptor or a path, and its other names."""
    rows = table()
    wanted = {name for name, function in of_headers(library).items() if header_functions.takes(function)}
    require(len(wanted) > 300, f"only {len(wanted)} functions are found")
    given = exported(header_functions.c_library(library.program("preload_tells")))
    also = {name for name in given if name.startswith("_") and name.lstrip("_") in rows and name.lstrip("_") in given}
    are_none = {name for name in also if rows[name.lstrip("_")].startswith((NONE, UNSEEN))}
    same(set(), (wanted | (also - are_none)) - set(rows))


def has_no_more(library: Library) -> None:
    """What the library has is what the table says to be answered or told, of what the C library gives."""
    given = exported(header_functions.c_library(library.program("preload_tells")))
    rows = {name for name, verdict in table().items() if verdict in (ANSWERED, TOLD)}
    same(sorted(rows & given), sorted(exported(library.built()) & given))
    every = exported(header_functions.c_library(library.program("preload_tells")), is_private=True)
    same(set(), set(exported(library.built()) - every))


# ---- calls


def letter_of(parameter: str) -> str:
    """The letter of an argument, as preload_tells has it; `d` and `n` are those of fdref."""
    kind = kind_of(parameter)
    if kind.startswith("struct aiocb"):
        return "R" if "[" in parameter else "r"
    letters = {"descriptor": "d", "path": "n", "paths": "l", "struct pollfd": "p", "fd_set": "s"}
    return letters.get(kind, "b" if "*" in parameter or "[" in parameter or "_ARG" in parameter else "4")


def letters_of(name: str, every: dict[str, Function]) -> list[str]:
    """The arguments with which a function is called: a name in the working folder, or a descriptor without a name."""
    if name in LETTERS:
        return LETTERS[name]
    function = every.get(name) or every[name.lstrip("_")]
    letters = "".join(letter_of(it) for it in function.parameters if it != "void")[:6]
    is_both = "d" in letters and "n" in letters
    return [letters.replace("d", "w"), letters.replace("n", "e")] if is_both else [letters]


def told(library: Library) -> dict[str, list[str]]:
    """The functions that are told, and how each is called."""
    every = of_headers(library)
    names = [name for name, verdict in table().items() if verdict == TOLD and not ELSEWHERE.fullmatch(name)]
    return {name: letters_of(name, every) for name in names if name in exported(library.built())}


def is_noted(name: str, notes: list[str]) -> bool:
    """Whether it is noted that a call was told, with its name."""
    return any(re.fullmatch(rf"! \d+ p0 (?:call|path|stream) {name}(?:\t.*)?", line) for line in notes)


def tell(program: str, library: Library) -> None:
    """All calls that are told are noted. With a descriptor or a name of fdref they fail, and are ENOSYS."""
    calls = told(library)
    words = [f"{name}:{letters}" for name, ways in calls.items() for letters in ways]
    with Server(program, 1, ALL_RECORDS) as server, empty_folder() as folder:
        past = os.path.join(folder, "past")
        given = asking(library, server, [library.program("preload_tells"), *words], [f"FDREF_PAST={past}"])
        same((0, b""), (given.ran.status, given.ran.stderr))
        notes = Path(past).read_text(encoding="ascii").splitlines()
        ended(server, 1, given.log)
    lines = [line.split() for line in given.ran.stdout.decode("ascii").splitlines()]
    same(len(words), len(lines))
    for name in calls:
        require(is_noted(name, notes), f"{name} is not told")
        errors = {int(number) for called, _, number in lines if called == name}
        require(errno.ENOSYS in errors or MAKE.fullmatch(name), f"{name} fails by {errors}")


def ends_strictly(program: str, library: Library, names: list[str], calls: dict[str, list[str]]) -> None:
    """Each of these calls ends a program that has to be strict."""
    runs = [(name, letters) for name in names for letters in calls[name]]
    with Server(program, len(runs), ALL_RECORDS) as server:
        ends: dict[str, list[Ran]] = {name: [] for name in names}
        for name, letters in runs:
            words = [library.program("preload_tells"), f"{name}:{letters}"]
            ends[name].append(asking(library, server, words, ["FDREF_STRICT=1"]).ran)
        for name, every in ends.items():
            wanted = Ran(LEFT_OUT, b"", f"fdref: {name} is left out\n".encode())
            require(wanted in every, f"{name}: {' and '.join(ran.said() for ran in every)}")


def functions(program: str, library: Library) -> Iterator[Case]:
    """The table, and the calls that are told."""
    yield "verdicts of the table", has_verdicts
    yield f"names of parameters, {library.name}", partial(knows_names, library)
    yield f"names of ints, {library.name}", partial(knows_ints, library)
    yield f"the table and the headers, {library.name}", partial(has_all, library)
    yield f"the table and the library, {library.name}", partial(has_no_more, library)
    yield f"calls that are told, {library.name}", partial(tell, program, library)
    calls = told(library)
    names = sorted(calls)
    for at in range(0, len(names), SESSIONS // 2):
        some = names[at : at + SESSIONS // 2]
        yield f"strict from {some[0]}, {library.name}", partial(ends_strictly, program, library, some, calls)
