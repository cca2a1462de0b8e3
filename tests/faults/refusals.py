"""Each request for memory, each read, each write, each file, each change of files and each thread of each command refused in turn."""
import errno
import re

from cases import CASES, FILES, lines

GROWN = ("growth", "read", "write", "open", "start")
READ_SIZES, WRITE_SIZES = (0, 1, 7), (0, 1, 7)
SWEEPS = 3  # of a case with threads, whose order changes from run to run
BUILDING = ("ask", "build")  # commands that are refused where a thread is
THREADED = (*BUILDING, "live", "search", "terms", "upgrade")


def prepare(program):
    for name, content in FILES.items():
        program.write(name, content)


def sweep(program, case, judge, **refusals):
    """Runs a case with the first, second, .. call refused, until no call is; answers how many were, in how many the answer
    was whole all the same, and what was wrong."""
    wrong, call, whole = [], 0, 0
    key, more = refusals.pop("key"), refusals
    while True:
        call += 1
        case.prepare(program)
        got = program.run(*case.words, **{key: call}, **more)
        faults = list(case.faults(program, got))
        if not got.refused:
            wrong += [f"{case.name}, nothing refused: {w}" for w in faults]
            return call - 1, whole, wrong
        whole += not faults
        wrong += [f"{case.name}, {key} {call} {more}: {w}" for w in judge(program, case, got)]


def is_whole(program, case, got):
    return not list(case.faults(program, got))


def by_growth(program, case, got):
    return () if is_whole(program, case, got) else case.refusal_faults(program, got, case.memory)


def by_read(program, case, got):
    return case.refusal_faults(program, got, case.reads)


def by_memory(program, case, got):
    """A call that is refused for want of memory: a reader of run texts tells it as a read that was refused."""
    wanted = case.reads if re.search(rb"Source|Spill", got.errors) else case.memory
    if is_in_place(program, case, got):
        wanted = re.compile(rb"ix: file 2: Write\([a-z0-9.-]+\)\n")
    return case.refusal_faults(program, got, wanted)


def is_in_place(program, case, got):
    """Whether the new files have their names, though their folder could not be opened to be synced."""
    return got.opens_refused and case.status == 0 and case.wrote and all(program.read(n) == text for n, text in case.wrote.items())


def by_write(program, case, got):
    """A write that was refused: of the output, or of the refusal's own line, which then may be missing in part."""
    if case.errors:
        fits = got.status == 2 and (case.errors.startswith(got.errors) or case.writes.fullmatch(got.errors))
        return () if fits else [f"answered {got}"]
    return case.refusal_faults(program, got, case.writes, prints=True)


def by_nothing(program, case, got):
    return case.faults(program, got)


def by_open(program, case, got):
    if is_whole(program, case, got):
        return ()
    return case.refusal_faults(program, got, re.compile(rb"ix: (file [12]: (Read|Write)\([a-z0-9.-]+\)|build 2: Spill\([0-9]+\)|merge 4: Source\([0-9], Magic\))\n"))


def by_change(program, case, got):
    """A call that changes files: the answer is whole without locks, owners, modes and removals."""
    if got.change in ("lock", "lock of a folder", "mode", "owner", "unlink"):
        return case.faults(program, got)
    unsaved = [f"file 2: Write({name})" for name in case.wrote]
    spilled = [r"build 2: Spill\([0-9]+\)"] if case.folder and got.change == "create" else []
    wrong = list(case.refusal_faults(program, got, lines(*unsaved, *spilled)))
    if got.change == "sync of a folder":
        wrong += [f"not in place: {name}" for name, content in case.wrote.items() if program.read(name) != content]
    return wrong


def by_start(program, case, got):
    if case.words[0] not in BUILDING and is_whole(program, case, got):
        return ()  # a searcher without a thread answers all the same, and an index is opened without one
    return case.refusal_faults(program, got, lines(r"build 1: Thread\([0-9]+\)"))


# What is refused, how, and what then is to come.
GROWTHS = [("request for memory", by_growth, {"key": "growth"}), ("request and all later ones", by_growth, {"key": "growth", "growth_lasts": 1})]
CALLS = [("read", by_read, {"key": "read", "read_error": errno.EIO, "read_size": s}) for s in READ_SIZES]
CALLS += [("read, no memory", by_memory, {"key": "read", "read_error": errno.ENOMEM, "read_size": 1})]
CALLS += [("read interrupted", by_nothing, {"key": "read", "read_error": errno.EINTR, "read_size": 1})]
CALLS += [("write", by_write, {"key": "write", "write_error": e, "write_size": s}) for s in WRITE_SIZES for e in (errno.ENOSPC, errno.EPIPE)]
CALLS += [("write interrupted", by_nothing, {"key": "write", "write_error": errno.EINTR, "write_size": 1})]
CALLS += [("file", by_open, {"key": "open", "open_error": e}) for e in (errno.EACCES, errno.EMFILE)]
CALLS += [("file, no memory", by_memory, {"key": "open", "open_error": errno.ENOMEM})]
CALLS += [("change of files", by_change, {"key": "change", "change_error": e}) for e in (errno.EIO, errno.ENOSPC, errno.EACCES)]
CALLS += [("thread", by_start, {"key": "start", "start_error": e}) for e in (errno.EAGAIN, errno.ENOMEM)]


def tasks(kinds, known):
    """(case, kind) pairs, each a task of its own; cases that print many names are not cut byte by byte. `known` is the
    program's help: what it does not name is left out."""
    for number, case in enumerate(CASES):
        for kind, (_, _, how) in enumerate(kinds):
            if len(case.printed) > 1000 and (how.get("write_size") or how.get("read_size")):
                continue
            if case.needs in known:
                yield number, kind


def work(program, kinds, task):
    """The kind's name, the case, how many calls were refused, in how many the answer was whole, and what was wrong."""
    number, kind = task
    case, (name, judge, how) = CASES[number], kinds[kind]
    sweeps = SWEEPS if how["key"] == "growth" and case.words[0] in THREADED else 1
    tried, whole, wrong = 0, 0, []
    for _ in range(sweeps):
        count, answered, found = sweep(program, case, judge, **how)
        tried, whole, wrong = tried + count, whole + answered, wrong + found
    return name, case.name, tried, whole, wrong
