"""Each request for memory of each test of the libraries refused in turn, over the programs that `rt test` leaves behind: the
proved calls that no command makes.

A test passes all the same, or ends with the error that its call gave, or stops at the assertion that compares it: then the
error is among what is shown. An assertion that shows no value cannot be judged, and is counted apart. A test that makes each
call again until it succeeds says so itself where it comes to another end, and that is wrong; it passes where a thread is not
started.
"""
import errno
import itertools
import re
import signal

from program import Program

PASSED = b"\ntest result: ok\n"
TOLD = re.compile(rb"Memory|AllocError|Thread\(|OutOfMemory")
AGAIN = "again_after_refusals"  # in the name of a test that makes each call again
OTHERWISE = re.compile(rb"not as with ample memory|refused each time")
MOST = 2500  # requests of a test; one that makes more is left out


def programs(top):
    """The programs of tests that stand there."""
    return sorted(top.glob("crates/*/out/*_tests"))


def work(kept, path):
    """Rows (crate, tests, left out, refusals, passed, told, not judged), and what was wrong."""
    with Program(path, kept.preload, kept.room) as program:
        names = [line.rsplit(": ", 1)[0] for line in program.run("--list").printed.decode().splitlines() if line.endswith(": test")]
        sums, wrong = [0] * 6, []
        for name in names:
            row, faults = sweep(program, name)
            sums = [a + b for a, b in zip(sums, row)]
            wrong += [f"{path.name}, {name}: {fault}" for fault in faults]
    return path.name.removesuffix("_tests"), sums, wrong


def sweep(program, name):
    whole = program.run(name, seconds=60)
    if whole.printed[-len(PASSED):] != PASSED:
        return [1, 0, 0, 0, 0, 0], [f"nothing refused: {whole}"]
    if whole.growths > MOST:
        return [1, 1, 0, 0, 0, 0], []
    passed = told = unjudged = call = 0
    wrong = starts(program, name) if AGAIN in name else []
    while True:
        call += 1
        got = program.run(name, growth=call)
        if not got.refused:
            return [1, 0, call - 1, passed, told, unjudged], wrong
        if got.status == 0 and got.printed.endswith(PASSED):
            passed += 1
        elif OTHERWISE.search(got.errors):
            wrong.append(f"request {call}: {got}")
        elif TOLD.search(got.errors):
            told += 1
        elif got.status in (101, -signal.SIGABRT):
            unjudged += 1
        else:
            wrong.append(f"request {call}: {got}")


def starts(program, name):
    """What was wrong where each start of a thread was refused in turn, to a test that makes each call again."""
    wrong = []
    for error in (errno.EAGAIN, errno.ENOMEM):
        for call in itertools.count(1):
            got = program.run(name, start=call, start_error=error)
            if not got.refused:
                break
            if got.status != 0 or not got.printed.endswith(PASSED):
                wrong.append(f"start {call}, error {error}: {got}")
    return wrong
