"""Each command with each of its calls of the system failing in turn, and with small ones.

A library that is loaded before the program has one call of open, read or write fail, once or from
then on; of `det_lane` also one of posix_spawn, pipe2 or of those that wait, and one of its second
copy. A failed open or read has to end the run with status 6 and `read fault`, a failed write with 7
and `write fault`. In `det_lane` the first, and what children need, end it with 10 and `spawn
fault`, and a failed copy with 9 and its status; what only its guard needs changes nothing. What was
written has to be the first bytes of what is written otherwise. A call that was interrupted has to
be tried again, and reads and writes of few bytes may change nothing. Of a call that is made often
40 numbers are tried, or all by --all-calls. It needs gcc, on Linux.
"""

from __future__ import annotations

import errno
import sys
from concurrent.futures import ThreadPoolExecutor
from dataclasses import replace
from typing import Iterator

import pytest

from commands import Outcome
from failing_bench import COMMANDS, FailingBench, Setting, Trials, begins, check_trials
from preload import LANE

# The most numbers of a call that are tried where --all-calls isn't given.
MOST_NUMBERS = 40
ERRORS = {
    "open": (errno.EIO, errno.EMFILE, errno.ENOENT),
    "read": (errno.EIO,),
    "write": (errno.EIO, errno.ENOSPC, errno.EPIPE),
    "spawn": (errno.EAGAIN,),
    "pipe": (errno.EMFILE,),
    "wait": (errno.ECHILD,),
}
INTERRUPTED = ("open", "read", "write", "wait")
# The last word of the copy of det_lane that fails, and its number.
COPY_WORD, COPY = "2", 1
# The statuses with which a file was refused.
REFUSED = (3, 4, 5)
# How many of the first calls of det_lane start its guard.
OF_GUARD = {"open": 2, "pipe": 1, "spawn": 1}
# Commands that take longer, of which fewer numbers are tried.
LONG = "det sim"


def is_failed_write(words: str, setting: Setting, outcome: Outcome, whole: Outcome) -> bool:
    """Whether a run ended as it has to where a write failed, which may be one to standard error."""
    is_same = (outcome.status, outcome.out) == (whole.status, whole.out)
    is_line_lost = is_same and outcome.err != whole.err and whole.err.startswith(outcome.err)
    # A line of a child may be lost, which isn't compared, or cut off. The lane's own comes last.
    is_of_child = words.startswith(LANE) and is_same and outcome.err.endswith(whole.err)
    line = b"" if setting.lasting else b"write fault"
    return is_line_lost or is_of_child or begins(outcome, 7, line, whole)


def has_lost_hint(outcome: Outcome, whole: Outcome) -> bool:
    """Whether a run ended as the whole one did, without its hints. A file that was refused is read
    once more for them."""
    is_less = outcome.is_like(whole) and whole.err.startswith(outcome.err)
    return whole.status in REFUSED and is_less


def is_good(words: str, setting: Setting, outcome: Outcome, whole: Outcome) -> bool:
    """Whether a run ended as it has to."""
    if not setting.call or setting.error == errno.EINTR:
        return outcome == whole
    status = 7 if setting.call == "write" else 6
    if setting.only:
        return outcome == Outcome(9, b"", b"child %d status %d\n" % (COPY, status))
    if setting.call == "write":
        return is_failed_write(words, setting, outcome, whole)
    if words.startswith(LANE):
        # Where one copy has decided, no other needs to be waited for, nor its errors to be read.
        is_decided = setting.call in ("wait", "read") and whole.status == 9 and outcome == whole
        return is_decided or begins(outcome, 10, b"spawn fault", whole)
    return begins(outcome, 6, b"read fault", whole) or has_lost_hint(outcome, whole)


def is_of_guard(words: str, setting: Setting, counts: dict[str, int]) -> bool:
    """Whether the call that fails is one of a lane for its guard alone. The last two that wait are,
    one before the guard is killed and one for its end."""
    if not words.startswith(LANE) or setting.only or setting.call not in counts:
        return False
    if setting.call == "wait":
        return setting.number > counts["wait"] - 2
    return not setting.lasting and setting.number <= OF_GUARD.get(setting.call, 0)


def numbers_of(count: int, most: int) -> list[int]:
    """The numbers from 1 to a count, or some of them, with the first and the last."""
    if count <= most:
        return list(range(1, count + 1))
    return sorted({1 + at * (count - 1) // (most - 1) for at in range(most)})


def failing_calls(
    words: str, base: Setting, counts: dict[str, int], most: int
) -> Iterator[Setting]:
    """Each call failing in turn with each error, once and from then on; each interrupted once."""
    # What det_lane opens itself is /dev/null, which is never interrupted.
    interrupted = INTERRUPTED[1:] if words.startswith(LANE) and not base.only else INTERRUPTED
    for call, errors in ERRORS.items():
        for number in numbers_of(counts.get(call, 0), most):
            for error in errors:
                for lasting in (False, True):
                    yield replace(base, call=call, number=number, error=error, lasting=lasting)
            if call in interrupted:
                yield replace(base, call=call, number=number, error=errno.EINTR)


def small_pieces() -> Iterator[Setting]:
    for read in (1, 2, 7):
        yield Setting(read=read)
    yield Setting(write=1)
    yield Setting(read=1, write=1)
    yield Setting(read=7, write=7)


def in_pieces(counts: dict[str, int], base: Setting, most: int) -> Iterator[Setting]:
    """Each read or write of few bytes failing, or interrupted, in turn."""
    call = "read" if base.read else "write"
    for number in numbers_of(counts.get(call, 0), most):
        for error in (errno.EIO, errno.EINTR):
            yield replace(base, call=call, number=number, error=error)


def settings(bench: FailingBench, words: str, most: int) -> Iterator[Setting]:
    """All settings that a command is run with."""
    most = 3 if words.startswith(LONG) else most
    yield from small_pieces()
    yield from failing_calls(words, Setting(), bench.run_setting(words, Setting())[1], most)
    for base in (Setting(read=7), Setting(write=1)):
        yield from in_pieces(bench.run_setting(words, base)[1], base, most)
    if words.startswith(LANE + " BIN") and bench.run_setting(words, Setting())[0].status == 0:
        yield from (replace(base, only=COPY_WORD) for base in small_pieces())
        copy = Setting(only=COPY_WORD)
        yield from failing_calls(words, copy, bench.run_setting(words, copy)[1], most)


def trials(bench: FailingBench, words: str, most: int, jobs: int) -> Trials:
    """Every setting of a command, and whether it ended as it has to."""
    whole = bench.whole(words)
    all_settings = list(settings(bench, words, most))
    threads = ThreadPoolExecutor(jobs)
    try:
        ends = threads.map(lambda setting: bench.run_setting(words, setting), all_settings)
        for setting, (outcome, counts) in zip(all_settings, ends):
            # How many reads a pipe takes isn't the same in every run.
            is_reached = counts.get(setting.call, setting.number) >= setting.number
            is_needed = is_reached and not is_of_guard(words, setting, counts)
            is_right = is_good(words, setting if is_needed else Setting(), outcome, whole)
            yield f"{setting}: {outcome}", is_right
    finally:
        threads.shutdown(cancel_futures=True)


@pytest.mark.slow
@pytest.mark.parametrize("words", COMMANDS)
def test_failing_calls(
    words: str, failing_bench: FailingBench, jobs: int, pytestconfig: pytest.Config
) -> None:
    most = sys.maxsize if pytestconfig.getoption("all_calls") else MOST_NUMBERS
    check_trials(trials(failing_bench, words, most, jobs))
