"""`det_lane` over real children: `det` itself, and scripts that fail in ways of their own.

A case is a script for `sh`, in which $K is the number of its copy, counted from 1, and `record`
writes the record of the words. After each case no child may be left running. It needs /proc.
"""

from __future__ import annotations

import resource
import time
from pathlib import Path
from typing import Any

import pytest

from children import is_left
from clients import Client
from commands import TOP, Bench, Case, Outcome, Word, without_children

MANIFEST = TOP / "examples" / "guard.toml"
STIMULUS = TOP / "examples" / "guard.stim"
# The most seconds that a case may take, and one in which a child has to be stopped.
WITHIN, STOPPED_WITHIN = 30, 10
# The least bytes of the large record.
LARGE = 100_000_000
# What det_lane has on its own standard input.
FOR_NO_CHILD = b"no child is given this\n"
NOT_STARTED = "spawn fault\n  {}: {}\n"
KILLED = "spawn fault\n  child {} ended with signal: {}\n"
# The most bytes of a line of a child, with its name, and what is left of them for its text.
MOST_LINE = 4096
MOST_TEXT = MOST_LINE - len("child 0: ")

# `x N` writes that many letters, and `flip N` turns the lowest bit of byte N of what it reads.
FLIP = """x() { head -c "$1" /dev/zero | tr '\\0' x; }
flip() {
    python3 -c 'import sys
b = bytearray(sys.stdin.buffer.read())
b[int(sys.argv[1])] ^= 1
sys.stdout.buffer.write(b)' "$1"
}
"""


def script(
    name: str,
    text: str,
    status: int,
    out: str = "",
    err: str = "",
    copies: int = 2,
    options: str = "",
) -> Case:
    """A case by the text of its script, and how det_lane has to end."""
    words: list[Word] = ["det_lane", "./copy", copies, MANIFEST, STIMULUS, *options.split()]
    outcome = Outcome(status, out.encode(), err.encode())
    return Case(name, words, outcome, {"copy": text.encode()})


def agrees(name: str, text: str, err: str = "", copies: int = 2, options: str = "") -> Case:
    return script(name, text, 0, "agree 3\n", err, copies, options)


CASES = [
    agrees("two copies agree", "record"),
    agrees("eight copies agree", "record", copies=8),
    agrees("standard input is empty", "[ $(wc -c) = 0 ] && record"),
    agrees("a child that closes its output and goes on", "record; exec >&-; sleep 2"),
    script(
        "a flipped bit differs",
        "if [ $K = 2 ]; then record | flip 40; else record; fi",
        1,
        out="differ copy 1 header\n",
    ),
    script(
        "a child that is killed before it writes",
        "[ $K = 1 ] || kill -9 $$; record",
        10,
        err=KILLED.format(1, "9 (SIGKILL)"),
    ),
    script(
        "a child that is killed after it wrote",
        "record; [ $K = 1 ] || kill -9 $$",
        10,
        err=KILLED.format(1, "9 (SIGKILL)"),
    ),
    script(
        "of two that signals end the first is named",
        "record; [ $K = 1 ] || kill -$((17 - K)) $$",
        10,
        err=KILLED.format(1, "15 (SIGTERM)"),
        copies=3,
    ),
    script(
        "a child that ends with 3",
        "record; [ $K = 1 ] || exit 3",
        9,
        err="child 1 status 3\n",
    ),
    script(
        "of two that fail after their records the least is named",
        "record; [ $K = 1 ] || exit $((K + 1))",
        9,
        err="child 1 status 3\n",
        copies=3,
    ),
    script(
        "of two that break off the one of the earlier row is named",
        "[ $K = 1 ] || { record | head -c $((480 - K * 140)); exit $((K + 3)); }; record",
        9,
        err="child 2 status 6\n",
        copies=3,
    ),
    script(
        "of two that break off in one row the least is named",
        "[ $K = 1 ] || { record | head -c $((100 - K * 20)); exit $((K + 3)); }; record",
        9,
        err="child 1 status 5\n",
        copies=3,
    ),
    script(
        "a fault counts before a greater copy that breaks off in that row and fails",
        "case $K in 2) record | flip 0 ;; 3) record | head -c 60; exit 6 ;; *) record ;; esac",
        5,
        err="bad record: copy 1 offset 0 magic\n",
        copies=3,
    ),
    script(
        "a child without a status counts before one that failed",
        "record; [ $K = 1 ] && exit 3; kill -9 $$",
        10,
        err=KILLED.format(1, "9 (SIGKILL)"),
    ),
    script(
        "a child that breaks off and fails",
        "if [ $K = 3 ]; then record | head -c 60; exit 7; fi; record",
        9,
        err="child 2 status 7\n",
        copies=3,
    ),
    script(
        "a child that breaks off and ends well",
        "if [ $K = 3 ]; then record | head -c 60; else record; fi",
        5,
        err="bad record: copy 2 offset 60 truncated\n",
        copies=3,
    ),
    script(
        "children that write no record",
        "echo hello",
        5,
        err="bad record: copy 0 offset 0 magic\n",
    ),
    script(
        "children that write nothing and fail",
        "exit 3",
        9,
        err="child 0 status 3\n",
    ),
    script(
        "where copies differ no status counts",
        "[ $K = 1 ] || { record | flip 40; exit 3; }; record",
        1,
        out="differ copy 1 header\n",
    ),
]
# What children write to standard error.
ERRORS = [
    agrees(
        "a line names its child",
        "[ $K = 1 ] || echo bad >&2; record",
        "child 1: bad\n",
    ),
    agrees(
        "an empty line and a last one without an end",
        "[ $K = 1 ] || printf 'a\\n\\nb' >&2; record",
        "child 1: a\nchild 1: \nchild 1: b\n",
    ),
    agrees(
        "lines of two children aren't mixed",
        "if [ $K = 1 ]; then printf a; sleep 2; echo b; else sleep 1; echo c; fi >&2; record",
        "child 1: c\nchild 0: ab\n",
    ),
    agrees(
        "a line of the greatest length, and one that is cut",
        f"[ $K = 1 ] && {{ x {MOST_TEXT}; echo; x {MOST_TEXT + 2}; echo; }} >&2; record",
        f"child 0: {'x' * MOST_TEXT}\n" * 2 + "child 0: xx\n",
    ),
    agrees(
        "more than a pipe holds, before the record, from the copy that is read last",
        "[ $K = 3 ] && yes | head -c 400000 >&2; record",
        "child 2: y\n" * 200_000,
        copies=3,
    ),
    agrees(
        "a child that goes on after its output",
        "record; exec >&-; [ $K = 1 ] || { sleep 1; yes | head -c 200000 >&2; }",
        "child 1: y\n" * 100_000,
    ),
    agrees(
        "a process that a child leaves behind isn't waited for",
        "record; [ $K = 1 ] || { echo before >&2; { sleep 1; echo after >&2; } >&- & }",
        "child 1: before\n",
    ),
    script(
        "the child's lines come before the lane's own",
        "[ $K = 1 ] || { echo why >&2; exit 3; }; record",
        9,
        err="child 1: why\nchild 1 status 3\n",
    ),
    script(
        "the last words of a child that is killed",
        "[ $K = 1 ] || { printf help >&2; kill -9 $$; }; record",
        10,
        err="child 1: help\n" + KILLED.format(1, "9 (SIGKILL)"),
    ),
    agrees(
        "a child without a standard error",
        "exec 2>&-; record",
    ),
]
# The words behind `--`, which a child has from its sixth argument on.
FURTHER = [
    agrees("no further words", "[ $# = 5 ] || echo $# >&2; record", options="--"),
    agrees(
        "further words",
        '[ $K = 1 ] || echo $# $6 $7 $8 >&2; set -- "$1" "$2" "$3" "$4" "$5"; record',
        "child 1: 8 -- --timeout 0\n",
        options="--timeout 60 -- -- --timeout 0",
    ),
    script(
        "further words are those of `det record`",
        "record",
        0,
        "agree 3\n",
        options="-- --seed 7 --strict",
    ),
    script(
        "further words that `det record` refuses",
        "record 2>&-",
        9,
        err="child 0 status 2\n",
        options="-- --workers 1",
    ),
]
LATE = "spawn fault\n  child {} wrote nothing for 1 s\n"
# Children that have a second to write something.
TIMED = [
    agrees("a child that writes in time", "sleep 0.3; record", options="--timeout 1"),
    agrees(
        "the time begins anew with each wait",
        "{ record; } | { for k in 1 2 3 4; do head -c 60; sleep 0.6; done; cat; }",
        options="--timeout 1",
    ),
    script(
        "a child that writes nothing",
        "[ $K = 1 ] || exec sleep 1000; record",
        10,
        err=LATE.format(1),
        options="--timeout 1",
    ),
    script(
        "of two that write nothing the first is named",
        "[ $K = 1 ] || exec sleep 1000; record",
        10,
        err=LATE.format(1),
        copies=3,
        options="--timeout 1",
    ),
    script(
        "of two that close their outputs and go on the first is named",
        "record; exec >&-; exec sleep 1000",
        10,
        err=LATE.format(0),
        options="--timeout 1",
    ),
    script(
        "a child that stops in its record",
        "[ $K = 1 ] && { record | head -c 60; exec sleep 1000; }; record",
        10,
        err=LATE.format(0),
        options="--timeout 1",
    ),
    script(
        "a child that closes its output and goes on",
        "record; exec >&-; [ $K = 1 ] || exec sleep 1000",
        10,
        err=LATE.format(1),
        options="--timeout 1",
    ),
    script(
        "lines on standard error don't count",
        "[ $K = 1 ] && for k in 1 2 3; do sleep 0.4; echo $k >&2; done; exec sleep 1000",
        10,
        err="child 0: 1\nchild 0: 2\n" + LATE.format(0),
        options="--timeout 1",
    ),
]
# Children that would run on for longer than a case may take.
STOPPED = [
    script(
        "a child that goes on where copies differ is stopped",
        "if [ $K = 2 ]; then echo hello; fi; record; yes",
        5,
        err="bad record: copy 1 offset 0 magic\n",
    ),
    script(
        "a child that never writes is stopped where another is bad",
        "[ $K = 1 ] && echo hello || exec sleep 1000",
        5,
        err="bad record: copy 0 offset 0 magic\n",
    ),
]


class Lane(Bench):
    """A bench in whose folder children are started."""

    def run_lane(self, *words: Word, **how: Any) -> Outcome:
        """Runs det_lane. Neither a child nor the guard may be left."""
        given = self.run("det_lane", *words, **how)
        assert not is_left(self.folder), "a process is left running"
        return given

    def write_script(self, text: str) -> None:
        record = f'record() {{ {self.programs.path("det")} "$@"; }}'
        calls = text.replace("record", 'record "$@"')
        path = Path(self.file("copy", f"#!/bin/sh\nK=$5\n{record}\n{FLIP}{calls}\n"))
        path.chmod(0o755)

    def check(self, case: Case, within: float) -> None:
        """Runs a case. It has to end as it says, within some seconds."""
        self.write_script(case.files["copy"].decode())
        start = time.monotonic()
        given = self.run_lane(*case.words[1:], input=FOR_NO_CHILD)
        seconds = time.monotonic() - start
        assert given == case.outcome
        assert seconds <= within, f"took {seconds:.1f} seconds"

    def write_large_record(self) -> int:
        """Writes the record `large`. Returns how many cycles it has."""
        self.file("large.toml", Client("cloud", [60_000, 1_000_000, 3, 4_000_000], 1).manifest())
        cycles = 2
        while True:
            self.file("large.stim", "stim 1\n" + "cycle -\nsample 0 3\n" * cycles + "terminate\n")
            with open(self.folder / "large", "wb") as out:
                given = self.run("det", "record", "large.toml", "large.stim", stdout=out)
            size = (self.folder / "large").stat().st_size
            assert given.status == 0 and size, str(given)
            if size >= LARGE:
                return cycles
            cycles = cycles * LARGE // size + 1


@pytest.fixture
def lane(bench: Bench) -> Lane:
    return Lane(bench.programs, bench.folder)


@pytest.mark.parametrize("case", CASES, ids=str)
def test_children(case: Case, lane: Lane) -> None:
    lane.check(case, WITHIN)


@pytest.mark.parametrize("case", ERRORS, ids=str)
def test_standard_error(case: Case, lane: Lane) -> None:
    lane.check(case, WITHIN)


@pytest.mark.parametrize("case", FURTHER, ids=str)
def test_further_words(case: Case, lane: Lane) -> None:
    lane.check(case, WITHIN)


@pytest.mark.parametrize("case", TIMED, ids=str)
def test_time(case: Case, lane: Lane) -> None:
    lane.check(case, STOPPED_WITHIN)


@pytest.mark.parametrize("case", STOPPED, ids=str)
def test_stopped_children(case: Case, lane: Lane) -> None:
    lane.check(case, STOPPED_WITHIN)


def test_large_record(lane: Lane) -> None:
    """One child writes a large record before the other writes a byte."""
    cycles = lane.write_large_record()
    text = "[ $K = 1 ] || sleep 2; cat large"
    lane.check(script("", text, 0, f"agree {cycles}\n"), WITHIN)


@pytest.mark.parametrize(
    "program, reason",
    (
        ("./nothing", "No such file or directory"),
        ("no-such-program", "No such file or directory"),
        ("./text", "Permission denied"),
        (".", "Permission denied"),
    ),
)
def test_not_started(lane: Lane, program: str, reason: str) -> None:
    """A program that can't be started is named with the system's reason."""
    lane.file("text", "no program")
    given = lane.run_lane(program, 2, "m", "s")
    assert given == Outcome(10, b"", NOT_STARTED.format(program, reason).encode())


def test_refused_starts(lane: Lane) -> None:
    """Starts that are refused for lack of files, at each of three copies, leave no child."""
    statuses = set()
    for most in range(4, 24):

        def limit_files(most: int = most) -> None:
            resource.setrlimit(resource.RLIMIT_NOFILE, (most, most))

        given = lane.run_lane("yes", 3, "m", "s", preexec_fn=limit_files, limit=60)
        given = without_children(given)
        statuses.add(given.status)
        assert not given.out, f"with {most} files: {given}"
        is_fault = given.line() == b"spawn fault"
        assert (given.status == 10) == is_fault, f"with {most} files: {given}"
    assert statuses >= {9, 10}
