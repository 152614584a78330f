"""Inputs and outputs that fail without any library, under each command of failing_bench.py.

Files that aren't there or have no end, folders in their place, outputs that are full, closed,
limited, or read by nobody, and few files that may be open.
"""

from __future__ import annotations

import os
import resource
import signal
import tempfile
from dataclasses import replace
from typing import IO, Any, Callable

import pytest

from commands import Outcome
from failing_bench import COMMANDS, FailingBench, Trials, begins, check_trials
from preload import LANE

TWIN = "det_twin"


def limit_to(limit: int, most: int) -> Callable[[], None]:
    """Sets a limit of a process. The signal of one that writes too much is ignored."""

    def begin() -> None:
        signal.signal(signal.SIGXFSZ, signal.SIG_IGN)
        resource.setrlimit(limit, (most, most))

    return begin


def bytes_in(file: IO[bytes]) -> bytes:
    file.seek(0)
    return file.read()


def limits(bench: FailingBench, words: str, whole: Outcome) -> Trials:
    """An output that may have few bytes, and few files that may be open."""
    command, most = bench.command(words), 3
    with tempfile.TemporaryFile() as out:
        more = {"stdout": out, "preexec_fn": limit_to(resource.RLIMIT_FSIZE, most)}
        outcome = replace(bench.run_without(command, **more), out=bytes_in(out))
        is_cut = begins(outcome, 7, b"write fault", whole) and len(outcome.out) == most
        yield f"an output of {most} bytes", is_cut if len(whole.out) > most else outcome == whole
    status, line = (10, b"spawn fault") if words.startswith(LANE) else (6, b"read fault")
    for files in (4, 5, 6):
        outcome = bench.run_without(command, preexec_fn=limit_to(resource.RLIMIT_NOFILE, files))
        yield f"{files} files", outcome.is_like(whole) or begins(outcome, status, line, whole)


def refuses_manifest(whole: Outcome) -> bool:
    """Whether a manifest is refused, after which nothing more is opened."""
    return whole.status == 3 or whole.line().endswith(b"status 3")


def bad_inputs(bench: FailingBench, words: str, whole: Outcome) -> Trials:
    """Each file that a command names isn't there, or is a folder."""
    command = bench.command(words)
    for place, word in enumerate(words.split()):
        if "/" not in word or word.startswith("BIN/"):
            continue
        for bad in (str(bench.folder / "nothing"), str(bench.folder)):
            outcome = bench.run_without([*command[:place], bad, *command[place + 1 :]])
            is_read_fault = begins(outcome, 6, b"read fault", whole)
            if words.startswith(LANE):
                is_read_fault = outcome == Outcome(9, b"", b"child 0 status 6\n")
            is_refused = outcome.is_like(whole) and refuses_manifest(whole)
            yield f"{bad} as word {place}", is_read_fault or is_refused


def endless_outcome(words: str, place: int) -> tuple[int, bytes]:
    """Status and line where the file at a place has zeros without end."""
    command, name = words.split()[:2], words.split()[place]
    status = {".toml": 3, ".stim": 4, ".rec": 5}[name[name.rindex(".") :]]
    if command[0] == LANE:
        return 9, b"child 0 status %d" % status
    if status == 5:
        return 5, b"bad record: copy %d offset 0 magic" % (place - 2)
    if status == 3 or command[0] == TWIN:
        return status, b"bad %s: too long" % (b"manifest" if status == 3 else b"stimulus")
    return 4, b"bad stimulus: line 1"


def endless_inputs(bench: FailingBench, words: str, whole: Outcome) -> Trials:
    """Each file that a command names has zeros without end."""
    command = bench.command(words)
    for place, word in enumerate(words.split()):
        if "/" not in word or word.startswith("BIN/"):
            continue
        outcome = bench.run_without([*command[:place], "/dev/zero", *command[place + 1 :]])
        is_same = (outcome.status, outcome.line()) == endless_outcome(words, place)
        if words.startswith("det vote"):
            is_same = outcome.status in (0, 9)
        yield f"/dev/zero as word {place}", is_same or (
            outcome.is_like(whole) and refuses_manifest(whole)
        )


def bad_outputs(bench: FailingBench, words: str, whole: Outcome) -> Trials:
    """Standard output and standard error that are full or closed, or that nobody reads."""
    command = bench.command(words)
    closing, unread = os.pipe()
    os.close(closing)
    with open("/dev/full", "wb") as full:
        outputs: dict[str, dict[str, Any]] = {
            "a full output": {"stdout": full},
            "an output that nobody reads": {"stdout": unread},
            "a closed output": {"stdout": None, "preexec_fn": lambda: os.close(1)},
        }
        for name, more in outputs.items():
            outcome = bench.run_without(command, **more)
            status, line = (7, b"write fault") if whole.out else (whole.status, whole.line())
            yield name, (outcome.status, outcome.line()) == (status, line)
        errors: dict[str, dict[str, Any]] = {
            "a full standard error": {"stderr": full},
            "a closed standard error": {"stderr": None, "preexec_fn": lambda: os.close(2)},
        }
        for name, more in errors.items():
            outcome = bench.run_without(command, **more)
            yield name, (outcome.status, outcome.out) == (whole.status, whole.out)
    os.close(unread)


GROUPS = {
    "outputs": bad_outputs,
    "limits": limits,
    "inputs": bad_inputs,
    "endless inputs": endless_inputs,
}


def has_file(words: str) -> bool:
    """Whether a command names a file, beside the program of det_lane."""
    return any("/" in word and not word.startswith("BIN/") for word in words.split())


GROUPS_OF_COMMANDS = [
    pytest.param(words, group, id=f"{words}, {name}")
    for words in COMMANDS
    for name, group in GROUPS.items()
    if has_file(words) or not name.endswith("inputs")
]


@pytest.mark.parametrize("words, group", GROUPS_OF_COMMANDS)
def test_real_edges(
    words: str, group: Callable[[FailingBench, str, Outcome], Trials], failing_bench: FailingBench
) -> None:
    whole = failing_bench.whole(words)
    check_trials(group(failing_bench, words, whole))
