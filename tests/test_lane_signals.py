"""`det_lane` ended by a signal, and its guard, a process that then ends the children.

A child here names itself in a file and writes nothing until a file `go` is there, so no broken pipe
ends it. If a file `stay` is there, all but the first go on after their records. A child ignores the
signals that a terminal sends. It needs /proc.
"""

from __future__ import annotations

import contextlib
import os
import re
import signal
import subprocess
from functools import partial
from pathlib import Path
from typing import Iterator

import pytest

from children import comes_true, is_left, processes_in, send
from commands import TOP, Bench

FILES = [str(TOP / "examples" / name) for name in ("guard.toml", "guard.stim")]
COPIES = 3
SCRIPT = """#!/bin/sh
trap '' INT TERM
echo $$ > $5.new && mv $5.new $5.pid
until [ -e go ]; do sleep 0.05; done
{det} "$@" || exit
exec >&-
while [ -e stay ] && [ $5 != 1 ]; do sleep 0.05; done
"""
# The most seconds in which a lane starts or ends.
WITHIN = 30
ENDING = (signal.SIGINT, signal.SIGTERM, signal.SIGKILL)


def name_of(number: signal.Signals) -> str:
    return number.name


def words_of(process: int) -> list[str]:
    """The words of a process. One that has ended has none."""
    with contextlib.suppress(OSError):
        return Path(f"/proc/{process}/cmdline").read_text().split("\0")
    return []


def ignores(process: int, number: signal.Signals) -> bool:
    """Whether a process ignores a signal."""
    status = Path(f"/proc/{process}/status").read_text()
    mask = re.findall(r"^SigIgn:\s*(\w+)$", status, re.M)[0]
    return int(mask, 16) >> (number - 1) & 1 == 1


class SleepingLane:
    """A lane whose children wait, in a process group of its own."""

    def __init__(self, bench: Bench) -> None:
        self.folder = bench.folder
        script = Path(bench.file("copy", SCRIPT.format(det=bench.programs.path("det"))))
        script.chmod(0o755)
        words = [bench.programs.path("det_lane"), "./copy", str(COPIES), *FILES]
        # A shell's background ignores SIGINT.
        heard = partial(signal.signal, signal.SIGINT, signal.SIG_DFL)
        streams = {"stdout": subprocess.PIPE, "stderr": subprocess.PIPE, "cwd": self.folder}
        how = {**streams, "preexec_fn": heard, "start_new_session": True}
        self.process = subprocess.Popen(words, **how)  # type: ignore

    def await_start(self) -> None:
        """Waits until all children run, and the guard ignores signals."""
        assert comes_true(lambda: len(self.children()) == COPIES, WITHIN), "no start"
        assert comes_true(lambda: ignores(self.guard(), signal.SIGTERM), WITHIN), "no guard"
        assert {*self.children(), self.guard()} < {*processes_in(self.folder)}

    def children(self) -> list[int]:
        return [int(file.read_text()) for file in self.folder.glob("*.pid")]

    def guard(self) -> int:
        found = [it for it in processes_in(self.folder) if "det_lane_guard" in words_of(it)]
        assert len(found) == 1
        return found[0]

    def outcome(self) -> tuple[int, bytes, bytes]:
        out, err = self.process.communicate(timeout=WITHIN)
        return self.process.returncode, out, err

    def end(self) -> None:
        for process in (self.process.pid, *processes_in(self.folder)):
            send(process, signal.SIGKILL)
        self.process.communicate()


@pytest.fixture
def lane(bench: Bench) -> Iterator[SleepingLane]:
    started = SleepingLane(bench)
    try:
        started.await_start()
        yield started
    finally:
        started.end()


@pytest.mark.parametrize("number", ENDING, ids=name_of)
def test_lane_ended_by_signal(number: signal.Signals, lane: SleepingLane) -> None:
    lane.process.send_signal(number)
    assert lane.outcome() == (-number, b"", b"")
    assert not is_left(lane.folder), "a process is left running"


def test_signal_to_all(lane: SleepingLane) -> None:
    """The guard goes on if a terminal sends a signal to all processes."""
    os.killpg(lane.process.pid, signal.SIGINT)
    assert lane.outcome() == (-signal.SIGINT, b"", b"")
    assert not is_left(lane.folder), "a process is left running"


def test_normal_end(lane: SleepingLane) -> None:
    """The guard ends with the last child."""
    (lane.folder / "go").touch()
    assert lane.outcome() == (0, b"agree 3\n", b"")
    assert not processes_in(lane.folder), "a process is left running"


def test_child_without_end(lane: SleepingLane) -> None:
    """A child that was killed doesn't keep the guard from ending the others."""
    os.kill(lane.children()[0], signal.SIGKILL)
    lane.process.kill()
    assert lane.outcome() == (-signal.SIGKILL, b"", b"")
    assert not is_left(lane.folder), "a process is left running"


def test_first_child_ended(lane: SleepingLane) -> None:
    """The guard goes on until the last child has ended."""
    (lane.folder / "stay").touch()
    (lane.folder / "go").touch()
    first = int((lane.folder / "1.pid").read_text())
    assert comes_true(lambda: first not in processes_in(lane.folder), WITHIN)
    lane.guard()
    lane.process.kill()
    assert lane.outcome() == (-signal.SIGKILL, b"", b"")
    assert not is_left(lane.folder), "a process is left running"


@pytest.mark.parametrize("number", [signal.SIGKILL, signal.SIGSTOP], ids=name_of)
def test_lost_guard(number: signal.Signals, lane: SleepingLane) -> None:
    """A guard that was killed or stopped changes no answer and no status."""
    os.kill(lane.guard(), number)
    (lane.folder / "go").touch()
    assert lane.outcome() == (0, b"agree 3\n", b"")
    assert not processes_in(lane.folder), "a process is left running"
