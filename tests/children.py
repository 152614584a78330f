"""Runs commands that start others, and looks for processes that one has left."""

from __future__ import annotations

import contextlib
import os
import signal
import subprocess
import time
from pathlib import Path
from typing import Any, Callable

# The seconds that a process has to end by itself.
MOMENT = 5


def run_within(words: list[str], limit: float, **how: Any) -> "subprocess.CompletedProcess[Any]":
    """Runs a command as `subprocess.run` does, given `input` and the names that `Popen` takes.

    Where it takes more than limit seconds, or this thread is interrupted, it is killed, and with it
    what it started.
    """
    given = how.pop("input", None)
    if given is not None:
        how["stdin"] = subprocess.PIPE
    with subprocess.Popen(words, **how) as child:
        try:
            out, err = child.communicate(given, timeout=limit)
        except BaseException:
            # A stopped process starts no other one while its children are looked for.
            send(child.pid, signal.SIGSTOP)
            for process in (child.pid, *descendants(child.pid)):
                send(process, signal.SIGKILL)
            raise
    return subprocess.CompletedProcess(words, child.returncode, out, err)


def send(process: int, number: signal.Signals) -> None:
    """Sends a signal to a process that may have ended."""
    with contextlib.suppress(ProcessLookupError, PermissionError):
        os.kill(process, number)


def descendants(process: int) -> list[int]:
    """The children of a process, theirs, and so on, as far as their parents are still there."""
    parents: dict[int, int] = {}
    for stat in Path("/proc").glob("[0-9]*/stat"):
        with contextlib.suppress(OSError, ValueError):
            # The name of a program is in parentheses and may have any bytes.
            _, parent, *_ = stat.read_bytes().rpartition(b")")[2].split()
            parents[int(stat.parent.name)] = int(parent)
    found = [process]
    for above in found:
        found += [child for child, parent in parents.items() if parent == above]
    return found[1:]


def processes_with(mark: str) -> list[int]:
    """The processes that have this mark, NAME=VALUE, among their variables."""
    found = []
    for folder in Path("/proc").iterdir():
        try:
            names = (folder / "environ").read_bytes() if folder.name.isdigit() else b""
        except OSError:
            continue
        if mark.encode() in names.split(b"\0"):
            found.append(int(folder.name))
    return found


def processes_in(folder: Path) -> list[int]:
    """The processes that work in this folder."""
    found = []
    for process in Path("/proc").iterdir():
        with contextlib.suppress(OSError):
            if process.name.isdigit() and os.readlink(process / "cwd") == os.path.realpath(folder):
                found.append(int(process.name))
    return found


def comes_true(is_so: Callable[[], bool], within: float) -> bool:
    """Waits until something is so, for some seconds. Returns whether it is."""
    until = time.monotonic() + within
    while not is_so():
        if time.monotonic() > until:
            return False
        time.sleep(0.05)
    return True


def has_child(mark: str) -> bool:
    """Whether a child with this mark runs on.

    What a child started itself has a moment to find its output closed.
    """
    return not comes_true(lambda: not processes_with(mark), MOMENT)


def is_left(folder: Path) -> bool:
    """Whether a process that works in this folder runs on, after a moment."""
    return not comes_true(lambda: not processes_in(folder), MOMENT)
