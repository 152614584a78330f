"""Commands that are run and measured."""

import ctypes
import hashlib
import os
import statistics
import subprocess
import sys
import time
from collections.abc import Iterator
from contextlib import contextmanager
from dataclasses import dataclass
from pathlib import Path
from typing import Optional

BAD_WORDS = 2
MEMORY_RUNS = 3


class Failure(Exception):
    """What ends the measuring, in a line for the user."""


@dataclass(frozen=True)
class Command:
    """A command, and the line of the table that it fills.

    `gives` names what it writes: commands that give the same have to write the same bytes.
    `records` says how many records it reads or writes, of those that a group of commands is about.
    `makes` is a file that it writes itself, which is removed before each run, so that each writes a
    new file.
    """

    what: str
    words: list[str]
    workers: Optional[int] = None
    gives: Optional[str] = None
    records: float = 1
    keep: Optional[Path] = None
    makes: Optional[Path] = None

    def clear(self) -> None:
        """Removes what an earlier run made."""
        if self.makes:
            self.makes.unlink(missing_ok=True)


@dataclass(frozen=True)
class Trial:
    """What a run for the output showed. The memory is the greatest that was resident, in bytes."""

    memory: int
    digest: str


@dataclass(frozen=True)
class Result:
    """What was found of a command, with the wall time of each of its rounds in seconds. There is
    nothing where the program hasn't got it."""

    command: Command
    trial: Optional[Trial]
    walls: list[float]

    @property
    def seconds(self) -> Optional[float]:
        """The least wall time."""
        return min(self.walls, default=None)

    @property
    def median(self) -> Optional[float]:
        return statistics.median(self.walls) if self.walls else None


@contextmanager
def busy_processes(count: int) -> Iterator[None]:
    """Keeps some processors busy as long as it is open."""
    processes = [subprocess.Popen(["sh", "-c", "while :; do :; done"]) for _ in range(count)]
    try:
        yield
    finally:
        for process in processes:
            process.kill()
            process.wait()


def size(path: Path) -> int:
    return path.stat().st_size


def digest_of(path: Path) -> str:
    digest = hashlib.sha256()
    with path.open("rb") as file:
        while piece := file.read(1 << 20):
            digest.update(piece)
    return digest.hexdigest()


def digest_of_text(text: str) -> str:
    return hashlib.sha256(text.encode()).hexdigest()


def failure(words: list[str], status: int) -> Failure:
    return Failure(f"status {status}: {' '.join(words)}")


def text_of(words: list[str]) -> str:
    """What a command prints."""
    done = subprocess.run(words, stdout=subprocess.PIPE, text=True)
    if done.returncode != 0:
        raise failure(words, done.returncode)
    return done.stdout


def run_into(path: Path, words: list[str]) -> None:
    with path.open("wb") as file:
        status = subprocess.run(words, stdout=file).returncode
    if status != 0:
        raise failure(words, status)


def adopt_orphans() -> None:
    """Makes this process the parent of what its children leave (Linux)."""
    set_child_subreaper = 36
    if ctypes.CDLL(None).prctl(set_child_subreaper, 1, 0, 0, 0) != 0:
        raise Failure("this system doesn't hand over orphans")


def memory_of(words: list[str], output: Path, errors: Path) -> Optional[int]:
    """Runs a command into a file. Returns the greatest resident memory in bytes, or None for bad
    words.

    A child begins as a copy of its parent, and this counts as the child's memory. So a shell, which
    is small, starts the command and ends, and this process takes it in.
    """
    start = [
        "sh",
        "-c",
        'out=$0 err=$1; shift; "$@" >"$out" 2>"$err" & echo $!',
        str(output),
        str(errors),
        *words,
    ]
    number = int(subprocess.run(start, stdout=subprocess.PIPE, check=True).stdout)
    _, status, usage = os.wait4(number, 0)
    code = os.waitstatus_to_exitcode(status)
    lines = errors.read_text()
    # Hints come after the line.
    if code == BAD_WORDS and lines.startswith("bad words\n"):
        return None
    if code != 0:
        print(lines, end="", file=sys.stderr)
        raise failure(words, code)
    return usage.ru_maxrss * 1024


def wall_time(command: Command) -> float:
    """The wall time of a run whose standard output goes nowhere."""
    command.clear()
    begun = time.perf_counter()
    status = subprocess.run(command.words, stdout=subprocess.DEVNULL).returncode
    seconds = time.perf_counter() - begun
    if status != 0:
        raise failure(command.words, status)
    return seconds


def wall_times(commands: list[Command], rounds: int) -> list[list[float]]:
    """The wall times of each command. They take turns, so that other work of the host hits all of
    them alike."""
    walls: list[list[float]] = [[] for _ in commands]
    turns = list(zip(commands, walls))
    for number in range(rounds):
        for command, found in turns if number % 2 == 0 else reversed(turns):
            found.append(wall_time(command))
    for command in commands:
        command.clear()
    return walls


class Runner:
    """Runs commands, in a folder for what they write."""

    def __init__(self, room: Path, rounds: int) -> None:
        self.room = room
        self.rounds = rounds
        self.errors = room / "errors"

    def trial(self, command: Command) -> Optional[Trial]:
        """Runs a command into a file, and for the least memory of some runs a few times more into
        nothing."""
        print(f"{command.what} {command.workers or ''} ..", file=sys.stderr)
        output = command.keep or self.room / "output"
        memory = memory_of(command.words, output, self.errors)
        if memory is None:
            return None
        for _ in range(min(self.rounds, MEMORY_RUNS) - 1):
            memory = min(memory, memory_of(command.words, Path(os.devnull), self.errors) or memory)
        return Trial(memory, digest_of(output))

    def measure(self, commands: list[Command]) -> list[Result]:
        """Tries the commands one after another, and then takes the times of those that the programs
        have."""
        trials = [self.trial(command) for command in commands]
        present = [command for command, trial in zip(commands, trials) if trial]
        walls = iter(wall_times(present, self.rounds))
        return [
            Result(command, trial, next(walls) if trial else [])
            for command, trial in zip(commands, trials)
        ]
