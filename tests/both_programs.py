"""The plain program of tests/plain and the programs under test, over the same words and files."""

from __future__ import annotations

import os
import select
import signal
import subprocess
from contextlib import contextmanager
from pathlib import Path
from typing import Iterator, Sequence

from commands import Outcome, without_children

# The word for the program `det` among the words of `det_lane`.
PROGRAM = "PROGRAM"
# What the plain program prints where the words ask for a text.
TEXT = b"(a text)\n"
# The most seconds that a run may take, and the status of one that took longer.
LIMIT = 60
NO_END = -signal.SIGKILL


class Plain:
    """The plain program, which takes one command after another, in the folder it was started in."""

    def __init__(self, program: Path, folder: Path) -> None:
        pipes = {"stdin": subprocess.PIPE, "stdout": subprocess.PIPE}
        self.process = subprocess.Popen([program], cwd=folder, **pipes)  # type: ignore

    def close(self) -> None:
        self.process.kill()
        self.process.communicate()

    def run(self, words: Sequence[str]) -> Outcome:
        assert self.process.stdin and self.process.stdout
        self.process.stdin.write(b"\0".join(os.fsencode(word) for word in words) + b"\n")
        self.process.stdin.flush()
        if not select.select([self.process.stdout], [], [], LIMIT)[0]:
            self.process.kill()
        line = self.process.stdout.readline()
        if not line:
            raise RuntimeError(f"the plain program ended at {words}")
        status, length, error = line.split(b" ", 2)
        return Outcome(int(status), self.process.stdout.read(int(length)), error.lstrip(b"\n"))


@contextmanager
def alarm(seconds: int) -> Iterator[None]:
    """Raises TimeoutError in the main thread after some seconds."""

    def stop(*_: object) -> None:
        raise TimeoutError

    before = signal.signal(signal.SIGALRM, stop)
    signal.alarm(seconds)
    try:
        yield
    finally:
        signal.alarm(0)
        signal.signal(signal.SIGALRM, before)


class Real:
    """The programs under test, each run in a process of its own, in the current folder."""

    def __init__(self, programs: Path) -> None:
        self.programs = programs
        write = os.O_WRONLY | os.O_CREAT | os.O_TRUNC
        self.actions = [
            (os.POSIX_SPAWN_OPEN, 0, "/dev/null", os.O_RDONLY, 0),
            (os.POSIX_SPAWN_OPEN, 1, "out", write, 0o600),
            (os.POSIX_SPAWN_OPEN, 2, "err", write, 0o600),
        ]

    def wait(self, child: int) -> int:
        """The status of a process. One that takes too long is killed: NO_END."""
        try:
            with alarm(LIMIT):
                _, how = os.waitpid(child, 0)
        except TimeoutError:
            os.kill(child, signal.SIGKILL)
            _, how = os.waitpid(child, 0)
        return os.waitstatus_to_exitcode(how)

    def run(self, words: Sequence[str]) -> Outcome:
        """How a program ends. Of standard error, hints and what children write are left out."""
        program, det = str(self.programs / words[0]), str(self.programs / "det")
        command = [program, *(det if word == PROGRAM else word for word in words[1:])]
        status = self.wait(os.posix_spawn(program, command, {}, file_actions=self.actions))
        given = Outcome(status, Path("out").read_bytes(), Path("err").read_bytes())
        return Outcome(status, given.out, without_children(given).error_without_hints())


def is_same(given: Outcome, expected: Outcome) -> bool:
    """Whether a program ended as the plain one. Of a text only that there is one is compared."""
    if expected.err == TEXT:
        return (given.status, given.err) == (0, b"") and given.out != b""
    return given == expected


@contextmanager
def working_in(folder: Path) -> Iterator[None]:
    """Makes a folder the current one for a while."""
    before = os.getcwd()
    os.chdir(folder)
    try:
        yield
    finally:
        os.chdir(before)
