"""The programs under test, a folder to run them in, and how a command ends."""

from __future__ import annotations

import os
import re
import shutil
import subprocess
from dataclasses import dataclass, field, replace
from pathlib import Path
from typing import Any, Optional, Sequence, Union

from children import run_within

TOP = Path(__file__).resolve().parent.parent
NAMES = ("det", "det_lane", "det_twin")
# The tools in Python, which are installed beside them.
TOOLS = ("det_record", "det_stimulus", "det_page")
# The most seconds that one command of a test may take.
LIMIT = 120
# The user that a test takes where it must not be root.
NOBODY = 65534

Word = Union[str, bytes, int, Path]


def is_hint(line: bytes) -> bool:
    return line.startswith(b"  ")


@dataclass(frozen=True)
class Outcome:
    """How a command ended. A negative status is that of a signal."""

    status: int
    out: bytes
    err: bytes

    def line(self) -> bytes:
        """The first line on standard error, or nothing if it is a hint, as with status 1."""
        first = self.err.partition(b"\n")[0]
        return b"" if is_hint(first) else first

    def last_line(self) -> bytes:
        """The last line on standard error. The lines of a lane's children stand before it."""
        return self.err.splitlines()[-1]

    def error_without_hints(self) -> bytes:
        """Standard error without the hints."""
        lines = self.err.splitlines(keepends=True)
        return b"".join(it for it in lines if not is_hint(it))

    def hints(self) -> list[bytes]:
        """The hints, without the ends of their lines."""
        return [it for it in self.err.splitlines() if is_hint(it)]

    def is_like(self, other: Outcome) -> bool:
        """Whether both are the same but for hints."""
        return (self.status, self.out, self.line()) == (other.status, other.out, other.line())

    def __str__(self) -> str:
        return f"status {self.status}, {excerpt(self.err)}, {len(self.out)} bytes"


# The beginning of a line that `det_lane` passes on from a child.
OF_CHILD = re.compile(rb"child \d+: ")


def without_children(outcome: Outcome) -> Outcome:
    """How det_lane ended, without what its children wrote to standard error. They run side by side,
    so the order of their lines isn't the same in every run."""
    lines = outcome.err.splitlines(keepends=True)
    own = b"".join(line for line in lines if not OF_CHILD.match(line))
    return replace(outcome, err=own)


def run(
    words: Sequence[Word],
    folder: Path,
    environment: Optional[dict[str, str]] = None,
    limit: float = LIMIT,
    **how: Any,
) -> Outcome:
    """Runs a command to its end, within a limit of seconds. `how` has more names of `Popen`."""
    pipes = {"stdin": subprocess.DEVNULL, "stdout": subprocess.PIPE, "stderr": subprocess.PIPE}
    command = [word if isinstance(word, bytes) else str(word) for word in words]
    done = run_within(command, limit, cwd=folder, env=environment, **{**pipes, **how})
    return Outcome(done.returncode, done.stdout or b"", done.stderr or b"")


def make(words: Sequence[Word], folder: Path = TOP, limit: float = 600) -> bytes:
    """Runs a command that has to end well, as a compiler. Returns what it prints."""
    given = run(words, folder, limit=limit)
    if given.status:
        raise RuntimeError(f"{words[0]} ends with {given.status}: {given.err.decode()}")
    return given.out


def as_nobody() -> dict[str, object]:
    """The names of `Popen` by which a command isn't run as root."""
    if os.geteuid():
        return {}
    return {"user": NOBODY, "group": NOBODY, "extra_groups": []}


@dataclass(frozen=True)
class Programs:
    """A folder that every user can read, with bin/, helpers/ and examples/."""

    room: Path

    @property
    def folder(self) -> Path:
        return self.room / "bin"

    def path(self, name: str) -> str:
        return str(self.folder / name)

    def environment(self) -> dict[str, str]:
        """The variables of a test's commands: the programs under test are found first."""
        path = f"{self.folder}:{self.room / 'helpers'}:{os.environ.get('PATH', '/usr/bin:/bin')}"
        return dict(os.environ, PATH=path, examples=str(self.room / "examples"), LC_ALL="C")


def copy_programs(room: Path, files: Sequence[Path]) -> Programs:
    """Copies programs, helpers and examples to a folder."""
    room.chmod(0o755)
    shutil.copytree(TOP / "examples", room / "examples")
    shutil.copytree(TOP / "tests" / "helpers", room / "helpers")
    (room / "bin").mkdir()
    for file in files:
        shutil.copy(file, room / "bin" / file.name)
    for path in (*room.glob("bin/*"), *room.glob("helpers/*")):
        path.chmod(0o755)
    return Programs(room)


class Bench:
    """The programs under test, and a folder for files, in which commands are run."""

    def __init__(self, programs: Programs, folder: Path) -> None:
        self.programs = programs
        self.folder = folder

    def file(self, name: str, data: Union[bytes, str]) -> str:
        """Writes a file of the folder. Returns its path."""
        path = self.folder / name
        path.write_bytes(data.encode() if isinstance(data, str) else data)
        return str(path)

    def run(self, program: str, *words: Word, **how: Any) -> Outcome:
        """Runs a program under test, or another one."""
        path = self.programs.path(program) if program in NAMES else program
        return run([path, *words], self.folder, self.programs.environment(), **how)

    def output(self, program: str, *words: Word) -> bytes:
        """What a command writes that has to end well."""
        given = self.run(program, *words)
        if given.status:
            raise AssertionError(f"{program} {words}: {given}")
        return given.out

    def example(self, name: str) -> bytes:
        """The record of an example."""
        files = (TOP / "examples" / f"{name}.{kind}" for kind in ("toml", "stim"))
        return self.output("det", "record", *files)


@dataclass(frozen=True)
class Case:
    """A command with its files, and how it has to end."""

    name: str
    # The first word is the program.
    words: list[Word]
    outcome: Outcome = Outcome(0, b"", b"")
    files: dict[str, bytes] = field(default_factory=dict)

    def __str__(self) -> str:
        return self.name

    def write_files(self, folder: Path) -> None:
        for name, data in self.files.items():
            (folder / name).write_bytes(data)


def excerpt(data: bytes, most: int = 300) -> str:
    """Bytes for a line that says what went wrong."""
    text = repr(data[:most])[1:]
    return text if len(data) <= most else f"{text} and {len(data) - most} more bytes"


def difference(expected: bytes, given: bytes) -> str:
    """Where two byte strings differ."""
    pairs = zip(expected, given)
    at = next((i for i, (a, b) in enumerate(pairs) if a != b), min(len(expected), len(given)))
    begin = max(0, at - 40)
    ends = f"expected {excerpt(expected[begin:], 120)}, given {excerpt(given[begin:], 120)}"
    return f"from byte {at} on; from byte {begin}: {ends}"


def check_outcome(given: Outcome, expected: Outcome) -> None:
    """Fails where a command ended otherwise. Hints on standard error aren't compared."""
    same_status = given.status == expected.status
    assert same_status, f"status {given.status}, not {expected.status}: {excerpt(given.err)}"
    line = given.error_without_hints()
    assert line == expected.err, f"error {excerpt(given.err)}, not {excerpt(expected.err)}"
    same = given.out == expected.out
    assert same, f"standard output differs {difference(expected.out, given.out)}"
