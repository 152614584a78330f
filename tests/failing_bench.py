"""Commands beneath tests/failing_edges.c, a library that has their calls of the system fail."""

from __future__ import annotations

import errno
import subprocess
from dataclasses import dataclass, replace
from pathlib import Path
from typing import Any, Iterable

from commands import Outcome, Programs
from mutations import in_first_format
from preload import LIMIT, PreloadBench

# The commands that are tried. PreloadBench says how their words are read.
COMMANDS = """
det demo examples/bank.stim
det demo examples/empty.stim
det record examples/wheels.toml examples/wheels.stim --workers 2
det record examples/bank.toml OUT/bad.stim
det record OUT/bad.toml examples/bank.stim
det show OUT/bank.rec
det show OUT/bank.rec --reports
det show OUT/bank.rec --cycle 2
det show OUT/cut.rec
det replay OUT/bank.rec
det replay OUT/cut.rec
det replay OUT/job.rec
det check OUT/bank.rec
det check OUT/flipped.rec
det upgrade OUT/old.rec --workers 2
det upgrade OUT/flipped.rec
det upgrade OUT/job.rec
det compare OUT/bank.rec OUT/bank.rec OUT/bank.rec
det compare OUT/bank.rec OUT/flipped.rec
det compare OUT/bank.rec OUT/cut.rec
det vote OUT/bank.rec OUT/flipped.rec OUT/bank.rec
det vote OUT/bank.rec OUT/flipped.rec OUT/bank.rec --dissent
det vote OUT/bank.rec OUT/flipped.rec OUT/cut.rec
det salvage OUT/cut.rec
det salvage OUT/cut.rec --reports
det chain examples/bank.toml examples/guard.toml examples/bank.stim --workers 2
det needs examples/wheels.toml
det needs OUT/bad.toml --strict
det sim 7
det --help
det --help vote
det --version
det record
det_twin 2 examples/bank.toml examples/bank.stim
det_twin 3 examples/wheels.toml examples/wheels.stim --flip 1 3
det_twin 2 examples/bank.toml OUT/bad.stim
det_twin --help
det_lane BIN/det 3 examples/bank.toml examples/bank.stim
det_lane BIN/det 2 OUT/bad.toml examples/bank.stim
det_lane --version
""".strip().splitlines()
# What the library counts, in its order: calls, and the bytes that were read.
COUNTED = ("open", "read", "write", "spawn", "pipe", "wait", "bytes")


@dataclass(frozen=True)
class Setting:
    """What the library does to a program: see failing_edges.c."""

    call: str = ""
    number: int = 0
    error: int = 0
    lasting: bool = False
    file: int = 0
    read: int = 0
    write: int = 0
    only: str = ""

    def names(self) -> dict[str, str]:
        values = {
            "CALL": self.call,
            "NUMBER": self.number,
            "ERROR": self.error,
            "LASTING": int(self.lasting),
            "FILE": self.file,
            "READ": self.read,
            "WRITE": self.write,
            "ONLY": self.only,
        }
        return {name: str(value) for name, value in values.items()}

    def __str__(self) -> str:
        parts = ["no call fails"]
        if self.call:
            parts = [f"{self.call} {self.number} fails with {errno.errorcode[self.error]}"]
        parts += ["and all after it"] if self.lasting else []
        parts += [f"of file {self.file}"] if self.file else []
        parts += [f"reads of {self.read}"] if self.read else []
        parts += [f"writes of {self.write}"] if self.write else []
        parts += ["in a copy"] if self.only else []
        return ", ".join(parts)


NO_END = Outcome(1000, b"", b"")


class FailingBench(PreloadBench):
    """A bench with the library, and with inputs."""

    def __init__(self, programs: Programs, folder: Path) -> None:
        super().__init__(programs, folder, "failing_edges")
        self.make_inputs()

    def make_inputs(self) -> None:
        record = self.run_without(self.command("det demo examples/bank.stim")).out
        flipped = record[:-30] + bytes([record[-30] ^ 1]) + record[-29:]
        inputs = {
            "bank.rec": record,
            "old.rec": in_first_format(record),
            "cut.rec": record[:-3],
            "flipped.rec": flipped,
            # No job has the number 9.
            "job.rec": record[:9] + b"\x09" + record[10:],
            "bad.stim": b"stim 1\ncycle 0\ncycle 5\nsample 1 1\n",
            "bad.toml": b"job = 'bank'\n",
        }
        for name, data in inputs.items():
            self.file(name, data)

    def run_without(self, command: list[str], **how: Any) -> Outcome:
        try:
            return super().run_without(command, **how)
        except subprocess.TimeoutExpired:
            return NO_END

    def whole(self, words: str) -> Outcome:
        """How a command ends where nothing fails. It has to end."""
        outcome = self.run_without(self.command(words))
        assert outcome != NO_END, f"{words}: no end in {LIMIT} seconds"
        return outcome

    def run_setting(self, words: str, setting: Setting) -> tuple[Outcome, dict[str, int]]:
        """How a command ends beneath the library, how often it made each call, and how many bytes
        it read."""
        try:
            outcome, numbers, is_left = self.run_with(words, setting.names())
        except subprocess.TimeoutExpired:
            return NO_END, {}
        if is_left:
            outcome = replace(outcome, err=b"a child is left\n")
        return outcome, dict(zip(COUNTED, numbers))


def begins(outcome: Outcome, status: int, line: bytes, whole: Outcome) -> bool:
    """Whether a run ended with a status and a line, after the first bytes of the whole."""
    given = (outcome.status, outcome.line())
    return given == (status, line) and whole.out.startswith(outcome.out)


# What was tried, and whether the run ended as it has to.
Trials = Iterable["tuple[str, bool]"]


# The most trials that may end otherwise before the others are left out.
MOST_WRONG = 5


def check_trials(trials: Trials) -> None:
    """Fails where a trial ended otherwise, or where there was none."""
    count, wrong = 0, []
    for name, is_good in trials:
        count += 1
        wrong += [] if is_good else [name]
        if len(wrong) == MOST_WRONG:
            break
    assert count, "nothing was tried"
    assert not wrong, f"{len(wrong)} of {count} ended otherwise: {'; '.join(wrong)}"
