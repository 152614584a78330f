#!/usr/bin/env python3
"""Runs each command with each of its requests for memory refused in turn, and says how they ended.

    python3 tests/refused_memory.py                       with the programs of bin/
    python3 tests/refused_memory.py --programs FOLDER     with other builds of them
    python3 tests/refused_memory.py --every 7             every seventh request, from the first on
    python3 tests/refused_memory.py --only det_twin       the commands whose words begin so
    python3 tests/refused_memory.py --table FILE          the commands of a table
    python3 tests/refused_memory.py --sim                 sim too, every 1,009th of its requests

A run has to end with status 8, the line `out of memory` on standard error and the first bytes of
what the command writes otherwise; or as if nothing had been refused, where the program can do
without (a thread's room, for one). Where standard error is full or closed it ends likewise, which
is tried with some of the commands. `det_lane` may also end with status 10, since a child that can't
be started is a spawn fault, and has to leave no child. A line of a table is a program, by a name of
bin/ or a path with a `/`, and its words; `OUT/` before a word is a folder that has the records
guard.rec and old.rec, in formats 2 and 1, and `BIN/` the folder of the programs. Blank lines, and
those that begin with `#`, are left out. Prints a line for each command, and each run that ended in
another way; ends with 1 where there is one. The programs of bin/ build where needed. It needs
Python's standard library and gcc, on Linux.
"""

from __future__ import annotations

import argparse
import os
import subprocess
import sys
import tempfile
from collections import Counter
from concurrent.futures import ThreadPoolExecutor
from dataclasses import dataclass, field, replace
from pathlib import Path
from typing import Any, Optional, Sequence

from builds import build_programs
from commands import Outcome, Programs
from mutations import in_first_format
from preload import LANE, PreloadBench

SHIPPED = """
det demo examples/bank.stim
det record examples/guard.toml examples/guard.stim --workers 1
det record examples/guard.toml examples/guard.stim --workers 2
det record examples/guard.toml examples/guard.stim --workers 3
det record examples/cloud.toml examples/cloud.stim --workers 2 --strict
det record examples/wheels.toml examples/wheels.stim --workers 2 --seed 7
det show OUT/guard.rec
det show OUT/guard.rec --reports
det show OUT/guard.rec --cycle 2
det replay OUT/guard.rec --workers 2
det replay OUT/old.rec
det check OUT/guard.rec --workers 2
det check OUT/old.rec
det upgrade OUT/guard.rec --workers 2
det upgrade OUT/old.rec --workers 2
det compare OUT/guard.rec OUT/guard.rec
det compare OUT/guard.rec OUT/guard.rec OUT/guard.rec
det vote OUT/guard.rec OUT/guard.rec OUT/old.rec
det vote OUT/guard.rec OUT/guard.rec OUT/old.rec --dissent
det chain examples/bank.toml examples/guard.toml examples/bank.stim --workers 1
det chain examples/bank.toml examples/guard.toml examples/bank.stim --workers 2
det salvage OUT/guard.rec
det salvage OUT/guard.rec --reports
det needs examples/wheels.toml
det needs examples/guard.toml --strict
det --help record
det_twin 2 examples/guard.toml examples/guard.stim
det_twin 3 examples/cloud.toml examples/cloud.stim --strict
det_twin 8 examples/bank.toml examples/bank.stim
det_twin 2 examples/guard.toml examples/guard.stim --flip 1 3
det_lane BIN/det 3 examples/guard.toml examples/guard.stim
""".strip().splitlines()
# The commands that are also run without a place for the line.
WITHOUT_LINE = (
    "det needs examples/wheels.toml",
    "det_twin 2 examples/guard.toml examples/guard.stim",
)
SIM = "det sim 7 --workers 2"
SIM_STEP = 1_009
# The ways in which a run may end early, by status and first line on standard error. The second is
# for `det_lane` only.
EARLY = {(8, b"out of memory"): "out of memory", (10, b"spawn fault"): "spawn fault"}
# Two threads may make a few requests more or fewer than in another run.
MORE = 8


@dataclass
class Findings:
    """How the runs of a command ended."""

    words: str
    whole: Outcome
    requests: int
    ways: Counter[str] = field(default_factory=Counter)
    departures: list[str] = field(default_factory=list)

    def add(self, what: str, given: Optional[Outcome]) -> None:
        way = way_of(self.words, given, self.whole) if given else "otherwise"
        self.ways[way] += 1
        if way == "otherwise":
            self.departures.append(f"{what}: {given or 'no end'}")

    def is_good(self) -> bool:
        """Whether each run ended as it has to, and some for lack of memory."""
        is_whole = self.whole.status in (0, 1)
        return is_whole and not self.departures and self.ways["out of memory"] > 0

    def __str__(self) -> str:
        counts = ", ".join(f"{count} {way}" for way, count in sorted(self.ways.items()))
        head = f"{self.words}: status {self.whole.status}, {self.requests} requests; {counts}"
        return "\n".join([head, *self.departures])


class RefusingBench(PreloadBench):
    """A bench with the library that refuses requests, and with records."""

    def __init__(self, programs: Programs, folder: Path) -> None:
        super().__init__(programs, folder, "refused_memory")
        record = self.run_refused("det record examples/guard.toml examples/guard.stim", 0)[0].out
        self.file("guard.rec", record)
        record = self.run_refused("det record examples/cloud.toml examples/cloud.stim", 0)[0].out
        self.file("old.rec", in_first_format(record))

    def run_refused(self, words: str, refused: int, **how: Any) -> tuple[Outcome, int]:
        """How a command ends with a request refused, and how many requests it made."""
        given, counts, is_left = self.run_with(words, {"REFUSED": str(refused)}, **how)
        if is_left:
            given = replace(given, err=b"a child is left")
        return given, counts[0] if counts else 0

    def outcome(self, words: str, refused: int) -> Optional[Outcome]:
        """How a run ends, or none where it takes too long."""
        try:
            return self.run_refused(words, refused)[0]
        except subprocess.TimeoutExpired:
            return None

    def refuse_each(self, words: str, every: int, jobs: int) -> Findings:
        """Runs a command with each of its requests refused, or every K-th, up to a run without
        end."""
        findings = Findings(words, *self.run_refused(words, 0))
        numbers = range(1, findings.requests + MORE + 1, every)
        threads = ThreadPoolExecutor(jobs)
        ends = threads.map(lambda number: self.outcome(words, number), numbers)
        for number, given in zip(numbers, ends):
            findings.add(f"request {number} refused", given)
            if given is None:
                break
        threads.shutdown(cancel_futures=True)
        return findings

    def refuse_without_line(self, words: str) -> Findings:
        """The same where standard error is full, and where it is closed."""
        findings = Findings(words, *self.run_refused(words, 0))
        with open("/dev/full", "wb") as full:
            places: list[dict[str, Any]] = [
                {"stderr": full},
                {"stderr": None, "preexec_fn": lambda: os.close(2)},
            ]
            for number in range(1, findings.requests + 1):
                for place in places:
                    given = self.run_refused(words, number, **place)[0]
                    line = b"out of memory" if given.status == 8 else findings.whole.err
                    findings.add(f"request {number} refused", replace(given, err=line))
        return findings


def way_of(words: str, given: Outcome, whole: Outcome) -> str:
    """In which way a command ended, by the run in which nothing was refused."""
    if given.is_like(whole):
        return "whole"
    way = EARLY.get((given.status, given.line()), "otherwise")
    if not whole.out.startswith(given.out) or (way == "spawn fault" and not words.startswith(LANE)):
        return "otherwise"
    return way


def commands_in(lines: Sequence[str], start: str) -> list[str]:
    """The commands of a table that begin so."""
    stripped = [line.strip() for line in lines]
    return [it for it in stripped if it and not it.startswith("#") and it.startswith(start)]


def main() -> int:
    parser = argparse.ArgumentParser(description="Refuses each request for memory in turn.")
    parser.add_argument("--programs", type=Path, help="a folder of builds in place of bin/")
    parser.add_argument("--every", type=int, default=1, metavar="K", help="every K-th request")
    parser.add_argument("--only", default="", help="what the commands begin with")
    parser.add_argument("--table", type=Path, help="a file of commands in place of these")
    parser.add_argument("--sim", action="store_true", help="sim too")
    given = parser.parse_args()
    lines = given.table.read_text().splitlines() if given.table else SHIPPED
    commands = [(words, given.every) for words in commands_in(lines, given.only)]
    commands += [(SIM, SIM_STEP * given.every)] * given.sim
    good = []
    with tempfile.TemporaryDirectory() as name:
        folder = Path(name)
        bench = RefusingBench(build_programs(folder / "programs", given.programs), folder)
        for words, every in commands:
            findings = bench.refuse_each(words, every, os.cpu_count() or 1)
            print(findings, flush=True)
            good.append(findings.is_good())
        for words in WITHOUT_LINE:
            if (words, given.every) in commands:
                findings = bench.refuse_without_line(words)
                print(f"without a place for the line: {findings}", flush=True)
                good.append(findings.is_good())
    return 0 if good and all(good) else 1


if __name__ == "__main__":
    sys.exit(main())
