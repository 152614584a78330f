#!/usr/bin/env python3
"""Runs `det`, `det_twin` and `det_lane` and a plain program over changed inputs.

    python3 tests/mutated.py                             1,000 cases with the programs of bin/
    python3 tests/mutated.py --count 100000 --seed 7     more cases, of another seed
    python3 tests/mutated.py --first 4711 --count 1      one case again
    python3 tests/mutated.py --programs FOLDER           with other builds of the programs
    python3 tests/mutated.py --jobs 4                    in four processes

A case is made from the seed and its number only: manifests, stimuli, records and words that were
good before they were changed, and texts that are nearly TOML. Its exit status, its line on standard
error and its standard output have to be those of tests/plain. Lines on standard error that begin
with two spaces are hints, and aren't compared. Where the words ask for a text of the program, it
has to end well and to write one. Prints how often each command ended with which status, and each
case that ended otherwise, whose files are kept; ends with 1 where there is one. The programs of
bin/ build where needed. It needs Python's standard library and rustc, on Linux.
"""

from __future__ import annotations

import argparse
import os
import shutil
import signal
import sys
import tempfile
from collections import Counter
from concurrent.futures import ProcessPoolExecutor
from dataclasses import dataclass, field
from pathlib import Path
from typing import Sequence

from both_programs import NO_END, Plain, Real, is_same, working_in
from builds import build_plain, build_programs
from commands import TOP, Case, Outcome
from mutated_cases import Cases, case_from

COMMANDS = ("demo", "record", "show", "replay", "check", "upgrade", "compare", "vote", "salvage")
COMMANDS += ("chain", "needs")
# The cases that a process makes at a time.
PART = 50
# The most cases that are printed and kept.
MOST_KEPT = 20


@dataclass(frozen=True)
class Departure:
    """A case that ended otherwise than by the plain program."""

    number: int
    case: Case
    expected: Outcome
    given: Outcome

    def __str__(self) -> str:
        ends = f"  expected {self.expected}\n  given {self.given}"
        return f"number {self.number}: {self.case.words}\n{ends}"

    def keep(self, folder: Path) -> None:
        """Keeps the files of the case, and what both programs wrote."""
        folder.mkdir(parents=True, exist_ok=True)
        self.case.write_files(folder)
        words = (os.fsencode(str(word)) for word in self.case.words)
        (folder / "words").write_bytes(b"\n".join(words) + b"\n")
        for name, end in (("expected", self.expected), ("given", self.given)):
            (folder / name).write_bytes(end.out)
            (folder / f"{name}.end").write_bytes(b"%d\n%s" % (end.status, end.err))


@dataclass
class Findings:
    """How each command ended, and which cases ended otherwise."""

    statuses: Counter[tuple[str, int]] = field(default_factory=Counter)
    departures: list[Departure] = field(default_factory=list)


def command_of(case: Case) -> str:
    """What a case is counted under."""
    if case.words[0] != "det":
        return str(case.words[0])
    word = str(case.words[1]) if len(case.words) > 1 else ""
    return word if word in COMMANDS else "other words"


class Comparison:
    """Both programs in a folder, and the cases of a seed."""

    def __init__(self, programs: Path, plain: Path, folder: Path, seed: str) -> None:
        self.folder = folder
        self.real, self.plain = Real(programs), Plain(plain, folder)
        self.cases = Cases(seed, self.record)

    def record(self, manifest: bytes, stimulus: bytes) -> bytes:
        """The record that the plain program writes of a stimulus."""
        case = case_from(["det", "record", "m0", "s"], {"m0": manifest, "s": stimulus})
        case.write_files(self.folder)
        return self.plain.run([str(word) for word in case.words]).out

    def run(self, numbers: Sequence[int]) -> Findings:
        """Runs cases by their numbers, up to one without end."""
        findings = Findings()
        with working_in(self.folder):
            for number in numbers:
                case = self.cases.case(number)
                case.write_files(self.folder)
                words = [str(word) for word in case.words]
                expected, given = self.plain.run(words), self.real.run(words)
                findings.statuses[command_of(case), given.status] += 1
                if not is_same(given, expected):
                    findings.departures.append(Departure(number, case, expected, given))
                if given.status == NO_END:
                    break
        return findings


# The comparison of each process of a pool.
POOL: list[Comparison] = []


def begin_process(programs: Path, plain: Path, room: Path, seed: str) -> None:
    folder = room / str(os.getpid())
    folder.mkdir()
    POOL.append(Comparison(programs, plain, folder, seed))


def run_part(numbers: range) -> Findings:
    return POOL[0].run(numbers)


def stop(*_: object) -> None:
    """A signal that ends the run first ends its processes and removes its folder."""
    sys.exit(1)


def print_statuses(statuses: Counter[tuple[str, int]]) -> None:
    lines: dict[str, list[str]] = {}
    for (command, status), count in sorted(statuses.items()):
        lines.setdefault(command, []).append(f"{count} with status {status}")
    for command, counts in lines.items():
        print(f"{command}: {', '.join(counts)}")


def run_all(given: argparse.Namespace, room: Path) -> int:
    """Runs all cases. Returns how many ended otherwise."""
    numbers = range(given.first, given.first + given.count)
    parts = [numbers[at : at + PART] for at in range(0, len(numbers), PART)]
    programs = build_programs(room / "programs", given.programs).folder
    words = (programs, build_plain(room), room, given.seed)
    statuses: Counter[tuple[str, int]] = Counter()
    count = 0
    processes = ProcessPoolExecutor(given.jobs, initializer=begin_process, initargs=words)
    try:
        for findings in processes.map(run_part, parts):
            statuses += findings.statuses
            for departure in findings.departures:
                count += 1
                if count <= MOST_KEPT:
                    folder = given.keep / f"{given.seed}-{departure.number}"
                    departure.keep(folder)
                    print(f"seed {given.seed}, {departure}\n  files in {folder}", flush=True)
    finally:
        processes.shutdown(cancel_futures=True)
    print_statuses(statuses)
    return count


def main() -> int:
    parser = argparse.ArgumentParser(description="Compares the programs with a plain one.")
    parser.add_argument("--count", type=int, default=1000, help="how many cases")
    parser.add_argument("--first", type=int, default=0, help="the number of the first case")
    parser.add_argument("--seed", default="0", help="any text")
    parser.add_argument("--jobs", type=int, default=os.cpu_count(), help="how many processes")
    parser.add_argument("--programs", type=Path, help="a folder of builds in place of bin/")
    keep = TOP / "out" / "mutated"
    parser.add_argument("--keep", type=Path, default=keep, help="a folder for the files of cases")
    given = parser.parse_args()
    memory = Path("/dev/shm")
    signal.signal(signal.SIGTERM, stop)
    room = Path(tempfile.mkdtemp(dir=memory if memory.is_dir() else None))
    try:
        count = run_all(given, room)
    finally:
        shutil.rmtree(room)
    print(f"{given.count} cases of seed {given.seed}, {count} ended otherwise")
    return 1 if count else 0


if __name__ == "__main__":
    sys.exit(main())
