#!/usr/bin/env python3
"""Shows that copies in threads reach their verdict and their end, however they are disturbed.

    python3 tests/twins.py                       1,000 runs with the program of bin/det_twin
    python3 tests/twins.py --runs 100            100 runs
    python3 tests/twins.py --programs FOLDER     with another build of det_twin
    python3 tests/twins.py --busy 4              beside four busy processes
    python3 tests/twins.py --seed 7              other random choices

A run has 2 to 8 copies of a bank with many short cycles, or with few long ones. In about every
second run a bit of some copy's output is turned. A run is disturbed as by tests/one_digest.py: it
is stopped and goes on, and its threads are pinned to random processors. A run that takes more than
a minute has no verdict: two ends of a queue that wait for each other would show as one. Prints how
many runs had their verdict and how they were disturbed, or the first run that hadn't; ends with 1
where there is one. bin/det_twin builds where needed. It needs Python's standard library, on Linux.
"""

from __future__ import annotations

import os
import random
import subprocess
import sys
import tempfile
from dataclasses import dataclass
from pathlib import Path
from typing import Optional

from builds import build_programs
from clients import Client, stimulus
from commands import Case, Outcome
from one_digest import LIMIT, Disturber, keep_busy, options

COPIES = range(2, 9)
VALUES = [0, 7, -5, 1000, 250]
# The frame of cycle 1: Register, Discover and Init come first.
FIRST_RUN = 3
# The status of copies that agree, and of copies that differ.
AGREE, DIFFER = 0, 1


@dataclass(frozen=True)
class Input:
    """A manifest and a stimulus, and how many cycles that has."""

    client: Client
    cycles: int

    def write(self, folder: Path) -> list[str]:
        """Writes both. Returns the words that name them."""
        name = f"{self.client.params[0]}"
        manifest, text = folder / f"{name}.toml", folder / f"{name}.stim"
        manifest.write_text(self.client.manifest())
        text.write_text(stimulus(self.client.events, self.cycles, VALUES))
        return [str(manifest), str(text)]


INPUTS = (Input(Client("bank", [3, 1], 1), 5000), Input(Client("bank", [9000, 1], 1), 40))


def some_case(choose: random.Random, folder: Path, which: int) -> Case:
    """Copies of an input, in one of which a bit may be turned, and their verdict."""
    given = INPUTS[which % len(INPUTS)]
    copies = choose.choice(COPIES)
    words = ["det_twin", str(copies), *given.write(folder)]
    outcome = Outcome(AGREE, b"agree %d\n" % given.cycles, b"")
    if choose.random() < 0.5:
        copy, cycle = choose.randrange(copies), choose.randrange(given.cycles)
        words += ["--flip", str(copy), str(cycle + FIRST_RUN)]
        # Where copy 0 differs, copy 1 is the first that isn't equal to it.
        line = b"differ copy %d output %d\n" % (max(copy, 1), cycle + 1)
        outcome = Outcome(DIFFER, line, b"")
    return Case(" ".join(words), list(words), outcome)


def departure(program: Path, case: Case, disturber: Disturber) -> Optional[str]:
    """What a disturbed run gave, where it isn't its verdict."""
    processors = disturber.some_processors()
    with tempfile.TemporaryFile() as out, tempfile.TemporaryFile() as err:
        process = subprocess.Popen(
            [str(program), *map(str, case.words[1:])],
            stdout=out,
            stderr=err,
            preexec_fn=lambda: os.sched_setaffinity(0, processors),
        )
        if not disturber.disturb(process):
            return f"{case}: no end in {LIMIT} seconds"
        out.seek(0)
        err.seek(0)
        given = Outcome(process.returncode, out.read(), err.read())
    return None if given == case.outcome else f"{case}: {given}, {given.out!r}, not {case.outcome}"


def main() -> int:
    given = options("Compares verdicts of many disturbed runs.")
    with tempfile.TemporaryDirectory() as name, keep_busy(given.busy):
        folder, disturber = Path(name), Disturber(random.Random(given.seed))
        program = (
            build_programs(folder / "programs", given.programs, names=("det_twin",)).folder
            / "det_twin"
        )
        for run in range(given.runs):
            case = some_case(disturber.choose, folder, run)
            other = departure(program, case, disturber)
            if other:
                print(f"run {run}, {other}")
                return 1
    counts = ", ".join(f"{count} {what}" for what, count in sorted(disturber.counts.items()))
    print(f"{given.runs} runs had their verdict; {counts}, {given.busy} busy processes")
    return 0


if __name__ == "__main__":
    sys.exit(main())
