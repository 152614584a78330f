"""Passes of the pool over a job that draws 64 words for each element, timed by `bench_pool`."""

import re
import subprocess
from pathlib import Path

from running import Command, Result, Trial, failure

# A line of `bench_pool --times`, and the units of its times in seconds.
LINE = re.compile(r"^(\d+) heavy elements, (\d+) workers: ([\d.]+)(ns|µs|ms|s)$")
UNITS = {"ns": 1e-9, "µs": 1e-6, "ms": 1e-3, "s": 1.0}


def times_of(text: str) -> dict[int, float]:
    """The seconds that a pass takes, by its number of workers."""
    found: dict[int, float] = {}
    for line in text.splitlines():
        if match := LINE.match(line):
            found[int(match.group(2))] = float(match.group(3)) * UNITS[match.group(4)]
    return found


def heavy_passes(program: Path, rounds: int) -> list[Result]:
    """The times of a heavy pass for each number of workers. It writes nothing, and no memory is
    measured."""
    words = [str(program), "--times"]
    walls: dict[int, list[float]] = {}
    for _ in range(rounds):
        done = subprocess.run(words, stdout=subprocess.PIPE, text=True)
        if done.returncode != 0:
            raise failure(words, done.returncode)
        for workers, seconds in times_of(done.stdout).items():
            walls.setdefault(workers, []).append(seconds)
    return [
        Result(Command("heavy pass", words, workers), Trial(0, ""), found)
        for workers, found in walls.items()
    ]
