"""Shipped jobs written as C++ applications with loops of their own over the class: their records
are those that `det record` writes. test_cpp_jobs.py has them as jobs.

They need g++.
"""

from __future__ import annotations

import random
from dataclasses import dataclass
from pathlib import Path

import pytest

from commands import difference
from cpp_bench import CPP, CppBench

SEED = 9
# The flags of each build, and the numbers of workers that it is run with.
BUILDS = {
    "optimized": (("-O2",), (1, 4, 16)),
    "address": (("-O1", "-g", "-fsanitize=address,undefined", "-fno-sanitize-recover=all"), (4,)),
    "thread": (("-O1", "-g", "-fsanitize=thread"), (4,)),
}


@dataclass(frozen=True)
class Application:
    """A job, its parameters, the ranges of its events' samples, and lines of its record."""

    job: str
    params: tuple[int, ...]
    events: dict[str, tuple[int, int]]
    cycles: int
    holds: tuple[str, ...]

    def __str__(self) -> str:
        return self.job

    def manifest(self) -> str:
        events = "".join(f'[[event]]\nname = "{name}"\ncapacity = 1\n' for name in self.events)
        head = f'job = "{self.job}"\ncycle_time_ns = 10000000\nworkers = 1\n'
        return f"{head}params = {list(self.params)}\n{events}"

    def stimulus(self) -> str:
        """Random cycles, with and without a time, some with a time that no time stamp can hold."""
        choose = random.Random(self.job)
        ranges = list(self.events.values())
        lines = ["stim 1"]
        for cycle in range(self.cycles):
            times = ["-", cycle * 10_000_000, cycle * 10_000_000, choose.randrange(2**64)]
            lines.append(f"cycle {choose.choice(times)}")
            for event in choose.choices(range(len(ranges)), k=choose.randrange(4)):
                lines.append(f"sample {event} {choose.randint(*ranges[event])}")
        return "\n".join([*lines, "terminate", ""])


CLOUD = Application(
    "cloud",
    (1000, 1000, 50, 1_400_000),
    {"x": (-1_000_000, 1_000_000), "y": (-1_000_000, 1_000_000), "hold": (-1, 5)},
    230,
    ("refused prepare 0 0 1", "refused conclude 0 0 2", "finished 1000"),
)
GUARD = Application(
    "guard",
    (300, -1000, 1000, 3, 200),
    {"a": (-1200, 1200), "b": (-1200, 1200)},
    300,
    ("refused pool 0 ", "refused conclude 0 0 2", "finished 300"),
)
FAR_TIME = 2**63


def inputs(cpp: CppBench, application: Application) -> tuple[str, str]:
    """The manifest and the stimulus of an application, as files."""
    manifest = cpp.file(f"{application.job}.toml", application.manifest())
    return manifest, cpp.file(f"{application.job}.stim", application.stimulus())


def record_by(
    cpp: CppBench, application: Application, program: Path, stimulus: str, workers: int
) -> bytes:
    """The record that an application writes."""
    return cpp.output_of([program, stimulus, SEED, workers, *application.params])


@pytest.mark.slow
@pytest.mark.parametrize("build", BUILDS)
@pytest.mark.parametrize("application", (CLOUD, GUARD), ids=str)
def test_same_record(application: Application, build: str, cpp: CppBench) -> None:
    """The application's record is det's, byte for byte, with each number of workers."""
    flags, workers = BUILDS[build]
    job = application.job
    program = cpp.compile("g++", [f"{job}.cpp"], f"{job}_{build}", [*CPP, *flags])
    manifest, stimulus = inputs(cpp, application)
    expected = cpp.output_of([cpp.det, "record", manifest, stimulus, "--seed", SEED])
    for count in workers:
        given = record_by(cpp, application, program, stimulus, count)
        assert given == expected, f"on {count} workers: {difference(expected, given)}"


@pytest.mark.slow
@pytest.mark.parametrize("application", (CLOUD, GUARD), ids=str)
def test_genuine(application: Application, cpp: CppBench) -> None:
    """det runs the application's record again, and finds all that it has to hold in it."""
    job, cycles = application.job, application.cycles
    program = cpp.compile("g++", [f"{job}.cpp"], f"{job}_genuine", [*CPP, "-O2"])
    data = record_by(cpp, application, program, inputs(cpp, application)[1], 4)
    record = cpp.file(f"{job}.rec", data)
    assert cpp.output_of([cpp.det, "check", record]).split(b"\n")[0] == b"genuine %d" % cycles
    text = cpp.output_of([cpp.det, "show", record]).decode()
    for line in application.holds:
        assert f"\n{line}" in text, f"the run is too tame: no line {line}"
    runs = [line.split() for line in text.split("\n") if line.startswith("run ")]
    times = [int(words[3]) for words in runs if words[3] != "-"]
    assert any(time >= FAR_TIME for time in times) and f"run {cycles} " in text
