#!/usr/bin/env python3
"""Times the job `cloud` of examples/cpp beside that of `det`, and prints a table with ratios.

    python3 bench/cpp_job.py                          with proved builds, made where needed
    python3 bench/cpp_job.py --det FILE --archive FILE    with these builds

Both record the same stimulus with 1 and 4 workers, and check the record with 1. The job draws its
random numbers inlined, and once more by the proved calls. All commands run in turns into nothing,
and the least wall time counts. The job is compiled as CMake compiles a release. The times say
something only on a machine with nothing else to do, and on four processors: the load average before
and after is printed.
"""

import argparse
import os
import subprocess
import sys
import tempfile
import time
from dataclasses import dataclass
from pathlib import Path

from cpp import TOP, build_library, loads
from inputs import SIM_NUMBER, cloud
from run import build_program
from running import Failure, digest_of, run_into

# The most times the time of `det`.
RECORD_GOAL, CHECK_GOAL = 1.1, 1.2
CLOUD = TOP / "examples" / "cpp" / "cloud.cpp"
FLAGS = ["-std=c++17", "-O3", "-DNDEBUG", f"-I{TOP / 'include'}"]


@dataclass(frozen=True)
class Row:
    """A command with the words after the program, and the goal of its ratio."""

    what: str
    words: list[str]
    goal: float


@dataclass(frozen=True)
class Programs:
    """`det`, and the job with random numbers of both kinds."""

    det: Path
    inlined: Path
    called: Path

    def each(self) -> list[Path]:
        return [self.det, self.inlined, self.called]


def compile_job(source: str, archive: Path, program: Path) -> Path:
    text = program.with_suffix(".cpp")
    text.write_text(source)
    words = ["g++", *FLAGS, str(text), str(archive), "-pthread", "-o", str(program)]
    subprocess.run(words, check=True)
    return program


def programs_of(det: Path, archive: Path, room: Path) -> Programs:
    source = CLOUD.read_text()
    called = source.replace("InlineWorkerThread", "WorkerThread")
    return Programs(
        det,
        compile_job(source, archive, room / "cloud"),
        compile_job(called, archive, room / "cloud_called"),
    )


def rows_of(programs: Programs, is_quick: bool, room: Path) -> list[Row]:
    """The commands, over inputs in `room`. All programs have to write the same record."""
    recording = cloud(is_quick)
    manifest, stimulus, record = room / "m.toml", room / "s.stim", room / "det.rec"
    manifest.write_text(recording.manifest())
    stimulus.write_text(recording.stimulus())
    words = ["record", str(manifest), str(stimulus), "--seed", str(SIM_NUMBER)]
    run_into(record, [str(programs.det), *words])
    for program in programs.each():
        run_into(room / "own.rec", [str(program), *words])
        if digest_of(room / "own.rec") != digest_of(record):
            raise Failure(f"{program.name} writes another record than det")
    return [
        Row("record, 1 worker", [*words, "--workers", "1"], RECORD_GOAL),
        Row("record, 4 workers", [*words, "--workers", "4"], RECORD_GOAL),
        Row("check, 1 worker", ["check", str(record), "--workers", "1"], CHECK_GOAL),
    ]


def seconds_of(program: Path, words: list[str]) -> float:
    start = time.perf_counter()
    subprocess.run([program, *words], stdout=subprocess.DEVNULL, check=True)
    return time.perf_counter() - start


def measured(programs: Programs, row: Row, rounds: int) -> list[float]:
    """The least seconds of each program."""
    turns = [[seconds_of(it, row.words) for it in programs.each()] for _ in range(rounds)]
    return [min(times) for times in zip(*turns)]


def print_row(row: Row, seconds: list[float]) -> None:
    det, inlined, called = seconds
    verdict = "holds" if inlined / det <= row.goal else "missed"
    print(
        f"| {row.what} | {det:.3f} s | {inlined:.3f} s | {called:.3f} s "
        f"| {inlined / det:.2f}, at most {row.goal}: {verdict} | {called / det:.2f} |"
    )


def main() -> int:
    parser = argparse.ArgumentParser(description="Times a job in C++ beside the same of det.")
    parser.add_argument("--det", type=Path, help="a build of det")
    parser.add_argument("--archive", type=Path, help="a build of the library")
    parser.add_argument("--rounds", type=int, default=9, help="how often each command is timed")
    parser.add_argument("--quick", action="store_true", help="a tenth of the cycles")
    given = parser.parse_args()
    if given.rounds < 1:
        parser.error("at least one round")
    det = (given.det or build_program("det")).resolve()
    archive = (given.archive or build_library()).resolve()
    before = loads()
    print("| command | det | job | job, called words | job to det | called words to det |")
    print("|---|---:|---:|---:|---|---:|")
    with tempfile.TemporaryDirectory() as folder:
        programs = programs_of(det, archive, Path(folder))
        for row in rows_of(programs, given.quick, Path(folder)):
            print_row(row, measured(programs, row, given.rounds))
    print(f"\nLoad average before {before}, after {loads()}; {os.cpu_count()} processors.")
    return 0


if __name__ == "__main__":
    try:
        sys.exit(main())
    except Failure as why:
        sys.exit(str(why))
