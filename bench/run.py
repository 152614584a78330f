#!/usr/bin/env python3
"""Times of `det` over large inputs, beside those of plain programs, as tables in Markdown.

It needs Python's standard library only. README.md in this folder says what is measured and how.
"""

import argparse
import os
import shutil
import subprocess
import sys
import tempfile
from pathlib import Path
from typing import Optional

from goals import ABSENT, goal_rows
from inputs import NAMES
from running import Failure, Runner, adopt_orphans, busy_processes
from suites import Measurements, Programs, Row, build_plain

TOP = Path(__file__).resolve().parent.parent
POOL = TOP / "crates" / "bench_pool"
ROUNDS = 5

ROW_HEADS = ["command", "workers", "wall time", "MB/s of record", "memory", "speed, 1 worker = 1"]
GOAL_HEADS = ["goal", "figure", "asked", "verdict", "by medians"]


def row_cells(row: Row) -> list[str]:
    command, trial, seconds = row.result.command, row.result.trial, row.result.seconds
    names = [command.what, str(command.workers or "")]
    if trial is None or seconds is None:
        return [*names, ABSENT, "", "", ""]
    return [
        *names,
        f"{seconds:.3f} s" if row.size else f"{seconds * 1000:.3f} ms",
        f"{row.size * command.records / seconds / 1e6:.1f}" if row.size else "",
        f"{trial.memory / 1e6:.1f} MB" if trial.memory else "",
        f"{row.first / seconds:.2f}" if row.first else "",
    ]


def print_table(heads: list[str], rows: list[list[str]]) -> None:
    print(f"| {' | '.join(heads)} |")
    print("|---|" + "---:|" * (len(heads) - 1))
    for cells in rows:
        print(f"| {' | '.join(cells)} |")
    print()


def print_findings(found: Measurements, load: float) -> None:
    print_table(ROW_HEADS, [row_cells(row) for row in found.rows])
    print_table(GOAL_HEADS, goal_rows([row.result for row in found.rows]))
    for remark in found.remarks:
        print(f"- {remark}")
    after = os.getloadavg()[0]
    print(f"- load average {load:.2f} before the first run, {after:.2f} after the last one")


def build_program(name: str) -> Path:
    """A proved program: the times of no other one are printed."""
    words = [sys.executable, str(TOP / "tools" / "build.py"), "--prove", name]
    done = subprocess.run(words, stdout=subprocess.PIPE, text=True)
    if done.returncode != 0:
        raise Failure(f"{name} isn't proved")
    return Path(done.stdout.strip())


def copies_program(name: str, given: Optional[Path], options: argparse.Namespace) -> Optional[Path]:
    """A program of running copies: one that is given, or is built where no program is given."""
    if given or options.program:
        return given and given.resolve()
    return build_program(name)


def pool_program(options: argparse.Namespace) -> Optional[Path]:
    """The program that times passes: one that is given, or is built where no program is given."""
    if options.pool or options.program:
        return options.pool and options.pool.resolve()
    words = ["rt", "run"]
    if (
        not shutil.which("rt")
        or subprocess.run(words, cwd=POOL, stdout=subprocess.DEVNULL).returncode != 0
    ):
        raise Failure("bench_pool can't be built")
    return POOL / "out" / "bench_pool"


def measure(options: argparse.Namespace, room: Path) -> Measurements:
    det = options.program.resolve() if options.program else build_program("det")
    plain = build_plain("baseline", room), build_plain("client", room)
    lane = copies_program("det_lane", options.lane, options)
    twin = copies_program("det_twin", options.twin, options)
    programs = Programs(det, lane, twin, pool_program(options), *plain)
    if None in (programs.baseline, programs.client):
        print("a program in plain Rust is left out: rustc doesn't build it", file=sys.stderr)
    adopt_orphans()
    rounds = options.rounds or (1 if options.quick else ROUNDS)
    measurements = Measurements(Runner(room, rounds), programs, options.quick)
    with busy_processes(options.busy):
        measurements.measure(options.only)
    return measurements


def positive(word: str) -> int:
    number = int(word)
    if number < 1:
        raise ValueError(f"{number} is less than 1")
    return number


def options_of_words() -> argparse.Namespace:
    parser = argparse.ArgumentParser(description="Prints times of det over large inputs.")
    parser.add_argument("--quick", action="store_true", help="smaller inputs, each run once")
    parser.add_argument("--only", choices=NAMES, help="one of the inputs")
    parser.add_argument(
        "--rounds", type=positive, help=f"timed runs of each command; else {ROUNDS}"
    )
    parser.add_argument(
        "--busy", type=positive, default=0, help="busy processes beside all runs; else none"
    )
    parser.add_argument(
        "--program",
        type=Path,
        help="a program that is there, in place of the one that bin/det builds",
    )
    parser.add_argument(
        "--lane",
        type=Path,
        help="likewise det_lane; with only --program running copies are left out",
    )
    parser.add_argument("--twin", type=Path, help="likewise det_twin")
    parser.add_argument(
        "--pool",
        type=Path,
        help="likewise bench_pool; with only --program its passes are left out",
    )
    return parser.parse_args()


def main() -> int:
    options = options_of_words()
    load = os.getloadavg()[0]
    try:
        with tempfile.TemporaryDirectory(prefix="det-bench-") as room:
            found = measure(options, Path(room))
    except Failure as failure:
        print(failure, file=sys.stderr)
        return 1
    print_findings(found, load)
    return 0 if found.is_same else 1


if __name__ == "__main__":
    sys.exit(main())
