#!/usr/bin/env python3
"""Times the C++ class beside the same written in plain C++, and prints a table with ratios.

    python3 bench/cpp.py                    with what bin/build_library builds where needed
    python3 bench/cpp.py --archive FILE     with another build of the library
    python3 bench/cpp.py --rounds 50        more rounds than 20

`class` draws by the proved calls, `inlined words` by `GetRandomInline`, which nothing proves. The
plain library of bench/cpp is once in a translation unit of its own, as a library that is called,
and once in a header, inlined. All four are timed in turns in one run, and the least time of all
rounds counts. A pass is over 10,000 elements, light with one word for each and heavy with 64. The
times say something only on a machine with nothing else to do: the load average before and after is
printed. It needs g++ and Python's standard library.
"""

import argparse
import os
import subprocess
import sys
import tempfile
from dataclasses import dataclass
from pathlib import Path

TOP = Path(__file__).resolve().parent.parent
SOURCES = TOP / "bench" / "cpp"
# The goal: the most times the time of the plain library.
GOAL = 1.2


@dataclass(frozen=True)
class Row:
    """The nanoseconds of one thing in its four forms."""

    name: str
    proved: float
    inlined: float
    plain_called: float
    plain_inlined: float


def build_library() -> Path:
    """A proved library."""
    words = [str(TOP / "bin" / "build_library"), "--prove"]
    done = subprocess.run(words, stdout=subprocess.PIPE, text=True, check=True)
    return Path(done.stdout.split("\n")[-2])


def compile_times(archive: Path, folder: Path) -> Path:
    """The program that times. The plain library is an object of its own."""
    library = folder / "plain_words.o"
    program = folder / "times"
    flags = ["g++", "-std=c++17", "-O2", f"-I{TOP / 'include'}"]
    subprocess.run([*flags, "-c", SOURCES / "plain_words.cpp", "-o", library], check=True)
    subprocess.run(
        [*flags, SOURCES / "times.cpp", library, archive, "-pthread", "-o", program], check=True
    )
    return program


def rows(program: Path, rounds: int) -> list[Row]:
    done = subprocess.run([program, str(rounds)], stdout=subprocess.PIPE, text=True, check=True)
    parts = [line.split("\t") for line in done.stdout.splitlines()]
    return [Row(name, *map(float, times)) for name, *times in parts]


def ratio(time: float, other: float) -> str:
    found = time / other
    return f"{found:.2f} {'holds' if found <= GOAL else 'missed'}"


def loads() -> str:
    return " ".join(f"{load:.2f}" for load in os.getloadavg())


def main() -> int:
    parser = argparse.ArgumentParser(description="Times the C++ class beside plain C++.")
    parser.add_argument(
        "--archive",
        type=Path,
        help="a build of the library to take in place of bin/build_library's",
    )
    parser.add_argument(
        "--rounds", type=int, default=20, help="how often each form is timed in turn"
    )
    given = parser.parse_args()
    if given.rounds < 1:
        parser.error("at least one round")
    archive = (given.archive or build_library()).resolve()
    before = loads()
    with tempfile.TemporaryDirectory() as folder:
        found = rows(compile_times(archive, Path(folder)), given.rounds)
    print("Nanoseconds of one, the least of all rounds.\n")
    print(
        "| what | class | inlined words | plain, called | plain, inlined |\n|---|---|---|---|---|"
    )
    for row in found:
        print(
            f"| {row.name} | {row.proved:.2f} | {row.inlined:.2f} "
            f"| {row.plain_called:.2f} | {row.plain_inlined:.2f} |"
        )
    print(f"\nRatios; the goal is at most {GOAL}.\n")
    print(
        "| what | class to plain, called | class to plain, inlined "
        "| inlined words to plain, inlined |\n|---|---|---|---|"
    )
    for row in found:
        print(
            f"| {row.name} | {ratio(row.proved, row.plain_called)} "
            f"| {ratio(row.proved, row.plain_inlined)} | {ratio(row.inlined, row.plain_inlined)} |"
        )
    print(f"\nLoad average before {before}, after {loads()}; {os.cpu_count()} processors.")
    return 0


if __name__ == "__main__":
    sys.exit(main())
