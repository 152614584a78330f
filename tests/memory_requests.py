#!/usr/bin/env python3
"""Counts the requests for memory of each command over a record, and over one of twice its cycles.

    python3 tests/memory_requests.py                       with the programs of bin/
    python3 tests/memory_requests.py --programs FOLDER     with another build of det
    python3 tests/memory_requests.py --only "det show"     the commands whose words begin so
    python3 tests/memory_requests.py --workers 4           only prints what four workers ask for

The longer record has the samples of the shorter one twice. Each command has to make exactly as many
requests to the C library over both: none for a further cycle, be it read, run, run again or
refused. All run with one worker; what more of them ask for depends on when which thread comes, so
it is only printed, of the commands that run cycles. `sim` has a number of cycles of its own: it may
make no more requests in all than its first cycles take. Prints a line for each record and command;
ends with 1 where there are too many requests. bin/det builds where needed. It needs Python's
standard library and gcc, on Linux.
"""

from __future__ import annotations

import argparse
import sys
import tempfile
from dataclasses import dataclass
from pathlib import Path

from builds import build_programs
from clients import Client, stimulus
from mutations import in_first_format
from refused_memory import RefusingBench

# A multiple of 140, so that the second half of the longer record has the samples of the first.
CYCLES = 700
# The commands, as words in which RECORD is a record.
COMMANDS = (
    "det compare RECORD RECORD",
    "det compare RECORD RECORD RECORD RECORD RECORD RECORD RECORD RECORD",
    "det vote RECORD RECORD RECORD",
    "det vote RECORD RECORD RECORD --dissent",
    "det salvage RECORD",
    "det salvage RECORD --reports",
    "det show RECORD",
    "det show RECORD --reports",
    "det show RECORD --cycle 2",
    "det replay RECORD",
    "det check RECORD",
    "det upgrade RECORD",
)
# Those that run cycles on workers.
ON_WORKERS = ("det replay RECORD", "det check RECORD", "det upgrade RECORD")
# The requests of all 200 cycles of `sim`, whose 10,000 elements are in 40 blocks.
MOST_OF_SIM = 3_000


@dataclass(frozen=True)
class Input:
    """A recording by the name of its records, with the values of its stimulus."""

    name: str
    client: Client
    values: list[int]
    record_format: int = 2


# The cloud and the guard refuse cycles. Each record has more than 65,536 bytes, which are read at a
# time, and a frame of the cloud more than a third of that.
WILD = [1, 500, 20, 300, 300, 7, 8]
INPUTS = (
    Input("bank", Client("bank", [4, 2], 2), [5, 900, -40, 17]),
    Input("cloud", Client("cloud", [900, 50, 3, 6000], 3), [0, 2000, 40, 3000, 3000, -1, 90]),
    Input("guard", Client("guard", [30, -100, 100, 2, 20], 3), WILD),
    Input("guard in format 1", Client("guard", [30, -100, 100, 2, 20], 3), WILD, 1),
)


@dataclass(frozen=True)
class Counts:
    """How many requests a command made over the shorter record, and over the longer one."""

    name: str
    shorter: int
    longer: int

    def are_few(self) -> bool:
        """Whether a further cycle takes none."""
        return self.longer <= self.shorter

    def __str__(self) -> str:
        one = (self.longer - self.shorter) / CYCLES
        return f"{self.name}: {self.shorter} and {self.longer} requests, {one:.2f} a cycle"


class Recordings:
    """An input with its two records."""

    def __init__(self, bench: RefusingBench, given: Input, workers: int) -> None:
        self.bench, self.given, self.workers = bench, given, workers
        self.manifest = self.file("toml", given.client.manifest().encode())
        self.words = [self.words_of(cycles) for cycles in (CYCLES, 2 * CYCLES)]
        self.records = [self.record(number, it) for number, it in enumerate(self.words)]

    def file(self, ending: str, data: bytes) -> str:
        return self.bench.file(f"{self.given.name.replace(' ', '_')}.{ending}", data)

    def words_of(self, cycles: int) -> str:
        """The words that record a number of cycles."""
        text = stimulus(self.given.client.events, cycles, self.given.values)
        path = self.file(f"{cycles}.stim", text.encode())
        return f"det record {self.manifest} {path} --workers {self.workers}"

    def record(self, number: int, words: str) -> str:
        data = self.bench.run_refused(words, 0)[0].out
        is_old = self.given.record_format == 1
        return self.file(f"{number}.rec", in_first_format(data) if is_old else data)

    def counts(self, name: str, pair: list[str]) -> Counts:
        """The requests of two commands, which have to end well."""
        ends = [self.bench.run_refused(words, 0) for words in pair]
        for words, (outcome, _) in zip(pair, ends):
            if outcome.status:
                raise RuntimeError(f"status {outcome.status}: {words}")
        return Counts(f"{self.given.name}: {name}", *(count for _, count in ends))

    def counts_of_reading(self, words: str) -> Counts:
        """The requests of a command over the two records."""
        more = f" --workers {self.workers}" if words in ON_WORKERS else ""
        return self.counts(words, [words.replace("RECORD", it) + more for it in self.records])

    def counts_of_recording(self) -> Counts:
        return self.counts("det record", self.words)


def requests_of_sim(bench: RefusingBench) -> int:
    """The requests of `sim`, which has to end well."""
    outcome, count = bench.run_refused("det sim 7 --workers 1", 0)
    if outcome.status:
        raise RuntimeError(f"sim ends with {outcome.status}")
    return count


def print_counts(counts: Counts, workers: int) -> bool:
    """Prints what a command asked for. Returns whether that is few; of one worker only."""
    good = counts.are_few() or workers > 1
    print(f"{counts}{'' if good else ': TOO MANY'}", flush=True)
    return good


def print_sim(bench: RefusingBench) -> bool:
    count = requests_of_sim(bench)
    good = count <= MOST_OF_SIM
    print(f"det sim 7: {count} requests{'' if good else ': TOO MANY'}", flush=True)
    return good


def main() -> int:
    parser = argparse.ArgumentParser(description="Counts requests for memory over more cycles.")
    parser.add_argument("--programs", type=Path, help="a folder of builds in place of bin/")
    parser.add_argument("--only", default="", help="what the commands begin with")
    parser.add_argument("--workers", type=int, default=1, help="more than one: only prints")
    given = parser.parse_args()
    every = COMMANDS if given.workers == 1 else ON_WORKERS
    commands = [words for words in every if words.startswith(given.only)]
    with tempfile.TemporaryDirectory() as name:
        folder = Path(name)
        bench = RefusingBench(
            build_programs(folder / "programs", given.programs, names=("det",)), folder
        )
        recordings = [Recordings(bench, it, given.workers) for it in INPUTS]
        counts = [it.counts_of_reading(words) for it in recordings for words in commands]
        if "det record".startswith(given.only):
            counts += [it.counts_of_recording() for it in recordings]
        good = [print_counts(it, given.workers) for it in counts]
        if given.workers == 1 and "det sim".startswith(given.only):
            good.append(print_sim(bench))
    return 0 if good and all(good) else 1


if __name__ == "__main__":
    sys.exit(main())
