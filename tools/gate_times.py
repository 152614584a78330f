#!/usr/bin/env python3
"""Runs the gate, and prints how many minutes of a processor each crate took.

    python3 tools/gate_times.py rt ci
    python3 tools/gate_times.py rt must-fail det_client      another command of rt

The command's lines pass through. After them comes a table: the minutes of each crate for its
proof, for that of its tests, and for its edits, the dearest crate first. The log of rt has no
times, so the prover's processes are looked at in /proc while they run: what one of them does after
the last look is in the sum that the system counts, and in no crate. What was kept from an earlier
run takes no time. The exit status is the command's. It needs Linux and Python's standard library.
"""

from __future__ import annotations

import os
import resource
import subprocess
import sys
import time
from collections import Counter
from contextlib import suppress
from pathlib import Path
from typing import Iterator, Optional

PROOFS, TESTS, EDITS = KINDS = ("proofs", "tests", "edits")
# Seconds between two looks.
PAUSE = 0.5
TICKS = os.sysconf("SC_CLK_TCK")

# A process by its number and when it began, as the system uses numbers again.
Process = tuple[int, int]
# A crate, and what is done of it.
Work = tuple[str, str]


def processes() -> Iterator[tuple[Process, int, float]]:
    """Each process, its parent's number, and the seconds that it took itself."""
    for folder in Path("/proc").glob("[0-9]*"):
        with suppress(OSError):  # it can end meanwhile
            fields = (folder / "stat").read_text().rpartition(")")[2].split()
            seconds = (int(fields[11]) + int(fields[12])) / TICKS
            yield (int(folder.name), int(fields[19])), int(fields[1]), seconds


def work_of(number: int) -> Optional[Work]:
    """What a process proves, if it proves something. An edit is tried in a folder of its own."""
    with suppress(OSError):
        words = Path(f"/proc/{number}/cmdline").read_bytes().split(b"\0")
        if b"--crate-name" in words[:-1]:
            crate = words[words.index(b"--crate-name") + 1].decode()
            if Path(os.readlink(f"/proc/{number}/cwd")).name != crate:
                return crate, EDITS
            return crate, TESTS if b"--test" in words else PROOFS
    return None


class Watch:
    """What was seen of the processes below one."""

    def __init__(self, root: int) -> None:
        self.root = root
        self.works: dict[Process, Work] = {}
        self.seconds: dict[Process, float] = {}

    def look(self) -> None:
        found = list(processes())
        parents = {process[0]: parent for process, parent, _ in found}
        for process, _, seconds in found:
            if process not in self.works and self.is_below(process[0], parents):
                if work := work_of(process[0]):
                    self.works[process] = work
            if process in self.works:
                self.seconds[process] = seconds

    def is_below(self, number: int, parents: dict[int, int]) -> bool:
        while number != self.root and number in parents:
            number = parents[number]
        return number == self.root

    def minutes(self) -> Counter[Work]:
        found: Counter[Work] = Counter()
        for process, seconds in self.seconds.items():
            found[self.works[process]] += seconds / 60  # type: ignore[assignment]
        return found


def print_table(minutes: Counter[Work]) -> None:
    crates = sorted({crate for crate, _ in minutes}, key=lambda it: -total(minutes, it))
    print(f"\n| crate | {' | '.join(KINDS)} | all |\n|---|---:|---:|---:|---:|")
    for crate in crates:
        cells = [f"{minutes[crate, kind]:.2f}" for kind in KINDS]
        print(f"| `{crate}` | {' | '.join(cells)} | {total(minutes, crate):.2f} |")
    sums = [sum(minutes[crate, kind] for crate in crates) for kind in KINDS]
    print(f"| all | {' | '.join(f'{it:.2f}' for it in sums)} | {sum(sums):.2f} |")


def total(minutes: Counter[Work], crate: str) -> float:
    return sum(minutes[crate, kind] for kind in KINDS)


def main() -> int:
    if len(sys.argv) < 2:
        print("gate_times: the words are a command, as `rt ci`", file=sys.stderr)
        return 2
    begun = time.monotonic()
    with subprocess.Popen(sys.argv[1:]) as command:
        watch = Watch(command.pid)
        while command.poll() is None:
            watch.look()
            time.sleep(PAUSE)
    print_table(watch.minutes())
    used = resource.getrusage(resource.RUSAGE_CHILDREN)
    counted, clock = (used.ru_utime + used.ru_stime) / 60, (time.monotonic() - begun) / 60
    print(f"\nThe system counted {counted:.1f} minutes of a processor, in {clock:.1f} minutes.")
    return command.returncode


if __name__ == "__main__":
    sys.exit(main())
