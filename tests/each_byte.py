#!/usr/bin/env python3
"""Shows records with each byte at each place, and compares that with what a plain program shows.

    python3 tests/each_byte.py                       with the program of bin/det
    python3 tests/each_byte.py --programs FOLDER     with another build of det
    python3 tests/each_byte.py --jobs 4              in four processes

Each byte of the record of a run without cycles in format 1 is replaced by each of the 256 values in
turn. So are those bytes of format 2 that make it another format: the version and the policy.
Status, line and output have to be those of tests/plain. Prints how many changed records were shown,
and those that were shown otherwise; ends with 1 where there is one. bin/det builds where needed. It
needs Python's standard library and rustc, on Linux.
"""

from __future__ import annotations

import argparse
import os
import sys
import tempfile
from concurrent.futures import ProcessPoolExecutor
from pathlib import Path

from both_programs import NO_END, Plain, Real, working_in
from builds import build_plain, build_programs
from record_bytes import FORMATS, event, header, init

# A bank of four channels and a shift of 2 over one event.
RECORDS = {
    which: header(which, 1, [4, 2], [event(which, 2, "x", 0)]) + init([bytes(8)] * 4) + b"\5"
    for which in FORMATS
}
# The format of a record, and the number of a byte.
Place = tuple[int, int]
PLACES: list[Place] = [(1, at) for at in range(len(RECORDS[1]))] + [(2, 7), (2, 50)]


class EachByte:
    """Both programs in a folder."""

    def __init__(self, programs: Path, plain: Path, folder: Path) -> None:
        self.folder = folder
        self.real, self.plain = Real(programs), Plain(plain, folder)

    def departures(self, place: Place) -> list[str]:
        """The bytes at a place with which a record is shown otherwise, up to a run without end."""
        which, at = place
        record, lines = RECORDS[which], []
        with working_in(self.folder):
            for byte in range(256):
                Path("r").write_bytes(record[:at] + bytes([byte]) + record[at + 1 :])
                words = ["det", "show", "r"]
                given, expected = self.real.run(words), self.plain.run(words)
                if given != expected:
                    lines.append(f"format {which}, byte {at} as {byte}: {given}, not {expected}")
                if given.status == NO_END:
                    break
        return lines


# Both programs of each process of a pool.
POOL: list[EachByte] = []


def begin_process(programs: Path, plain: Path, room: Path) -> None:
    folder = room / str(os.getpid())
    folder.mkdir()
    POOL.append(EachByte(programs, plain, folder))


def departures(place: Place) -> list[str]:
    return POOL[0].departures(place)


def main() -> int:
    parser = argparse.ArgumentParser(description="Shows records with each byte at each place.")
    parser.add_argument("--programs", type=Path, help="a folder of builds in place of bin/")
    parser.add_argument("--jobs", type=int, default=os.cpu_count(), help="how many processes")
    given = parser.parse_args()
    with tempfile.TemporaryDirectory() as name:
        room = Path(name)
        programs = build_programs(room / "programs", given.programs, names=("det",)).folder
        words = (programs, build_plain(room), room)
        with ProcessPoolExecutor(given.jobs, initializer=begin_process, initargs=words) as pool:
            lines = [line for part in pool.map(departures, PLACES) for line in part]
    print("".join(line + "\n" for line in lines[:20]), end="")
    print(f"{256 * len(PLACES)} records, {len(lines)} of them shown otherwise")
    return 1 if lines else 0


if __name__ == "__main__":
    sys.exit(main())
