#!/usr/bin/env python3
"""Makes docs/pictures/page.png anew: the page for a browser with two copies of a cloud.

    make page && python3 tests/page_picture.py
    python3 tests/page_picture.py --det FILE     by another build of det

The second copy is made from the first: from cycle 94 on, x of some particles has another lowest
bit. These are more with each cycle, and their numbers grow. It needs Chromium.
"""

from __future__ import annotations

import argparse
import random
import sys
import tempfile
from pathlib import Path
from typing import Iterator

from browsers import CHROMIUM, program
from builds import build_page
from commands import TOP, make

PICTURE = TOP / "docs" / "pictures" / "page.png"
# A picture of 825 by 945 points.
SIZE = ("--window-size=1100,1260", "--force-device-scale-factor=0.75", "--hide-scrollbars")
PARTICLES, CYCLES, FIRST_CYCLE, FIRST_PARTICLE = 200, 240, 94, 56
MANIFEST = f"""job = "cloud"
cycle_time_ns = 10_000_000
workers = 4
params = [{PARTICLES}, 1000, 50, 4_000_000_000_000]
[[event]]
name = "x"
capacity = 1
[[event]]
name = "y"
capacity = 1
"""
# The bytes of a cycle: before its samples, of a sample, after them, of a particle, of an output.
BEFORE, SAMPLE, AFTER, PARTICLE, OUTPUT = 14, 10, 5, 26, 36
LAST_OF_X = 13


def targets() -> list[list[int]]:
    """The target's x and y in each cycle, or none: it moves in every fourth cycle."""
    chance, x, y = random.Random(2), 0, -1500
    found: list[list[int]] = []
    for cycle in range(CYCLES):
        x, y = x + chance.randrange(-150, 181), y + chance.randrange(-160, 161)
        found.append([] if cycle % 4 else [x, y])
    return found


def stimulus() -> str:
    lines = ["stim 1"]
    for cycle, values in enumerate(targets()):
        lines.append(f"cycle {cycle * 10_000_000}")
        lines += (f"sample {event} {value}" for event, value in enumerate(values))
    return "\n".join([*lines, "terminate\n"])


def differing(cycle: int, chance: random.Random) -> Iterator[int]:
    """The particles that differ in a cycle."""
    age = cycle - FIRST_CYCLE
    low = FIRST_PARTICLE + int(0.4 * age)
    for particle in range(low, low + 1 + int(0.25 * age)):
        if age == 0 or chance.random() < 0.15 + 0.001 * age:
            yield particle


def other_copy(data: bytes) -> bytes:
    """The record, of which x of some particles has another lowest bit."""
    changed, chance = bytearray(data), random.Random(1)
    sizes = [BEFORE + SAMPLE * len(it) + AFTER + PARTICLE * PARTICLES + OUTPUT for it in targets()]
    at = len(data) - 1 - sum(sizes)  # the first cycle; Terminate has one byte
    for cycle, (values, size) in enumerate(zip(targets(), sizes), start=1):
        elements = at + BEFORE + SAMPLE * len(values) + AFTER
        if cycle >= FIRST_CYCLE:
            for particle in differing(cycle, chance):
                changed[elements + PARTICLE * particle + LAST_OF_X] ^= 1
        at += size
    return bytes(changed)


def main() -> int:
    parser = argparse.ArgumentParser(description="Makes the picture of the page anew.")
    parser.add_argument("--det", metavar="FILE", type=Path, default=TOP / "bin" / "det")
    det = parser.parse_args().det.resolve()
    with tempfile.TemporaryDirectory(prefix="det-picture-") as name:
        room = Path(name)
        (room / "cloud.toml").write_text(MANIFEST)
        (room / "cloud.stim").write_text(stimulus())
        data = make([det, "record", "cloud.toml", "cloud.stim"], room)
        (room / "cloud.rec").write_bytes(data)
        (room / "other.rec").write_bytes(other_copy(data))
        words = ["cloud.rec", "other.rec", "--page", build_page(), "-o", "page.html"]
        make([sys.executable, "-B", TOP / "tools" / "det_page.py", *words], room)
        browser = [program(CHROMIUM), "--headless", "--no-sandbox", *SIZE]
        make([*browser, f"--screenshot={PICTURE}", (room / "page.html").as_uri()], room)
    print(PICTURE)
    return 0


if __name__ == "__main__":
    sys.exit(main())
