#!/usr/bin/env python3
"""Prints the stimulus that a record gives to a second client of a chain, from its bytes only.

    python3 tests/derived.py RECORD EVENTS

Each cycle of the record is a cycle at the same time. Output word J, 8 bytes as a signed number,
big-endian, is a sample of event J, for J below EVENTS, unless its absolute value is above 10^12. A
refused cycle has no samples. It needs Python's standard library only.
"""

import struct
import sys
from dataclasses import dataclass
from pathlib import Path
from typing import Iterator, Optional

MOST_VALUE = 10**12


class Reader:
    """Fields of a record, one after another."""

    def __init__(self, data: bytes) -> None:
        self.data = data
        self.at = 0

    def raw(self, length: int) -> bytes:
        self.at += length
        return self.data[self.at - length : self.at]

    def number(self, width: int) -> int:
        return int.from_bytes(self.raw(width), "big")


@dataclass(frozen=True)
class Cycle:
    """A cycle's time, and its output, or none where it was refused."""

    time: Optional[int]
    output: Optional[bytes]

    def samples(self, events: int) -> list[tuple[int, int]]:
        """The samples that it gives to a client of some events."""
        output = self.output or b""
        words = [
            struct.unpack_from(">q", output, 8 * number)[0]
            for number in range(min(events, len(output) // 8))
        ]
        return [(event, word) for event, word in enumerate(words) if abs(word) <= MOST_VALUE]


def skip_header(reader: Reader) -> int:
    """Reads the header. Returns the format."""
    reader.raw(6)
    record_format = reader.number(2)
    reader.raw(18)
    reader.raw(8 * reader.number(2))
    for _ in range(reader.number(2)):
        reader.raw(2)
        reader.raw(reader.number(1))
        reader.raw(record_format - 1)
    return record_format


def output_in(reader: Reader, record_format: int) -> Optional[bytes]:
    """Reads how a cycle ended. Returns its output, or none of a refused one."""
    if reader.number(1) == 1:
        reader.raw(10)
        return None
    for _ in range(reader.number(4)):
        reader.raw(reader.number(2))
        reader.raw(4 * (record_format - 1))
    return reader.raw(reader.number(4))


def cycles_in(data: bytes) -> Iterator[Cycle]:
    """The cycles of a record, which has to be whole."""
    reader = Reader(data)
    record_format = skip_header(reader)
    reader.raw(3)
    for _ in range(reader.number(4)):
        reader.raw(reader.number(2))
    while reader.number(1) == 4:
        time = reader.number(8) if reader.number(1) == 1 else None
        reader.raw(10 * reader.number(4))
        yield Cycle(time, output_in(reader, record_format))


def stimulus_from(data: bytes, events: int) -> str:
    """The stimulus that a record gives to a client of some events."""
    lines = ["stim 1"]
    for cycle in cycles_in(data):
        lines.append(f"cycle {'-' if cycle.time is None else cycle.time}")
        lines += [f"sample {event} {value}" for event, value in cycle.samples(events)]
    return "\n".join([*lines, "terminate", ""])


if __name__ == "__main__":
    sys.stdout.write(stimulus_from(Path(sys.argv[1]).read_bytes(), int(sys.argv[2])))
