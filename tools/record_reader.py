"""Reads the bytes of a record of `det`, item by item, and finds a record's fault.

Apart from det_record.py, which is the program over it, and from record_values.py, which has the
values that it gives.
"""

from __future__ import annotations

import struct
from typing import Container, Iterator, NoReturn, Optional, Protocol, Sequence

from record_values import (
    BadRecord,
    Discover,
    Elements,
    Event,
    Finished,
    Header,
    Init,
    Item,
    Phase,
    Reason,
    Refused,
    Register,
    Run,
    Sample,
    Terminate,
)

MOST_RUNS = 1_000_000
MOST_ELEMENTS = 65_536
MOST_ELEMENT_BYTES = 64
MOST_SAMPLES = 4_096
MOST_OUTPUT = 1_048_576
MOST_VALUE = 10**12
PIECE = 1 << 18
NAME_BYTES = frozenset(b"abcdefghijklmnopqrstuvwxyz0123456789_")
SAMPLE = struct.Struct(">Hq")
# What reads an unsigned number, by how many bytes it has.
UNSIGNED = {size: struct.Struct(f">{code}").unpack_from for size, code in zip((1, 2, 4, 8), "BHIQ")}
# The ranges of a sample's value, read without its sign.
VALUE_RANGES = ((0, MOST_VALUE), (2**64 - MOST_VALUE, 2**64 - 1))
REGISTER, DISCOVER, INIT, RUN, TERMINATE = range(1, 6)


class Readable(Protocol):
    """What gives the bytes of a record, as a binary file does."""

    def read(self, size: int, /) -> bytes:
        """At most `size` bytes; none at the end."""


class Cursor:
    """The bytes of a stream, read in pieces, and numbers that are judged byte by byte."""

    def __init__(self, stream: Readable) -> None:
        self.stream = stream
        self.data = b""
        self.at = 0
        self.dropped = 0

    @property
    def offset(self) -> int:
        return self.dropped + self.at

    def has(self, length: int) -> bool:
        """Whether as many bytes are ahead. Where not, all that are left are in `data`."""
        return len(self.data) - self.at >= length or self._fill(length)

    def _fill(self, length: int) -> bool:
        pieces = [self.data[self.at :]]
        ahead = len(pieces[0])
        self.dropped += self.at
        self.at = 0
        while ahead < length:
            piece = self.stream.read(max(PIECE, length - ahead))
            if not piece:
                break
            pieces.append(piece)
            ahead += len(piece)
        self.data = b"".join(pieces)
        return ahead >= length

    def stop(self, ahead: int, reason: Reason) -> NoReturn:
        """Refuses the byte some bytes ahead."""
        raise BadRecord(self.offset + ahead, reason)

    def stop_at_end(self) -> NoReturn:
        self.stop(len(self.data) - self.at, Reason.TRUNCATED)

    def take(self, length: int) -> bytes:
        """The next bytes, whatever they are."""
        if not self.has(length):
            self.stop_at_end()
        self.at += length
        return self.data[self.at - length : self.at]

    def number(self, width: int, least: int, most: int) -> int:
        """An unsigned number of some bytes within a range."""
        if len(self.data) - self.at >= width or self.has(width):
            value = UNSIGNED[width](self.data, self.at)[0]
            if least <= value <= most:
                self.at += width
                return value
        self.refuse(width, ((least, most),))

    def flag(self) -> bool:
        """A byte that is 0 or 1."""
        return self.number(1, 0, 1) == 1

    def refuse(self, width: int, ranges: Sequence[tuple[int, int]]) -> NoReturn:
        """Refuses a number at the first of its bytes with which no value in the ranges is left."""
        ahead = self.data[self.at : self.at + width]
        for read in range(1, len(ahead) + 1):
            left = 8 * (width - read)
            low = int.from_bytes(ahead[:read], "big") << left
            high = low | ((1 << left) - 1)
            if not any(least <= high and low <= most for least, most in ranges):
                self.stop(read - 1, Reason.RANGE)
        self.stop_at_end()

    def signed_number(self) -> int:
        return int.from_bytes(self.take(8), "big", signed=True)

    def sample_value(self) -> int:
        if self.has(8):
            value = int.from_bytes(self.data[self.at : self.at + 8], "big", signed=True)
            if abs(value) <= MOST_VALUE:
                self.at += 8
                return value
        self.refuse(8, VALUE_RANGES)

    def exactly(self, expected: bytes, reason: Reason) -> None:
        for byte in expected:
            self.one_of((byte,), reason)

    def one_of(self, allowed: Container[int], reason: Reason) -> int:
        """A byte that is one of those allowed."""
        if not self.has(1):
            self.stop_at_end()
        byte = self.data[self.at]
        if byte not in allowed:
            self.stop(0, reason)
        self.at += 1
        return byte


def read_event(cursor: Cursor, record_format: int) -> Event:
    capacity = cursor.number(2, 1, 1_024)
    length = cursor.number(1, 1, 32)
    name = bytes(cursor.one_of(NAME_BYTES, Reason.RANGE) for _ in range(length))
    is_fresh = record_format == 2 and cursor.flag()
    return Event(capacity, name.decode("ascii"), is_fresh)


def read_header(cursor: Cursor) -> Header:
    cursor.exactly(b"DETREC", Reason.MAGIC)
    cursor.exactly(b"\0", Reason.VERSION)
    record_format = cursor.one_of((1, 2), Reason.VERSION)
    job = cursor.number(2, 0, 2**16 - 1)
    seed = cursor.number(8, 0, 2**64 - 1)
    cycle_time = cursor.number(8, 1, 2**63 - 1)
    params = tuple(cursor.signed_number() for _ in range(cursor.number(2, 0, 16)))
    events = [read_event(cursor, record_format) for _ in range(cursor.number(2, 0, 256))]
    return Header(record_format, job, seed, cycle_time, params, tuple(events))


def even_stride(cursor: Cursor, count: int, tail: int) -> Optional[int]:
    """The bytes that each of some elements takes, where all are there and take as many."""
    if count == 0 or not cursor.has(2):
        return None
    stride = int.from_bytes(cursor.data[cursor.at : cursor.at + 2], "big") + 2 + tail
    if stride > 2 + MOST_ELEMENT_BYTES + tail or not cursor.has(count * stride):
        return None
    start, end = cursor.at, cursor.at + count * stride
    high, low = cursor.data[start:end:stride], cursor.data[start + 1 : end : stride]
    is_even = high.count(high[:1]) == count and low.count(low[:1]) == count
    return stride if is_even else None


def read_elements(cursor: Cursor, has_draws: bool) -> Elements:
    """Elements of one length are judged all at once, and others one by one."""
    count = cursor.number(4, 0, MOST_ELEMENTS)
    tail = 4 if has_draws else 0
    stride = even_stride(cursor, count, tail)
    if stride is not None:
        return Elements(cursor.take(count * stride), count, has_draws, stride)
    pieces = []
    for _ in range(count):
        length = cursor.number(2, 0, MOST_ELEMENT_BYTES)
        pieces += (length.to_bytes(2, "big"), cursor.take(length + tail))
    return Elements(b"".join(pieces), count, has_draws, None)


def read_samples(cursor: Cursor, events: int) -> tuple[Sample, ...]:
    count = cursor.number(4, 0, MOST_SAMPLES if events else 0)
    if count == 0:
        return ()
    size = count * SAMPLE.size
    if cursor.has(size):
        raw = cursor.data[cursor.at : cursor.at + size]
        samples = tuple(map(Sample._make, SAMPLE.iter_unpack(raw)))
        if all(event < events and abs(value) <= MOST_VALUE for event, value in samples):
            cursor.at += size
            return samples
    numbers = range(count)
    return tuple(Sample(cursor.number(2, 0, events - 1), cursor.sample_value()) for _ in numbers)


def read_refused(cursor: Cursor) -> Refused:
    phase = Phase(cursor.number(1, 0, 2))
    is_pool = phase is Phase.POOL
    pass_number = cursor.number(1, 0, 7 if is_pool else 0)
    element = cursor.number(4, 0, 65_535 if is_pool else 0)
    return Refused(phase, pass_number, element, cursor.number(4, 0, 2**32 - 1))


def read_run(cursor: Cursor, header: Header) -> Run:
    """A Run frame after its tag."""
    time = cursor.number(8, 0, 2**64 - 1) if cursor.flag() else None
    samples = read_samples(cursor, len(header.events))
    if cursor.flag():
        return Run(time, samples, read_refused(cursor))
    elements = read_elements(cursor, header.format == 2)
    output = cursor.take(cursor.number(4, 0, MOST_OUTPUT))
    return Run(time, samples, Finished(elements, output))


class RecordReader:
    """Reads a record from a stream, from its beginning to its end."""

    def __init__(self, stream: Readable) -> None:
        self.cursor = Cursor(stream)

    @property
    def offset(self) -> int:
        """How many bytes were read so far."""
        return self.cursor.offset

    def items(self) -> Iterator[Item]:
        """The header, then the frames. Raises `BadRecord` after them where there is a fault."""
        header = read_header(self.cursor)
        yield header
        self._tag((REGISTER,))
        yield Register()
        self._tag((DISCOVER,))
        yield Discover()
        self._tag((INIT,))
        yield Init(read_elements(self.cursor, has_draws=False))
        runs = 0
        while self._tag((RUN, TERMINATE), runs) == RUN:
            runs += 1
            yield read_run(self.cursor, header)
        yield Terminate()
        if self.cursor.has(1):
            self.cursor.stop(0, Reason.TRAILING)

    def _tag(self, allowed: Sequence[int], runs: int = 0) -> int:
        if not self.cursor.has(1):
            self.cursor.stop_at_end()
        tag = self.cursor.data[self.cursor.at]
        if tag == RUN and runs == MOST_RUNS:
            self.cursor.stop(0, Reason.TOO_MANY)
        if tag not in allowed:
            known = REGISTER <= tag <= TERMINATE
            self.cursor.stop(0, Reason.ORDER if known else Reason.RANGE)
        self.cursor.at += 1
        return tag
