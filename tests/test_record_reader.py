"""tools/det_record.py: whatever the bytes are, it reads what `det show` prints."""

from __future__ import annotations

import io
import re
from typing import Iterator

import pytest

from det_record import BadRecord, RecordReader, Summary
from item_lines import item_lines, report_lines
from record_bench import RecordBench
from record_bytes import FORMATS, many_runs, mixed_record

# What a byte is changed to, beside its neighbours.
OTHER_BYTES = (0, 4, 128, 255)
SMALL = ("mixed1", "mixed2", "bank", "wheels")


def lines_of(stream: io.IOBase) -> tuple[list[str], str]:
    """The lines of a record as `det show` prints them, and its line for the user."""
    lines, summary = [], Summary()
    try:
        for item in RecordReader(stream).items():
            summary.see(item)
            lines += item_lines(item, summary.cycles)
    except BadRecord as fault:
        return lines, f"bad record: copy 0 {fault}\n"
    return lines + report_lines(summary), ""


def is_same(records: RecordBench, data: bytes) -> bool:
    """Whether the module reads a record as `det show` prints it."""
    text, line = records.det("show", records.file("shown.rec", data))
    return lines_of(io.BytesIO(data)) == (text.decode().splitlines(), line)


def changes(data: bytes) -> Iterator[bytes]:
    """A record with each of its bytes changed to some others."""
    for at, byte in enumerate(data):
        for other in {(byte + 1) % 256, (byte - 1) % 256, *OTHER_BYTES} - {byte}:
            yield data[:at] + bytes([other]) + data[at + 1 :]


@pytest.mark.parametrize("name", (*SMALL, "cloud", "guard"))
def test_whole_record(name: str, records: RecordBench) -> None:
    """Whole records of both formats are read as they are shown."""
    small = records.small_records()
    assert is_same(records, small[name] if name in small else records.example(name))


@pytest.mark.parametrize("name", SMALL)
def test_every_shorter_length(name: str, records: RecordBench) -> None:
    data = records.small_records()[name]
    wrong = [length for length in range(len(data)) if not is_same(records, data[:length])]
    assert not wrong


@pytest.mark.slow
@pytest.mark.parametrize("record_format", FORMATS)
def test_changed_bytes(record_format: int, records: RecordBench) -> None:
    """Records with any byte changed have the same lines and fault."""
    found = enumerate(changes(mixed_record(record_format)))
    assert [number for number, data in found if not is_same(records, data)] == []


def test_byte_after_the_end(records: RecordBench) -> None:
    assert is_same(records, mixed_record(2) + b"\0")


class Pieces(io.RawIOBase):
    """A stream that gives at most some bytes at once."""

    def __init__(self, data: bytes, most: int) -> None:
        self.stream = io.BytesIO(data)
        self.most = most

    def read(self, size: int = -1) -> bytes:
        return self.stream.read(min(size, self.most))


@pytest.mark.parametrize("most", (1, 7, 4096))
def test_pieces(most: int, records: RecordBench) -> None:
    """A record that comes in pieces is read as one that comes at once."""
    for name, data in {**records.small_records(), "cloud": records.example("cloud")}.items():
        assert lines_of(Pieces(data, most)) == lines_of(io.BytesIO(data)), name


@pytest.mark.slow
@pytest.mark.parametrize("runs", (1_000_000, 1_000_001))
def test_most_runs(runs: int, records: RecordBench) -> None:
    """1,000,000 cycles are a record, and one more is the same fault."""
    name = records.file("many.rec", many_runs(runs))
    text, line = records.det("show", name, "--reports")
    summary = Summary()
    with open(name, "rb") as stream:
        for _ in summary.read(stream):
            pass
    fault = "" if summary.fault is None else f"bad record: copy 0 {summary.fault}\n"
    assert (text.decode().splitlines(), line) == ([] if fault else report_lines(summary), fault)


@pytest.mark.parametrize("cut", (0, 3))
@pytest.mark.parametrize("name", SMALL)
def test_summary(name: str, cut: int, records: RecordBench) -> None:
    """The program sums up cycles, refusals and fault."""
    data = records.small_records()[name]
    file = records.file("summary.rec", data[: len(data) - cut])
    text, line = records.det("show", file)
    given = records.tool("det_record.py", file)
    assert given.status == (5 if line else 0)
    assert given.error_without_hints().decode() == line
    cycles = len(re.findall(r"^run ", text.decode(), re.MULTILINE))
    refused = len(re.findall(r"^refused ", text.decode(), re.MULTILINE))
    assert {f"cycles {cycles}", f"refused {refused}"} <= set(given.out.decode().splitlines())


def test_full_output(records: RecordBench) -> None:
    """Where standard output is full, the tool says so in one line, and ends with 7."""
    file = records.file("full.rec", mixed_record(2))
    with open("/dev/full", "wb") as full:
        given = records.tool("det_record.py", file, stdout=full)
    assert given.status == 7 and given.err.count(b"\n") == 1 and b"write" in given.err, str(given)
