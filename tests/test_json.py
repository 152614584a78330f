"""`det show --json`: each line is the value that tools/det_record.py reads at that place."""

from __future__ import annotations

import io
import json
import random

import pytest

from commands import Bench
from det_record import BadRecord, RecordReader, Summary
from json_lines import item_value, json_line, reports_line
from record_bench import RecordBench
from record_bytes import event, finished_outcome, header, init, mixed_record, number, run_begin
from record_values import Header

RECORDS = ("mixed1", "mixed2", "bank", "wheels", "cloud", "guard")
TERMINATE = b"\5"


def lines_of(data: bytes) -> tuple[list[str], str]:
    """The lines of a record, and det's line for the user."""
    lines, summary, first = [], Summary(), None
    try:
        for item in RecordReader(io.BytesIO(data)).items():
            summary.see(item)
            first = item if isinstance(item, Header) else first
            lines.append(json_line(item_value(item, summary.cycles, first)))
    except BadRecord as fault:
        return lines, f"bad record: copy 0 {fault}\n"
    return [*lines, reports_line(summary)], ""


def record(records: RecordBench, name: str) -> bytes:
    small = records.small_records()
    return small[name] if name in small else records.example(name)


def is_same(records: RecordBench, data: bytes) -> bool:
    """Whether det prints the lines of a record, byte for byte."""
    text, line = records.det("show", records.file("shown.rec", data), "--json")
    return (text.decode().splitlines(), line) == lines_of(data)


@pytest.mark.parametrize("name", RECORDS)
def test_whole_record(name: str, records: RecordBench) -> None:
    assert is_same(records, record(records, name))


@pytest.mark.parametrize("name", ("mixed1", "wheels"))
def test_every_shorter_length(name: str, records: RecordBench) -> None:
    """Up to a fault the lines of all whole items are there, and no reports."""
    data = record(records, name)
    assert [length for length in range(len(data)) if not is_same(records, data[:length])] == []


@pytest.mark.parametrize("name", ("mixed2", "cloud"))
def test_changed_bytes(name: str, records: RecordBench) -> None:
    """Records with a changed byte have the lines before the fault, or those with the change."""
    data = record(records, name)
    for at in random.Random(7).sample(range(len(data)), min(len(data), 150)):
        changed = bytearray(data)
        changed[at] ^= 0x41
        assert is_same(records, bytes(changed)), at


@pytest.mark.parametrize("name", RECORDS)
def test_each_cycle(name: str, records: RecordBench) -> None:
    """`--cycle C` prints the line of cycle C alone; of a cycle that isn't there, nothing."""
    data = record(records, name)
    lines = [line for line in lines_of(data)[0] if line.startswith('{"run":')]
    file = records.file("cycles.rec", data)
    for cycle in range(1, min(len(lines), 4) + 1):
        for words in (["--json", "--cycle", cycle], ["--cycle", cycle, "--json"]):
            assert records.det("show", file, *words) == (f"{lines[cycle - 1]}\n".encode(), "")
    assert records.det("show", file, "--json", "--cycle", len(lines) + 1) == (b"", "")


def particle(place: int) -> bytes:
    """An element of the cloud at this x and the opposite y."""
    return number(4, 7) + number(8, place) + number(8, -place)


def test_numbers_beyond_2_53(records: RecordBench) -> None:
    """2^53 is a number, and one more is a string, on either side of 0; a time isn't 0 but null."""
    params = [2**53, 2**53 + 1, -(2**53), -(2**53) - 1, 2**63 - 1, -(2**63), 0]
    data = header(2, 2, params, [event(2, 1, "a", 0)])
    elements = [particle(2**53), particle(2**53 + 1), b"\xff", b""]
    data += init(elements)
    for time in (0, None, 2**53, 2**53 + 1, 2**64 - 1):
        data += run_begin(time, [(0, -(10**12))])
        data += finished_outcome(2, [(it, 2**32 - 1) for it in elements], b"\0\xff")
    assert is_same(records, data + TERMINATE)
    text, _ = records.det("show", records.file("numbers.rec", data + TERMINATE), "--json")
    lines = [json.loads(line) for line in text.splitlines()]
    assert lines[0]["header"]["params"][:4] == [
        2**53,
        str(2**53 + 1),
        -(2**53),
        str(-(2**53) - 1),
    ]
    times = [line["run"]["time"] for line in lines if "run" in line]
    assert times == [0, None, 2**53, str(2**53 + 1), str(2**64 - 1)]
    fields = [element.get("fields") for element in lines[3]["init"]]
    assert fields[0] == {"number": 7, "x": 2**53, "y": -(2**53)}
    assert fields[1] == {"number": 7, "x": str(2**53 + 1), "y": str(-(2**53) - 1)}
    assert fields[2:] == [None, None]


@pytest.mark.parametrize("job", (0, 1, 3, 4, 65535))
@pytest.mark.parametrize("events", (0, 1, 2))
def test_fields_by_job(job: int, events: int, records: RecordBench) -> None:
    """Elements have fields by the job and the number of events, and only at their length."""
    names = [event(2, 1, name, 0) for name in ("a", "b")[:events]]
    elements = [bytes(range(1, length + 1)) for length in (0, 7, 8, 9, 10, 14, 20, 64)]
    data = header(2, job, [], names) + init(elements) + TERMINATE
    assert is_same(records, data)


def test_words(bench: Bench) -> None:
    """`--json` doesn't go with `--reports`, nor with another command."""
    file = bench.file("words.rec", mixed_record(2))
    for words in (["--json", "--reports"], ["--reports", "--json"], ["--json", "--json"]):
        assert bench.run("det", "show", file, *words).status == 2
    assert bench.run("det", "salvage", file, "--json").status == 2
