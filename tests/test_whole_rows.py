"""Reads that fail in the midst of long records: the rows that were read whole are written, and
after a row that decides no more is read.

What is expected comes from tools/det_record.py, over the bytes that were read of the file that
fails.
"""

from __future__ import annotations

import errno
import io
from dataclasses import dataclass
from functools import lru_cache

import pytest

from clients import Client, stimulus
from det_record import BadRecord, Item, RecordReader, Run, Terminate
from failing_bench import FailingBench, Setting, Trials, check_trials
from item_lines import item_lines
from mutations import in_first_format
from record_bytes import counting_record, record_of_words

# Records of several pieces of 65,536 bytes: of rows that are shorter than a piece, in both formats,
# of longer ones, and of a run of a shipped job.
SHORT, GENUINE = counting_record(2_500), "genuine"
SPELLED = {
    "short": SHORT,
    "old": in_first_format(SHORT),
    "long": record_of_words(
        [[1_000_000 * cycle + word for word in range(6_000)] for cycle in range(6)]
    ),
}
BANK, BANK_CYCLES = Client("bank", [1_000, 2], 1), 40
# Commands over a record X, over Y, which differs from it in a byte near its middle, and over Z,
# which breaks off there: those that ask for no job, and those that run it again.
READING = (
    "det vote X X X",
    "det vote Y X X",
    "det vote X Y X",
    "det vote X X Z",
    "det vote X Y X --dissent",
    "det compare X X X",
    "det compare X Y X",
    "det compare Z X",
    "det salvage X",
    "det salvage Z",
    "det salvage X --reports",
    "det show X",
    "det show Z",
    "det show X --cycle 3",
    "det show X --reports",
)
RUNNING = ("det replay X", "det upgrade X", "det upgrade Y", "det check X", "det check Y")
COMMANDS = (*READING, *RUNNING)
# Commands that stop where the first of their files differs or breaks off.
STOPPING = ("compare", "check", "upgrade")
# Commands and options that have nothing written before the end.
LAST = ("compare", "check", "--reports", "--dissent")
# The header, Register, Discover and Init, without which `salvage` writes nothing.
FIRST_ROWS = 4


@dataclass(frozen=True)
class Row:
    """An item of a record, and how many bytes of the record end with it."""

    item: Item
    end: int


@lru_cache(maxsize=16)
def rows_of(data: bytes) -> list[Row]:
    """The whole items with which some bytes begin."""
    reader, rows = RecordReader(io.BytesIO(data)), []
    try:
        for item in reader.items():
            rows.append(Row(item, reader.offset))
    except BadRecord:
        pass
    return rows


def common_rows(one: bytes, other: bytes) -> int:
    """How many rows two records begin with that are the same bytes."""
    count, begin = 0, 0
    for row, beside in zip(rows_of(one), rows_of(other)):
        if one[begin : row.end] != other[begin : beside.end]:
            break
        count, begin = count + 1, row.end
    return count


def lines_of(rows: list[Row], cycle: int) -> bytes:
    """The lines of `det show` for some rows, or for those of one cycle where it isn't 0."""
    lines, cycles = [], 0
    for row in rows:
        cycles += isinstance(row.item, Run)
        if not cycle or (isinstance(row.item, Run) and cycles == cycle):
            lines += item_lines(row.item, cycles)
    return "".join(f"{line}\n" for line in lines).encode()


def whole_rows(read: bytes, least: int, has_end: bool) -> bytes:
    """The rows that are whole, where there are as many; Terminate may wait for the end."""
    rows = rows_of(read)
    kept = [row for row in rows if has_end or not isinstance(row.item, Terminate)]
    return read[: kept[-1].end] if len(rows) >= least else b""


def expected_output(words: list[str], read: bytes) -> bytes:
    """What a command has written of the bytes that were read."""
    if any(word in LAST for word in words):
        return b""
    if words[1] == "show":
        return lines_of(rows_of(read), int(words[-1]) if "--cycle" in words else 0)
    return whole_rows(read, FIRST_ROWS if words[1] == "salvage" else 1, words[1] == "vote")


def genuine_record(bench: FailingBench) -> bytes:
    """A record of a run of a shipped job."""
    manifest, text = bench.folder / "genuine.toml", bench.folder / "genuine.stim"
    manifest.write_text(BANK.manifest())
    text.write_text(stimulus(BANK.events, BANK_CYCLES, [0, 900, -40, 17]))
    return bench.run_without(bench.command(f"det record {manifest} {text}")).out


class Copies:
    """A command over a record and what was made of it."""

    def __init__(self, bench: FailingBench, name: str, record: bytes, words: str) -> None:
        # A byte of an output, or of the number of words drawn where there is none: with any value
        # the record is whole.
        middle = rows_of(record)[len(rows_of(record)) // 2].end - 5
        changed = record[:middle] + bytes([record[middle] ^ 1]) + record[middle + 1 :]
        self.bench, self.record = bench, record
        self.made = {"X": record, "Y": changed, "Z": record[:middle]}
        for letter, data in self.made.items():
            (bench.folder / f"{name}-{letter}.rec").write_bytes(data)
        self.words = words.split()
        self.letters = [word for word in self.words if word in self.made]
        paths = (f"OUT/{name}-{word}.rec" if word in self.made else word for word in self.words)
        self.command = " ".join(paths)

    def reads_of(self, file: int) -> int:
        return self.bench.run_setting(self.command, Setting(file=file))[1]["read"]

    def rows_before_last_read(self, file: int) -> int:
        """The most rows that may have been read whole of a file of which more is read."""
        common = [common_rows(self.made[letter], self.record) for letter in self.letters]
        return min(common) if self.words[1] in STOPPING else common[file - 1]

    def ends_well(self, setting: Setting) -> bool:
        """Whether a run in which a read fails had written the rows that were read whole, and needed
        that read: after a row that decides there is none."""
        outcome, counts = self.bench.run_setting(self.command, setting)
        read = self.made[self.letters[setting.file - 1]][: counts["bytes"]]
        is_needed = len(rows_of(read)) <= self.rows_before_last_read(setting.file)
        out = expected_output(self.words, read)
        return is_needed and (outcome.status, outcome.line(), outcome.out) == (
            6,
            b"read fault",
            out,
        )

    def trials(self) -> Trials:
        """Each read of each file failing in turn."""
        for file in range(1, len(self.letters) + 1):
            for number in range(1, self.reads_of(file) + 1):
                setting = Setting("read", number, errno.EIO, file=file)
                yield str(setting), self.ends_well(setting)


NAMED = [(name, words) for words in READING for name in SPELLED]
NAMED += [(GENUINE, words) for words in RUNNING]


@pytest.mark.slow
@pytest.mark.parametrize("name, words", NAMED, ids=[f"{words}, {name}" for name, words in NAMED])
def test_whole_rows(name: str, words: str, failing_bench: FailingBench) -> None:
    """Each read of a command failing in turn."""
    record = genuine_record(failing_bench) if name == GENUINE else SPELLED[name]
    check_trials(Copies(failing_bench, name, record, words).trials())
