#!/usr/bin/env python3
"""Reads records of `det`, formats 1 and 2, as docs/FORMATS.md describes them.

    det_record RECORD                    a summary
    det_record RECORD --csv cycles       a table, a row for each cycle
    det_record RECORD --csv samples      .. for each sample
    det_record RECORD --csv elements     .. for each element after each cycle
    det_record RECORD --hdf5 FILE        all of it, for programs that read HDF5

In the repository it is called as tools/det_record.py.

Exit statuses: 0 done; 2 bad words; 5 the record has a fault, whose line is that of `det show`, and
what is before it was written; 6 the record can't be read; 7 the result can't be written; 11 python3
has no h5py, which only --hdf5 needs. On standard error, 2 is `det_record: bad words: WHY`, 6 is
`det_record: RECORD: read fault: WHY`, and 7 is `det_record: FILE: write fault: WHY`, with RECORD in
place of FILE if it is standard output. The line of 5 is followed by `  RECORD: read by det_record`.
As a module:

    with open(name, "rb") as stream:
        for item in RecordReader(stream).items():
            ...

gives the header and then each frame as soon as it is read whole, and raises `BadRecord` at a fault.
Elements stay bytes until they are asked for. One frame is held at a time. Except for --hdf5,
Python's standard library is all that it needs.
"""

from __future__ import annotations

import argparse
import sys
from contextlib import redirect_stderr
from dataclasses import dataclass
from typing import Iterator, Optional

from det_tool import BAD_RECORD, NO_PACKAGE, Failed, Parser, ReadFault
from det_tool import check_output, reading, reason_of, report, run_tool, standard_output
from record_csv import TABLES, write_csv
from record_reader import Readable, RecordReader
from record_values import (
    BadRecord,
    Discover,
    Elements,
    Event,
    Finished,
    Frame,
    Header,
    Init,
    Item,
    Phase,
    Reason,
    Refused,
    Register,
    Run,
    Sample,
    Terminate,
)

__all__ = [
    "BadRecord",
    "Discover",
    "Elements",
    "Event",
    "Finished",
    "Frame",
    "Header",
    "Init",
    "Item",
    "Phase",
    "Reason",
    "RecordReader",
    "Refused",
    "Register",
    "Run",
    "Sample",
    "Summary",
    "Terminate",
]

NAME = "det_record"
WITHOUT_H5PY = "install the Debian package python3-h5py, and call /usr/bin/python3"


@dataclass
class Summary:
    """A summary of a record that is read item by item."""

    header: Optional[Header] = None
    elements: int = 0
    cycles: int = 0
    refused: int = 0
    draws: int = 0
    # The greatest step of time between a cycle and the next that doesn't fall.
    gap: Optional[int] = None
    last_time: Optional[int] = None
    # The first refusal, and its cycle.
    first_refusal: Optional[tuple[int, Refused]] = None
    fault: Optional[BadRecord] = None
    size: int = 0

    def see(self, item: Item) -> None:
        if isinstance(item, Run):
            self._see_run(item)
        elif isinstance(item, Header):
            self.header = item
        elif isinstance(item, Init):
            self.elements = len(item.elements)

    def _see_run(self, run: Run) -> None:
        self.cycles += 1
        if run.time is not None and self.last_time is not None and run.time >= self.last_time:
            self.gap = max(self.gap or 0, run.time - self.last_time)
        self.last_time = run.time
        if isinstance(run.outcome, Finished):
            self.draws += run.outcome.elements.all_draws()
            return
        self.refused += 1
        if self.first_refusal is None:
            self.first_refusal = self.cycles, run.outcome

    def read(self, stream: Readable) -> Iterator[Item]:
        """Gives the items of a record, each once it was seen. A fault is kept and ends them."""
        reader = RecordReader(stream)
        try:
            for item in reader.items():
                self.see(item)
                self.size = reader.offset
                yield item
        except BadRecord as fault:
            self.fault = fault

    def lines(self) -> Iterator[str]:
        """The facts as text, a line each. Those of the header are there where it was whole."""
        if self.header is not None:
            yield from header_lines(self.header)
        yield f"elements {self.elements}"
        yield f"cycles {self.cycles}"
        yield f"refused {self.refused}"
        if self.first_refusal is not None:
            cycle, at = self.first_refusal
            yield f"refusal {cycle} {at.phase.word} {at.pass_number} {at.element} {at.code}"
        yield f"gap {'none' if self.gap is None else self.gap}"
        if self.header is not None and self.header.format == 2:
            yield f"draws {self.draws}"
        yield f"bytes {self.size}"


def header_lines(header: Header) -> Iterator[str]:
    yield f"format {header.format}"
    yield f"job {header.job}"
    yield f"seed {header.seed}"
    yield f"cycle_time {header.cycle_time}"
    yield f"params {' '.join(map(str, header.params)) or '-'}"
    for number, event in enumerate(header.events):
        yield f"event {number} {event.name} {event.capacity} {event.policy}"


class Source:
    """The bytes of a file. A failed read is another error than a failed write."""

    def __init__(self, name: str) -> None:
        self.name = name
        with reading(name):
            self.stream = open(name, "rb")

    def read(self, size: int) -> bytes:
        with reading(self.name):
            return self.stream.read(size)

    def rewind(self) -> None:
        try:
            self.stream.seek(0)
        except OSError as error:
            why = f"--hdf5 reads a record twice: {reason_of(error)}"
            raise ReadFault(self.name, why) from error


def print_summary(source: Source) -> Optional[BadRecord]:
    summary = Summary()
    for _ in summary.read(source):
        pass
    with standard_output(source.name) as out:
        out.writelines(f"{line}\n" for line in summary.lines())
    return summary.fault


def print_table(source: Source, table: str) -> Optional[BadRecord]:
    summary = Summary()
    with standard_output(source.name) as out:
        write_csv(table, summary.read(source), out)
    return summary.fault


def export(source: Source, name: str) -> Optional[BadRecord]:
    """Writes an HDF5 file. Only this needs h5py, so only here its module is imported."""
    try:
        from record_hdf5 import ChangedRecord, write_hdf5
    except ImportError as error:
        raise Failed(NO_PACKAGE, f"{error}: {WITHOUT_H5PY}") from error
    try:
        # If a write fails, h5py prints more for each of its objects.
        with redirect_stderr(None):
            return write_hdf5(source, source.rewind, name)
    except ChangedRecord as error:
        raise ReadFault(source.name, "it was changed while it was read") from error


def parser() -> Parser:
    made = Parser(NAME, __doc__)
    made.add_argument("record", metavar="RECORD")
    forms = made.add_mutually_exclusive_group()
    forms.add_argument("--csv", choices=TABLES, help="a table on standard output")
    forms.add_argument("--hdf5", metavar="FILE", help="an HDF5 file; RECORD is read twice")
    return made


def write_form(given: argparse.Namespace) -> Optional[BadRecord]:
    """Writes the form that was asked for. Returns the record's fault."""
    check_output("--hdf5", given.hdf5, [given.record])
    source = Source(given.record)
    if given.csv:
        return print_table(source, given.csv)
    return export(source, given.hdf5) if given.hdf5 else print_summary(source)


def work(given: argparse.Namespace) -> int:
    fault = write_form(given)
    if fault is None:
        return 0
    report(f"bad record: copy 0 {fault}", f"  {given.record}: read by {NAME}")
    return BAD_RECORD


if __name__ == "__main__":
    sys.exit(run_tool(parser(), work))
