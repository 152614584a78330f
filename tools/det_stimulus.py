#!/usr/bin/env python3
"""Makes a stimulus of a table of measurements (CSV), exactly and without floating point.

    det_stimulus LOG.csv --time t --unit ms --event 0=pressure --scale 0=1000

In the repository it is called as tools/det_stimulus.py.

The table's first line has the names of its columns. Each further row is a cycle, and each of its
cells in a column of --event a sample.

- A time is a decimal in the unit of --unit. It has to be a whole number of nanoseconds. An empty
  cell, or no --time, gives a cycle without a time.
- A value is a decimal times the event's factor, rounded to the nearest whole number; of two that
  are as near, to the even one. With --exact nothing is rounded: such a value is refused.
- An empty cell is no sample. An empty line is no row. Spaces around a cell are dropped.

Rows are read one at a time. The stimulus goes to a temporary file first: if a row is refused,
nothing is written. Exit statuses: 0 done; 2 bad words; 4 a refused table; 6 the table can't be
read; 7 the stimulus can't be written. On standard error, 2 is `det_stimulus: bad words: WHY`, 4 is
`det_stimulus: LOG.csv: bad table: line N column C: WHY`, 6 is `det_stimulus: LOG.csv: read fault:
WHY`, and 7 is `det_stimulus: FILE: write fault: WHY`, with LOG.csv in place of FILE if it is
standard output. Python's standard library is all that it needs.
"""

from __future__ import annotations

import argparse
import csv
import shutil
import sys
import tempfile
from dataclasses import dataclass
from typing import IO, Callable, Iterator, Optional, Sequence, TypeVar

from det_tool import BAD_TABLE, BadWords, Failed, Parser, ReadFault
from det_tool import check_output, reading, run_tool, standard_output, write_file, writing
from stimulus_values import MOST_VALUE, UNITS, BadCell, Rule, factor_of, time_of, whole_of

MOST_CYCLES = 1_000_000
MOST_SAMPLES = 4_096
MOST_EVENTS = 256
Given = TypeVar("Given")


@dataclass(frozen=True)
class Plan:
    """Which columns give what."""

    time: Optional[str]
    unit: str
    # The event and the column of each sample of a row, in order.
    samples: Sequence[tuple[int, str]]
    rules: dict[int, Rule]


def by_event(option: str, word: str) -> tuple[int, str]:
    """The number of an event, and what is given for it after `=`."""
    number, equals, value = word.partition("=")
    if not (equals and number.isascii() and number.isdigit() and len(number) <= 3):
        raise BadWords(f"{option} {word}: it takes EVENT=..")
    if int(number) >= MOST_EVENTS:
        raise BadWords(f"{option} {word}: events are 0 to {MOST_EVENTS - 1}")
    return int(number), value


def range_of(word: str) -> tuple[int, int]:
    least, _, most = word.partition("..")
    ends = whole_of(least), whole_of(most)
    if not -MOST_VALUE <= ends[0] <= ends[1] <= MOST_VALUE:
        raise BadCell(f"{word} isn't a range in -10^12 to 10^12")
    return ends


def given_by_event(
    option: str, words: Sequence[str], read: Callable[[str], Given]
) -> dict[int, Given]:
    """What an option gives each event, at most once."""
    found: dict[int, Given] = {}
    for word in words:
        event, text = by_event(option, word)
        if event in found:
            raise BadWords(f"{option} {word}: event {event} has one already")
        try:
            found[event] = read(text)
        except BadCell as error:
            raise BadWords(f"{option} {word}: {error}") from error
    return found


def plan_of(given: argparse.Namespace) -> Plan:
    if given.time is None and not given.event:
        raise BadWords("neither --time nor --event, so nothing of the table would be taken")
    if len(given.event) > MOST_SAMPLES:
        raise BadWords(f"--event: more than {MOST_SAMPLES} samples in a cycle")
    samples = [by_event("--event", word) for word in given.event]
    factors = given_by_event("--scale", given.scale, factor_of)
    ranges = given_by_event("--range", given.range, range_of)
    events = {event for event, _ in samples}
    for event in [*factors, *ranges]:
        if event not in events:
            raise BadWords(f"event {event} has no --event")
    usual = (-MOST_VALUE, MOST_VALUE)
    rules = {
        it: Rule(factors.get(it, factor_of("1")), *ranges.get(it, usual), given.exact)
        for it in events
    }
    return Plan(given.time, given.unit, samples, rules)


class Table:
    """The rows of a table, read one at a time."""

    def __init__(self, stream: IO[str], name: str, delimiter: str) -> None:
        self.name = name
        self.reader = csv.reader(stream, delimiter=delimiter, strict=True)
        self.names = next(self.rows(), [])

    def refused(self, why: str, column: str = "") -> Failed:
        """The table is refused at this line, and at a column of this name."""
        place = f"line {max(self.reader.line_num, 1)}" + (f" column {column}" if column else "")
        return Failed(BAD_TABLE, f"{self.name}: bad table: {place}: {why}")

    def rows(self) -> Iterator[list[str]]:
        """Rows without spaces around their cells. Empty lines are left out."""
        while True:
            try:
                row = next(self.reader, None)
            except csv.Error as error:
                raise self.refused(f"it isn't CSV: {error}") from error
            except OSError as error:
                raise ReadFault(self.name, error) from error
            if row is None:
                return
            if row:
                yield [cell.strip() for cell in row]

    def index(self, column: str) -> int:
        """The place of a column, whose name is there once."""
        if self.names.count(column) != 1:
            what = "two columns have" if column in self.names else "no column has"
            raise self.refused(f"{what} this name", column)
        return self.names.index(column)


class Converter:
    """Makes the lines of a stimulus of a table."""

    def __init__(self, table: Table, plan: Plan) -> None:
        self.table, self.plan = table, plan
        self.time_at = None if plan.time is None else table.index(plan.time)
        self.samples_at = [(event, table.index(column)) for event, column in plan.samples]

    def lines(self) -> Iterator[str]:
        yield "stim 1\n"
        for cycle, row in enumerate(self.table.rows(), start=1):
            if cycle > MOST_CYCLES:
                raise self.table.refused(f"more than {MOST_CYCLES} rows")
            yield from self._row_lines(row)
        yield "terminate\n"

    def _row_lines(self, row: list[str]) -> Iterator[str]:
        """The lines of a cycle."""
        count = len(self.table.names)
        if len(row) != count:
            raise self.table.refused(f"{len(row)} cells, where the first line has {count}")
        time = None
        if self.time_at is not None:
            time = self._read(row, self.time_at, lambda text: time_of(text, self.plan.unit))
        yield f"cycle {'-' if time is None else time}\n"
        for event, at in self.samples_at:
            value = self._read(row, at, self.plan.rules[event].value_of)
            if value is not None:
                yield f"sample {event} {value}\n"

    def _read(self, row: list[str], at: int, read: Callable[[str], Given]) -> Given:
        try:
            return read(row[at])
        except BadCell as error:
            raise self.table.refused(str(error), self.table.names[at]) from error


def open_table(name: str) -> IO[str]:
    """A table's text. A byte order mark at its beginning is skipped. Bytes that aren't UTF-8 don't
    matter in columns that aren't used; nowhere are they a number or the name of a used column."""
    with reading(name):
        return open(name, encoding="utf-8-sig", errors="surrogateescape", newline="")


def write_output(lines: Iterator[str], name: str) -> None:
    """Writes to standard output, once all lines of the table of this name are there."""
    with writing(name, "a temporary file"), tempfile.TemporaryFile("w+", newline="") as whole_text:
        whole_text.writelines(lines)
        whole_text.seek(0)
        with standard_output(name) as out:
            shutil.copyfileobj(whole_text, out)


def parser() -> Parser:
    made = Parser("det_stimulus", __doc__)
    add = made.add_argument
    add("table", metavar="LOG.csv", help="/dev/stdin is standard input")
    add("--time", metavar="COLUMN", help="the column of times")
    add("--unit", choices=UNITS, default="ns", help="of the times; ns if not given")
    many = {"action": "append", "default": []}
    add("--event", metavar="E=COLUMN", **many, help="a column of samples of event E")
    text = "values of event E times a decimal or a ratio, as 1000 or -1/3"
    add("--scale", metavar="E=FACTOR", **many, help=text)
    text = "refuses values of event E outside these, after the factor"
    add("--range", metavar="E=LEAST..MOST", **many, help=text)
    add("--exact", action="store_true", help="refuses a value that would be rounded")
    add("--delimiter", default=",", help="between cells: one character, a comma if not given")
    add("-o", dest="out", metavar="FILE", help="in place of standard output")
    return made


def convert(given: argparse.Namespace) -> int:
    plan = plan_of(given)
    if len(given.delimiter) != 1 or given.delimiter in '"\r\n':
        raise BadWords("--delimiter takes one character that isn't a quote or the end of a line")
    check_output("-o", given.out, [given.table])
    with open_table(given.table) as stream:
        lines = Converter(Table(stream, given.table, given.delimiter), plan).lines()
        if given.out:
            write_file(given.out, lines)
        else:
            write_output(lines, given.table)
    return 0


if __name__ == "__main__":
    sys.exit(run_tool(parser(), convert))
