"""A record as a table: a row for each cycle, each sample or each element.

Rows are made as items are read, so one frame is held at a time. Numbers are whole numbers in
decimal, bytes are hex digits after `0x`: without it a program would take digits alone for a number.
A cell is empty if its value isn't in the record.
"""

from __future__ import annotations

import csv
from typing import Iterable, Iterator, Sequence, TextIO

from record_fields import Fields, element_fields, output_fields
from record_values import Elements, Finished, Header, Init, Item, Run

Row = Sequence[object]
TABLES = ("cycles", "samples", "elements")


def hex_text(content: bytes) -> str:
    return f"0x{content.hex()}"


def numbers_of(fields: Fields, content: bytes) -> Row:
    """The named numbers in some bytes; empty cells if the bytes have another length."""
    numbers = fields.numbers(content)
    return [None] * len(fields.names) if numbers is None else numbers


def head(table: str, header: Header) -> list[str]:
    """The names of a table's columns."""
    if table == "samples":
        return "cycle time event name value".split()
    if table == "elements":
        return ["cycle", "element", "draws", "bytes", *element_fields(header).names]
    names = "cycle time result phase pass element code samples output".split()
    return [*names, *(f"output_{name}" for name in output_fields(header).names)]


def cycle_row(header: Header, cycle: int, run: Run) -> Row:
    outcome, fields = run.outcome, output_fields(header)
    count = len(run.samples)
    if isinstance(outcome, Finished):
        shown = hex_text(outcome.output)
        numbers = numbers_of(fields, outcome.output)
        return [cycle, run.time, "finished", None, None, None, None, count, shown, *numbers]
    place = (outcome.phase.word, outcome.pass_number, outcome.element, outcome.code)
    return [cycle, run.time, "refused", *place, count, None, *([None] * len(fields.names))]


def sample_rows(header: Header, cycle: int, run: Run) -> Iterator[Row]:
    for event, value in run.samples:
        yield cycle, run.time, event, header.events[event].name, value


def element_rows(header: Header, cycle: int, elements: Elements) -> Iterator[Row]:
    """Those of Init, as cycle 0, or of a finished cycle."""
    fields = element_fields(header)
    for index in range(len(elements)):
        content = elements.content(index)
        draws = elements.draws(index) if elements.has_draws else None
        yield [cycle, index, draws, hex_text(content), *numbers_of(fields, content)]


def run_rows(table: str, header: Header, cycle: int, run: Run) -> Iterable[Row]:
    if table == "cycles":
        return [cycle_row(header, cycle, run)]
    if table == "samples":
        return sample_rows(header, cycle, run)
    if isinstance(run.outcome, Finished):
        return element_rows(header, cycle, run.outcome.elements)
    return []


def rows(table: str, items: Iterable[Item]) -> Iterator[Row]:
    """The rows of a table, with the names of its columns first."""
    cycle = 0
    for item in items:
        if isinstance(item, Header):
            header = item
            yield head(table, header)
        elif isinstance(item, Init) and table == "elements":
            yield from element_rows(header, 0, item.elements)
        elif isinstance(item, Run):
            cycle += 1
            yield from run_rows(table, header, cycle, item)


def write_csv(table: str, items: Iterable[Item], out: TextIO) -> None:
    """Writes a table. Each line ends with LF."""
    csv.writer(out, lineterminator="\n").writerows(rows(table, items))
