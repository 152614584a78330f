"""The tables of a record, by the text that `det show` prints of it."""

from __future__ import annotations

import csv
import io

from record_bench import RecordBench

# The columns that every job's tables have. Those of a built-in job have more.
HEADS = {
    "cycles": ["cycle", "time", "result", "phase", "pass", "element", "code", "samples", "output"],
    "samples": ["cycle", "time", "event", "name", "value"],
    "elements": ["cycle", "element", "draws", "bytes"],
}


def rows_of(text: str) -> list[list[str]]:
    """The rows of a table as it is written."""
    return list(csv.reader(io.StringIO(text)))


def table_of(records: RecordBench, file: str, table: str) -> list[list[str]]:
    """A table of a record that is whole."""
    given = records.tool("det_record.py", file, "--csv", table)
    assert given.status == 0, str(given)
    assert b"\r" not in given.out
    return rows_of(given.out.decode())


class Shown:
    """What `det show` prints of a record, as rows of tables. Cells that aren't there are empty."""

    def __init__(self, text: str) -> None:
        self.cycles: list[list[str]] = []
        self.samples: list[list[str]] = []
        self.elements: list[list[str]] = []
        self.names: list[str] = []
        self.cycle, self.time = "0", ""
        for line in text.splitlines():
            word, *rest = line.split(" ")
            getattr(self, f"see_{word}", lambda *rest: None)(*rest)

    def see_event(self, number: str, name: str, *rest: str) -> None:
        self.names.append(name)

    def see_run(self, cycle: str, word: str, time: str) -> None:
        self.cycle, self.time = cycle, "" if time == "-" else time
        self.count = 0

    def see_sample(self, number: str, value: str) -> None:
        self.count += 1
        self.samples.append([self.cycle, self.time, number, self.names[int(number)], value])

    def see_element(self, number: str, data: str, draws: str = "") -> None:
        self.elements.append([self.cycle, number, draws, "0x" + data.strip("-")])

    def see_output(self, data: str) -> None:
        hexed = "0x" + data.strip("-")
        self.cycles.append([self.cycle, self.time, "finished", *[""] * 4, str(self.count), hexed])

    def see_refused(self, *place: str) -> None:
        self.cycles.append([self.cycle, self.time, "refused", *place, str(self.count), ""])
