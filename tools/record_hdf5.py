"""A record as an HDF5 file, by h5py: Debian's package python3-h5py.

A record is read twice: once to find how large each dataset is, once to fill it. Values go to the
file in pieces of about a mebibyte. The file has these groups, whose datasets have a row each for

    events     an event: name, capacity, fresh
    cycles     a cycle, cycle 1 first: time, has_time, samples, finished, and of a refused one
               phase, pass, element, code
    samples    a sample: cycle, event, value
    outputs    a finished cycle: cycle, bytes, and for a built-in job its numbers
    elements   Init, as cycle 0, and a finished cycle: cycle, bytes, draws, and for a built-in job
               its numbers, each with a column for each element. If not all cycles have as many
               elements of one length, an element: cycle, element, bytes, draws

Attributes of the file have the header, and the record's fault, which is empty if it has none.
"""

from __future__ import annotations

from dataclasses import dataclass, field
from itertools import islice
from typing import Any, Callable, Iterable, Optional

import h5py
import numpy

from det_tool import whole_file
from record_fields import JOB_NAMES, Fields, element_fields, output_fields
from record_reader import Readable, RecordReader
from record_values import BadRecord, Elements, Finished, Header, Init, Item, Refused, Run

PIECE = 1 << 20
MOST_ROWS = 1 << 14
BYTES = h5py.vlen_dtype(numpy.uint8)
U1, U2, U4, U8, I8 = (numpy.dtype(name) for name in "u1 u2 u4 u8 i8".split())
BOOL = numpy.dtype(bool)


class ChangedRecord(Exception):
    """The record isn't the one that the first reading found."""


def width_of(elements: Elements) -> Optional[int]:
    """How many bytes each element has, if all have as many."""
    tail = 4 if elements.has_draws else 0
    return None if elements.stride is None else elements.stride - 2 - tail


@dataclass
class Survey:
    """What is found by the first reading of a record."""

    header: Optional[Header] = None
    items: int = 0
    cycles: int = 0
    finished: int = 0
    samples: int = 0
    elements: int = 0
    # How many elements there are and how long, and how long outputs are, in any place.
    shapes: set[tuple[int, Optional[int]]] = field(default_factory=set)
    widths: set[int] = field(default_factory=set)
    # Whether each output has the numbers of its job.
    has_numbers: bool = True
    fault: Optional[BadRecord] = None

    @property
    def shape(self) -> Optional[tuple[int, int]]:
        """How many elements there are, and how long, if that is the same in all places."""
        count, width = next(iter(self.shapes)) if len(self.shapes) == 1 else (0, None)
        return None if width is None else (count, width)

    @property
    def width(self) -> Optional[int]:
        """How long outputs are, if all are as long. No output has no length."""
        return next(iter(self.widths)) if len(self.widths) == 1 else None

    def read(self, stream: Readable) -> None:
        try:
            for item in RecordReader(stream).items():
                self._see(item)
                self.items += 1
        except BadRecord as fault:
            self.fault = fault

    def _see(self, item: Item) -> None:
        if isinstance(item, Header):
            self.header = item
        elif isinstance(item, Init):
            self._see_elements(item.elements)
        elif isinstance(item, Run):
            self.cycles += 1
            self.samples += len(item.samples)
            if isinstance(item.outcome, Finished):
                self._see_finished(item.outcome)

    def _see_finished(self, outcome: Finished) -> None:
        self.finished += 1
        self.widths.add(len(outcome.output))
        if self.header is not None:
            numbers = output_fields(self.header).numbers(outcome.output)
            self.has_numbers = self.has_numbers and numbers is not None
        self._see_elements(outcome.elements)

    def _see_elements(self, elements: Elements) -> None:
        self.elements += len(elements)
        self.shapes.add((len(elements), width_of(elements)))


class Column:
    """A dataset that is filled row by row, and written in pieces."""

    def __init__(
        self, group: h5py.Group, name: str, kind: numpy.dtype, rows: int, *shape: int
    ) -> None:
        self.dataset = group.create_dataset(name, (rows, *shape), kind)
        self.is_mixed = h5py.check_vlen_dtype(kind) is not None
        self.row = int(numpy.prod(shape, dtype=int)) * kind.itemsize
        self.at = 0
        self.values: list[Any] = []
        self.size = 0

    def add(self, value: Any) -> None:
        self.values.append(value)
        self.size += len(value) if self.is_mixed else self.row
        if self.size >= PIECE or len(self.values) == MOST_ROWS:
            self.flush()

    def flush(self) -> None:
        end = self.at + len(self.values)
        if end > len(self.dataset):
            raise ChangedRecord
        if end > self.at:
            self.dataset[self.at : end] = self._piece()
        self.at, self.values, self.size = end, [], 0

    def _piece(self) -> numpy.ndarray:
        if not self.is_mixed:
            return numpy.array(self.values, self.dataset.dtype)
        piece = numpy.empty(len(self.values), object)
        for number, value in enumerate(self.values):
            piece[number] = numpy.frombuffer(value, U1)
        return piece


class Table:
    """A group of columns, which get a value each at a time."""

    def __init__(self, file: h5py.File, name: str, rows: int) -> None:
        self.group = file.create_group(name)
        self.rows = rows
        self.columns: dict[str, Column] = {}

    def make(self, names: Iterable[str], kind: numpy.dtype, *shape: int) -> None:
        for name in names:
            self.columns[name] = Column(self.group, name, kind, self.rows, *shape)

    def add(self, **values: Any) -> None:
        for name, value in values.items():
            self.columns[name].add(value)

    def flush(self) -> None:
        for column in self.columns.values():
            column.flush()


def dtype_of(fields: Fields) -> numpy.dtype:
    """The fields as numpy has them, without room between them."""
    letters = fields.shape.format.lstrip(">")
    kinds = {"H": ">u2", "I": ">u4", "Q": ">u8", "q": ">i8"}
    return numpy.dtype([(name, kinds[it]) for name, it in zip(fields.names, letters)])


def native(kind: numpy.dtype) -> numpy.dtype:
    return kind.newbyteorder("=")


class EvenElements:
    """Elements of one length: datasets with a row for each cycle, a column for each element."""

    def __init__(self, file: h5py.File, survey: Survey, header: Header) -> None:
        assert survey.shape is not None
        self.count, self.width = survey.shape
        self.table = Table(file, "elements", survey.finished + 1)
        self.table.make(["cycle"], U4)
        self.table.make(["bytes"], U1, self.count, self.width)
        if header.format == 2:
            self.table.make(["draws"], U4, self.count)
        fields = element_fields(header)
        self.kind = dtype_of(fields) if fields.shape.size == self.width else numpy.dtype([])
        for name in self.kind.names or ():
            self.table.make([name], native(self.kind[name]), self.count)

    def add(self, cycle: int, elements: Elements) -> None:
        if (len(elements), width_of(elements)) != (self.count, self.width):
            raise ChangedRecord
        raw = numpy.frombuffer(elements.raw, U1).reshape(self.count, -1)
        content = numpy.ascontiguousarray(raw[:, 2 : 2 + self.width])
        self.table.add(cycle=cycle, bytes=content)
        if "draws" in self.table.columns:
            draws = numpy.zeros(self.count, U4)
            if elements.has_draws:
                tails = numpy.ascontiguousarray(raw[:, 2 + self.width :])
                draws = tails.view(">u4").reshape(self.count)
            self.table.add(draws=draws)
        if self.kind.names:
            numbers = content.view(self.kind).reshape(self.count)
            self.table.add(**{name: numbers[name] for name in self.kind.names})


class MixedElements:
    """Elements of any lengths: datasets with a row for each element."""

    def __init__(self, file: h5py.File, survey: Survey, header: Header) -> None:
        self.table = Table(file, "elements", survey.elements)
        self.table.make(["cycle", "element"], U4)
        self.table.make(["bytes"], BYTES)
        if header.format == 2:
            self.table.make(["draws"], U4)

    def add(self, cycle: int, elements: Elements) -> None:
        for index in range(len(elements)):
            values = dict(cycle=cycle, element=index, bytes=elements.content(index))
            if "draws" in self.table.columns:
                values["draws"] = elements.draws(index)
            self.table.add(**values)


class Export:
    """The second reading of a record, which fills the file."""

    def __init__(self, file: h5py.File, survey: Survey, header: Header) -> None:
        self.cycle = 0
        self.cycles = Table(file, "cycles", survey.cycles)
        self.cycles.make(["time"], U8)
        self.cycles.make(["has_time", "finished"], BOOL)
        self.cycles.make(["samples", "element", "code"], U4)
        self.cycles.make(["phase", "pass"], U1)
        self.samples = Table(file, "samples", survey.samples)
        self.samples.make(["cycle"], U4)
        self.samples.make(["event"], U2)
        self.samples.make(["value"], I8)
        self.outputs = Table(file, "outputs", survey.finished)
        self.outputs.make(["cycle"], U4)
        if survey.width is None:
            self.outputs.make(["bytes"], BYTES)
        else:
            self.outputs.make(["bytes"], U1, survey.width)
        self.fields = output_fields(header)
        kind = dtype_of(self.fields)
        self.names = self.fields.names if survey.has_numbers else ()
        for name in self.names:
            self.outputs.make([name], native(kind[name]))
        even = survey.shape is not None
        self.elements = (EvenElements if even else MixedElements)(file, survey, header)

    def see(self, item: Item) -> None:
        if isinstance(item, Init):
            self.elements.add(0, item.elements)
        elif isinstance(item, Run):
            self._see_run(item)

    def _see_run(self, run: Run) -> None:
        self.cycle += 1
        for event, value in run.samples:
            self.samples.add(cycle=self.cycle, event=event, value=value)
        outcome = run.outcome
        self.cycles.add(time=run.time or 0, has_time=run.time is not None)
        self.cycles.add(samples=len(run.samples), finished=isinstance(outcome, Finished))
        if isinstance(outcome, Finished):
            self.cycles.add(**{"phase": 0, "pass": 0, "element": 0, "code": 0})
            self._see_output(outcome.output)
            self.elements.add(self.cycle, outcome.elements)
        else:
            self._see_refused(outcome)

    def _see_refused(self, at: Refused) -> None:
        place = {"phase": at.phase.value, "pass": at.pass_number, "element": at.element}
        self.cycles.add(**place, code=at.code)

    def _see_output(self, output: bytes) -> None:
        is_mixed = self.outputs.columns["bytes"].is_mixed
        content = output if is_mixed else numpy.frombuffer(output, U1)
        self.outputs.add(cycle=self.cycle, bytes=content)
        if self.names:
            numbers = self.fields.numbers(output)
            if numbers is None:
                raise ChangedRecord
            self.outputs.add(**dict(zip(self.names, numbers)))

    def flush(self) -> None:
        for table in (self.cycles, self.samples, self.outputs, self.elements.table):
            table.flush()


def write_header(file: h5py.File, header: Header) -> None:
    """The header, as attributes of the file and as the group `events`."""
    file.attrs["format"] = U2.type(header.format)
    file.attrs["job"] = U2.type(header.job)
    file.attrs["job_name"] = JOB_NAMES.get(header.job, "")
    file.attrs["seed"] = U8.type(header.seed)
    file.attrs["cycle_time_ns"] = U8.type(header.cycle_time)
    file.attrs["params"] = numpy.array(header.params, I8)
    events = file.create_group("events")
    names = [event.name.encode() for event in header.events]
    events.create_dataset("name", data=numpy.array(names, "S32"))
    events.create_dataset("capacity", data=numpy.array([it.capacity for it in header.events], U2))
    events.create_dataset("fresh", data=numpy.array([it.is_fresh for it in header.events], BOOL))


def fill(file: h5py.File, survey: Survey, stream: Readable) -> None:
    file.attrs["fault"] = "" if survey.fault is None else str(survey.fault)
    if survey.header is None:
        return
    write_header(file, survey.header)
    export = Export(file, survey, survey.header)
    try:
        for item in islice(RecordReader(stream).items(), survey.items):
            export.see(item)
        export.flush()
    except (BadRecord, ValueError) as error:
        raise ChangedRecord from error


def write_hdf5(stream: Readable, rewind: Callable[[], object], name: str) -> Optional[BadRecord]:
    """Writes a record's whole items to a file, which is there once it is whole. Returns the
    record's fault."""
    survey = Survey()
    survey.read(stream)
    rewind()
    with whole_file(name) as new, h5py.File(new, "w") as file:
        fill(file, survey, stream)
    return survey.fault
