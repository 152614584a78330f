"""The numbers in the elements and outputs of the built-in jobs, after docs/FORMATS.md.

Apart from record_values.py, whose values have the same fields for every job.
"""

from __future__ import annotations

import struct
from dataclasses import dataclass
from typing import Optional

from record_values import Header

BANK, CLOUD, GUARD = 1, 2, 3
JOB_NAMES = {BANK: "bank", CLOUD: "cloud", GUARD: "guard"}


@dataclass(frozen=True)
class Fields:
    """Big-endian numbers, one after another, with a name each. If it is open, more bytes may
    follow, which have no name."""

    shape: struct.Struct
    names: tuple[str, ...]
    is_open: bool = False

    def numbers(self, content: bytes) -> Optional[tuple[int, ...]]:
        """The numbers in some bytes, or none if the bytes have another length."""
        size = self.shape.size
        if len(content) == size or (self.is_open and len(content) > size):
            return self.shape.unpack_from(content)
        return None


def fields(shape: str, names: str, is_open: bool = False) -> Fields:
    return Fields(struct.Struct(shape), tuple(names.split()), is_open)


NO_FIELDS = fields(">", "")
ONE_EVENT_LEVELS, LEVELS = fields(">q", "level"), fields(">Hq", "event level")
ELEMENTS = {CLOUD: fields(">Iqq", "number x y"), GUARD: fields(">IqH", "number value streak")}
OUTPUTS = {
    BANK: fields(">qqq", "sum least greatest"),
    CLOUD: fields(">IqqQI", "nearest x y distance finished_cycles"),
    GUARD: fields(">QI", "corrections corrected", is_open=True),
}


def element_fields(header: Header) -> Fields:
    """Those of an element; none if the job isn't a built-in one."""
    if header.job == BANK:
        return LEVELS if len(header.events) >= 2 else ONE_EVENT_LEVELS
    return ELEMENTS.get(header.job, NO_FIELDS)


def output_fields(header: Header) -> Fields:
    """Those of an output; none if the job isn't a built-in one."""
    return OUTPUTS.get(header.job, NO_FIELDS)
