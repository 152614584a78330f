"""What the page for a browser says of records, by the outcomes of `det` and what Python reads."""

from __future__ import annotations

import io
import re
from typing import Any, Sequence

from commands import Outcome
from det_record import BadRecord, RecordReader, Run

# What the page says of each reason of a fault.
REASONS = {
    "magic": "It is no record: a record begins with DETREC.",
    "version": "The version of its format is neither 1 nor 2.",
    "range": "The byte there is part of no allowed value.",
    "order": "The frame that begins there may not come next.",
    "too_many": "A record has at most 1,000,000 cycles.",
    "truncated": "The file ends there, and the record doesn't: "
    "it was cut, or not written to its end.",
    "trailing": "More bytes follow the end of the record.",
}


def items_before(data: bytes) -> list[Any]:
    """The items of a record before its end or fault."""
    found: list[Any] = []
    try:
        for item in RecordReader(io.BytesIO(data)).items():
            found.append(item)
    except BadRecord:
        pass
    return found


def runs_in(data: bytes) -> list[Run]:
    """The cycles of a record before its end or fault, as Python reads them."""
    return [it for it in items_before(data) if isinstance(it, Run)]


def expected_verdict(given: Outcome) -> str:
    """The line that the page shows for an outcome of `det compare`."""
    return (given.out if given.status in (0, 1) else given.line()).decode().strip()


def expected_rest(copies: Sequence[bytes], bad: int) -> str:
    """What the page says of a copy before the fault that is the verdict, where all copies have the
    same cycles."""
    runs = runs_in(copies[bad])
    assert all(runs_in(it)[: len(runs)] == runs for it in copies)
    if not items_before(copies[bad]):
        return "Nothing of the file can be shown."
    if not runs:
        return "No whole cycle comes before the fault."
    also = ", and {} the same in all copies" if len(copies) > 1 else ""
    if len(runs) == 1:
        return f"The whole cycle before the fault is shown{also.format('is')}."
    return f"The {len(runs):,} whole cycles before the fault are shown{also.format('are')}."


def expected_words(given: Outcome, copies: Sequence[bytes], names: Sequence[str]) -> str:
    """What the words on the page begin with, for an outcome of `det compare`, or of `det show` for
    one record. The place of a fault is that of the hint."""
    if given.status == 0 and len(copies) == 1:
        return "Its form is right from the first byte to the last. "
    if given.status == 0:
        return f"The {len(copies)} copies are the same record, byte for byte."
    if given.status == 1:
        return "Copy "
    found = re.fullmatch(r"bad record: copy (\d+) offset (\d+) (\w+)", given.line().decode())
    assert found, given
    bad, place = int(found[1]), given.hints()[0].decode().split(": ", 1)[1]
    who = f"Copy {bad}, {names[bad]}," if len(copies) > 1 else names[bad]
    meaning = REASONS[found[3]] if copies[bad] else "The file is empty."
    rest = expected_rest(copies, bad)
    return f"{who} has a fault at offset {found[2]}, {place}. {meaning} {rest}"
