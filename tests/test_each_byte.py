"""`det show` of a record with each byte at each place, beside a plain program: see each_byte.py."""

from __future__ import annotations

from pathlib import Path
from typing import Iterator

import pytest

from commands import Programs
from each_byte import PLACES, EachByte, Place


@pytest.fixture(scope="module")
def each_byte(
    programs: Programs, plain: Path, tmp_path_factory: pytest.TempPathFactory
) -> Iterator[EachByte]:
    made = EachByte(programs.folder, plain, tmp_path_factory.mktemp("each_byte"))
    yield made
    made.plain.close()


def name_of(place: Place) -> str:
    return f"format {place[0]}, byte {place[1]}"


@pytest.mark.slow
@pytest.mark.parametrize("place", PLACES, ids=name_of)
def test_byte(place: Place, each_byte: EachByte) -> None:
    found = each_byte.departures(place)
    assert not found, "\n".join(found)
