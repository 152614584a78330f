"""The programs and a plain program over changed inputs: the first 1,000 cases of mutated.py."""

from __future__ import annotations

from pathlib import Path
from typing import Iterator

import pytest

from commands import TOP, Programs
from mutated import PART, Comparison

COUNT, SEED = 1000, "0"


@pytest.fixture(scope="module")
def comparison(
    programs: Programs, plain: Path, tmp_path_factory: pytest.TempPathFactory
) -> Iterator[Comparison]:
    made = Comparison(programs.folder, plain, tmp_path_factory.mktemp("mutated"), SEED)
    yield made
    made.plain.close()


@pytest.mark.parametrize("first", range(0, COUNT, PART), ids=lambda it: f"from {it}")
def test_cases(first: int, comparison: Comparison) -> None:
    findings = comparison.run(range(first, first + PART))
    for departure in findings.departures:
        departure.keep(TOP / "out" / "mutated" / f"{SEED}-{departure.number}")
    assert not findings.departures, "\n".join(map(str, findings.departures))
    assert sum(findings.statuses.values()) == PART
