"""Records of disturbed runs are the same bytes, with any number of workers: see one_digest.py."""

from __future__ import annotations

import os
import random
from pathlib import Path

import pytest

from commands import Programs
from one_digest import (
    Disturber,
    Runs,
    Words,
    departure,
    expected_digest,
    keep_busy,
    workers_of,
    write_inputs,
)

RUNS = 20


@pytest.fixture(scope="module")
def recordings(tmp_path_factory: pytest.TempPathFactory) -> list[Words]:
    return write_inputs(tmp_path_factory.mktemp("one_digest"))


@pytest.fixture(scope="module")
def digest(recordings: list[Words], plain: Path, tmp_path_factory: pytest.TempPathFactory) -> str:
    return expected_digest(recordings, plain, tmp_path_factory.mktemp("plain"))


@pytest.mark.slow
@pytest.mark.parametrize("run", range(RUNS), ids=lambda run: f"{workers_of(run)} workers")
def test_digest(
    run: int, recordings: list[Words], digest: str, programs: Programs, folder: Path
) -> None:
    runs = Runs(programs.folder / "det", folder, Disturber(random.Random(f"0 {run}")))
    with keep_busy(os.cpu_count() or 1):
        assert departure(runs, recordings, run, digest) is None
