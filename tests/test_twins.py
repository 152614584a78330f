"""Disturbed copies in threads reach their verdict and their end: see twins.py."""

from __future__ import annotations

import os
import random
from pathlib import Path

import pytest

from commands import Programs
from one_digest import Disturber, keep_busy
from twins import departure, some_case

RUNS = 40


@pytest.mark.slow
@pytest.mark.parametrize("run", range(RUNS), ids=lambda run: f"run {run}")
def test_verdict(run: int, programs: Programs, folder: Path) -> None:
    disturber = Disturber(random.Random(f"0 {run}"))
    case = some_case(disturber.choose, folder, run)
    with keep_busy(os.cpu_count() or 1):
        assert departure(programs.folder / "det_twin", case, disturber) is None
