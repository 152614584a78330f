"""A further cycle asks for no memory, of any command with one worker: see memory_requests.py."""

from __future__ import annotations

from pathlib import Path

import pytest

from commands import Programs
from memory_requests import COMMANDS, INPUTS, MOST_OF_SIM, Recordings, requests_of_sim
from refused_memory import RefusingBench


@pytest.fixture(scope="module")
def refusing_bench(programs: Programs, module_folder: Path) -> RefusingBench:
    return RefusingBench(programs, module_folder)


@pytest.fixture(scope="module", params=INPUTS, ids=lambda it: it.name)
def recordings(request: pytest.FixtureRequest, refusing_bench: RefusingBench) -> Recordings:
    return Recordings(refusing_bench, request.param, 1)


@pytest.mark.parametrize("words", COMMANDS)
def test_requests_of_reading(words: str, recordings: Recordings) -> None:
    counts = recordings.counts_of_reading(words)
    assert counts.are_few(), str(counts)


def test_requests_of_recording(recordings: Recordings) -> None:
    counts = recordings.counts_of_recording()
    assert counts.are_few(), str(counts)


def test_requests_of_sim(refusing_bench: RefusingBench) -> None:
    assert 0 < requests_of_sim(refusing_bench) <= MOST_OF_SIM
