"""Each command with each of its requests for memory refused in turn: see refused_memory.py."""

from __future__ import annotations

from pathlib import Path

import pytest

from commands import Programs
from refused_memory import SHIPPED, WITHOUT_LINE, RefusingBench


@pytest.fixture(scope="module")
def refusing_bench(programs: Programs, module_folder: Path) -> RefusingBench:
    return RefusingBench(programs, module_folder)


@pytest.mark.slow
@pytest.mark.parametrize("words", SHIPPED)
def test_refused_request(words: str, refusing_bench: RefusingBench, jobs: int) -> None:
    findings = refusing_bench.refuse_each(words, 1, jobs)
    assert findings.is_good(), str(findings)


@pytest.mark.parametrize("words", WITHOUT_LINE)
def test_refused_request_without_line(words: str, refusing_bench: RefusingBench) -> None:
    """The line finds no place on standard error."""
    findings = refusing_bench.refuse_without_line(words)
    assert findings.is_good(), str(findings)
