"""An application's job takes no memory in its cycles, and a refused request has its status.

They need g++ and glibc.
"""

from __future__ import annotations

from pathlib import Path

import pytest

from commands import TOP
from cpp_bench import CPP, CppBench

MANIFEST = TOP / "examples" / "cloud.toml"


@pytest.fixture
def counter(cpp: CppBench) -> Path:
    """The program that counts requests for memory."""
    program = cpp.folder / "in_cycles"
    if not program.exists():
        cpp.compile("g++", ["in_cycles.cpp"], program.name, [*CPP, "-O2"])
    return program


@pytest.mark.parametrize("workers", (1, 4, 16))
@pytest.mark.parametrize("elements", (1, 63, 1000, 65536))
def test_no_memory_in_cycles(workers: int, elements: int, counter: Path, cpp: CppBench) -> None:
    cpp.output_of([counter, "live", workers, elements, 60])


def stimulus(cpp: CppBench, cycles: int) -> str:
    blocks = (f"cycle {it}\nsample 0 {it}\nsample 1 {-it}\n" for it in range(cycles))
    return cpp.file(f"{cycles}.stim", f"stim 1\n{''.join(blocks)}terminate\n")


def record(cpp: CppBench, cycles: int) -> str:
    data = cpp.output_of([cpp.det, "record", MANIFEST, stimulus(cpp, cycles)])
    return cpp.file(f"{cycles}.rec", data)


def test_files(counter: Path, cpp: CppBench) -> None:
    """`check` and `replay` take as often for 200 cycles as for 20."""
    cpp.output_of([counter, "files", record(cpp, 20), record(cpp, 200)])


@pytest.mark.parametrize("command", ("record", "check", "replay", "needs"))
def test_refused_requests(command: str, counter: Path, cpp: CppBench) -> None:
    """With each request refused in turn a command ends with 8, or didn't need it."""
    words = {
        "record": [MANIFEST, stimulus(cpp, 20), "--workers", 3],
        "check": [record(cpp, 20), "--workers", 3],
        "replay": [record(cpp, 20)],
        "needs": [MANIFEST],
    }
    cpp.output_of([counter, "refused", command, *words[command]])
