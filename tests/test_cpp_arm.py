"""The library for AArch64: it is built with its proofs, by --prove, and run by qemu. The records of
applications are those of x86-64, byte for byte.

They need Debian's g++-aarch64-linux-gnu and qemu-user-static.
"""

from __future__ import annotations

import re
from pathlib import Path

import pytest

from commands import TOP, run
from cpp_bench import CPP, EXACT, EXAMPLES, LIMIT, SOURCES, CppBench, need
from test_cpp_linking import functions_of_headers, symbols

ARM = "aarch64-unknown-linux-gnu"
COMPILER, QEMU = "aarch64-linux-gnu-g++", "qemu-aarch64-static"
# Where Debian's compiler has the C and C++ libraries for that processor.
ROOT = "/usr/aarch64-linux-gnu"
PROGRAMS = ("words", "blocks", "windows", "pools", "recording", "engine", "parts", "total")
JOBS = {"cloud": TOP / "examples", "guard": TOP / "examples", "tracker": EXAMPLES}
JOBS["estimate"] = EXAMPLES


@pytest.fixture(scope="module")
def arm(pytestconfig: pytest.Config) -> Path:
    """The archive for AArch64."""
    if not pytestconfig.getoption("prove"):
        pytest.skip("the library for AArch64 is built with its proofs, by --prove")
    given = run([TOP / "bin" / "build_library", "--target", ARM], TOP, limit=LIMIT)
    assert given.status == 0, given.err.decode().strip().split("\n")[-1]
    return Path(given.out.decode().split("\n")[-2])


def compile_arm(cpp: CppBench, arm: Path, source: Path) -> Path:
    """A program for AArch64."""
    need(COMPILER, QEMU)
    program = cpp.folder / f"arm_{source.stem}"
    words = [COMPILER, *CPP, "-O2", EXACT, source, arm, "-pthread", "-o", program]
    cpp.output_of(words)
    return program


@pytest.mark.slow
def test_archive(arm: Path, cpp: CppBench) -> None:
    """The library has all functions of the headers, for that processor."""
    assert symbols(cpp, arm, "T") == functions_of_headers()
    formats = cpp.output_of(["objdump", "-a", arm]).decode()
    found = set(re.findall(r"file format (\S+)", formats))
    assert found in ({"elf64-littleaarch64"}, {"elf64-little"})


@pytest.mark.slow
@pytest.mark.parametrize("program", PROGRAMS)
def test_program(program: str, arm: Path, cpp: CppBench) -> None:
    """The test programs in C++ pass on AArch64."""
    cpp.check_lines([QEMU, "-L", ROOT, compile_arm(cpp, arm, SOURCES / f"{program}.cpp")])


@pytest.mark.slow
@pytest.mark.parametrize("job", JOBS)
def test_same_record(job: str, arm: Path, cpp: CppBench) -> None:
    """An application's record is that of x86-64."""
    words = ["record", *(JOBS[job] / f"{job}.{it}" for it in ("toml", "stim")), "--seed", 5]
    expected = cpp.output_of([cpp.example_program(job), *words])
    program = compile_arm(cpp, arm, EXAMPLES / f"{job}.cpp")
    assert cpp.output_of([QEMU, "-L", ROOT, program, *words]) == expected
