"""The test programs of tests/cpp of one source each, in several builds over the static library.

They need g++ and clang++.
"""

from __future__ import annotations

import pytest

from cpp_bench import CPP, CppBench

PROGRAMS = ("words", "blocks", "life", "windows", "pools", "throwing", "threads", "memory")
PROGRAMS += ("recording", "engine", "parts", "total")
BUILDS = {
    "optimized": ("g++", ("-O2",)),
    "clang": ("clang++", ("-O2",)),
    "address": ("g++", ("-O1", "-g", "-fsanitize=address,undefined", "-fno-sanitize-recover=all")),
    "thread": ("g++", ("-O1", "-g", "-fsanitize=thread")),
}
# Sources with no threads of their own, for which one sanitizer is enough.
SEQUENTIAL = ("words", "blocks", "windows", "total")
BUILT = [
    pytest.param(program, build, id=f"{program}, {build}")
    for build in BUILDS
    for program in PROGRAMS
    if not (build == "thread" and program in SEQUENTIAL)
]


@pytest.mark.slow
@pytest.mark.parametrize("program, build", BUILT)
def test_program(program: str, build: str, cpp: CppBench) -> None:
    compiler, flags = BUILDS[build]
    name = f"{program}_{build}"
    cpp.check_lines([cpp.compile(compiler, [f"{program}.cpp"], name, [*CPP, *flags])])
