"""How tests of the C and C++ headers are compiled over the static library, and run."""

from __future__ import annotations

import shutil
from pathlib import Path
from typing import Optional, Sequence

from commands import TOP, Bench, Outcome, Programs, Word, make, run

SOURCES = TOP / "tests" / "cpp"
EXAMPLES = TOP / "examples" / "cpp"
INCLUDE = TOP / "include"
# The most seconds that a test program, or a compiler, may take.
LIMIT = 1800
WARNINGS = ("-Wall", "-Wextra", "-Wpedantic", "-Wshadow", "-Wconversion", "-Werror")
C = ("-std=c11", *WARNINGS, f"-I{INCLUDE}")
CPP = ("-std=c++17", *WARNINGS, f"-I{INCLUDE}", f"-I{SOURCES}")
# What is needed with ara::core, whose least headers are in tests/cpp/core, and for its adapter.
CORE = ("-DDET_EXEC_ARA_CORE=1", f"-I{SOURCES / 'core'}")
# So that each product and sum is rounded, on every processor.
EXACT = "-ffp-contract=off"
# The Debian package of each tool that a test needs.
PACKAGES = {
    "aarch64-linux-gnu-g++": "g++-aarch64-linux-gnu",
    "clang++": "clang",
    "cmake": "cmake",
    "dpkg": "dpkg",
    "dpkg-deb": "dpkg",
    "dpkg-parsechangelog": "dpkg-dev",
    "dpkg-shlibdeps": "dpkg-dev",
    "g++": "g++",
    "gcc": "gcc",
    "lintian": "lintian",
    "nm": "binutils",
    "pkg-config": "pkg-config",
    "qemu-aarch64-static": "qemu-user-static",
    "strip": "binutils",
}


def need(*tools: str) -> None:
    """Fails if the machine lacks a tool, and says which Debian package has it."""
    missing = [it for it in tools if not shutil.which(it)]
    packages = " ".join(PACKAGES[it] for it in missing)
    assert not missing, f"no {', '.join(missing)} here: install the Debian packages {packages}"


def compile_example(
    name: str, archive: Path, program: Path, flags: Sequence[str] = ("-O2",)
) -> Path:
    """A program of an example and the library."""
    need("g++")
    words = ["g++", *CPP, *flags, EXACT, EXAMPLES / f"{name}.cpp", archive, "-pthread"]
    make([*words, "-o", program])
    return program


def first_error(outcome: Outcome) -> str:
    """The first line on standard error that names an error, or the first one."""
    lines = outcome.err.decode(errors="replace").strip().split("\n")
    return next((line for line in lines if "rror" in line or "WARNING" in line), lines[0])


class CppBench(Bench):
    """A bench with the library under test."""

    def __init__(self, programs: Programs, folder: Path, archive: Path) -> None:
        super().__init__(programs, folder)
        self.archive = archive
        self.det = programs.path("det")

    def command(
        self, words: Sequence[Word], environment: Optional[dict[str, str]] = None
    ) -> Outcome:
        """Runs a command, whatever status it ends with."""
        return run(words, self.folder, environment, limit=LIMIT)

    def output_of(
        self, words: Sequence[Word], environment: Optional[dict[str, str]] = None
    ) -> bytes:
        """What a command writes that has to end well."""
        given = self.command(words, environment)
        assert not given.status, f"{words[0]} ends with {given.status}: {first_error(given)}"
        return given.out

    def compile(
        self, compiler: str, sources: Sequence[str], name: str, flags: Sequence[str]
    ) -> Path:
        """A program of these sources and the library."""
        need(compiler)
        program = self.folder / name
        files = [SOURCES / source for source in sources]
        self.output_of([compiler, *flags, *files, self.archive, "-pthread", "-o", program])
        return program

    def example_program(self, name: str) -> Path:
        """The program of an example, which is compiled once for all tests of a group."""
        program = self.folder / f"example_{name}"
        return program if program.exists() else compile_example(name, self.archive, program)

    def check_lines(self, words: Sequence[Word]) -> None:
        """Runs a test program, which prints `ok NAME` or `FAILED NAME: WHY` for each of its tests.
        One has to be `ok`, and none may have failed."""
        given = self.command(words)
        lines = [line for line in given.out.decode(errors="replace").split("\n") if line]
        failed = [line for line in lines if not line.startswith("ok ")]
        assert not failed, "\n".join(failed)
        assert not given.status, f"ends with {given.status}: {first_error(given)}"
        assert lines, "no test was run"
