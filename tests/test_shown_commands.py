"""The commands that documents show: console blocks, and the indented blocks of the README."""

from __future__ import annotations

import re
from dataclasses import dataclass
from pathlib import Path
from typing import Optional

import pytest

from builds import build_page
from commands import TOP, Bench, excerpt
from console import departures, needs_library, needs_page
from cpp_bench import need
from documents import documents, name_of

TUTORIAL = TOP / "docs" / "TUTORIAL.md"
README = TOP / "README.md"
CPP_PAGE = TOP / "docs" / "CPP.md"
CONSOLE = [path for path in documents() if "\n```console\n" in path.read_text()]
# Beginnings of lines of the README that aren't run here: they build, install or run tests.
NOT_RUN = ("rt ", "make", "bin/build_library", "sudo ", "git ")
NOT_RUN += ("python3 -m pytest", "python3 tests/", "python3 bench/", "cmake ")
COMPILER = "g++"
# Words of a remark that the command has to print.
PRINTED = ("agree", "genuine", "terminate")


@pytest.mark.slow
@pytest.mark.parametrize("document", CONSOLE, ids=name_of)
def test_console(document: Path, bench: Bench, request: pytest.FixtureRequest) -> None:
    """Each command of the console blocks prints what the document has."""
    library = None
    if needs_library(document):
        need("g++")
        library = request.getfixturevalue("library")
    if needs_page(document):
        build_page()
    link_top(bench, library)
    assert departures(document, bench.programs.folder, bench.folder, bench.folder) == []


def test_tutorial_has_blocks() -> None:
    assert TUTORIAL in CONSOLE


@dataclass(frozen=True)
class Line:
    """A command of the README, and the remark after it."""

    number: int
    command: str
    remark: str


def lines_of(document: Path) -> list[Line]:
    """The lines of the indented blocks of a document."""
    lines, is_block, is_fenced, before = [], False, False, ""
    for number, line in enumerate(document.read_text().splitlines(), start=1):
        is_fenced ^= line.startswith("```")
        is_block = line.startswith("    ") and not is_fenced and (is_block or not before.strip())
        if is_block:
            command, _, remark = line.strip().partition(" # ")
            lines.append(Line(number, command.strip(), remark.strip()))
        before = line
    return lines


def departure(line: Line, bench: Bench) -> Optional[str]:
    """Runs a command of the README. Returns what went wrong."""
    wanted = re.search(r"\bstatus (\d+)", line.remark)
    given = bench.run("bash", "-c", line.command)
    status = int(wanted[1]) if wanted else 0
    if given.status != status:
        return f"line {line.number} ends with {given.status}, not {status}: {excerpt(given.err)}"
    if line.remark.startswith("silent") and (given.out or given.err):
        return f"line {line.number} isn't silent: {excerpt(given.out)} {excerpt(given.err)}"
    for word in PRINTED:
        if re.search(rf"\b{word}\b", line.remark) and word.encode() not in given.out:
            return f"line {line.number} doesn't print {word}: {excerpt(given.out)}"
    return None


def readme_lines() -> tuple[list[Line], list[Line]]:
    """The lines of the README that are run: those without the library for C++, and those with it,
    which call the compiler or name a file that it makes."""
    lines = [line for line in lines_of(README) if not line.command.startswith(NOT_RUN)]
    calls = [line.command for line in lines if line.command.startswith(f"{COMPILER} ")]
    made = [name for call in calls for name in re.findall(r" -o (\S+)", call)]
    wanted = [*calls, *made]
    compiled = [line for line in lines if any(text in line.command for text in wanted)]
    return [line for line in lines if line not in compiled], compiled


def link_top(bench: Bench, library: Optional[Path] = None) -> None:
    """Makes the bench's folder one like the top, with the programs under test in bin/."""
    for path in TOP.iterdir():
        if path.name not in ("bin", "out", ".git"):
            (bench.folder / path.name).symlink_to(path)
    (bench.folder / "bin").symlink_to(bench.programs.folder)
    (bench.folder / "out").mkdir()
    if library:
        (bench.folder / "out" / "lib").symlink_to(library.parent)


def check_lines(lines: list[Line], bench: Bench) -> None:
    texts = [departure(line, bench) for line in lines]
    assert [text for text in texts if text] == []


def test_readme(bench: Bench) -> None:
    lines, _ = readme_lines()
    assert lines, "it shows no command that can be run"
    link_top(bench)
    check_lines(lines, bench)


def test_readme_over_library(bench: Bench, library: Path) -> None:
    """The commands that compile an application, or run it."""
    link_top(bench, library)
    check_lines(readme_lines()[1], bench)


def test_page_of_cpp(bench: Bench, library: Path) -> None:
    """The commands of docs/CPP.md that build its tracker and use it."""
    beginnings = (f"{COMPILER} -std=c++17 -O2 ", "out/", "bin/")
    lines = [it for it in lines_of(CPP_PAGE) if it.command.startswith(beginnings)]
    lines = [it for it in lines if not it.command.startswith(NOT_RUN)]
    assert len(lines) > 5
    link_top(bench, library)
    check_lines(lines, bench)


def test_tracker_of_the_page() -> None:
    """docs/CPP.md shows the tracker of examples/cpp."""
    page, source = CPP_PAGE.read_text(), (TOP / "examples" / "cpp" / "tracker.cpp").read_text()
    shown = page.split("```cpp\n")[1].split("```")[0]
    parts = [part for part in shown.split("\n\n") if part.strip()]
    assert [part for part in parts if part.strip("\n") not in source] == []
