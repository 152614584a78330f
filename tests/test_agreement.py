"""Documents, programs and folders agree on crates, commands, options, statuses and versions."""

from __future__ import annotations

import re
from pathlib import Path
from typing import Iterable, Iterator

import pytest

from commands import NAMES, TOP, Programs, run
from documents import (
    difference_of_sets,
    documents,
    first_cells,
    has_heading,
    listed_crates,
    name_of,
    section,
    text_of,
    words_in,
)

OPTION = re.compile(r"--[a-z]+")
VERSION = re.compile(r"\b(det(?:_lane|_twin)?) (\d+\.\d+\.\d+)")
# The statuses that every command may end with: done, bad words, write fault, out of memory.
EVERY = {0, 2, 7, 8}
READ_FAULT = 6
# `--help` and `--version` have no page.
WITHOUT_PAGE = ("help", "version")

FORMATS = "docs/FORMATS.md"
# Headings of FORMATS, by their beginnings.
WORDS, STEPS = "## Command words", "## Commands, step by step"
STATUSES = {"det": "## Lines on standard error", "det_lane": "## Copies as child processes"}
TWINS = "## Copies in threads"
# The heading of a table of all crates, and of the tables of what is proved.
CRATES, PROVED = "## Crates", "## 2. What is proved, by which contract"
GUARANTEES = "docs/GUARANTEES.md"


def with_heading(heading: str) -> list[str]:
    """The documents that have this heading."""
    return [name_of(path) for path in documents() if has_heading(path, heading)]


def without_modules(words: Iterable[str]) -> list[str]:
    """Names of crates, without those of modules in them."""
    return [word for word in words if "::" not in word]


def test_folders_of_crates() -> None:
    folders = {path.name for path in (TOP / "crates").iterdir() if (path / "src").is_dir()}
    listed = listed_crates()
    assert difference_of_sets("crates.txt", set(listed), "crates/", folders) is None
    assert len(listed) == len(set(listed)), "crates.txt names a crate twice"


def test_tables_of_crates() -> None:
    """A table of all crates names each once, and nothing else."""
    names = with_heading(CRATES)
    assert names, f"no document has the heading {CRATES}"
    for name in names:
        found = without_modules(words_in(first_cells(name, CRATES)))
        assert difference_of_sets("crates.txt", set(listed_crates()), name, set(found)) is None
        assert len(found) == len(set(found)), f"{name} names a crate twice"


def test_proved_crates() -> None:
    """The tables of what is proved name crates in their last cells; the page names each crate."""
    rows = [line for line in section(GUARANTEES, PROVED).splitlines() if line.startswith("| ")]
    named = {word for row in rows for word in re.findall(r"`(\w+)`", row.split("|")[-2])}
    assert named <= set(listed_crates()), GUARANTEES
    assert set(listed_crates()) <= set(re.findall(r"`(\w+)`", text_of(GUARANTEES))), GUARANTEES


NUMBERED = re.compile(r"\b(AoU|DEV)-(\d+)\b")
SAFETY = "docs/SAFETY.md"


def test_numbers_for_a_safety_case() -> None:
    """Each item has a number of its own, in order, and each number that is cited has an item."""
    rows = re.findall(r"^\| (AoU|DEV)-(\d+) \|", text_of(SAFETY), re.MULTILINE)
    for kind in ("AoU", "DEV"):
        numbers = [int(number) for it, number in rows if it == kind]
        assert numbers and numbers == sorted(set(numbers)), kind
    cited = {it for path in documents() for it in NUMBERED.findall(path.read_text())}
    assert cited - set(rows) == set(), "cited, and not in " + SAFETY


def output_by(programs: Programs, program: str, *words: str) -> str:
    return run([programs.path(program), *words], TOP, programs.environment()).out.decode()


Options = dict[str, set[str]]


def options_of(pairs: Iterable[tuple[str, str]]) -> Options:
    """The options of each command that has a page, from its name and a text that has them."""
    found: Options = {}
    for name, text in pairs:
        if name.strip("-") not in WITHOUT_PAGE:
            found.setdefault(name.lstrip("-"), set()).update(OPTION.findall(text))
    return found


def usage_options(usage: str) -> Options:
    """Those of a usage, in which a line that begins a command goes on in deeper ones."""
    found: list[list[str]] = []
    for line in usage.split("\n\n")[1].splitlines():
        head = re.match(r"  det (\S+)(.*)", line)
        if head:
            found.append([head[1], head[2]])
        else:
            found[-1][1] += line
    return options_of((name, text) for name, text in found)


def page_options(programs: Programs, names: list[str]) -> Options:
    """Those of the first lines of each command's page."""
    pages = ((name, output_by(programs, "det", "--help", name)) for name in names)
    return options_of((name, page.split("\n\n")[0]) for name, page in pages)


def manual_options() -> Options:
    """Those of the synopsis of the manual page."""
    parts = text_of("docs/det.1").replace("\\-", "-").split(".SY det\n")[1:]
    found = (it.split(".YS")[0] for it in parts)
    heads = ((re.search(r"^\.B (\S+)", it, re.M), it.split("\n", 1)[1]) for it in found)
    return options_of((head[1], text) for head, text in heads if head)


def table_options(name: str, heading: str, cells: int) -> Options:
    """Those of a table's rows, from some of their first cells."""
    lines = [line for line in section(name, heading).splitlines() if line.startswith("| `")]
    rows = ("".join(line.split("|")[1 : 1 + cells]) for line in lines)
    heads = ((re.match(r" `([^ `]+)", row), row) for row in rows)
    return options_of((head[1], row) for head, row in heads if head)


def flat(options: Options) -> set[tuple[str, str]]:
    """Each command, and each with one of its options."""
    return {(name, option) for name in options for option in ("", *options[name])}


@pytest.mark.parametrize("where", (FORMATS, "docs/det.1", "pages"))
def test_options(where: str, programs: Programs) -> None:
    """Each list of commands has the same ones with the same options."""
    usage = usage_options(output_by(programs, "det", "--help"))
    if where == FORMATS:
        found = table_options(FORMATS, WORDS, 3)
    else:
        found = manual_options() if where != "pages" else page_options(programs, list(usage))
    assert difference_of_sets("the usage", flat(usage), where, flat(found)) is None


def statuses_of_usage(usage: str) -> dict[int, str]:
    """The numbers and names of the statuses at the end of a usage or a page."""
    lines = usage.split("Exit statuses:\n")[1]
    return {int(number): name for number, name in re.findall(r"(\d+)  (\w+(?: \w+)*)", lines)}


def statuses_of_manual(name: str) -> set[int]:
    """The numbers in the part on statuses of a manual page."""
    lines = text_of(f"docs/{name}.1").split(".SH EXIT STATUS\n")[1].split("\n.SH ")[0]
    return {int(number) for number in re.findall(r"^(?:\.B )?(\d+)(?:\t|$)", lines, re.M)}


def statuses_of_table(heading: str) -> dict[int, str]:
    rows = re.findall(r"^\| (\d+) ([a-z ]+) \|", section(FORMATS, heading), re.M)
    return {int(number): name for number, name in rows}


def statuses_of_twins() -> set[int]:
    """The numbers that FORMATS gives in a sentence."""
    found = re.search(r"Statuses ([\d, and]+) and their lines", section(FORMATS, TWINS))
    return {int(it) for it in re.findall(r"\d+", found[1])} if found else set()


@pytest.mark.parametrize("name", NAMES)
def test_statuses(name: str, programs: Programs) -> None:
    """FORMATS, the usages and the manual pages have the same statuses under the same names."""
    usage = statuses_of_usage(output_by(programs, name, "--help"))
    manual = statuses_of_manual(name)
    assert difference_of_sets("the usage", set(usage), f"docs/{name}.1", manual) is None
    if name in STATUSES:
        table = statuses_of_table(STATUSES[name])
        pairs = set(table.items()), set(usage.items())
        assert difference_of_sets("FORMATS", pairs[0], "the usage", pairs[1]) is None
    else:
        assert difference_of_sets("FORMATS", statuses_of_twins(), "the usage", set(usage)) is None


def statuses_of_steps() -> Iterator[tuple[str, set[int]]]:
    """Those of each command's steps: the numbers in brackets, those of every command, and a read
    fault where it opens a name."""
    for line in section(FORMATS, STEPS).splitlines():
        row = re.match(r"\| `([a-z]+)` \| (.*) \|$", line)
        if row:
            brackets = " ".join(re.findall(r"\((\d[^)]*)\)", row[2]))
            numbers = {int(it) for it in re.findall(r"\b(\d)\b", brackets)}
            opens = "opens" in row[2].replace("opens no", "")
            # `needs` is said to judge as `record` does.
            more = ({READ_FAULT} if opens else set()) | ({3} if row[1] == "needs" else set())
            yield row[1], EVERY | numbers | more


def test_statuses_of_steps(programs: Programs) -> None:
    """Each command's page has the statuses of its steps in FORMATS."""
    steps = dict(statuses_of_steps())
    assert steps, "FORMATS has no steps"
    for name, numbers in steps.items():
        page = set(statuses_of_usage(output_by(programs, "det", "--help", name)))
        assert difference_of_sets(f"the page of {name}", page, "FORMATS", numbers) is None


def versions_of(programs: Programs) -> dict[str, str]:
    """The version that each program prints."""
    lines = [output_by(programs, name, "--version").strip() for name in NAMES]
    return dict(VERSION.fullmatch(line).groups() for line in lines)  # type: ignore


def versions_in(document: Path) -> list[tuple[str, str]]:
    return VERSION.findall(document.read_text())


def test_versions(programs: Programs) -> None:
    """Each version that a document names is the one that the program prints."""
    given = versions_of(programs)
    assert len(set(given.values())) == 1, f"the programs have {given}"
    found = [(name_of(path), *pair) for path in documents() for pair in versions_in(path)]
    assert found, "no document names a version"
    assert [it for it in found if given[it[1]] != it[2]] == []
    assert text_of("VERSION").strip() in given.values(), "VERSION"
