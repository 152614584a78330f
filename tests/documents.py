"""The documents of the repository, and how their tables and lists are read.

Which documents there are isn't said here: a check is over each document that has the heading, or
the version, that it is about.
"""

from __future__ import annotations

import re
from pathlib import Path
from typing import Optional

from commands import TOP

PATTERNS = ("*.md", "*/*.md", "*/*/*.md", "docs/*.1")


def documents() -> list[Path]:
    """Every document of the repository."""
    found = [path for pattern in PATTERNS for path in TOP.glob(pattern)]
    return sorted(path for path in found if "out" not in path.relative_to(TOP).parts)


def name_of(document: Path) -> str:
    return str(document.relative_to(TOP))


def text_of(name: str) -> str:
    return (TOP / name).read_text()


def has_heading(document: Path, heading: str) -> bool:
    return f"\n{heading}\n" in document.read_text()


def section(name: str, heading: str) -> str:
    """What is below a heading of a document, up to the next one of its rank."""
    rank = heading.split(" ")[0]
    found = text_of(name).split(f"\n{heading}", 1)
    if len(found) < 2:
        raise ValueError(f"{name} has no heading {heading}")
    return found[1].split(f"\n{rank} ", 1)[0]


def indented_lines(name: str, heading: str) -> str:
    """The indented lines below a heading of a document, which are commands."""
    lines = section(name, heading).splitlines()
    found = [line[4:] for line in lines if line.startswith("    ")]
    if not found:
        raise ValueError(f"{name} has no command below {heading}")
    return "\n".join(found)


def first_cells(name: str, heading: str) -> list[str]:
    """The first cells of the tables below a heading, without those of their heads."""
    rows = [line for line in section(name, heading).splitlines() if line.startswith("|")]
    cells = [row.split("|")[1].strip() for row in rows]
    return [cell for cell in cells if cell and not set(cell) <= set("-: ") and "`" in cell]


def words_in(cells: list[str]) -> list[str]:
    """What is between backquotes in cells of a table."""
    return [word for cell in cells for word in re.findall(r"`([^`]+)`", cell)]


def listed_crates() -> list[str]:
    """The crates of crates.txt."""
    lines = [line.split("#")[0] for line in text_of("crates.txt").splitlines()]
    return [line.split(":")[0].split()[0] for line in lines if ":" in line]


def difference_of_sets(one: str, ones: set, other: str, others: set) -> Optional[str]:
    """How two sets differ, or none where they don't."""
    lines = [f"only {one} has {sorted(ones - others)}"] if ones - others else []
    lines += [f"only {other} has {sorted(others - ones)}"] if others - ones else []
    return "; ".join(lines) or None
