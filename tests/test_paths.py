"""Every file that a document names is there."""

from __future__ import annotations

import re
from pathlib import Path
from typing import Iterator

import pytest

from commands import TOP
from documents import documents, listed_crates, name_of, text_of

# A path of two parts or more, perhaps with * for any text.
RELATIVE = re.compile(r"(?<![\w./$~<>{}+-])(?:\.ci|[A-Za-z][\w.*-]*)(?:/[\w.*-]+)+/?")
ABSOLUTE = re.compile(r"(?<![\w./$~<>{}\])*\"'-])/[a-z]\w*(?:/[\w.*-]+)*")
LINK = re.compile(r"\]\(([^)#:\s]+)(?:#[^)]*)?\)")
# A part of a path that is there for any name, as NAME.
PLACEHOLDER = re.compile(r"(?:^|/)[A-Z]{2,}(?:/|$|\.(?!md))|STRUCT|\.\.")
# Folders that are made, and that git leaves out.
MADE = ("out",)


def is_there(folder: Path, path: str) -> bool:
    """Whether a path leads to a file or folder, perhaps without the ending of one."""
    path = path.rstrip("/.")
    if any(part in MADE for part in path.split("/")):
        return True
    return any(any(folder.glob(path + ending)) for ending in ("", ".rt", ".antt"))


def lost_paths(document: Path) -> Iterator[str]:
    """The paths of a document that lead nowhere."""
    text = document.read_text().replace("\\-", "-")
    tops = {path.name for path in TOP.iterdir() if path.is_dir()}
    crates = set(listed_crates())
    for path in set(RELATIVE.findall(text)):
        first = path.split("/")[0]
        base = TOP if first in tops else TOP / "crates" if first in crates else None
        if base and not PLACEHOLDER.search(path) and not is_there(base, path):
            yield path
    for path in set(ABSOLUTE.findall(text)):
        if not PLACEHOLDER.search(path) and not Path(path.rstrip(".")).exists():
            yield path
    for path in set(LINK.findall(text)):
        if not (document.parent / path).exists():
            yield path


@pytest.mark.parametrize("document", documents(), ids=name_of)
def test_paths(document: Path) -> None:
    assert sorted(lost_paths(document)) == []


def test_pattern() -> None:
    """The pattern finds paths of the top and of crates in a text."""
    text = "`det_cli/src/pages.rt` holds them (docs/FORMATS.md), as tests/cases/*/rows do."
    assert RELATIVE.findall(text) == [
        "det_cli/src/pages.rt",
        "docs/FORMATS.md",
        "tests/cases/*/rows",
    ]
    assert "docs/FORMATS.md" in RELATIVE.findall(text_of("README.md"))
