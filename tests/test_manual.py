"""The manual pages are made from the programs' texts and docs/manual/, by tools/manual.py."""

from __future__ import annotations

import shutil
import sys
from pathlib import Path

import pytest

from commands import TOP, Outcome, run

SOURCES = ("tools/manual.py", "docs/*.1", "docs/manual/*.txt")
TEXTS = ("crates/*/src/*_usage.rt", "crates/*/src/pages.rt")


def manual(top: Path, word: str) -> Outcome:
    """Runs the tool of a copy of the repository."""
    return run([sys.executable, "-B", top / "tools" / "manual.py", word], top)


@pytest.fixture
def copy(tmp_path: Path) -> Path:
    """A folder with the tool and what it reads."""
    for pattern in (*SOURCES, *TEXTS):
        for path in TOP.glob(pattern):
            to = tmp_path / path.relative_to(TOP)
            to.parent.mkdir(parents=True, exist_ok=True)
            shutil.copy(path, to)
    return tmp_path


def replace(path: Path, old: str, new: str) -> None:
    text = path.read_text(encoding="utf-8")
    assert old in text
    path.write_text(text.replace(old, new, 1), encoding="utf-8")


def test_pages_are_those_of_their_sources() -> None:
    assert manual(TOP, "--check") == Outcome(0, b"", b"")


@pytest.mark.parametrize(
    ("source", "old", "new"),
    [
        ("docs/manual/det.txt", "no checksum", "a checksum"),
        ("docs/det.1", "no checksum", "a checksum"),
        ("crates/det_cli/src/pages.rt", "the shift 2", "the shift 3"),
        ("crates/det_cli/src/det_usage.rt", 'VERSION: &str = "det ', 'VERSION: &str = "det 9'),
    ],
)
def test_a_change_is_reported_until_the_page_is_written(
    copy: Path, source: str, old: str, new: str
) -> None:
    replace(copy / source, old, new)
    done = manual(copy, "--check")
    assert (done.status, done.out) == (1, b"differs: docs/det.1\n")
    assert manual(copy, "--write").status == 0
    assert manual(copy, "--check").status == 0


def test_a_status_without_a_meaning_is_refused(copy: Path) -> None:
    replace(copy / "docs" / "manual" / "det_lane.txt", "\n  10 ", "\n  11 ")
    done = manual(copy, "--check")
    assert done.status == 1
    assert b"docs/manual/det_lane.txt has the statuses" in done.err


def test_a_command_without_a_page_is_refused(copy: Path) -> None:
    replace(
        copy / "crates" / "det_cli" / "src" / "det_usage.rt", "  det needs MANIFEST", "  det want X"
    )
    done = manual(copy, "--check")
    assert done.status == 1
    assert b"the usage of det has the commands" in done.err
