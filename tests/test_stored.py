"""The cases that are stored as folders below tests/cases; tests/cases/README.md describes them."""

from __future__ import annotations

import os
import re
import shutil
from dataclasses import dataclass
from pathlib import Path
from typing import Optional

import pytest

from commands import TOP, Bench, Outcome, as_nobody, check_outcome

CASES = TOP / "tests" / "cases"
# The files of a case that aren't copied into the folder in which it is run.
OWN = ("command", "rows", "status", "stdout", "stdout.hex", "stderr", "stdin", "nobody")


def bytes_of_hex(text: str) -> bytes:
    """The bytes of hex digits, with remarks after #, and `N*(..)` for digits N times."""
    digits = "\n".join(line.split("#")[0] for line in text.splitlines())
    digits = re.sub(r"(\d+)\*\(([^()]*)\)", lambda found: int(found[1]) * found[2], digits)
    return bytes.fromhex(digits)


@dataclass(frozen=True)
class StoredCase:
    """A case of tests/cases, or one row of it."""

    folder: Path
    columns: tuple[str, ...] = ()

    def __str__(self) -> str:
        name = self.folder.name
        return f"{name}: {' | '.join(self.columns)}" if self.columns else name

    def text(self, name: str) -> Optional[str]:
        """The text of a file of the case, with the row's columns in place of $1, $2 .."""
        path = self.folder / name
        if not path.is_file():
            return None
        return re.sub(r"\$([1-9])", lambda found: self.columns[int(found[1]) - 1], path.read_text())

    def outcome(self) -> Outcome:
        """How the command has to end."""
        out = (self.text("stdout") or "").encode()
        if (self.folder / "stdout.hex").is_file():
            out = bytes_of_hex((self.folder / "stdout.hex").read_text())
        return Outcome(int(self.text("status") or 0), out, (self.text("stderr") or "").encode())

    def copy_files(self, room: Path) -> None:
        """Puts the case's files into a folder; NAME.hex becomes NAME."""
        for path in self.folder.iterdir():
            if path.name in OWN:
                continue
            if path.suffix == ".hex":
                (room / path.stem).write_bytes(bytes_of_hex(path.read_text()))
            else:
                shutil.copy(path, room / path.name)

    def user(self, room: Path) -> dict[str, object]:
        """The names of `Popen` for the command's user, who then owns the folder."""
        how = as_nobody() if (self.folder / "nobody").is_file() else {}
        for path in (room, *room.iterdir()) if how else ():
            os.chown(path, int(str(how["user"])), int(str(how["group"])))
        return how

    def run(self, bench: Bench) -> Outcome:
        self.copy_files(bench.folder)
        how = self.user(bench.folder)
        given = self.text("stdin")
        if given is not None:
            how["input"] = given.encode()
        command = (self.folder / "command").read_text()
        return bench.run("bash", "-c", command, "bash", *self.columns, **how)


def cases_in(folder: Path) -> list[StoredCase]:
    """The case of a folder, or the cases of its rows."""
    rows = folder / "rows"
    if not rows.is_file():
        return [StoredCase(folder)]
    lines = [line for line in rows.read_text().splitlines() if line and not line.startswith("#")]
    columns = [re.split(r" \|(?: |$)", line) for line in lines]
    return [StoredCase(folder, tuple(text.strip() for text in row)) for row in columns]


STORED = [case for path in sorted(CASES.iterdir()) if path.is_dir() for case in cases_in(path)]


@pytest.mark.parametrize("case", STORED, ids=str)
def test_case(case: StoredCase, bench: Bench) -> None:
    """A stored command ends as its folder says."""
    check_outcome(case.run(bench), case.outcome())
