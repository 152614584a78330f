"""A bench for the Python tools on records, beside `det`."""

from __future__ import annotations

import sys
from typing import Any

from commands import TOP, Bench, Outcome, Word, run
from record_bytes import FORMATS, mixed_record


class RecordBench(Bench):
    """A bench with records, and with the tools of tools/."""

    def det(self, *words: Word) -> tuple[bytes, str]:
        """What det writes, and its line for the user."""
        given = self.run("det", *words)
        return given.out, given.error_without_hints().decode()

    def tool(self, name: str, *words: str, **how: Any) -> Outcome:
        """Runs a tool."""
        return run([sys.executable, TOP / "tools" / name, *words], self.folder, **how)

    def small_records(self) -> dict[str, bytes]:
        """Records of each format and of two jobs, by their names."""
        records = {f"mixed{number}": mixed_record(number) for number in FORMATS}
        return {**records, "bank": self.example("bank"), "wheels": self.example("wheels")}
