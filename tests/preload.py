"""Programs beneath a library that is loaded before them, and counts or fails their calls."""

from __future__ import annotations

import os
from pathlib import Path
from typing import Any

from builds import build_preload
from children import has_child
from commands import TOP, Bench, Outcome, Programs, run, without_children

# The most seconds that a run may take.
LIMIT = 60
LANE = "det_lane"


class PreloadBench(Bench):
    """A bench with such a library. Its commands are words in which `OUT/` is the bench's folder,
    `BIN/` the folder of the programs, and other paths begin at the top of the repository."""

    def __init__(self, programs: Programs, folder: Path, name: str) -> None:
        super().__init__(programs, folder)
        self.library = build_preload(name, folder)

    def place(self, word: str) -> str:
        """A word, with the folder that it names by its path."""
        for name, folder in (("OUT/", self.folder), ("BIN/", self.programs.folder)):
            if word.startswith(name):
                return str(folder / word[len(name) :])
        return word

    def command(self, words: str) -> list[str]:
        """A command's words, with its program by its path."""
        program, *others = words.split()
        path = program if "/" in program else self.programs.path(program)
        return [path, *map(self.place, others)]

    def run_without(self, command: list[str], **how: Any) -> Outcome:
        """How a command ends without the library, beside what children write to standard error."""
        return without_children(run(command, TOP, {}, LIMIT, **how))

    def run_with(
        self, words: str, names: dict[str, str], **how: Any
    ) -> tuple[Outcome, list[int], bool]:
        """How a command ends with the library, whose variables are `names`, beside what children
        write to standard error; what the library counted; and whether det_lane left a child."""
        counts, counted = os.pipe()
        mark = f"{self.folder.name}-{counted}-{id(names)}"
        env = dict(names, LD_PRELOAD=str(self.library), COUNTED=str(counted), MARK=mark)
        with os.fdopen(counts) as lines:
            try:
                outcome = run(self.command(words), TOP, env, LIMIT, pass_fds=[counted], **how)
            finally:
                os.close(counted)
            is_left = words.startswith(LANE) and has_child(f"MARK={mark}")
            # A child that is left has the other end too, so there would be no end to read to.
            numbers = [] if is_left else [int(count) for count in lines.read().split()]
        return without_children(outcome), numbers, is_left
