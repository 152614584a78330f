#!/usr/bin/env python3
"""Runs the console blocks of a document and compares what they print with what it has.

    python3 tests/console.py docs/TUTORIAL.md                      with the programs of bin/
    python3 tests/console.py docs/TUTORIAL.md --programs FOLDER    with other builds of them

A block is fenced by ```console. A line after "$ " is a command, lines after "> " go on with it, and
the lines up to the next command are what it prints, on standard output and standard error together.
All commands of a document run in one shell, which starts at the top of the repository. Prints each
command that printed something else, and ends with 1 where there is one. The programs of bin/ build
where needed, and the library and the page for a document that uses them. It needs Python's standard
library, bash, and for the library g++.
"""

from __future__ import annotations

import argparse
import os
import subprocess
import sys
import tempfile
from dataclasses import dataclass, field
from pathlib import Path

from builds import build_library, build_page, build_programs
from commands import TOP, run

# The most seconds that all commands of a document may take.
LIMIT = 600
MARK = "--- command "
LIBRARY = "libdeterministic_client.a"
PAGE_TOOL = "det_page.py"


@dataclass
class Command:
    """A command of a console block, and the lines that the document has after it."""

    line: int
    text: str
    prints: list[str] = field(default_factory=list)


def commands_of(document: Path) -> list[Command]:
    """The commands of all console blocks, in order, each with the number of its line."""
    commands: list[Command] = []
    inside = False
    for number, line in enumerate(document.read_text().splitlines(), start=1):
        if line.startswith("```"):
            inside = line == "```console"
        elif inside and line.startswith("$ "):
            commands.append(Command(number, line[2:]))
        elif inside and line.startswith(">") and not commands[-1].prints:
            commands[-1].text += "\n" + line[2:]
        elif inside:
            commands[-1].prints.append(line)
    return commands


def script_of(commands: list[Command]) -> str:
    """One script that marks where the output of each command begins."""
    parts = []
    for number, command in enumerate(commands):
        # A command may change the path, which then has the programs first again.
        parts += ['PATH="$PROGRAMS:$PATH"', f"echo '{MARK}{number}'", command.text]
    return "\n".join(parts) + "\n"


def outputs_of(
    commands: list[Command], programs: Path, room: Path, top: Path = TOP
) -> list[list[str]]:
    """What each command prints, line by line. Temporary files go to a folder."""
    environment = dict(os.environ, PROGRAMS=str(programs), TMPDIR=str(room))
    given = run(
        ["bash"],
        top,
        environment,
        LIMIT,
        input=script_of(commands).encode(),
        stderr=subprocess.STDOUT,
    )
    outputs: list[list[str]] = [[] for _ in commands]
    at = -1
    for line in given.out.decode().splitlines():
        if line.startswith(MARK):
            at = int(line[len(MARK) :])
        elif at >= 0:
            outputs[at].append(line)
    return outputs


def needs_library(document: Path) -> bool:
    """Whether its commands compile applications in C++."""
    return any(LIBRARY in it.text for it in commands_of(document))


def needs_page(document: Path) -> bool:
    """Whether its commands put records into the page."""
    return any(PAGE_TOOL in it.text for it in commands_of(document))


def departures(document: Path, programs: Path, room: Path, top: Path = TOP) -> list[str]:
    """The commands of a document that print something else than what it has. They start in a folder
    like the top of the repository."""
    commands, texts = commands_of(document), []
    for command, output in zip(commands, outputs_of(commands, programs, room, top)):
        if output != command.prints:
            lines = [f"{document}:{command.line}: {command.text}"]
            lines.append("  document: " + "\n            ".join(command.prints))
            lines.append("  printed:  " + "\n            ".join(output))
            texts.append("\n".join(lines))
    return texts


def main() -> int:
    parser = argparse.ArgumentParser(description="Runs the console blocks of a document.")
    parser.add_argument("document", type=Path)
    parser.add_argument("--programs", type=Path, help="a folder of builds to take in place of bin/")
    given = parser.parse_args()
    with tempfile.TemporaryDirectory(prefix="det-console-") as name:
        room = Path(name)
        programs = build_programs(room / "programs", given.programs).folder
        if needs_library(given.document):
            build_library(is_proof=False)
        if needs_page(given.document):
            build_page()
        texts = departures(given.document, programs, room)
    print("\n".join([*texts, f"{len(texts)} commands print something else"]))
    return 1 if texts or not commands_of(given.document) else 0


if __name__ == "__main__":
    sys.exit(main())
