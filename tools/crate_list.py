"""The crates of this repository: which there are, what each needs, when it was changed."""

from __future__ import annotations

import os
from pathlib import Path

TOP = Path(__file__).resolve().parent.parent
CRATES = TOP / "crates"
LIST = TOP / "crates.txt"
# The folders of a crate whose files are compiled or proved.
PARTS = ("src", "specs", "proofs")


def listed_crates() -> dict[str, list[str]]:
    """Each crate with those that it uses, without the libraries of the kit."""
    found: dict[str, list[str]] = {}
    for line in LIST.read_text().splitlines():
        head, colon, names = line.split("#")[0].partition(":")
        if colon:
            found[head.split()[0]] = names.split()
    return {name: [it for it in names if it in found] for name, names in found.items()}


def needed_by(program: str, crates: dict[str, list[str]]) -> list[str]:
    """A program and the crates below it, each after those that it uses."""
    found: list[str] = []

    def add(name: str) -> None:
        for below in crates[name]:
            if below not in found:
                add(below)
        found.append(name)

    add(program)
    return found


def program_file(name: str) -> Path:
    return CRATES / name / "out" / name


def time_of_change(path: str) -> float:
    """When a file was changed last; 0 where there is none, as for an editor's link to nothing."""
    try:
        return os.stat(path).st_mtime
    except FileNotFoundError:
        return 0.0


def newest_source(crate: str) -> float:
    """When a source of a crate, or a folder of its sources, was changed last."""
    times = [0.0]
    for part in PARTS:
        for folder, _, files in os.walk(CRATES / crate / part):
            times.append(time_of_change(folder))
            times += [time_of_change(os.path.join(folder, name)) for name in files]
    return max(times)


def is_built(file: Path, needed: list[str]) -> bool:
    """Whether a program is there, and no source of the crates that it needs is newer."""
    if not os.access(file, os.X_OK):
        return False
    built = file.stat().st_mtime
    return LIST.stat().st_mtime <= built and all(newest_source(name) <= built for name in needed)
