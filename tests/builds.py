"""Builds what is under test: the programs, the library for C and C++, and the plain program."""

from __future__ import annotations

import os
import subprocess
import sys
from concurrent.futures import ThreadPoolExecutor
from pathlib import Path
from typing import Optional, Sequence

from commands import NAMES, TOP, Programs, copy_programs, make

PLAIN_SOURCE = TOP / "tests" / "plain" / "main.rs"
# A sum that overflows stops the plain program.
PLAIN_OPTIONS = ("--edition", "2021", "-O", "-C", "overflow-checks=on")


# The file that says which programs are in a room.
KINDS = "kinds"


class NotBuilt(Exception):
    """Something can't be built here; the text says why."""


def build(name: str, is_proof: bool = False) -> Path:
    """The program that bin/NAME runs, proved or compiled; it is built where it isn't."""
    words = [sys.executable, "-B", str(TOP / "tools" / "build.py"), name, *["--prove"] * is_proof]
    done = subprocess.run(words, stdout=subprocess.PIPE, text=True)
    if done.returncode:
        raise NotBuilt(f"{name} can't be built: status {done.returncode}")
    return Path(done.stdout.strip())


def is_proved(program: Path) -> bool:
    """Whether a build of bin/ is a proved one."""
    return program.parent.parent.parent == TOP / "crates"


def build_programs(
    room: Path, folder: Optional[Path], is_proof: bool = False, names: Sequence[str] = NAMES
) -> Programs:
    """Copies the programs of a folder, or those of bin/, which are built where needed, to a room,
    which is made. Its file `kinds` says which they are."""
    with ThreadPoolExecutor(len(names)) as threads:
        made = threads.map(lambda it: folder / it if folder else build(it, is_proof), names)
        files = list(made)
    missing = [str(file) for file in files if not os.access(file, os.X_OK)]
    if missing:
        raise NotBuilt(f"there is no program {', '.join(missing)}")
    room.mkdir(exist_ok=True)
    kinds = (f"{it.name} {'proved' if is_proved(it) else 'compiled'}" for it in files)
    (room / KINDS).write_text(f"the programs of {folder}" if folder else ", ".join(kinds))
    return copy_programs(room, files)


def kind_of(folder: Optional[Path], is_proof: bool) -> str:
    """Which programs are under test, for a person to read."""
    if folder:
        return f"the programs of {folder}"
    return "proved programs" if is_proof else "the programs of bin/, proved or compiled"


def build_library(is_proof: bool) -> Path:
    """The library for C and C++: one that is there, or is compiled; or a proved one."""
    words = [str(TOP / "bin" / "build_library"), "--prove" if is_proof else "--compile"]
    done = subprocess.run(words, stdout=subprocess.PIPE, text=True)
    if done.returncode:
        raise NotBuilt("the library can't be compiled here: left to `make check`")
    return Path(done.stdout.strip().split("\n")[-1])


def build_page() -> Path:
    """The page for a browser: one that is there, or is compiled."""
    words = [sys.executable, "-B", str(TOP / "tools" / "build_page.py")]
    done = subprocess.run(words, stdout=subprocess.PIPE, text=True)
    if done.returncode:
        raise NotBuilt(f"the page can't be built: status {done.returncode}")
    return Path(done.stdout.strip())


def build_plain(folder: Path) -> Path:
    """Compiles the plain program of tests/plain."""
    make(["rustc", *PLAIN_OPTIONS, "-o", folder / "plain", PLAIN_SOURCE])
    return folder / "plain"


def build_preload(name: str, folder: Path) -> Path:
    """Compiles tests/NAME.c, a library that is loaded before a program."""
    source = TOP / "tests" / f"{name}.c"
    make(["gcc", "-O1", "-shared", "-fPIC", "-o", folder / f"{name}.so", source])
    return folder / f"{name}.so"
