#!/usr/bin/env python3
"""Installs the built programs, library, headers, manual pages, completions, documents and tools.

    python3 tools/install.py --prefix /usr/local                   what `make install` does
    python3 tools/install.py --uninstall --prefix /usr/local       what `make uninstall` does
    .. --destdir FOLDER                                            below that folder
    .. --libdir lib/x86_64-linux-gnu --includedir .. --mandir ..   folders below the prefix
    .. --only-library --library ARCHIVE                            as for another target

It builds nothing, and copies nothing if a file is missing: `make` makes them all. What was
installed is listed in PREFIX/share/det/installed, by which it is removed. The library's files for
CMake and pkg-config find the prefix by where they are, so an installation can be moved. They have
the version of the file VERSION. It only needs Python's standard library.
"""

from __future__ import annotations

import argparse
import os
import shlex
import sys
from dataclasses import dataclass
from pathlib import Path
from typing import Optional

sys.dont_write_bytecode = True

from crate_list import is_built, listed_crates, needed_by, program_file  # noqa: E402

TOP = Path(__file__).resolve().parent.parent
PROGRAMS = ("det", "det_lane", "det_twin")
# The tools of records and stimuli: a program each, under its own name, over the modules beside it.
TOOLS = ("det_record", "det_stimulus", "det_page")
MODULES = ("tools/det_*.py", "tools/record_*.py", "tools/stimulus_*.py")
DOCUMENTS = ("README.md", "CHANGELOG.md", "docs/*.md", "docs/pictures/*")
LIBRARY = "out/lib/libdeterministic_client.a"
PAGE = "out/page/det_page.html"
PACKAGE = "deterministic_client"
# The headers, and where below INCLUDEDIR they go. The adapter has a folder of its own, so that it
# hides no vendor's header.
HEADERS = {"include/det/exec": "det/exec", "include/ara/exec": "det/adapter/ara/exec"}
LISTED = "share/det/installed"
PROGRAM, DATA, FOLDER = 0o755, 0o644, 0o755


class Refused(Exception):
    """Nothing was done; the text says why."""


@dataclass(frozen=True)
class Copy:
    """A file that is installed: its path below the prefix, its bytes, and its mode."""

    to: str
    data: bytes
    mode: int = DATA


@dataclass(frozen=True)
class Places:
    """The folders below the prefix, by their names in GNUInstallDirs."""

    libdir: str
    includedir: str
    mandir: str

    def own_folders(self) -> list[str]:
        """Folders that hold nothing else."""
        own = ["share/det", "share/doc/det", f"{self.includedir}/det"]
        return [*own, f"{self.libdir}/cmake/{PACKAGE}"]


def below(prefix: str, folder: str) -> str:
    """A folder as a path below the prefix."""
    path = os.path.relpath(os.path.join(prefix, folder), prefix)
    if path == "." or path.startswith(".."):
        raise Refused(f"{folder} isn't below {prefix}")
    return path


def source(name: str) -> bytes:
    """The bytes of a file of the repository."""
    path = TOP / name
    if not path.is_file():
        shown = path.relative_to(TOP) if TOP in path.parents else path
        raise Refused(f"{shown} isn't there: run `make` first")
    return path.read_bytes()


def files_like(pattern: str) -> list[str]:
    """The files of the repository that a pattern names."""
    return sorted(str(path.relative_to(TOP)) for path in TOP.glob(pattern) if path.is_file())


def program_path(name: str) -> Path:
    """A program that `make` built: proved, or else compiled."""
    if is_built(program_file(name), needed_by(name, listed_crates())):
        return program_file(name)
    return TOP / "out" / "compiled" / name


def kinds(folder: Optional[Path]) -> str:
    """Which programs are proved."""
    if folder:
        return f"the programs of {folder}"
    kinds = {
        it: "proved" if program_path(it) == program_file(it) else "compiled" for it in PROGRAMS
    }
    made = TOP / "out" / "lib" / "made"
    kinds["the library"] = made.read_text().strip() if made.is_file() else "proved"
    return ", ".join(f"{it} {kind}" for it, kind in kinds.items())


def programs(folder: Optional[Path]) -> list[Copy]:
    """The programs, from a folder or from where `make` builds them."""
    files = {it: folder / it if folder else program_path(it) for it in PROGRAMS}
    return [Copy(f"bin/{it}", source(str(file)), PROGRAM) for it, file in files.items()]


def manuals(places: Places) -> list[Copy]:
    return [Copy(f"{places.mandir}/man1/{it}.1", source(f"docs/{it}.1")) for it in PROGRAMS]


def completions() -> list[Copy]:
    """What bash loads when a program's name is typed."""
    to, names = "share/bash-completion/completions", (*PROGRAMS, *TOOLS)
    return [Copy(f"{to}/{it}", source(f"completions/{it}")) for it in names]


def documents() -> list[Copy]:
    """The documents, and the examples, under their names in the repository. Scripts can be run."""
    names = [name for pattern in (*DOCUMENTS, "examples/**/*") for name in files_like(pattern)]
    files = {it: source(it) for it in names}
    modes = {it: PROGRAM if data.startswith(b"#!") else DATA for it, data in files.items()}
    return [Copy(f"share/doc/det/{it}", data, modes[it]) for it, data in files.items()]


def tools(prefix: str, python: str = "python3") -> list[Copy]:
    """The tools of records, and for each a program of its name that calls this Python. They take
    their version from the file beside their folder."""
    names = [name for pattern in MODULES for name in files_like(pattern)]
    there = [name for name in TOOLS if f"tools/{name}.py" in names]
    files = {it: shlex.quote(f"{prefix}/share/det/tools/{it}.py") for it in there}
    # Python would leave files of its own beside the modules, which nothing removes.
    text = '#!/bin/sh\nexec {} -B {} "$@"\n'
    calls = {f"bin/{it}": text.format(python, file) for it, file in files.items()}
    launchers = [Copy(to, call.encode(), PROGRAM) for to, call in calls.items()]
    return launchers + [Copy(f"share/det/{name}", source(name)) for name in ("VERSION", *names)]


def page() -> list[Copy]:
    """The page for a browser, which det_page fills, if `make page` built it."""
    return [Copy("share/det/det_page.html", source(PAGE))] if (TOP / PAGE).is_file() else []


def package_file(template: str, to: str, places: Places) -> Copy:
    """A file by which a build finds the library, with paths from its own folder."""
    values = {
        "VERSION": source("VERSION").decode().strip(),
        "TO_PREFIX": os.path.relpath(".", os.path.dirname(to)),
        "LIBDIR": places.libdir,
        "INCLUDEDIR": places.includedir,
    }
    text = source(template).decode()
    for name, value in values.items():
        text = text.replace(f"@{name}@", value)
    return Copy(to, text.encode())


def library(places: Places, archive: str) -> list[Copy]:
    """The static library with its headers, and the files for CMake and pkg-config."""
    headers = {
        name: f"{places.includedir}/{folder}/{Path(name).name}"
        for source_folder, folder in HEADERS.items()
        for name in files_like(f"{source_folder}/*.h")
    }
    if not headers:
        raise Refused("include/det/exec has no headers")
    to = {
        f"cpp/{PACKAGE}.pc.in": f"{places.libdir}/pkgconfig/{PACKAGE}.pc",
        f"cpp/{PACKAGE}-config.cmake.in": f"{places.libdir}/cmake/{PACKAGE}/{PACKAGE}-config.cmake",
        f"cpp/{PACKAGE}-config-version.cmake.in": f"{places.libdir}/cmake/{PACKAGE}/"
        f"{PACKAGE}-config-version.cmake",
    }
    return [
        Copy(f"{places.libdir}/lib{PACKAGE}.a", source(archive)),
        *[package_file(template, name, places) for template, name in to.items()],
        *[Copy(place, source(name)) for name, place in headers.items()],
    ]


def all_copies(given: argparse.Namespace, places: Places) -> list[Copy]:
    """Everything, with the list of it as the last file. In the list, a line that ends with a slash
    is a folder of its own."""
    archive = str(given.library.resolve()) if given.library else LIBRARY
    copies = library(places, archive)
    if not given.only_library:
        copies += [*programs(given.programs), *manuals(places), *completions()]
        copies += [*tools(given.prefix), *page(), *documents()]
    listed = [it.to for it in copies] + [f"{it}/" for it in places.own_folders()]
    return [*copies, Copy(LISTED, "".join(f"{it}\n" for it in listed).encode())]


def make_folder(folder: Path) -> None:
    """Makes a folder and those above it, each with the same mode whatever the umask."""
    if not folder.is_dir():
        make_folder(folder.parent)
        folder.mkdir()
        folder.chmod(FOLDER)


def install(root: Path, copies: list[Copy]) -> None:
    """Puts each file in its place in one step, so that a program that runs isn't overwritten."""
    for it in copies:
        to = root / it.to
        make_folder(to.parent)
        new = to.with_name(f".{to.name}.new")
        new.write_bytes(it.data)
        new.chmod(it.mode)
        os.replace(new, to)


def uninstall(root: Path) -> int:
    """Removes what is listed, and folders of its own. Returns how many files were there."""
    if not (root / LISTED).is_file():
        raise Refused(f"{root / LISTED} isn't there, so nothing of this is installed there")
    lines = (root / LISTED).read_text().splitlines()
    names = [*(it for it in lines if not it.endswith("/")), LISTED]
    there = [name for name in names if (root / name).is_file()]
    for name in there:
        (root / name).unlink()
    own = [it.rstrip("/") for it in lines if it.endswith("/")]
    remove_empty(root, own, {str(above) for name in names for above in Path(name).parents})
    return len(there)


def remove_empty(root: Path, own: list[str], folders: set[str]) -> None:
    """Removes those of these folders that are empty and that nothing else is installed in."""
    for name in sorted(folders, reverse=True):
        is_own = any(name == it or name.startswith(f"{it}/") for it in own)
        folder = root / name
        if is_own and folder.is_dir() and not any(folder.iterdir()):
            folder.rmdir()


def places_of(given: argparse.Namespace) -> Places:
    names = (given.libdir, given.includedir, given.mandir)
    return Places(*(below(given.prefix, name) for name in names))


def main() -> int:
    parser = argparse.ArgumentParser(description="Installs what `make` built, or removes it.")
    parser.add_argument("--prefix", required=True, help="an absolute path")
    parser.add_argument("--destdir", default="", help="a folder before the prefix")
    parser.add_argument("--programs", type=Path, help="a folder of other builds of the programs")
    parser.add_argument("--libdir", default="lib", help="for the library, below the prefix")
    parser.add_argument("--includedir", default="include", help="for the headers")
    parser.add_argument("--mandir", default="share/man", help="for the manual pages")
    parser.add_argument("--library", type=Path, help="another build of the library")
    parser.add_argument("--only-library", action="store_true", help="no programs, no documents")
    parser.add_argument("--uninstall", action="store_true")
    given = parser.parse_args()
    if not given.prefix.startswith("/"):
        parser.error("--prefix takes an absolute path")
    root = Path(given.destdir + given.prefix)
    try:
        if given.uninstall:
            print(f"removed {uninstall(root)} files below {root}")
        else:
            copies = all_copies(given, places_of(given))
            install(root, copies)
            what = "the library" if given.only_library else kinds(given.programs)
            print(f"installed {len(copies)} files below {root}: {what}")
    except (Refused, OSError) as why:
        print(f"install: {why}", file=sys.stderr)
        return 1
    return 0


if __name__ == "__main__":
    sys.exit(main())
