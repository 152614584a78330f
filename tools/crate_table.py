#!/usr/bin/env python3
"""The table of crates in docs/ARCHITECTURE.md, made from the heads of their root files.

    python3 tools/crate_table.py            prints the table
    python3 tools/crate_table.py --write    puts it between its marks in docs/ARCHITECTURE.md
    python3 tools/crate_table.py --check    ends with 1 if that page has another table

A row is the first sentence of a crate's root file, in the order of crates.txt, so each crate comes
after those that it uses. Below a crate are its folders of modules: what its root file lists by
`pub mod NAME;`, with a folder NAME in src/ or specs/. Python's standard library is all it needs.
"""

from __future__ import annotations

import argparse
import re
import sys
from itertools import takewhile
from pathlib import Path

sys.dont_write_bytecode = True

from crate_list import CRATES, TOP, listed_crates  # noqa: E402

PAGE = TOP / "docs" / "ARCHITECTURE.md"
BEGIN, END = "<!-- crates -->", "<!-- end of crates -->"
HEADS = ["| crate, or folder of modules in it | what it does |", "|---|---|"]
SENTENCE = re.compile(r"(.+?[.!?])(?:\s+[A-Z`]|$)")
MODULE = re.compile(r"^pub mod (\w+);", re.MULTILINE)


class NoHead(Exception):
    """A file has no first sentence."""


def first_sentence(path: Path) -> str:
    """The first sentence of the `//!` lines that a file begins with."""
    lines = path.read_text(encoding="utf-8").splitlines()
    head = [line[3:].strip() for line in takewhile(lambda line: line.startswith("//!"), lines)]
    found = SENTENCE.match(" ".join(takewhile(bool, head)))
    if not found:
        raise NoHead(f"{path.relative_to(TOP)} begins with no sentence in //! lines")
    return found[1]


def root_file(crate: str) -> Path:
    folder = CRATES / crate / "src"
    return next(path for path in (folder / "lib.rt", folder / "main.rt") if path.is_file())


def module_folders(root: Path) -> list[str]:
    """The folders of modules that a root file lists."""
    folders = [root.parent.parent / part for part in ("src", "specs")]
    names = MODULE.findall(root.read_text(encoding="utf-8"))
    return [name for name in names if any((folder / name).is_dir() for folder in folders)]


def row(name: str, path: Path) -> str:
    return f"| {name} | {first_sentence(path).replace('|', chr(92) + '|')} |"


def table() -> str:
    lines = [*HEADS]
    for crate in listed_crates():
        root = root_file(crate)
        lines.append(row(f"`{crate}`", root))
        for name in module_folders(root):
            lines.append(row(f"– `{crate}::{name}`", root.parent / f"{name}.rt"))
    return "\n".join(lines)


def page_with(made: str) -> str:
    """docs/ARCHITECTURE.md with this table between its marks."""
    page = PAGE.read_text(encoding="utf-8")
    begin, end = page.index(BEGIN) + len(BEGIN), page.index(END)
    return f"{page[:begin]}\n{made}\n{page[end:]}"


def main() -> int:
    parser = argparse.ArgumentParser(description="The table of crates in docs/ARCHITECTURE.md.")
    which = parser.add_mutually_exclusive_group()
    which.add_argument("--write", action="store_true", help="puts the table there")
    which.add_argument("--check", action="store_true", help="ends with 1 if another table is there")
    options = parser.parse_args()
    try:
        made = table()
    except NoHead as fault:
        print(fault, file=sys.stderr)
        return 1
    if options.write:
        PAGE.write_text(page_with(made), encoding="utf-8")
    elif not options.check:
        print(made)
    elif page_with(made) != PAGE.read_text(encoding="utf-8"):
        print(
            f"{PAGE.relative_to(TOP)} is older: python3 tools/crate_table.py --write",
            file=sys.stderr,
        )
        return 1
    return 0


if __name__ == "__main__":
    sys.exit(main())
