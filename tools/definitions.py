#!/usr/bin/env python3
"""The definitions that the contract of `top` rests on, in reading order, and all files of them.

    python3 tools/definitions.py            prints both lists
    python3 tools/definitions.py --check    ends with 1 if too many lines are needed, or a file of
                                            definitions begins with no comment

It starts at the clauses of `top` and follows each name through the imports of its file. A name is
listed after those that it needs, a file where the first of its names is needed. Left out are names
of the kit and types that are declared in code. Python's standard library is all it needs.
"""

import argparse
import itertools
import re
import sys
from dataclasses import dataclass, field
from pathlib import Path
from typing import Iterator

sys.dont_write_bytecode = True

from crate_list import listed_crates  # noqa: E402

TOP = Path(__file__).resolve().parent.parent
CRATES = TOP / "crates"
ROOT_CRATE, ROOT_FILE, ROOT_FUNCTION = "det_cli", "det_program", "top"
# The record of any job over a stimulus, what a slot gives of it, and what a sink takes.
RECORD = [
    ("recorder", "specs.Record", "record_of"),
    ("det_io", "specs.Shelf", "Reads"),
    ("det_io", "specs.Shelf", "IsAtEnd"),
    ("det_io", "specs.Sink", "GrewByPrefix"),
]
MOST_LINES = 2480
MOST_LINES_OF_A_RECORD = 415

HEAD = re.compile(
    r"^ *(?:(?:abbrev|unfoldable) )?(?:pub )?(?:(?:record|data) )?(?P<name>[^\s:({]+).*[:(]"
)
STARTS = ("abbrev ", "unfoldable ", "pub record ", "pub data ", "pub ")
WORD = re.compile(r"[A-Za-z_][A-Za-z0-9_'-]*(?:\.[A-Za-z_][A-Za-z0-9_'-]*)*")
USE = re.compile(r"^\s*(?:ghost )?(?:pub )?use Rattle\.([a-z_0-9]+)\.(.+?);?$")


@dataclass
class Definition:
    crate: str
    module: str
    name: str
    lines: list[str] = field(default_factory=list)

    @property
    def key(self) -> tuple[str, str, str]:
        return self.crate, self.module, self.name

    @property
    def size(self) -> int:
        """Its lines without comments."""
        return sum(not line.strip().startswith("--") for line in self.lines)


@dataclass
class Module:
    """A file of specs/: its definitions and what its names refer to."""

    definitions: dict[str, Definition] = field(default_factory=dict)
    imports: dict[str, tuple[str, str, str]] = field(default_factory=dict)


def imported(line: str) -> list[tuple[str, tuple[str, str, str]]]:
    """The names that a line brings in, each with its crate, module and name."""
    found = USE.match(line)
    if not found:
        return []
    crate, rest = found.groups()
    path, _, items = rest.partition(".{")
    if not items:
        path, _, alias = rest.partition(" as ")
        return [(alias or path.rsplit(".", 1)[-1], (crate, path, "*"))]
    names = []
    for item in items.rstrip("}").split(","):
        name, _, alias = item.strip().partition(" as ")
        names.append((alias or name, (crate, path, name)))
    return names


def spec_files(crate: str) -> Iterator[tuple[str, Path]]:
    """The files of definitions of a crate, each with the name of its module. A file that only lists
    others by `pub mod` has none, whether it is Lib or that of a folder."""
    folder = CRATES / crate / "specs"
    for path in sorted(folder.rglob("*.antt")):
        lines = path.read_text(encoding="utf-8").split("\n")
        if any(line.strip() and not line.startswith(("pub mod ", "--")) for line in lines):
            yield ".".join(path.relative_to(folder.parent).with_suffix("").parts), path


def read_module(crate: str, name_of_module: str, path: Path) -> Module:
    """A file of definitions, split at the lines that begin one."""
    module, current, comment = Module(), None, []
    for line in path.read_text(encoding="utf-8").splitlines():
        for name, target in imported(line):
            module.imports[name] = target
        stripped = line.strip()
        if stripped.startswith("--"):
            comment.append(line)
            continue
        if stripped.startswith("module "):
            current, comment = None, []
            continue
        if stripped.startswith(STARTS) and ":" in stripped and not stripped.startswith("pub mod"):
            found = HEAD.match(line)
            inside = current is not None and is_field(current, line)
            if found and not inside:
                name = found["name"].strip("«»")
                current = Definition(crate, name_of_module, name, [*comment, line])
                module.definitions[name] = current
                comment = []
                continue
        if current is not None and stripped and not stripped.startswith(("use ", "module ")):
            current.lines += [*comment, line]
        comment = []
    return module


def is_field(current: Definition, line: str) -> bool:
    """Whether a line is a field of the record that the definition is."""
    head = next(text for text in current.lines if not text.strip().startswith("--"))
    depth = len(head) - len(head.lstrip())
    return "record " in head and len(line) - len(line.lstrip()) > depth


def all_modules() -> dict[tuple[str, str], Module]:
    return {
        (crate, name): read_module(crate, name, path)
        for crate in listed_crates()
        for name, path in spec_files(crate)
    }


def contract_of(
    crate: str, file: str, function: str
) -> tuple[str, dict[str, tuple[str, str, str]]]:
    """The clauses of a function, and what the names of its file refer to."""
    text = (CRATES / crate / "src" / f"{file}.rt").read_text(encoding="utf-8")
    imports = dict(item for line in text.splitlines() for item in imported(line))
    begin = text.index(f"pub fn {function}<")
    end = text.index("\n{\n", begin)
    return text[begin:end], imports


def targets(text: str, imports: dict[str, tuple[str, str, str]]) -> list[tuple[str, str, str]]:
    """What the names of a text refer to, in the order of their first use."""
    found = []
    for word in WORD.findall(text):
        first, _, rest = word.partition(".")
        if first in imports:
            crate, path, name = imports[first]
            if name == "*":
                name = rest.split(".", 1)[0] if rest else "*"
            found.append((crate, path, name))
    found += [
        target for name, target in imports.items() if "◌" in name and name.replace("◌", "") in text
    ]
    return found


def closure(
    start: list[tuple[str, str, str]], modules: dict[tuple[str, str], Module]
) -> list[Definition]:
    """All definitions that the given ones need, each after those that it needs."""
    done: dict[tuple[str, str, str], None] = {}
    found: list[Definition] = []

    def visit(key: tuple[str, str, str]) -> None:
        if key in done:
            return
        done[key] = None
        module = modules.get((key[0], key[1]))
        definition = module.definitions.get(key[2]) if module else None
        if definition is None:
            return
        text = "\n".join(line for line in definition.lines if not line.strip().startswith("--"))
        names = dict(module.imports)
        names.update(
            {name: other.key for name, other in module.definitions.items() if name != key[2]}
        )
        for target in targets(text, names):
            visit(target)
        found.append(definition)

    for key in start:
        visit(key)
    return found


def rests_on(
    crate: str, file: str, function: str, modules: dict[tuple[str, str], Module]
) -> list[Definition]:
    text, imports = contract_of(crate, file, function)
    return closure(targets(text, imports), modules)


def count(definitions: list[Definition]) -> int:
    return sum(definition.size for definition in definitions)


def by_file(definitions: list[Definition]) -> list[str]:
    """A line a file, in reading order, with the lines of its definitions and their names."""
    files: dict[tuple[str, str], list[Definition]] = {}
    for definition in definitions:
        files.setdefault((definition.crate, definition.module), []).append(definition)
    return [
        f"{path_of(*file)}  {count(held)}  {', '.join(definition.name for definition in held)}"
        for file, held in files.items()
    ]


def path_of(crate: str, module: str) -> str:
    return f"{crate}/{module.replace('.', '/')}"


def first_words(path: Path) -> str:
    """The comment that a file of definitions begins with."""
    lines = path.read_text(encoding="utf-8").splitlines()
    comment = itertools.takewhile(lambda line: line.startswith("--"), lines)
    return " ".join(line[2:].strip() for line in comment)


def missing(start: list[tuple[str, str, str]], modules: dict[tuple[str, str], Module]) -> list[str]:
    """Those of these definitions that no file has."""
    keys = {other.key for module in modules.values() for other in module.definitions.values()}
    return [f"{path_of(*key[:2])} has no {key[2]}" for key in start if key not in keys]


def main() -> int:
    parser = argparse.ArgumentParser(description="Lists definitions, and counts those of top.")
    parser.add_argument("--check", action="store_true", help="ends with 1 if a limit isn't kept")
    options = parser.parse_args()
    modules = all_modules()
    record = closure(RECORD, modules)
    whole = rests_on(ROOT_CRATE, ROOT_FILE, ROOT_FUNCTION, modules)
    comments = {
        path_of(crate, name): first_words(path)
        for crate in listed_crates()
        for name, path in spec_files(crate)
    }
    faults = missing(RECORD, modules)
    faults += [
        f"crates/{file} begins with no comment" for file, words in comments.items() if not words
    ]
    of_record, of_top = count(record), count(whole)
    if of_record > MOST_LINES_OF_A_RECORD:
        faults.append(f"the record takes {of_record} lines, more than {MOST_LINES_OF_A_RECORD}")
    if of_top > MOST_LINES:
        faults.append(f"`top` takes {of_top} lines, more than {MOST_LINES}")
    for fault in faults:
        print(fault, file=sys.stderr)
    if not options.check:
        print(
            f"The record of any job, with shelf and sink, takes {of_record} lines of definitions,"
        )
        print(f"all of `top` {of_top}. These are those of `top`, in reading order:")
        print("", "file  lines  definitions", *by_file(whole), sep="\n")
        print("", "All files of definitions, in the order of crates.txt:", "", sep="\n")
        print(*(f"{file}  {words}" for file, words in comments.items()), sep="\n")
    return 1 if options.check and faults else 0


if __name__ == "__main__":
    sys.exit(main())
