#!/usr/bin/env python3
"""Makes the completions for bash from the programs' own texts.

    python3 tools/completion.py            lists the files that differ from what their sources give
    python3 tools/completion.py --write    writes completions/det, det_lane, det_record ..
    python3 tools/completion.py --check    ends with 1 if a file differs

The synopses of the programs' texts give commands, names and options: what `--help` and
`--help COMMAND` print, as tools/manual.py reads it. How many names a command takes at most is in
the table of crates/cli_words. Of the tools in Python, their parsers give names, options and what
these can be. tools/completion.bash has the code, which is the same for each program. A word in
capitals is a name, and its own word says what is offered for it: files for MANIFEST, STIM, RECORD
and FILE, commands for PROGRAM, numbers for COPIES, and nothing for a number. Python's standard
library is all that this needs.
"""

from __future__ import annotations

import argparse
import importlib
import re
import sys
import textwrap
from dataclasses import dataclass, replace
from typing import Iterator

from install import TOOLS
from manual import PROGRAMS, TOP, Texts, Unfit, command_order, first_lines, texts_of

TABLE = TOP / "crates" / "cli_words" / "src" / "table.rt"
CODE = TOP / "tools" / "completion.bash"
ROW = re.compile(r'CommandRow::files\("([a-z]+)", \d+, (\d+),')
TOKEN = re.compile(r"[][|]|[^][|\s]+")
COPIES = re.compile(r"COPIES +the number of copies, (\d+) to (\d+)")
ALSO = re.compile(r"(?<![\w-])(?:-[A-Za-z]|[a-z]+)(?![\w-])")
# How many values an option has that takes all further words, and how many names a tool takes.
MANY = 99
# Bash takes the end of a line for a space in an array and between assignments.
WRAPPER = textwrap.TextWrapper(
    width=100,
    initial_indent=" " * 4,
    subsequent_indent=" " * 8,
    break_long_words=False,
    break_on_hyphens=False,
)
# Nothing is offered for the value of another option.
OTHERS = "    *) ;;"


@dataclass(frozen=True)
class Option:
    """An option: its word, how many values follow it, which others it excludes, and whether it may
    be given again."""

    word: str
    values: int
    excludes: list[str]
    again: bool = False

    def __str__(self) -> str:
        values = f"{self.values}{'+' if self.again else ''}"
        return ":".join([self.word, values, *self.excludes])


@dataclass(frozen=True)
class Call:
    """What a program takes, or a command of it: names in their order, how many at most, options."""

    names: list[str]
    most: int
    options: list[Option]


def options_of(tokens: Iterator[str]) -> list[Option]:
    """The options up to the end of a bracket. Those of one of its alternatives exclude those of the
    others."""
    alternatives: list[list[Option]] = [[]]
    for token in tokens:
        found = alternatives[-1]
        if token == "]":
            break
        if token == "|":
            alternatives.append([])
        elif token == "[":
            found += options_of(tokens)
        elif token.startswith("-"):
            found.append(Option(token, 0, []))
        elif found:
            values = MANY if token.endswith("..") else found[-1].values + 1
            found[-1] = replace(found[-1], values=values)
    options = []
    for found in alternatives:
        others = [it.word for other in alternatives if other is not found for it in other]
        options += [replace(it, excludes=[*it.excludes, *others]) for it in found]
    return options


def call_of(synopsis: str, most: int) -> Call:
    """What a synopsis says, without the words before its names."""
    head, bracket, rest = synopsis.partition("[")
    names = re.findall(r"[A-Z]+", head)
    if not names:
        raise Unfit(f"no names: {synopsis!r}")
    return Call(names, most, options_of(iter(TOKEN.findall(bracket + rest))))


def own_words(name: str, texts: Texts) -> list[str]:
    """`--help` and `--version`, with the other words for them that the usage has."""
    found = []
    for line in first_lines(texts.usage):
        word = re.match(rf"  {name} (--\w+)  +\S", line)
        if word:
            also = line.partition("; also ")[2].replace(" and ", " ")
            found += [word[1], *ALSO.findall(also)]
    return found


def calls_of(name: str, texts: Texts) -> dict[str, Call]:
    """Each command with its call. A program without commands has one call, under no word."""
    if texts.pages:
        most = {word: int(number) for word, number in ROW.findall(TABLE.read_text())}
        heads = {it: texts.pages[it].split("\n\n")[0] for it in command_order(texts)}
        if not set(heads) <= set(most):
            raise Unfit(f"{TABLE.name} has no row for one of {[*heads]}")
        return {it: call_of(head.partition(it)[2], most[it]) for it, head in heads.items()}
    lines = []
    for line in first_lines(texts.usage):
        if line.startswith(f"  {name} --"):
            break
        lines.append(line)
    call = call_of(" ".join(lines).partition(f"{name} ")[2], 0)
    return {"": replace(call, most=len(call.names))}


def array(words: list[str]) -> str:
    return "(" + " ".join(words) + ")"


def arm(word: str, call: Call) -> str:
    """The lines that say what a command takes."""
    options = array([str(it) for it in call.options])
    takes = f"names={array(call.names)} most={call.most} options={options}"
    pattern = word if word else "*"
    return WRAPPER.fill(f"{pattern}) {takes} ;;")


def numbers(usage: str) -> str:
    """The numbers of copies that a usage allows."""
    found = COPIES.search(usage)
    return " ".join(map(str, range(int(found[1]), int(found[2]) + 1))) if found else ""


def fill_code(values: dict[str, str]) -> str:
    """The code with what it says of a program."""
    made = CODE.read_text(encoding="utf-8")
    for key, value in values.items():
        made = made.replace(f"@{key}@", value)
    return made


def completion_of(name: str) -> str:
    """The file of a program."""
    texts = texts_of(name)
    calls, own = calls_of(name, texts), own_words(name, texts)
    commands = [it for it in calls if it]
    arms = [arm(word, call) for word, call in calls.items()]
    values = {
        "SOURCE": f"what `{name} --help` prints",
        "NAME": name,
        "COMMANDS": " ".join(commands),
        "OWN_WORDS": " ".join(it for it in own if not it.startswith("-")),
        "DASHED": " ".join(it for it in own if it.startswith("-")),
        "COPIES": numbers(texts.usage),
        "VALUES": OTHERS,
        "CALLS": "\n".join(arms + ["    *) return 1 ;;"] * bool(commands)),
    }
    return fill_code(values)


def exclusions(parser: argparse.ArgumentParser, action: argparse.Action) -> list[str]:
    """The other options of a group of which one may be given."""
    groups = [it._group_actions for it in parser._mutually_exclusive_groups]
    others = [it for group in groups if action in group for it in group if it is not action]
    return [word for it in others for word in it.option_strings]


def value_arm(name: str, action: argparse.Action) -> str:
    """The line that says what an option's value can be."""
    if action.choices:
        words = " ".join(map(str, action.choices))
        offered = f"COMPREPLY=($(compgen -W '{words}' -- \"$current\"))"
    else:
        offered = f"_{name}_name FILE"
    return f"    {' | '.join(action.option_strings)}) {offered} ;;"


def completion_of_tool(name: str) -> str:
    """The file of a tool in Python."""
    parser = importlib.import_module(name).parser()
    given = [it for it in parser._actions if it.option_strings]
    (names,) = [it for it in parser._actions if not it.option_strings]
    options = [
        Option(word, int(it.nargs != 0), exclusions(parser, it), isinstance(it.default, list))
        for it in given
        for word in it.option_strings
    ]
    most = 1 if names.nargs is None else MANY
    arms = [value_arm(name, it) for it in given if it.choices or it.metavar == "FILE"]
    values = {
        "SOURCE": f"the parser of tools/{name}.py",
        "NAME": name,
        "COMMANDS": "",
        "OWN_WORDS": "",
        "DASHED": "",
        "COPIES": "",
        "VALUES": "\n".join([*arms, OTHERS]),
        "CALLS": arm("", Call([str(names.metavar)], most, options)),
    }
    return fill_code(values)


def main() -> int:
    parser = argparse.ArgumentParser(description="Makes the completions for bash.")
    parser.add_argument("--write", action="store_true", help="writes the files")
    parser.add_argument("--check", action="store_true", help="ends with 1 if a file differs")
    given = parser.parse_args()
    try:
        texts = {it: completion_of(it) for it in PROGRAMS}
        texts.update({it: completion_of_tool(it) for it in TOOLS})
    except (Unfit, OSError) as why:
        print(f"completion: {why}", file=sys.stderr)
        return 1
    files = {TOP / "completions" / name: text for name, text in texts.items()}
    old = [path for path, it in files.items() if not path.is_file() or path.read_text() != it]
    for path in old:
        if given.write:
            path.parent.mkdir(exist_ok=True)
            path.write_text(files[path], encoding="utf-8")
        print(f"{'written' if given.write else 'differs'}: {path.relative_to(TOP)}")
    if old and given.check and not given.write:
        print("completion: run `python3 tools/completion.py --write`", file=sys.stderr)
        return 1
    return 0


if __name__ == "__main__":
    sys.exit(main())
