#!/usr/bin/env python3
"""Makes the manual pages from the programs' own texts and docs/manual/.

    python3 tools/manual.py            lists the pages that differ from what their sources give
    python3 tools/manual.py --write    writes docs/det.1, docs/det_lane.1 and docs/det_twin.1
    python3 tools/manual.py --check    ends with 1 if a page differs

The text that a program prints for `--help` gives the page its name, its synopsis, its
arguments with their meaning and its statuses. For `det`, the text of `--help COMMAND` gives a part
on each command.
docs/manual/NAME.txt has the rest. There, and in the programs' texts,

- a line in capitals, without a space before it, begins a section (in docs/manual/ only);
- a line with two spaces before it is an item: a term, two or more spaces, and what it means. A
  deeper line continues it;
- lines with four spaces before them, after an empty line, are an example, and are kept as they are;
- other lines up to an empty line are a paragraph. Text between backquotes is printed bold, and
  names in capitals in a synopsis are printed italic.

The section EXIT STATUS has an item for each status of the program, with what its name doesn't say.
A section SYNOPSIS follows the calls, and a section DESCRIPTION comes before the usage's own text.
Python's standard library is all that this needs.
"""

from __future__ import annotations

import argparse
import re
import sys
from dataclasses import dataclass
from pathlib import Path

TOP = Path(__file__).resolve().parent.parent
PROGRAMS = ("det", "det_lane", "det_twin")
CONSTANT = re.compile(r'^pub const (\w+): &str = "(?:\\\n)?(.*?)";$', re.M | re.S)
ITEM = re.compile(r"^  (\S+(?: \S+)*)  +(\S.*)$")
STATUS = re.compile(r"(\d+)  ([a-z]+(?: [a-z]+)*)")
STATUSES_HEAD = "Exit statuses:\n"
EXIT_STATUS = "EXIT STATUS"
# The most characters of what a short item means.
SHORT = 50
HEAD = r""".\" Made by tools/manual.py from the texts of {name} and docs/manual/{name}.txt.
.\" View it by: man -l docs/{name}.1
.TH {title} 1 "" "{version}" "User commands"
.SH NAME
{name} \- {brief}
"""


class Unfit(Exception):
    """The sources of a page don't fit together; the text says where."""


@dataclass(frozen=True)
class Texts:
    """What a program prints: its usage, its version, and the pages of its commands."""

    usage: str
    version: str
    pages: dict[str, str]


def constants(path: Path) -> dict[str, str]:
    """The text constants of a source file."""
    found = CONSTANT.findall(path.read_text(encoding="utf-8"))
    return {name: re.sub(r"\\(.)", unescaped, text) for name, text in found}


def unescaped(match: re.Match) -> str:
    return {"n": "\n"}.get(match[1], match[1])


def texts_of(name: str) -> Texts:
    """The texts of a program: those of the file `*_usage.rt` whose usage begins with its name."""
    for path in sorted(TOP.glob("crates/*/src/*_usage.rt")):
        found = constants(path)
        if found.get("USAGE", "").startswith(f"{name}: "):
            pages = path.with_name("pages.rt")
            given = constants(pages) if pages.is_file() else {}
            commands = {key.lower(): text for key, text in given.items()}
            return Texts(found["USAGE"], found["VERSION"].strip(), commands)
    raise Unfit(f"no file *_usage.rt has the usage of {name}")


def sections_of(name: str) -> dict[str, str]:
    """The sections of docs/manual/NAME.txt, by their headings."""
    text = (TOP / "docs" / "manual" / f"{name}.txt").read_text(encoding="utf-8")
    parts = re.split(r"^([A-Z][A-Z ]+)\n", text, flags=re.M)
    return {head: part.strip("\n") for head, part in zip(parts[1::2], parts[2::2])}


def escaped(text: str) -> str:
    """Text as the formatter takes it, with what is between backquotes in bold."""
    text = text.replace("\\", "\\e").replace("-", "\\-")
    text = re.sub(r"`([^`]+)`", r"\\fB\1\\fR", text)
    return "\n".join(f"\\&{it}" if it[:1] in (".", "'") else it for it in text.split("\n"))


def marked(words: str) -> str:
    """The words of a synopsis: names in italics, everything else but brackets in bold."""
    text = escaped(words)
    text = re.sub(r"(?<![\w\\])([A-Z]+)(?!\w)", r"\\fI\1\\fR", text)
    return re.sub(r"(?<![\w\\])((?:\\-)*[a-z]+)(?!\w)", r"\\fB\1\\fR", text)


def one_a_line(text: str) -> str:
    """A paragraph with each sentence on a line of its own, as manual pages have it."""
    joined = " ".join(line.strip() for line in text.splitlines())
    return "\n".join(escaped(it) for it in re.split(r"(?<=[a-z`)0-9][.:]) (?=[A-Z`])", joined))


def items(lines: list[str]) -> list[tuple[str, str]]:
    """Terms and what they mean. A line that begins a term and has no meaning takes the next one."""
    found: list[tuple[str, str]] = []
    for line in lines:
        item = ITEM.match(line) if not line.startswith("   ") else None
        if item:
            found.append((item[1], item[2]))
        elif line.startswith("   ") and found:
            found[-1] = (found[-1][0], f"{found[-1][1]} {line.strip()}")
        else:
            raise Unfit(f"neither an item nor a part of one: {line!r}")
    return found


def item(term: str, meaning: str, width: str = "") -> str:
    return f".TP{width}\n{marked(term)}\n{one_a_line(meaning)}\n"


def item_list(pairs: list[tuple[str, str]]) -> str:
    """Items one after the other; those that are short are two columns, like a table."""
    is_short = all(len(meaning) < SHORT for _, meaning in pairs)
    width = f" {max(len(term) for term, _ in pairs) + 3}n" if is_short else ""
    return "".join(item(*pair, width) for pair in pairs)


def block(text: str) -> str:
    """A paragraph, a list of items, or an example."""
    lines = text.splitlines()
    if all(line.startswith("    ") for line in lines):
        kept = "\n".join(escaped(line[4:]) for line in lines)
        return f".PP\n.EX\n{kept}\n.EE\n"
    if lines[0].startswith("  "):
        return item_list(items(lines))
    return f".PP\n{one_a_line(text)}\n"


def blocks(text: str) -> str:
    """What stands between empty lines, one after the other."""
    return "".join(block(it) for it in re.split(r"\n\n+", text.strip("\n")) if it)


def first_lines(usage: str) -> list[str]:
    """The lines of a usage that show how the program is called, each with its meaning."""
    return usage.split("\n\n")[1].splitlines()


def command_order(texts: Texts) -> list[str]:
    """The commands that have pages, in the order of the usage."""
    order = re.findall(r"^  det ([a-z]+)", "\n".join(first_lines(texts.usage)), re.M)
    if sorted(order) != sorted(texts.pages):
        raise Unfit(f"the usage of det has the commands {order}, its pages are {[*texts.pages]}")
    return order


def statuses_of(text: str) -> dict[int, str]:
    """The statuses of a usage or a page, with their names."""
    found = STATUS.findall(text.split(STATUSES_HEAD)[1])
    return {number: name for number, name in sorted((int(it), name) for it, name in found)}


def synopsis(name: str, texts: Texts) -> str:
    """How the program is called: the first lines of each page, or of the usage."""
    calls = [texts.pages[it].split("\n\n")[0] for it in command_order(texts)]
    if not texts.pages:
        calls = [line.strip() for line in first_lines(texts.usage) if f" {name} --" not in line]
    calls += [f"{name} --help [COMMAND]" if texts.pages else f"{name} --help"]
    calls += [f"{name} --version"]
    return ".SH SYNOPSIS\n" + "".join(call(name, it.split(" ", 1)[1]) for it in calls)


def call(name: str, words: str) -> str:
    """One way to call the program. The command of `det` is on a line of its own."""
    parts = words.split(" ", 1) if name == "det" else ["", words]
    head = [f".SY {name}"] + [f".B {escaped(it)}" for it in parts[:1] if it]
    return "\n".join([*head, *[marked(it) for it in parts[1:]], ".YS"]) + "\n"


def usage_prose(texts: Texts) -> str:
    """What a usage says between its words and its statuses."""
    parts = texts.usage.split(STATUSES_HEAD)[0].strip("\n").split("\n\n")
    return blocks("\n\n".join(parts[2:]))


def help_items(name: str, texts: Texts) -> str:
    """`--help` and `--version`, with what the usage says of them."""
    wanted, found, is_in = (f"  {name} --help", f"  {name} --version"), [], False
    for line in first_lines(texts.usage):
        is_in = line.startswith(wanted) or (is_in and line.startswith("   "))
        found += [line.replace(f"  {name} ", "  ", 1)] if is_in else []
    return item_list(items(found))


def listed(numbers: list[int]) -> str:
    return ", ".join(map(str, numbers[:-1])) + f" or {numbers[-1]}"


def command(page: str) -> str:
    """The part on a command: its page, with its statuses in one line."""
    body, _ = page.split(STATUSES_HEAD)
    words, rest = body.split("\n\n", 1)
    ends = f"Ends with status {listed(list(statuses_of(page)))}."
    return f".SS {marked(words.split(' ', 1)[1])}\n{blocks(rest)}.PP\n{ends}\n"


def commands(texts: Texts) -> str:
    """The parts on the commands."""
    return ".SH COMMANDS\n" + "".join(command(texts.pages[it]) for it in command_order(texts))


def exit_status(name: str, texts: Texts, text: str) -> str:
    """Each status with its name, and what docs/manual/ adds to it."""
    listing, *rest = re.split(r"\n\n+", text)
    meanings = {int(term): meaning for term, meaning in items(listing.splitlines())}
    names = statuses_of(texts.usage)
    if set(meanings) != set(names):
        raise Unfit(f"docs/manual/{name}.txt has the statuses {[*meanings]}, not {[*names]}")
    parts = [
        f".TP\n.B {number}\n{names[number].capitalize()}.\n{one_a_line(meanings[number])}\n"
        for number in names
    ]
    return "".join(parts) + blocks("\n\n".join(rest))


def page_of(name: str) -> str:
    """The manual page of a program."""
    texts, sections = texts_of(name), sections_of(name)
    brief = texts.usage.split("\n")[0].split(": ", 1)[1]
    made = HEAD.format(name=name, title=name.upper(), version=texts.version, brief=escaped(brief))
    made += synopsis(name, texts) + blocks(sections.pop("SYNOPSIS", ""))
    made += f".SH DESCRIPTION\n{blocks(sections.pop('DESCRIPTION'))}{usage_prose(texts)}"
    made += commands(texts) if texts.pages else ""
    made += f".SH HELP\n{help_items(name, texts)}"
    for head, text in sections.items():
        body = exit_status(name, texts, text) if head == EXIT_STATUS else blocks(text)
        made += f".SH {head}\n{body}"
    # A paragraph right after a heading needs no call.
    return re.sub(r"(\.S[HS] [^\n]+\n)\.PP\n", r"\1", made)


def main() -> int:
    parser = argparse.ArgumentParser(description="Makes the manual pages.")
    parser.add_argument("--write", action="store_true", help="writes the pages")
    parser.add_argument("--check", action="store_true", help="ends with 1 if a page differs")
    given = parser.parse_args()
    try:
        pages = {TOP / "docs" / f"{name}.1": page_of(name) for name in PROGRAMS}
    except (Unfit, OSError) as why:
        print(f"manual: {why}", file=sys.stderr)
        return 1
    old = [path for path, it in pages.items() if not path.is_file() or path.read_text() != it]
    for path in old:
        if given.write:
            path.write_text(pages[path], encoding="utf-8")
        print(f"{'written' if given.write else 'differs'}: {path.relative_to(TOP)}")
    if old and given.check and not given.write:
        print("manual: run `python3 tools/manual.py --write`", file=sys.stderr)
        return 1
    return 0


if __name__ == "__main__":
    sys.exit(main())
