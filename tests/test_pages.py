"""The usage of each program and the pages of `det`: their size, and what a page says."""

from __future__ import annotations

import re

import pytest

from commands import TOP, Bench

TABLE = TOP / "crates" / "cli_words" / "src" / "table.rt"
MOST_COLUMNS = 80
PAGE_LINES = 40
USAGE_LINES = 60
BAD_WORDS = 2
# The names that each command takes, and the statuses with which it ends.
COMMANDS = {
    "demo": ("s", "024678"),
    "record": ("m s", "0234678"),
    "show": ("r", "025678"),
    "needs": ("m", "023678"),
    "sim": ("7", "0278"),
    "replay": ("r", "025678"),
    "check": ("r", "0125678"),
    "upgrade": ("r", "0125678"),
    "compare": ("r r", "0125678"),
    "vote": ("r r r", "026789"),
    "salvage": ("r", "025678"),
    "chain": ("m m s", "0234678"),
}
# Each option, with a value where it takes one.
OPTIONS = {
    "--workers": "1",
    "--seed": "1",
    "--cycle": "1",
    "--reports": "",
    "--dissent": "",
    "--strict": "",
    "--json": "",
}


def text_by(bench: Bench, program: str, *words: str) -> str:
    """The text that words ask for. It is run in an empty folder, so that no file is opened."""
    given = bench.run(program, *words)
    assert (given.status, given.err) == (0, b""), str(given)
    return given.out.decode()


def check_size(text: str, most: int) -> None:
    """Fails where a text has too many lines or columns, or no end of line."""
    assert text.endswith("\n")
    assert len(text.splitlines()) <= most
    assert [line for line in text.splitlines() if len(line.encode()) > MOST_COLUMNS] == []


def check_statuses(text: str, statuses: str) -> None:
    """Fails where a text has other statuses."""
    lines = text.split("Exit statuses:\n")[1]
    assert "".join(digit for digit in "0123456789" if f"  {digit}  " in lines) == statuses


def takes(bench: Bench, command: str, option: str) -> bool:
    """Whether a command takes an option."""
    words = [command, *COMMANDS[command][0].split(), option, *OPTIONS[option].split()]
    return bench.run("det", *words).status != BAD_WORDS


@pytest.mark.parametrize("command", COMMANDS)
def test_page(command: str, bench: Bench) -> None:
    """A page begins with its command, and has its options and its statuses and no others."""
    text = text_by(bench, "det", "--help", command)
    assert text.startswith(f"det {command} ")
    listed = [option for option in OPTIONS if option in text]
    assert listed == [option for option in OPTIONS if takes(bench, command, option)]
    check_size(text, PAGE_LINES)
    check_statuses(text, COMMANDS[command][1])


def test_usage(bench: Bench) -> None:
    """The usage has each command and each option of the table, and all statuses."""
    text, table = text_by(bench, "det", "--help"), TABLE.read_text()
    commands = re.findall(r'Row::files\("([^"]+)"', table)
    options = re.findall(r'OptionWord::\w+ => \("([^"]+)"', table)
    assert {it for it in commands if not it.startswith("--")} == set(COMMANDS)
    assert set(options) == set(OPTIONS)
    assert [it for it in commands if f"\n  det {it} " not in text] == []
    assert [it for it in options if it not in text] == []
    check_size(text, USAGE_LINES)
    check_statuses(text, "0123456789")


@pytest.mark.parametrize("program", ("det_lane", "det_twin"))
def test_usage_size(program: str, bench: Bench) -> None:
    """The usage of a program without commands fits a terminal, as a page does."""
    check_size(text_by(bench, program, "--help"), PAGE_LINES)
