"""The completions for bash: made from the programs' texts, and what they offer.

Bash itself reads what is typed, from a pipe as from a terminal. It splits the line into words,
calls the function that a completion registers, and puts what is offered into the line. Nothing but
bash is needed.
"""

from __future__ import annotations

import re
import shlex
import shutil
import sys
import tempfile
from pathlib import Path

import pytest

from commands import NAMES, TOOLS, TOP, Bench, Outcome, run
from test_pages import COMMANDS, OPTIONS, takes

SOURCES = ("tools/*.py", "tools/completion.bash", "completions/*", "crates/*/src/*_usage.rt")
STIMULUS_OPTIONS = {"--time", "--unit", "--event", "--scale", "--range", "--exact", "--delimiter"}
STIMULUS_OPTIONS |= {"-o", "-h", "--help", "--version"}
TEXTS = ("crates/*/src/pages.rt", "crates/cli_words/src/table.rt")
# What bash reads when it starts: a tab gives the offers to a file, and Ctrl-T the line.
SCRIPT = """PS1=; source {completion}
registered=$(complete -p {name}); function=${{registered#*-F }}; function=${{function%% *}}
offer() {{ "$function" "$@" 2>{room}/errors; printf '%s\\n' "${{COMPREPLY[@]}}" >{room}/offers; }}
complete -F offer {name}
bind -x '"\\C-t": printf "%s" "$READLINE_LINE" >{room}/line'
"""
SETTINGS = ("HISTFILE=/dev/null", "INPUTRC=/dev/null", "TERM=dumb")
# Ctrl-U empties the line, so that it isn't run.
KEYS = "{}\t\x14\x15"
FILES = ("a.toml", "b.toml", "a.stim", "a.rec", "b.rec", "a.csv", "folder/c.toml", "other/plain")
NUMBERS = {str(it) for it in range(2, 9)}
FIRST = {*COMMANDS, "help", "version"}
MANIFESTS, FOLDERS = {"a.toml", "b.toml"}, {"folder", "other"}
RECORDS = {"a.rec", "b.rec", *FOLDERS}
# What is typed, the last word unfinished, and what is offered for that word.
OFFERS = {
    "det ": FIRST,
    "det s": {"show", "sim", "salvage"},
    "det -": {"--help", "-h", "--version", "-V"},
    "det --h": {"--help"},
    "det --help ": set(COMMANDS),
    "det help sh": {"show"},
    "det version ": set(),
    "det unknown ": set(),
    "det record ": MANIFESTS | FOLDERS,
    "det record b": {"b.toml"},
    "det record folder/": {"folder/c.toml"},
    "det record other/": {"other/plain"},
    "det record a.toml ": {"a.stim"} | FOLDERS,
    "det record a.toml a.stim ": {"--seed", "--workers", "--strict"},
    "det record a.toml a.stim --w": {"--workers"},
    "det record a.toml a.stim --workers ": set(),
    "det record a.toml a.stim --workers 4 ": {"--seed", "--strict"},
    "det record --seed 7 ": MANIFESTS | FOLDERS,
    "det record --seed 7 a.toml -": {"--workers", "--strict"},
    "det record -": {"--seed", "--workers", "--strict", "--help"},
    "det show a.rec ": {"--reports", "--cycle", "--json"},
    "det show a.rec --reports -": set(),
    "det show a.rec --cycle 2 ": {"--json"},
    "det show a.rec --json ": {"--cycle"},
    "det show --json --cycle 2 a.rec ": set(),
    "det demo ": {"a.stim"} | FOLDERS,
    "det demo a.stim ": set(),
    "det sim ": set(),
    "det chain a.toml ": MANIFESTS | FOLDERS,
    "det compare a.rec ": RECORDS,
    "det compare" + 7 * " a.rec" + " ": RECORDS,
    "det compare" + 8 * " a.rec" + " ": set(),
    "det vote a.rec a.rec a.rec ": RECORDS | {"--dissent"},
    "det vote" + 7 * " a.rec" + " ": {"--dissent"},
    "det_lane det_t": {"det_twin"},
    "det_lane --": {"--help", "--version"},
    "det_lane det ": NUMBERS,
    "det_lane det 3 ": MANIFESTS | FOLDERS,
    "det_lane det 3 a.toml ": {"a.stim"} | FOLDERS,
    "det_lane det 3 a.toml a.stim ": {"--timeout", "--"},
    "det_lane det 3 a.toml a.stim --timeout ": set(),
    "det_lane det 3 a.toml a.stim --timeout 5 ": {"--"},
    "det_lane det 3 a.toml a.stim -- ": set(),
    "det_lane det 3 a.toml a.stim -- --s": set(),
    "det_twin ": NUMBERS,
    "det_twin 3 a.toml a.stim ": {"--flip", "--strict"},
    "det_twin 3 a.toml a.stim --flip ": set(),
    "det_twin 3 a.toml a.stim --flip 1 ": set(),
    "det_twin 3 a.toml a.stim --flip 1 4 ": {"--strict"},
    "det_record ": RECORDS,
    "det_record a.rec ": {"--csv", "--hdf5", "-h", "--help", "--version"},
    "det_record --v": {"--version"},
    "det_record a.rec --csv ": {"cycles", "elements", "samples"},
    "det_record a.rec --csv cycles --": {"--help", "--version"},
    "det_record a.rec --hdf5 a.": {"a.toml", "a.stim", "a.rec", "a.csv"},
    "det_stimulus ": {"a.csv", *FOLDERS},
    "det_stimulus a.csv ": STIMULUS_OPTIONS,
    "det_stimulus a.csv --event 0=a ": STIMULUS_OPTIONS,
    "det_stimulus --event 0=a ": {"a.csv", *FOLDERS},
    "det_stimulus --event 0=a --scale 0=1/3 a": {"a.csv"},
    "det_stimulus --event 0=a=b:c ": {"a.csv", *FOLDERS},
    'det_stimulus --event 0="a b" ': {"a.csv", *FOLDERS},
    "det_stimulus --event 0=": set(),
    "det_stimulus --event 0=a": set(),
    "det_stimulus --event 0= ": {"a.csv", *FOLDERS},
    "det_stimulus --time=t ": {"a.csv", *FOLDERS},
    "det_stimulus --time=t --unit=": {"ns", "us", "ms", "s"},
    "det_stimulus --time=t --unit=m": {"ms"},
    "det_stimulus --time=t a.csv --ti": set(),
    "det_stimulus a.csv --time t --": STIMULUS_OPTIONS - {"--time", "-o", "-h"},
    "det_stimulus a.csv --unit ": {"ns", "us", "ms", "s"},
    "det_stimulus a.csv --time ": set(),
    "det_page a.rec b.rec ": RECORDS | {"-o", "--page", "-h", "--help", "--version"},
    "det_page a.rec -o b": {"b.toml", "b.rec"},
    "det_page a.rec --page=b": {"b.toml", "b.rec"},
}


def complete(bench: Bench, typed: str, top: Path = TOP) -> tuple[list[str], str]:
    """What is offered for the last word of a line, and the line after a tab."""
    name = typed.split()[0]
    with tempfile.TemporaryDirectory() as room:
        paths = {"room": room, "completion": str(top / "completions" / name)}
        values = {it: shlex.quote(path) for it, path in paths.items()}
        (Path(room) / "start").write_text(SCRIPT.format(name=name, **values))
        # Without a terminal, which bash would take from the tests.
        how = {"input": KEYS.format(typed).encode(), "start_new_session": True}
        words = ["env", *SETTINGS, "bash", "--rcfile", f"{room}/start", "-i"]
        given = bench.run(*words, **how)
        errors, found, line = ((Path(room) / it).read_text() for it in ("errors", "offers", "line"))
    assert (given.status, errors) == (0, ""), f"{given} {errors}"
    return found.split("\n")[:-1] if found != "\n" else [], line


def offers(bench: Bench, typed: str, top: Path = TOP) -> list[str]:
    return complete(bench, typed, top)[0]


@pytest.fixture
def typing(bench: Bench) -> Bench:
    """A folder with the files that are offered."""
    for name in FILES:
        (bench.folder / name).parent.mkdir(exist_ok=True)
        bench.file(name, "")
    return bench


@pytest.mark.parametrize("typed", OFFERS)
def test_offers(typed: str, typing: Bench) -> None:
    given = offers(typing, typed)
    assert set(given) == OFFERS[typed]
    assert len(given) == len(set(given)), "it offers a word twice"


@pytest.mark.parametrize("command", COMMANDS)
def test_options_are_those_of_the_program(command: str, bench: Bench) -> None:
    """A command is offered the options that the program takes with it, and no other ones."""
    given = set(offers(bench, f"det {command} -")) - {"--help"}
    assert given == {it for it in OPTIONS if takes(bench, command, it)}


def test_any_file_for_a_result(typing: Bench) -> None:
    """All files are offered for the value of -o, whatever their endings are."""
    typing.file("ends with.", "")
    names = {it.name for it in typing.folder.iterdir()}
    assert set(offers(typing, "det_page a.rec -o ")) == names >= {"ends with.", *FOLDERS}


@pytest.mark.parametrize("tool", TOOLS)
def test_options_are_those_of_the_help(tool: str, bench: Bench) -> None:
    """A tool in Python is offered the options that its help lists, and no other ones."""
    given = run([sys.executable, "-B", TOP / "tools" / f"{tool}.py", "--help"], bench.folder)
    # An option, its value, and after more spaces what it means.
    listed = re.findall(r"^  (-.*?)(?:  .*)?$", given.out.decode(), re.MULTILINE)
    words = {word for line in listed for word in re.findall(r"(?<!\S)--?\w+", line)}
    assert set(offers(bench, f"{tool} -")) == words >= {"-h", "--help", "--version"}


# What is typed, and the line after a tab. Bash keeps what is before `=` and `:`.
LINES = {
    "det record my": "det record my\\ file.toml ",
    "det record 1": "det record 1\\=2\\:3.toml ",
    "det record 1=": "det record 1=2\\:3.toml ",
    "det record 1=2": "det record 1=2\\:3.toml ",
    "det record 1=2:": "det record 1=2:3.toml ",
    "det record a.toml 1=2:": "det record a.toml 1=2:3.stim ",
    "det record 1=2:3.toml a.s": "det record 1=2:3.toml a.stim ",
    "det_stimulus --event 0=a a": "det_stimulus --event 0=a a.csv ",
    "det_stimulus --unit=m": "det_stimulus --unit=ms ",
    "det_record a.rec --hdf5=other/": "det_record a.rec --hdf5=other/plain ",
}


@pytest.mark.parametrize("typed", LINES)
def test_line(typed: str, typing: Bench) -> None:
    """A name is one word of the line, whatever is in it."""
    for name in ("my file.toml", "1=2:3.toml", "1=2:3.stim"):
        typing.file(name, "")
    assert complete(typing, typed)[1] == LINES[typed]


def completion(top: Path, word: str) -> Outcome:
    """Runs the tool of a copy of the repository."""
    return run([sys.executable, "-B", top / "tools" / "completion.py", word], top)


@pytest.fixture
def copy(tmp_path: Path) -> Path:
    """A folder with the tool and what it reads."""
    for pattern in (*SOURCES, *TEXTS):
        for path in TOP.glob(pattern):
            to = tmp_path / path.relative_to(TOP)
            to.parent.mkdir(parents=True, exist_ok=True)
            shutil.copy(path, to)
    return tmp_path


def test_files_are_those_of_their_sources() -> None:
    assert completion(TOP, "--check") == Outcome(0, b"", b"")
    assert {it.name for it in (TOP / "completions").iterdir()} == {*NAMES, *TOOLS}


@pytest.mark.parametrize("name", (*NAMES, *TOOLS))
def test_lines_are_short(name: str) -> None:
    lines = (TOP / "completions" / name).read_text().splitlines()
    assert [it for it in lines if len(it) > 100] == []


PAGES = "crates/det_cli/src/pages.rt"
CHANGES = {
    "a file": ("det", "completions/det", "--cycle:1:", "--cycle:0:"),
    "a page": ("det", PAGES, "det show RECORD [--rep", "det show RECORD [--xrep"),
    "the table": ("det", "crates/cli_words/src/table.rt", '"compare", 2, 8', '"compare", 2, 9'),
    "the code": ("det", "tools/completion.bash", "sort -u", "sort"),
    "a parser": ("det_record", "tools/det_record.py", '"--csv", choices', '"--table", choices'),
    "choices": ("det_stimulus", "tools/stimulus_values.py", '{"ns": 1, ', '{"ns": 1, "ps": 1, '),
}


@pytest.mark.parametrize("name, source, old, new", CHANGES.values(), ids=CHANGES)
def test_a_change_is_reported_until_the_file_is_written(
    copy: Path, name: str, source: str, old: str, new: str
) -> None:
    text = (copy / source).read_text()
    assert text.count(old) == 1
    (copy / source).write_text(text.replace(old, new))
    done = completion(copy, "--check")
    assert done.status == 1 and f"differs: completions/{name}\n".encode() in done.out, str(done)
    assert completion(copy, "--write").status == 0
    assert completion(copy, "--check") == Outcome(0, b"", b"")


# Forms of a synopsis that no command has: an option with two values, and all further words.
SHOW = "[--reports | [--cycle C] [--all]] [--flip K F] [-- WORD..]"
OTHER_OFFERS = {
    "det show a ": {"--reports", "--cycle", "--all", "--flip", "--"},
    "det show a --reports ": {"--flip", "--"},
    "det show a --all ": {"--cycle", "--flip", "--"},
    "det show a --cycle 1 --all -": {"--flip", "--"},
    "det show a --flip 1 ": set(),
    "det show a -- b c ": set(),
}


@pytest.mark.parametrize("typed", OTHER_OFFERS)
def test_other_forms(typed: str, copy: Path, bench: Bench) -> None:
    pages = copy / "crates/det_cli/src/pages.rt"
    text = pages.read_text()
    head = re.search(r"^det show RECORD .*$", text, re.MULTILINE)
    assert head
    pages.write_text(text.replace(head[0], f"det show RECORD {SHOW}"))
    assert completion(copy, "--write").status == 0
    assert set(offers(bench, typed, copy)) == OTHER_OFFERS[typed]
