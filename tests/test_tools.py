"""What the tools in Python share: the line of a failure, and files that are there once they are
whole. A small page stands in for the one that `make page` builds."""

from __future__ import annotations

import os
import resource
import shutil
import signal
import subprocess
import sys
from contextlib import contextmanager, suppress
from typing import Any, Iterator

import pytest

from children import comes_true
from commands import LIMIT, TOOLS, TOP, Outcome, run
from det_tool import whole_file, write_file
from record_bench import RecordBench

# A page takes the elements of its records in place of this mark.
PAGE = "<html><!--EMBEDDED--></html>\n"
RECORD = b"\0\1\2"
# What the page is with two such records.
ELEMENT = '<script type="text/plain" class="record" data-name="{}">AAEC</script>\n'
FILLED = f"<html>\n{ELEMENT.format('a.rec')}{ELEMENT.format('b.rec')}</html>\n"
TABLE = "t\n5\n"
STIMULUS = "stim 1\ncycle 5\nterminate\n"
FILES = ("a.rec", "b.rec", "log.csv", "page.html")
CONTENTS = [RECORD, RECORD, TABLE.encode(), PAGE.encode()]
# The words of a call that ends well, of each tool that writes a file.
CALLS = {
    "det_stimulus": (["log.csv", "--time", "t"], STIMULUS),
    "det_page": (["a.rec", "b.rec", "--page", "page.html"], FILLED),
}
NO_FILE = "No such file or directory"
# What a tool is given, its status, and its line after its name.
LINES = {
    "a missing record": ("det_record none.rec", 6, f"none.rec: read fault: {NO_FILE}"),
    "a folder": ("det_record . --csv cycles", 6, ".: read fault: Is a directory"),
    "a missing table": ("det_stimulus none.csv --time t", 6, f"none.csv: read fault: {NO_FILE}"),
    "a folder as a table": ("det_stimulus . --time t", 6, ".: read fault: Is a directory"),
    "a refused table": (
        "det_stimulus log.csv --time x",
        4,
        "log.csv: bad table: line 1 column x: no column has this name",
    ),
    "a stimulus that can't be written": (
        "det_stimulus log.csv --time t -o none/a.stim",
        7,
        f"none/a.stim: write fault: {NO_FILE}",
    ),
    "a missing record of a page": (
        "det_page a.rec none.rec --page page.html",
        6,
        f"none.rec: read fault: {NO_FILE}",
    ),
    "a missing page": ("det_page a.rec --page none", 6, f"none: read fault: {NO_FILE}"),
    "another page": (
        "det_page a.rec --page a.rec",
        6,
        "a.rec: read fault: it isn't a page that takes records",
    ),
    "a page that can't be written": (
        "det_page a.rec --page page.html -o none/page.html",
        7,
        f"none/page.html: write fault: {NO_FILE}",
    ),
}
# Words that don't fit, and how the line begins after `bad words: `.
BAD_WORDS = {
    "det_record": "the following arguments are required: RECORD",
    "det_record a.rec --csv frames": "argument --csv: invalid choice: 'frames'",
    "det_record a.rec --csv cycles --hdf5 x": "argument --hdf5: not allowed with argument --csv",
    "det_record a.rec b.rec": "unrecognized arguments: b.rec",
    "det_record a.rec --hdf5 ./a.rec": "--hdf5 ./a.rec: this file is read",
    "det_stimulus log.csv": "neither --time nor --event",
    "det_stimulus log.csv --unit s --exact": "neither --time nor --event",
    "det_stimulus log.csv --event x": "--event x: it takes EVENT=..",
    "det_stimulus log.csv --time": "argument --time: expected one argument",
    "det_stimulus log.csv --time t -o ./log.csv": "-o ./log.csv: this file is read",
    "det_page --page page.html": "0 records: a page takes 1 to 8",
    "det_page" + 9 * " a.rec": "9 records: a page takes 1 to 8",
    "det_page a.rec b.rec -o ./b.rec": "-o ./b.rec: this file is read",
    "det_page a.rec --page page.html -o ./page.html": "-o ./page.html: this file is read",
}


@pytest.fixture
def small(records: RecordBench) -> RecordBench:
    """A folder with two records, a table and a page."""
    for name, data in zip(FILES, CONTENTS):
        records.file(name, data)
    return records


def call(bench: RecordBench, text: str, **how: Any) -> Outcome:
    """Runs a tool with words that have no spaces."""
    tool, *words = text.split()
    return bench.tool(f"{tool}.py", *words, **how)


def names_in(bench: RecordBench) -> list[str]:
    return sorted(it.name for it in bench.folder.iterdir())


@pytest.mark.parametrize("text, status, line", LINES.values(), ids=LINES)
def test_line(text: str, status: int, line: str, small: RecordBench) -> None:
    """One line has the tool, the file, and what is wrong. Nothing is left in the folder."""
    given = call(small, text)
    assert given == Outcome(status, b"", f"{text.split()[0]}: {line}\n".encode())
    assert names_in(small) == sorted(FILES)


@pytest.mark.parametrize("text", BAD_WORDS)
def test_bad_words(text: str, small: RecordBench) -> None:
    """One line says what is wrong, and a hint where help is."""
    given, tool = call(small, text), text.split()[0]
    line, hint = given.err.decode().splitlines()
    assert (given.status, given.out, hint) == (2, b"", f"  see {tool} --help")
    assert line.startswith(f"{tool}: bad words: {BAD_WORDS[text]}")
    assert [(small.folder / it).read_bytes() for it in FILES] == CONTENTS


@pytest.mark.parametrize("page", ("det_page.html", "out/page/det_page.html"))
def test_page_of_the_tool(page: str, small: RecordBench) -> None:
    """Without --page the tool reads the installed page, or the built one. It can't be written."""
    tools = small.folder / "tools"
    tools.mkdir()
    for path in (TOP / "tools").glob("det_*.py"):
        shutil.copy(path, tools)
    (small.folder / page).parent.mkdir(parents=True, exist_ok=True)
    small.file(page, PAGE)
    words = [sys.executable, "-B", "tools/det_page.py", "a.rec", "b.rec"]
    assert run(words, small.folder).out.decode() == FILLED
    given = run([*words, "-o", page], small.folder)
    line = f"det_page: bad words: -o {page}: this file is read\n  see det_page --help\n"
    assert given == Outcome(2, b"", line.encode())
    assert (small.folder / page).read_text() == PAGE


OUTPUTS = ("det_record a.rec", "det_record a.rec --csv cycles")
OUTPUTS += tuple(f"{tool} {' '.join(words)}" for tool, (words, _) in CALLS.items())


@pytest.mark.parametrize("text", OUTPUTS)
def test_full_output(text: str, small: RecordBench) -> None:
    """Standard output has no name: the line has the file that was read."""
    small.file("a.rec", small.example("bank"))
    with open("/dev/full", "wb") as full:
        given = call(small, text, stdout=full)
    tool, name = text.split()[:2]
    line = f"{tool}: {name}: write fault: standard output: No space left on device\n"
    assert given == Outcome(7, b"", line.encode())


@pytest.mark.parametrize("tool", TOOLS)
def test_full_output_of_help(tool: str, small: RecordBench) -> None:
    """Help that can't be written is a write fault. No file was read."""
    with open("/dev/full", "wb") as full:
        given = call(small, f"{tool} --help", stdout=full)
    line = f"{tool}: --help: write fault: standard output: No space left on device\n"
    assert given == Outcome(7, b"", line.encode())


def test_name_of_two_lines(small: RecordBench) -> None:
    """A name can't make two lines of one."""
    given = small.tool("det_record.py", "a\nbad record.rec")
    line = f"det_record: a?bad record.rec: read fault: {NO_FILE}\n"
    assert given == Outcome(6, b"", line.encode())


@pytest.mark.parametrize("where", ("2>&-", "2> /dev/full"))
def test_without_standard_error(where: str, small: RecordBench) -> None:
    """If the line can't be written, the status is the same, and standard output has nothing."""
    words = ["sh", "-c", f'"$0" -B "$@" {where}', sys.executable]
    given = run([*words, TOP / "tools" / "det_record.py", "none.rec"], small.folder)
    assert given == Outcome(6, b"", b"")


@pytest.mark.parametrize("tool", CALLS)
def test_written_file(tool: str, small: RecordBench) -> None:
    """-o writes what standard output would get. A link stays one, and the file keeps its mode."""
    words, expected = CALLS[tool]
    assert small.tool(f"{tool}.py", *words).out.decode() == expected
    path = small.folder / "result"
    path.write_text("as before")
    path.chmod(0o640)
    (small.folder / "link").symlink_to(path)
    assert small.tool(f"{tool}.py", *words, "-o", "link") == Outcome(0, b"", b"")
    assert path.read_text() == expected and (small.folder / "link").is_symlink()
    assert path.stat().st_mode & 0o777 == 0o640
    assert names_in(small) == sorted([*FILES, "link", "result"])


def limit_files() -> None:
    resource.setrlimit(resource.RLIMIT_FSIZE, (1 << 12, 1 << 12))


@pytest.mark.parametrize("tool", CALLS)
def test_failed_write(tool: str, small: RecordBench) -> None:
    """A file that becomes too large leaves the one that was there, and nothing else."""
    small.file("page.html", PAGE + "x" * (1 << 13))
    small.file("log.csv", TABLE + "5\n" * (1 << 12))
    small.file("result", "as before")
    how: dict[str, Any] = {"preexec_fn": limit_files}
    given = small.tool(f"{tool}.py", *CALLS[tool][0], "-o", "result", **how)
    assert given == Outcome(7, b"", f"{tool}: result: write fault: File too large\n".encode())
    assert (small.folder / "result").read_text() == "as before"
    assert names_in(small) == sorted([*FILES, "result"])


@pytest.mark.parametrize("tool", CALLS)
def test_names_of_the_user(tool: str, small: RecordBench) -> None:
    """A file or a link whose name looks like that of a temporary file stays as it is. A new file
    has the mode that the umask gives it."""
    words, expected = CALLS[tool]
    small.file(".result.new", "of the user")
    (small.folder / ".other.new").symlink_to("a.rec")
    for name in ("result", "other"):
        how: dict[str, Any] = {"preexec_fn": lambda: os.umask(0o027)}
        assert small.tool(f"{tool}.py", *words, "-o", name, **how) == Outcome(0, b"", b"")
        assert (small.folder / name).read_text() == expected
        assert (small.folder / name).stat().st_mode & 0o777 == 0o640
    assert (small.folder / ".result.new").read_text() == "of the user"
    assert (small.folder / ".other.new").is_symlink()
    assert (small.folder / "a.rec").read_bytes() == RECORD
    assert names_in(small) == sorted([*FILES, ".other.new", ".result.new", "other", "result"])


def test_two_at_once(small: RecordBench) -> None:
    """Two calls can write one file at a time. It is that of the call that ends last."""
    path = small.folder / "result"
    with whole_file(str(path)) as first:
        first.write_text("of the first call")
        write_file(str(path), ["of the second call"])
        assert path.read_text() == "of the second call"
    assert path.read_text() == "of the first call"
    assert names_in(small) == sorted([*FILES, "result"])


def test_temporary_file(small: RecordBench) -> None:
    """A stimulus goes to a temporary file first. The line says that this can't be written."""
    small.file("log.csv", TABLE + "5\n" * (1 << 12))
    how: dict[str, Any] = {"preexec_fn": limit_files}
    given = small.tool("det_stimulus.py", *CALLS["det_stimulus"][0], **how)
    line = "det_stimulus: log.csv: write fault: a temporary file: File too large\n"
    assert given == Outcome(7, b"", line.encode())


@pytest.mark.parametrize("tool", CALLS)
def test_pipe(tool: str, small: RecordBench) -> None:
    """What is no plain file is written, and no file takes its place."""
    words, expected = CALLS[tool]
    pipe = small.folder / "pipe"
    os.mkfifo(pipe)
    reader = os.open(pipe, os.O_RDONLY | os.O_NONBLOCK)
    try:
        assert small.tool(f"{tool}.py", *words, "-o", "pipe") == Outcome(0, b"", b"")
        assert os.read(reader, 1 << 12).decode() == expected
    finally:
        os.close(reader)
    assert pipe.is_fifo()


SIGNALS = (signal.SIGHUP, signal.SIGINT, signal.SIGTERM)


@contextmanager
def reading_tool(bench: RecordBench, text: str, how: Any = signal.SIG_DFL) -> Iterator[Any]:
    """A tool that has opened the pipe `pipe` to read, and a file that writes to the pipe."""
    tool, *words = text.split()
    command = [sys.executable, TOP / "tools" / f"{tool}.py", *words]
    pipe, found = bench.folder / "pipe", []
    os.mkfifo(pipe)

    def handle_signals() -> None:
        for number in SIGNALS:
            signal.signal(number, how)

    def is_open() -> bool:
        with suppress(OSError):
            found.append(os.open(pipe, os.O_WRONLY | os.O_NONBLOCK))
        return bool(found)

    pipes: Any = {"stdout": subprocess.PIPE, "stderr": subprocess.PIPE}
    with subprocess.Popen(command, cwd=bench.folder, preexec_fn=handle_signals, **pipes) as child:
        try:
            assert comes_true(is_open, LIMIT)
            with open(found[0], "wb", buffering=0) as writer:
                yield child, writer
        finally:
            child.kill()


def end_of(child: Any) -> Outcome:
    out, err = child.communicate(timeout=LIMIT)
    return Outcome(child.returncode, out, err)


def end_by(child: Any, number: signal.Signals) -> Outcome:
    """Sends a signal until the tool ends: Python sees one that comes just before a call of the
    system only after that call."""

    def is_over() -> bool:
        child.send_signal(number)
        return child.poll() is not None

    assert comes_true(is_over, LIMIT)
    return end_of(child)


@pytest.mark.parametrize("number", SIGNALS)
@pytest.mark.parametrize("text", ("det_record pipe", "det_page pipe --page page.html"))
def test_signal(text: str, number: signal.Signals, small: RecordBench) -> None:
    """A signal ends a tool as it ends other programs, without a line."""
    with reading_tool(small, text) as (child, _):
        assert end_by(child, number) == Outcome(-number, b"", b"")


@pytest.mark.parametrize("number", SIGNALS)
def test_signal_while_writing(number: signal.Signals, small: RecordBench) -> None:
    """After a signal the result is as it was before, and the temporary file is gone."""
    small.file("result", "as before")
    with reading_tool(small, "det_stimulus pipe --time t -o result") as (child, writer):
        writer.write(TABLE.encode())
        assert comes_true(lambda: len(names_in(small)) == len(FILES) + 3, LIMIT)
        assert end_by(child, number) == Outcome(-number, b"", b"")
    assert (small.folder / "result").read_text() == "as before"
    assert names_in(small) == sorted([*FILES, "pipe", "result"])


def test_ignored_signals(small: RecordBench) -> None:
    """What ignores a signal, as `nohup` does, has the tool ignore it."""
    with reading_tool(small, "det_stimulus pipe --time t", signal.SIG_IGN) as (child, writer):
        for number in SIGNALS:
            child.send_signal(number)
        writer.write(TABLE.encode())
        writer.close()
        assert end_of(child) == Outcome(0, STIMULUS.encode(), b"")
