"""What det_record, det_stimulus and det_page share: `--version`, the line of a failure, and how an
output is written. Apart from them, because each of them is a program.

The line is `TOOL: NAME: KIND: WHY`. NAME is the file that can't be read, written or taken. If
standard output can't be written, it is the file that was read, or `--help`. On bad words there is
no NAME. A character that can't be printed is shown as `?`, so a line is one line.
"""

from __future__ import annotations

import argparse
import os
import re
import signal
import stat
import sys
import tempfile
from contextlib import contextmanager, suppress
from pathlib import Path
from typing import Any, Callable, Iterable, Iterator, NoReturn, Optional, Sequence, TextIO

# One folder up is the top of a repository, or share/det of an installation.
VERSION = Path(__file__).resolve().parent.parent / "VERSION"
STANDARD_OUTPUT, STANDARD_ERROR = 1, 2
# The system's number in a text of HDF5.
OF_HDF5 = re.compile(r"\berrno = (\d+)")
SIGNALS = (signal.SIGHUP, signal.SIGINT, signal.SIGTERM)
# The temporary files that a signal removes.
temporary_names: set[str] = set()
BAD_WORDS, BAD_TABLE, BAD_RECORD, NOT_READ, NOT_WRITTEN, NO_PACKAGE = 2, 4, 5, 6, 7, 11


class Failed(Exception):
    """A tool ends with this status, and with this text after its name on standard error."""

    def __init__(self, status: int, text: str) -> None:
        super().__init__(text)
        self.status = status


class BadWords(Failed):
    """The arguments don't fit."""

    def __init__(self, why: str) -> None:
        super().__init__(BAD_WORDS, f"bad words: {why}")


class ReadFault(Failed):
    """A file can't be read, by the system's error or for another reason."""

    def __init__(self, name: object, why: object) -> None:
        super().__init__(NOT_READ, f"{name}: read fault: {reason_of(why)}")


def reason_of(why: object) -> str:
    """The system's reason, without its number and the file; or else the text."""
    number = why.errno if isinstance(why, OSError) else None
    if isinstance(why, RuntimeError):
        found = OF_HDF5.search(str(why))
        number = int(found[1]) if found else None
    return os.strerror(number) if number else str(why)


def printable(text: str) -> str:
    return "".join(it if it.isprintable() else "?" for it in text)


def report(*lines: str) -> None:
    """Writes lines to standard error at once, so that those of other calls don't come between them.
    If that fails, nothing else changes."""
    text = "".join(f"{printable(line)}\n" for line in lines)
    with suppress(OSError):
        os.write(STANDARD_ERROR, text.encode(sys.getfilesystemencoding(), "backslashreplace"))


@contextmanager
def reading(name: object) -> Iterator[None]:
    """An error of the system in it is a read fault."""
    try:
        yield
    except OSError as error:
        raise ReadFault(name, error) from error


@contextmanager
def writing(name: object, what: str = "") -> Iterator[None]:
    """An error of the system in it, or one of h5py, is a write fault. `what` is what can't be
    written, if it isn't the file of this name."""
    try:
        yield
    except (OSError, RuntimeError) as error:
        why = f"{what}: {reason_of(error)}" if what else reason_of(error)
        raise Failed(NOT_WRITTEN, f"{name}: write fault: {why}") from error


@contextmanager
def standard_output(name: object) -> Iterator[TextIO]:
    """Standard output, which may be closed. `name` is the file that is read, or an option."""
    how: dict[str, Any] = {"encoding": "utf-8", "newline": "", "closefd": False}
    with writing(name, "standard output"), open(STANDARD_OUTPUT, "w", **how) as out:
        yield out


def mode_of(path: Path) -> int:
    """The mode of a file, or the one that a new file gets."""
    if path.exists():
        return stat.S_IMODE(path.stat().st_mode)
    mask = os.umask(0o077)
    os.umask(mask)
    return 0o666 & ~mask


@contextmanager
def temporary_file(folder: Path) -> Iterator[Path]:
    """An empty file whose name no other file has. It is removed if something fails."""
    number, name = tempfile.mkstemp(prefix=".det_", suffix=".new", dir=folder)
    temporary_names.add(name)
    os.close(number)
    try:
        yield Path(name)
    except BaseException:
        with suppress(OSError):
            os.unlink(name)
        raise
    finally:
        temporary_names.remove(name)


@contextmanager
def whole_file(name: str) -> Iterator[Path]:
    """A path to write to in place of a file, which then takes the file's place. So the file is
    there once it is whole, and stays as it was if something fails. A link stays a link, and what
    is no plain file, as a pipe, is written directly."""
    if os.path.exists(name) and not os.path.isfile(name):
        with writing(name):
            yield Path(name)
        return
    path = Path(os.path.realpath(name))
    with writing(name), temporary_file(path.parent) as new:
        yield new
        new.chmod(mode_of(path))
        os.replace(new, path)


def write_file(name: str, pieces: Iterable[str]) -> None:
    """Writes a text to a file, which is there once it is whole."""
    with whole_file(name) as new, open(new, "w", encoding="utf-8", newline="") as out:
        out.writelines(pieces)


def check_output(option: str, name: Optional[str], read: Sequence[object]) -> None:
    """Refuses to write to a file that is read."""
    if name is None or not os.path.isfile(name):
        return
    for it in map(str, read):
        if os.path.exists(it) and os.path.samefile(it, name):
            raise BadWords(f"{option} {name}: this file is read")


class PrintVersion(argparse.Action):
    """Prints the tool's name and the version, and ends."""

    def __init__(self, option_strings: Sequence[str], dest: str, help: Optional[str]) -> None:
        none = argparse.SUPPRESS
        super().__init__(option_strings, dest, nargs=0, default=none, help=help)

    def __call__(self, parser: argparse.ArgumentParser, *rest: Any) -> NoReturn:
        with reading(VERSION):
            version = VERSION.read_text(encoding="utf-8").strip()
        with standard_output(VERSION) as out:
            out.write(f"{parser.prog} {version}\n")
        sys.exit(0)


class Parser(argparse.ArgumentParser):
    """The parser of a tool. Its help begins with the tool's docstring."""

    def __init__(self, name: str, text: Optional[str]) -> None:
        form = argparse.RawDescriptionHelpFormatter
        super().__init__(prog=name, description=text, formatter_class=form)
        about = "print the tool's name and the version, and exit"
        self.add_argument("--version", action=PrintVersion, help=about)

    def print_help(self, file: object = None) -> None:
        with standard_output("--help") as out:
            out.write(self.format_help())

    def error(self, message: str) -> NoReturn:
        raise BadWords(message)


def end_by_signal(number: int, _: object) -> NoReturn:
    """Ends as a signal ends a program that doesn't catch it, but without temporary files."""
    for name in temporary_names:
        with suppress(OSError):
            os.unlink(name)
    signal.signal(number, signal.SIG_DFL)
    os.kill(os.getpid(), number)
    # If the signal is blocked.
    os._exit(128 + number)


def catch_signals() -> None:
    """A signal that is ignored, as below `nohup`, stays ignored."""
    for number in SIGNALS:
        if signal.getsignal(number) != signal.SIG_IGN:
            signal.signal(number, end_by_signal)


def run_tool(parser: Parser, work: Callable[[argparse.Namespace], int]) -> int:
    """Runs a tool with its arguments, and returns its status. If it fails, a line says why. After a
    line on bad words a hint says where help is, as that of `det` does."""
    catch_signals()
    try:
        return work(parser.parse_args())
    except Failed as why:
        hints = [f"  see {parser.prog} --help"] if why.status == BAD_WORDS else []
        report(f"{parser.prog}: {why}", *hints)
        # At once: HDF5 crashes if its objects are released after a failed write.
        os._exit(why.status)
