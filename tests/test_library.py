"""The builder of the library for C and C++, over small crates and a stand-in for the kit."""

from __future__ import annotations

import re
import time
from pathlib import Path

import pytest

from commands import TOP, Outcome, run
from small_repository import NOT_BUILT, SmallRepository

EXPORT = '#[unsafe(no_mangle)]\npub extern "C" fn {}(x: &mut u8) -> u8\n'
# The crates of the library, as the builder has them.
EXPORTING = re.compile(r"^EXPORTING = \((.*?)\)$", re.MULTILINE | re.DOTALL)
BUILDER = (TOP / "tools" / "library.py").read_text()
CRATES = re.findall(r'"(\w+)"', EXPORTING.findall(BUILDER)[0])
HOST = "x86_64-unknown-linux-gnu"
ARM = "aarch64-unknown-linux-gnu"
COMPILING_LINE = b"build_library: compiling it from source, in some minutes ..\n"
COMPILED_LINE = (
    b"build_library: compiled from source; its proofs weren't checked here: make prove\n"
)
# What the stand-in makes of a crate: its export can be called from outside, and its main can't.
COMPILED = """define internal i32 @main() {{
define noundef zeroext i8 @det_of_{0}(ptr noundef %a0) #0 {{
  %r1 = call i8 @det_of_{0}(ptr %r0)
"""
# What it makes of the C sources.
OBJECTS = "rattle_heap\nlibrary_version\n"
COMPILED_ALL = "".join(COMPILED.format(crate) for crate in CRATES) + OBJECTS


def proved_archive(target: str) -> str:
    return "".join(f"proved {crate} for {target}\n" for crate in CRATES) + OBJECTS


class LibraryRepository(SmallRepository):
    """The small repository with the crates of the library."""

    def __init__(self, folder: Path) -> None:
        super().__init__(folder)
        for name in ("cpp/rattle_heap.c", "cpp/library_version.c", "include/det/exec/version.h"):
            self.write(name)
        with open(self.folder / "crates.txt", "a") as lines:
            lines.writelines(f"{crate} staticlib: low\n" for crate in CRATES)
        for crate in CRATES:
            self.write_exports(crate, f"det_of_{crate}")
        self.copy_more("tools", "library.py")
        self.copy_more("bin", "build_library")

    def write_exports(self, crate: str, *names: str) -> None:
        path = self.folder / "crates" / crate / "src" / "lib.rt"
        path.parent.mkdir(parents=True, exist_ok=True)
        path.write_text("".join(EXPORT.format(name) for name in names))

    def build(self, *words: str, fails: str = "") -> Outcome:
        command = [self.folder / "bin" / "build_library", *words]
        return run(command, self.folder, self.environment(fails))

    def archive(self, target: str = "") -> str:
        path = self.folder / "out/lib" / target / "libdeterministic_client.a"
        return path.read_text() if path.is_file() else ""


@pytest.fixture
def repository(folder: Path) -> LibraryRepository:
    return LibraryRepository(folder)


def test_compiled_once(repository: LibraryRepository) -> None:
    """The library is compiled, with no other exports, and then taken as it is."""
    first, second = repository.build(), repository.build()
    assert (first.status, first.err) == (0, COMPILING_LINE + COMPILED_LINE)
    assert repository.archive() == COMPILED_ALL
    assert second == Outcome(0, first.out, b"")


def test_proved_library(repository: LibraryRepository) -> None:
    """A compiled library isn't taken for a proved one, and a proved one is taken for any."""
    repository.build()
    proved, again = repository.build("--prove"), repository.build("--compile")
    assert proved.status == 0, str(proved)
    assert repository.archive() == proved_archive(HOST)
    assert again == Outcome(0, proved.out, b"")


def test_library_after_gate(repository: LibraryRepository) -> None:
    """Over libraries that the gate left only its own crates are proved, not over older ones."""
    repository.write("crates/low/out/rlib/low.rlib/format")
    repository.write("out/proved")
    first = repository.build("--prove")
    assert first.status == 0, str(first)
    assert repository.archive() == "over the gate\n" * len(CRATES) + OBJECTS
    assert not repository.calls("rt lib")
    time.sleep(0.05)
    repository.write("crates/low/src/lib.rt")
    second = repository.build("--prove")
    assert repository.archive() == proved_archive(HOST), str(second)
    assert repository.calls("rt lib") == len(CRATES)


def test_new_version(repository: LibraryRepository) -> None:
    """The library is built again after a change of the header with its version."""
    repository.build()
    time.sleep(0.05)
    repository.write("include/det/exec/version.h")
    assert repository.build().err == COMPILING_LINE + COMPILED_LINE


def test_other_target(repository: LibraryRepository) -> None:
    given = repository.build("--target", ARM)
    assert repository.archive(ARM) == proved_archive(ARM), str(given)


def test_untested_export(repository: LibraryRepository) -> None:
    """With an export that no test calls the library is proved, or refused for --compile."""
    repository.write_exports(CRATES[1], f"det_of_{CRATES[1]}", "det_untested")
    refused, given = repository.build("--compile"), repository.build()
    assert refused.status == NOT_BUILT, str(refused)
    assert b"no test calls det_untested" in refused.err
    assert "proved" in repository.archive() and COMPILED_LINE not in given.err, str(given)


FAILURES = {
    "a broken kit": ("all", b"build_library: det_client_c isn't proved: "),
    "a full disk": ("room", b"No space left on device: free a gi"),
}


@pytest.mark.parametrize("fails, text", FAILURES.values(), ids=FAILURES)
def test_failure(fails: str, text: bytes, repository: LibraryRepository) -> None:
    """The last line says why a build failed, and the next call builds."""
    given = repository.build(fails=fails)
    assert (given.status, given.out) == (NOT_BUILT, b""), str(given)
    assert text in given.err, str(given)
    assert repository.build().status == 0
    assert repository.archive() == COMPILED_ALL
