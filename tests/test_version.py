"""The file VERSION, and all that has the version.

The installer, the Debian packages, the page for a browser and their tests take it from there. The
texts below can't: they are headers, proved sources and documents. For a new version, change VERSION
and run this group; it names each text that is left.
"""

from __future__ import annotations

import os
import re
import shutil
from pathlib import Path

import pytest

import build_page
from commands import TOOLS, TOP, Outcome, make, run
from cpp_bench import CppBench, need
from documents import text_of

VERSION = (TOP / "VERSION").read_text().strip()
HEADER = "include/det/exec/version.h"
# Each text with the version, by a pattern for what comes before it and after it.
TEXTS = {
    "the header": (HEADER, r'^#define DET_VERSION_TEXT "(\S+)"$'),
    "det": ("crates/det_cli/src/det_usage.rt", r'^pub const VERSION: &str = "det (\S+)\\n";$'),
    "det_lane": (
        "crates/lane/src/lane_usage.rt",
        r'^pub const VERSION: &str = "det_lane (\S+)\\n";$',
    ),
    "det_twin": (
        "crates/twin_cli/src/twin_usage.rt",
        r'^pub const VERSION: &str = "det_twin (\S+)\\n";$',
    ),
    "a run of det": ("crates/program_tests/src/tables.rt", r"^--version\|0\|det (\S+)/\|$"),
    "a run of det_lane": (
        "crates/program_tests/src/tables.rt",
        r"^--version\|B,0\|1\|100\|0\|det_lane (\S+)/\|$",
    ),
    "the manual page": ("docs/det.1", r'^\.TH DET 1 "" "det (\S+)" "User commands"$'),
    "the case": ("tests/cases/version/stdout", r"^det (\S+)$"),
    "the changes": ("CHANGELOG.md", r"^## \[(\d\S+)\]"),
}


def test_form() -> None:
    """The file has three numbers in one line."""
    assert re.fullmatch(r"\d+\.\d+\.\d+\n", text_of("VERSION"))


@pytest.mark.parametrize("name, pattern", TEXTS.values(), ids=TEXTS)
def test_text(name: str, pattern: str) -> None:
    """The first version that a text has."""
    found = re.search(pattern, text_of(name), re.MULTILINE)
    assert found, f"{name} has no version"
    assert found[1] == VERSION, name


def test_numbers_of_the_header() -> None:
    """The macros with numbers have those of the text."""
    found = re.findall(r"^#define DET_VERSION_(?:MAJOR|MINOR|PATCH) (\d+)$", text_of(HEADER), re.M)
    assert ".".join(found) == VERSION


def test_minor_of_the_examples() -> None:
    """The examples want a package of this major and minor number."""
    found = re.search(r"find_package\(\w+ (\S+) REQUIRED\)", text_of("examples/cpp/CMakeLists.txt"))
    assert found and found[1] == VERSION.rpartition(".")[0]


def test_library(cpp: CppBench) -> None:
    """The library that is linked has the version: a million times the major number, a thousand
    times the minor one, and the patch."""
    need("gcc")
    source = cpp.file(
        "version.c",
        '#include "det/exec/version.h"\n#include <stdio.h>\n'
        'int main(void) { printf("%u\\n", det_library_version()); return 0; }\n',
    )
    program = cpp.folder / "version"
    make(["gcc", f"-I{TOP / 'include'}", source, cpp.archive, "-pthread", "-o", program])
    major, minor, patch = map(int, VERSION.split("."))
    number = 1_000_000 * major + 1000 * minor + patch
    assert cpp.output_of([program]) == f"{number}\n".encode()


def tool_version(top: Path, tool: str) -> Outcome:
    """What a tool in Python says below a folder like the top."""
    return run(["python3", "-B", top / "tools" / f"{tool}.py", "--version"], top)


@pytest.mark.parametrize("tool", TOOLS)
def test_tool(tool: str) -> None:
    """The tools in Python print a line as the programs do."""
    assert tool_version(TOP, tool) == Outcome(0, f"{tool} {VERSION}\n".encode(), b"")


def copy_installer(to: Path, version: str) -> None:
    """The installer with what it needs for the library, with another version."""
    for name in ("tools", "cpp", "include"):
        shutil.copytree(TOP / name, to / name)
    (to / "VERSION").write_text(f"{version}\n")
    (to / "archive.a").write_bytes(b"")


def test_page(folder: Path, monkeypatch: pytest.MonkeyPatch) -> None:
    """The page has the version of the file, and is built anew when that file has changed."""
    assert f"det {VERSION}</p>" in build_page.one_file(b"")
    monkeypatch.setattr(build_page, "OUT", folder)
    monkeypatch.setattr(build_page, "VERSION", folder / "VERSION")
    build_page.VERSION.write_text("7.8.9\n")
    (folder / "det_page.html").write_text(build_page.one_file(b""))
    (folder / "made").write_text("compiled\n")
    assert "det 7.8.9</p>" in (folder / "det_page.html").read_text()
    page = build_page.PageBuild(is_proof=False)
    assert page.find() == folder / "det_page.html"
    later = page.page.stat().st_mtime + 10
    os.utime(build_page.VERSION, (later, later))
    assert page.find() is None


def test_told_once(folder: Path) -> None:
    """With another file VERSION the installed files for pkg-config and CMake have that version, and
    so have the tools in Python, which end with 6 without that file."""
    need("cmake", "pkg-config")
    copy_installer(folder / "top", "7.8.9")
    words = ["python3", "-B", folder / "top/tools/install.py", "--prefix", folder / "to"]
    make([*words, "--only-library", "--library", folder / "top/archive.a"])
    search = {"PKG_CONFIG_PATH": str(folder / "to/lib/pkgconfig"), "PATH": "/usr/bin:/bin"}
    given = run(["pkg-config", "--modversion", "deterministic_client"], folder, search)
    assert given.out == b"7.8.9\n", str(given)
    script = folder / "find.cmake"
    package = folder / "to/lib/cmake/deterministic_client/deterministic_client-config-version.cmake"
    script.write_text(f'include("{package}")\nmessage(NOTICE "${{PACKAGE_VERSION}}")\n')
    assert run(["cmake", "-P", script], folder).err == b"7.8.9\n"
    for tool in TOOLS:
        assert tool_version(folder / "top", tool).out == f"{tool} 7.8.9\n".encode()
    (folder / "top/VERSION").unlink()
    line = f"det_page: {folder}/top/VERSION: read fault: No such file or directory\n"
    assert tool_version(folder / "top", "det_page") == Outcome(6, b"", line.encode())
