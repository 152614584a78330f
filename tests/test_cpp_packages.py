"""Applications over the installed library: by CMake, by pkg-config, and after it was moved.

They need g++, cmake and pkg-config.
"""

from __future__ import annotations

import re
import shutil
from pathlib import Path

import pytest

from commands import TOP, Bench, Outcome, make, run
from cpp_bench import EXAMPLES, need
from documents import text_of

LINE = re.compile(r"`(g\+\+ [^`]*pkg-config[^`]*)`")
LIBDIR = "lib/x86_64-linux-gnu"


@pytest.fixture
def prefix(bench: Bench, library: Path) -> Path:
    """A folder to which an installation with a folder of its own for libraries was moved."""
    to = bench.folder / "installed"
    words = ["python3", "-B", TOP / "tools" / "install.py", "--prefix", to]
    make([*words, "--libdir", LIBDIR, "--only-library", "--library", library])
    return Path(shutil.move(to, bench.folder / "moved"))


def check_tracker(bench: Bench, program: Path) -> None:
    """The program's record is genuine, and the same for each number of workers."""
    files = (EXAMPLES / "tracker.toml", EXAMPLES / "tracker.stim")
    one, four = (bench.output(str(program), "record", *files, "--workers", it) for it in "14")
    assert one == four
    record = bench.file("tracker.rec", one)
    assert bench.output(str(program), "check", record).startswith(b"genuine 5\n")


def test_line_of_the_page(bench: Bench, prefix: Path) -> None:
    """The line of docs/CPP.md that builds an application over the installed library."""
    need("g++", "pkg-config")
    shutil.copy(EXAMPLES / "tracker.cpp", bench.folder)
    search = {"PKG_CONFIG_PATH": str(prefix / LIBDIR / "pkgconfig")}
    line = LINE.search(text_of("docs/CPP.md"))
    assert line, "docs/CPP.md has no line with pkg-config"
    built = run(["sh", "-c", line[1]], bench.folder, {**bench.programs.environment(), **search})
    assert built == Outcome(0, b"", b"")
    check_tracker(bench, bench.folder / "tracker")


@pytest.mark.slow
def test_cmake(bench: Bench, prefix: Path) -> None:
    """The examples by CMake, which finds the package."""
    need("g++", "cmake")
    build = bench.folder / "build"
    make(["cmake", "-S", EXAMPLES, "-B", build, f"-DCMAKE_PREFIX_PATH={prefix}"])
    make(["cmake", "--build", build, "--target", "tracker", "estimate"])
    check_tracker(bench, build / "tracker")


def test_other_version(bench: Bench, prefix: Path) -> None:
    """A program that wants another version doesn't find the package."""
    need("g++", "cmake")
    whole = text_of("VERSION").strip()
    major, minor, _ = map(int, whole.split("."))
    others = (f"{major}.{minor + 1}", f"{major + 1}")
    wanted = {f"{major}.{minor}": True, whole: True, **dict.fromkeys(others, False)}
    for version, is_found in wanted.items():
        source = bench.folder / f"wants{version}"
        source.mkdir()
        (source / "CMakeLists.txt").write_text(
            "cmake_minimum_required(VERSION 3.13)\nproject(wants LANGUAGES CXX)\n"
            f"find_package(deterministic_client {version} REQUIRED)\n"
        )
        words = ["cmake", "-S", source, "-B", source / "build", f"-DCMAKE_PREFIX_PATH={prefix}"]
        given = run(words, bench.folder)
        assert (given.status == 0) == is_found, f"{version}: {given}"


def test_adapter_target(bench: Bench, prefix: Path) -> None:
    """An application for a vendor's stack by the adapter's target."""
    need("g++", "cmake")
    sources = TOP / "tests" / "cpp"
    (bench.folder / "CMakeLists.txt").write_text(
        "cmake_minimum_required(VERSION 3.13)\nproject(vendor LANGUAGES CXX)\n"
        "find_package(deterministic_client REQUIRED)\n"
        f'add_executable(vendor "{sources}/vendor_application.cpp")\n'
        f'target_include_directories(vendor PRIVATE "{sources}/core")\n'
        "target_link_libraries(vendor PRIVATE deterministic_client::ara_adapter)\n"
    )
    build = bench.folder / "build"
    make(["cmake", "-S", bench.folder, "-B", build, f"-DCMAKE_PREFIX_PATH={prefix}"])
    make(["cmake", "--build", build])
    manifest = str(EXAMPLES / "tracker.toml")
    given = run([build / "vendor"], build, {"DET_MANIFEST": manifest, "DET_CYCLES": "5"})
    assert given.status == 0 and given.out.startswith(b"sum "), str(given)
