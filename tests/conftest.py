"""The tests after the gate: the built programs over words, files, streams and limits, and the
documents. `python3` is one that has pytest; on Debian that is /usr/bin/python3.

    make test                                   all, over the programs that are there
    make test JOBS=2                            in two processes, where pytest-xdist is there
    make test TESTS='-k vote'                   the tests whose names have the word
    python3 -m pytest                           all, one after the other
    python3 -m pytest -n auto                   in one process for each processor
    python3 -m pytest tests/test_hints.py       one group
    python3 -m pytest -k 'bank_rules or lane'   the tests whose names have one of the words
    python3 -m pytest --collect-only -q         the names of all tests
    python3 -m pytest --programs=FOLDER         over other builds of det, det_lane and det_twin
    python3 -m pytest --library=FILE            over another build of the library for C++
    python3 -m pytest --prove                   over proved programs, and a proved library for C++

A group is a file `test_*.py`; its head says what it shows. The other modules are shared by groups;
some have a command line of their own, which their heads describe. Programs of bin/ build where
needed, once for all processes. A test that this machine can't run is skipped, and says why.
"""

from __future__ import annotations

import fcntl
import os
import shutil
import sys
import tempfile
from contextlib import nullcontext
from pathlib import Path
from typing import Callable, Iterator

import pytest

sys.dont_write_bytecode = True

from builds import KINDS, NotBuilt, build_library, build_plain, build_programs  # noqa: E402
from builds import kind_of  # noqa: E402
from commands import NAMES, Bench, Programs  # noqa: E402
from cpp_bench import CppBench  # noqa: E402
from failing_bench import FailingBench  # noqa: E402
from record_bench import RecordBench  # noqa: E402

SHARED = pytest.StashKey[Path]()


def pytest_addoption(parser: pytest.Parser) -> None:
    group = parser.getgroup("programs under test")
    group.addoption("--programs", type=Path, help="a folder with det, det_lane and det_twin")
    group.addoption("--library", type=Path, help="an archive of the library for C and C++")
    group.addoption("--prove", action="store_true", help="proved programs, and a proved library")
    group.addoption("--all-calls", action="store_true", help="each call of the system fails once")


def folder_of_programs(config: pytest.Config) -> Path | None:
    """The folder that was given, or none."""
    given = config.getoption("programs")
    return config.invocation_params.dir.joinpath(given).resolve() if given else None


def pytest_configure(config: pytest.Config) -> None:
    """Makes a folder for all processes of a session. Programs that aren't root can read it."""
    folder = folder_of_programs(config)
    missing = [name for name in NAMES if folder and not os.access(folder / name, os.X_OK)]
    if missing:
        raise pytest.UsageError(f"{folder} has no program {', '.join(missing)}")
    if hasattr(config, "workerinput"):
        config.stash[SHARED] = Path(config.workerinput["shared"])
    else:
        config.stash[SHARED] = Path(tempfile.mkdtemp(prefix="det-tests-"))
        config.stash[SHARED].chmod(0o755)


@pytest.hookimpl(optionalhook=True)
def pytest_configure_node(node) -> None:
    """Gives a process of pytest-xdist the folder of the session."""
    node.workerinput["shared"] = str(node.config.stash[SHARED])


def pytest_unconfigure(config: pytest.Config) -> None:
    if not hasattr(config, "workerinput") and SHARED in config.stash:
        shutil.rmtree(config.stash[SHARED], ignore_errors=True)


def pytest_report_header(config: pytest.Config) -> str:
    return f"over {kind_of(folder_of_programs(config), config.getoption('prove'))}"


def pytest_terminal_summary(terminalreporter, config: pytest.Config) -> None:
    """Says which programs were under test."""
    kinds = config.stash[SHARED] / "room" / KINDS
    if kinds.is_file():
        terminalreporter.write_line(f"over {kinds.read_text()}")


def pytest_collection_modifyitems(items: list[pytest.Item]) -> None:
    """Slow tests start first, so that no processor waits for one at the end."""
    items.sort(key=lambda item: item.get_closest_marker("slow") is None)


@pytest.fixture(scope="session")
def shared_folder(pytestconfig: pytest.Config) -> Path:
    """A folder of the whole session, for all its processes."""
    return pytestconfig.stash[SHARED]


def make_once(config: pytest.Config, name: str, fill: Callable[[Path], object]) -> Path:
    """A folder that the first process of a session fills, and the others take. What builders print
    is shown at once."""
    shared = config.stash[SHARED]
    capture = config.pluginmanager.getplugin("capturemanager")
    uncaptured = capture.global_and_fixture_disabled() if capture else nullcontext()
    with uncaptured, open(shared / f"{name}.lock", "w") as lock:
        fcntl.flock(lock, fcntl.LOCK_EX)
        if not (shared / name).is_dir():
            with tempfile.TemporaryDirectory(prefix=f"{name}-", dir=shared) as room:
                folder = Path(room) / name
                folder.mkdir()
                fill(folder)
                folder.chmod(0o755)
                folder.rename(shared / name)
    return shared / name


@pytest.fixture(scope="session")
def programs(pytestconfig: pytest.Config) -> Programs:
    """The programs under test: those of --programs, or of bin/, which are built where needed."""
    folder, is_proof = folder_of_programs(pytestconfig), pytestconfig.getoption("prove")
    return Programs(
        make_once(pytestconfig, "room", lambda it: build_programs(it, folder, is_proof))
    )


@pytest.fixture(scope="session")
def library(pytestconfig: pytest.Config) -> Path:
    """The archive for C and C++: that of --library, or one that is proved by --prove. Tests are
    skipped where none can be compiled without its proofs."""
    is_proof = pytestconfig.getoption("prove")
    given = pytestconfig.getoption("library")
    if given:
        return pytestconfig.invocation_params.dir.joinpath(given).resolve()

    def fill(folder: Path) -> None:
        (folder / "library.a").symlink_to(build_library(is_proof))

    try:
        return (make_once(pytestconfig, "library", fill) / "library.a").resolve()
    except NotBuilt as why:
        if is_proof:
            raise
        pytest.skip(str(why))


@pytest.fixture(scope="session")
def plain(pytestconfig: pytest.Config) -> Path:
    """The plain program of tests/plain, which shares nothing with those under test."""
    return make_once(pytestconfig, "plain", build_plain) / "plain"


@pytest.fixture
def folder(shared_folder: Path) -> Iterator[Path]:
    """A fresh folder, which every user can read."""
    with tempfile.TemporaryDirectory(prefix="test-", dir=shared_folder) as name:
        Path(name).chmod(0o755)
        yield Path(name).resolve()


@pytest.fixture(scope="module")
def module_folder(shared_folder: Path) -> Iterator[Path]:
    """A folder for all tests of a group that one process runs."""
    with tempfile.TemporaryDirectory(prefix="group-", dir=shared_folder) as name:
        yield Path(name).resolve()


@pytest.fixture
def bench(programs: Programs, folder: Path) -> Bench:
    """The programs under test, and a fresh folder."""
    return Bench(programs, folder)


@pytest.fixture(scope="module")
def failing_bench(programs: Programs, module_folder: Path) -> FailingBench:
    """The programs under test beneath a library that has their calls of the system fail."""
    return FailingBench(programs, module_folder)


@pytest.fixture
def records(programs: Programs, folder: Path) -> RecordBench:
    """The programs under test with the Python tools on records, and a fresh folder."""
    return RecordBench(programs, folder)


@pytest.fixture(scope="module")
def cpp(programs: Programs, module_folder: Path, library: Path) -> CppBench:
    """The library for C and C++ under test, with the programs."""
    return CppBench(programs, module_folder, library)


@pytest.fixture(scope="session")
def jobs() -> int:
    """How many commands a test may run at a time: one where tests run side by side."""
    return 1 if "PYTEST_XDIST_WORKER" in os.environ else len(os.sched_getaffinity(0))
