"""What `make install` puts below a prefix, and `make uninstall` removes."""

from __future__ import annotations

import os
from pathlib import Path

import pytest

from commands import NAMES, TOOLS, TOP, Bench, Outcome, Programs, run
from test_packages import copy_of_the_top

PREFIX = "/opt/of det"
OWN_FOLDERS = ("share/det", "share/doc/det", "include/det", "lib/cmake/deterministic_client")
OTHER = "share/man/man1/other.1"
LIBRARY = "lib/libdeterministic_client.a"


def run_installer(
    programs: Programs, folder: Path, *words: str, umask: int = 0o022, top: Path = TOP
) -> Outcome:
    """Runs the installer over the programs under test, below a folder. All else is of the
    repository, or of a copy of it."""
    command = ["python3", str(top / "tools" / "install.py"), "--prefix", PREFIX]
    command += ["--destdir", str(folder), "--programs", str(programs.folder), *words]
    return run(command, top, programs.environment(), preexec_fn=lambda: os.umask(umask))


def files_of_package() -> list[str]:
    """What is installed at least: programs, manual pages, completions, documents, library and
    tools."""
    found = [f"bin/{it}" for it in NAMES] + [f"share/man/man1/{it}.1" for it in NAMES]
    found += [f"share/bash-completion/completions/{it}" for it in (*NAMES, *TOOLS)]
    documents = ("README.md", "docs/FORMATS.md", "examples/bank.toml", "examples/many/on_hosts.sh")
    found += [f"share/doc/det/{it}" for it in documents]
    found += [LIBRARY, "lib/pkgconfig/deterministic_client.pc"]
    package = "lib/cmake/deterministic_client/deterministic_client-config"
    found += [f"{package}.cmake", f"{package}-version.cmake"]
    found += [f"include/det/exec/{it.name}" for it in (TOP / "include/det/exec").glob("*.h")]
    adapter = (TOP / "include/ara/exec").glob("*.h")
    found += [f"include/det/adapter/ara/exec/{it.name}" for it in adapter]
    return found + [f"bin/{it}" for it in TOOLS]


def wrong_modes(root: Path) -> list[str]:
    """The files whose modes aren't those of an installed file, whatever the umask was."""
    found = []
    for path in (root, *root.rglob("*")):
        is_script = path.suffix == ".sh" and path.read_bytes().startswith(b"#!")
        runs = path.is_dir() or path.parent.name == "bin" or is_script
        if path.stat().st_mode & 0o777 != (0o755 if runs else 0o644):
            found.append(f"{path} {path.stat().st_mode:o}")
    return found


def version_line(name: str) -> bytes:
    """What a program of this version prints."""
    return f"{name} {(TOP / 'VERSION').read_text()}".encode()


def make_other(root: Path) -> None:
    """A file of another package, in a folder that both use."""
    (root / OTHER).parent.mkdir(parents=True, exist_ok=True)
    (root / OTHER).write_text("of another package")


def test_install_and_uninstall(bench: Bench, library: Path) -> None:
    """Installed files have their modes and run; removed, they and their own folders are gone."""
    assert library.is_file()
    root = Path(str(bench.folder) + PREFIX)
    words = ["--library", str(library)]
    first = run_installer(bench.programs, bench.folder, *words, umask=0o077)
    assert not first.status, str(first)
    assert not wrong_modes(root)
    assert [it for it in files_of_package() if not (root / it).is_file()] == []
    for name in NAMES:
        assert run([root / "bin" / name, "--version"], root, {}).out == version_line(name)
    for tool in TOOLS:
        file = root / "share/det/tools" / f"{tool}.py"
        given = run(["python3", "-B", file, "--version"], root)
        assert given == Outcome(0, version_line(tool), b"")
        call = f"exec python3 -B '{PREFIX}/share/det/tools/{tool}.py' \"$@\"\n"
        assert (root / "bin" / tool).read_text() == f"#!/bin/sh\n{call}"
    make_other(root)
    second = run_installer(bench.programs, bench.folder, "--uninstall")
    assert not second.status, str(second)
    assert [str(it.relative_to(root)) for it in root.rglob("*") if it.is_file()] == [OTHER]
    assert [it for it in OWN_FOLDERS if (root / it).exists()] == []


def test_page(programs: Programs, folder: Path) -> None:
    """The page is installed where it is built, and removed again."""
    top, page = copy_of_the_top(folder / "top"), folder / f"to{PREFIX}" / "share/det/det_page.html"
    (folder / "archive.a").write_bytes(b"an archive")
    words = ["--library", str(folder / "archive.a")]
    given = run_installer(programs, folder / "to", *words, top=top)
    assert given.status == 0 and page.parent.is_dir() and not page.exists(), str(given)
    built = top / "out" / "page" / "det_page.html"
    built.parent.mkdir(parents=True)
    built.write_text("a page")
    given = run_installer(programs, folder / "to", *words, top=top)
    assert given.status == 0 and page.read_text() == "a page", str(given)
    given = run_installer(programs, folder / "to", "--uninstall", top=top)
    assert given.status == 0 and not page.parent.exists(), str(given)


def test_folders(bench: Bench, library: Path) -> None:
    """LIBDIR, INCLUDEDIR and MANDIR move their files, and nothing is left of them."""
    root = Path(str(bench.folder) + PREFIX)
    words = ["--libdir", "lib/of machine", "--includedir", f"{PREFIX}/inc", "--mandir", "man"]
    words += ["--only-library", "--library", str(library)]
    first = run_installer(bench.programs, bench.folder, *words)
    assert not first.status, str(first)
    assert (root / "lib/of machine/libdeterministic_client.a").read_bytes() == library.read_bytes()
    assert (root / "inc/det/exec/version.h").is_file() and not (root / "bin").exists()
    text = (root / "lib/of machine/pkgconfig/deterministic_client.pc").read_text()
    assert "prefix=${pcfiledir}/../../..\n" in text and "includedir=${prefix}/inc\n" in text
    second = run_installer(bench.programs, bench.folder, "--uninstall")
    assert not second.status, str(second)
    assert [it for it in root.rglob("*") if it.is_file()] == []
    assert not (root / "inc/det").exists() and not (root / "lib/of machine/cmake/det").exists()


@pytest.mark.parametrize("folder_word", ("--libdir", "--includedir", "--mandir"))
def test_folder_outside(folder_word: str, programs: Programs, folder: Path) -> None:
    """A folder that isn't below the prefix is refused."""
    for name in ("/usr/lib", "..", "."):
        given = run_installer(programs, folder, folder_word, name)
        assert given.status == 1 and b"isn't below" in given.err, str(given)


def test_missing_program(programs: Programs, folder: Path) -> None:
    """Without a program nothing is installed, and what isn't installed isn't removed."""
    empty = Programs(folder)
    empty.folder.mkdir()
    first = run_installer(empty, folder / "to")
    assert first.status == 1 and b"run `make` first" in first.err, str(first)
    second = run_installer(programs, folder / "to", "--uninstall")
    assert second.status == 1 and b"nothing of this" in second.err, str(second)
    assert not (folder / "to").exists()


@pytest.mark.parametrize("target, word", (("install", b"--libdir"), ("uninstall", b"--uninstall")))
def test_makefile(target: str, word: bytes) -> None:
    """`make install` and `make uninstall` only call the installer, with PREFIX and DESTDIR."""
    # Below `make test` it would also print the folder that it is in.
    words = ["make", "-n", "--no-print-directory", target, "PREFIX=/p q", "DESTDIR=/d"]
    given = run(words, TOP)
    lines = given.out.splitlines()
    assert given.status == 0 and len(lines) == 1, str(given)
    for it in (b'--prefix "/p q"', b'--destdir "/d"', word, b"tools/install.py"):
        assert it in lines[0]
