"""The Debian packages that `make deb` makes of the programs and the library under test.

They are unpacked into a folder, and run and compiled against from there. As root they are also
installed below a folder by dpkg, and removed again.
"""

from __future__ import annotations

import gzip
import os
import re
import shutil
import sys
from dataclasses import dataclass
from pathlib import Path

import pytest

from commands import NAMES, TOOLS, TOP, Bench, Outcome, make, run
from cpp_bench import CppBench, need
from documents import text_of
from test_cpp_packages import LINE, check_tracker

VERSION = text_of("VERSION").strip()
LIBRARY = "libdeterministic-client-dev"
PACKAGES = ("det", LIBRARY)
LIBDIR = "usr/lib/x86_64-linux-gnu"
# Files that each package has at least.
FILES = {
    "det": [
        *(f"usr/bin/{it}" for it in (*NAMES, *TOOLS)),
        *(f"usr/share/man/man1/{it}.1.gz" for it in NAMES),
        *(f"usr/share/bash-completion/completions/{it}" for it in (*NAMES, *TOOLS)),
        "usr/share/det/tools/det_record.py",
        "usr/share/doc/det/README.md",
        "usr/share/doc/det/examples/cpp/CMakeLists.txt",
    ],
    LIBRARY: [
        f"{LIBDIR}/libdeterministic_client.a",
        f"{LIBDIR}/pkgconfig/deterministic_client.pc",
        f"{LIBDIR}/cmake/deterministic_client/deterministic_client-config.cmake",
        f"{LIBDIR}/cmake/deterministic_client/deterministic_client-config-version.cmake",
        "usr/include/det/exec/application.h",
        "usr/include/det/adapter/ara/exec/deterministic_client.h",
    ],
}
SOURCE_TOOL = TOP / "tools" / "det_record.py"
SETTINGS = {"SOURCE_DATE_EPOCH": "1700000000", "LC_ALL": "C"}


def make_packages(bench: CppBench, to: Path, top: Path = TOP, **more: str) -> Outcome:
    """Packs the programs and the library under test, with all else of a copy of the repository."""
    need("dpkg-deb", "dpkg-shlibdeps", "strip")
    words = ["python3", "-B", top / "tools" / "debian.py", "--to", to]
    words += ["--programs", bench.programs.folder, "--library", bench.archive]
    return run(words, bench.folder, {**os.environ, **SETTINGS, **more})


@dataclass(frozen=True)
class Unpacked:
    """The packages, and a root that both were unpacked to."""

    files: dict[str, Path]
    root: Path


@pytest.fixture(scope="module")
def packages(cpp: CppBench) -> Unpacked:
    to, root = cpp.folder / "debs", cpp.folder / "root"
    given = make_packages(cpp, to)
    assert given.status == 0, str(given)
    files = {it: to / f"{it}_{VERSION}_amd64.deb" for it in PACKAGES}
    for file in files.values():
        make(["dpkg-deb", "-x", file, root])
    return Unpacked(files, root)


def listed(file: Path) -> dict[str, str]:
    """What a package puts where: mode and owner by the path."""
    lines = make(["dpkg-deb", "-c", file]).decode().splitlines()
    found = (line.split(maxsplit=5) for line in lines)
    return {it[5][2:]: f"{it[0]} {it[1]}" for it in found if it[5] != "./"}


@pytest.mark.parametrize("name", PACKAGES)
def test_files(name: str, packages: Unpacked) -> None:
    """A package has its files, of root, with their modes, and its papers."""
    found = listed(packages.files[name])
    papers = [f"usr/share/doc/{name}/{it}" for it in ("copyright", "changelog.gz")]
    assert [it for it in (*FILES[name], *papers) if it not in found] == []
    for path, given in found.items():
        assert given.endswith(" root/root"), f"{path} {given}"
        assert given[1:10] in ("rwxr-xr-x", "rw-r--r--"), f"{path} {given}"
        assert given[3] == "x" or not path.startswith("usr/bin/"), f"{path} {given}"


def test_no_file_is_in_both(packages: Unpacked) -> None:
    both = [set(listed(packages.files[it])) for it in PACKAGES]
    assert [it for it in both[0] & both[1] if not it.endswith("/")] == []


def fields_of(file: Path) -> dict[str, str]:
    lines = make(["dpkg-deb", "-f", file]).decode().splitlines()
    return dict(line.split(": ", 1) for line in lines if not line.startswith(" "))


def test_fields(packages: Unpacked) -> None:
    """Version and needs: the programs need a C library, the tools need Python."""
    for name in PACKAGES:
        fields = fields_of(packages.files[name])
        assert (fields["Package"], fields["Version"]) == (name, VERSION)
        assert fields["Architecture"] == "amd64"
    needs = fields_of(packages.files["det"])["Depends"]
    assert re.fullmatch(r"libc6 \(>= 2\.\d+\), python3 \(>= 3\.9\)", needs)


def test_python_of_the_tools(packages: Unpacked) -> None:
    """Debian's own Python runs the tools, as its packages are those that they may need."""
    for name in TOOLS:
        lines = (packages.root / "usr/bin" / name).read_text().splitlines()
        assert lines[1] == f'exec /usr/bin/python3 -B /usr/share/det/tools/{name}.py "$@"'
    assert fields_of(packages.files["det"])["Suggests"].endswith(", parallel, python3-h5py")


def copy_of_the_top(to: Path) -> Path:
    """What is packed of a repository, where nothing is built."""
    for name in ("tools", "cpp", "include", "packaging", "docs", "completions"):
        shutil.copytree(TOP / name, to / name)
    for name in ("VERSION", "CHANGELOG.md", "README.md", "crates.txt"):
        shutil.copy(TOP / name, to / name)
    return to


def test_page(folder: Path, cpp: CppBench) -> None:
    """The page is packed where it is built."""
    top, name = copy_of_the_top(folder / "top"), "usr/share/det/det_page.html"
    package = folder / "debs" / f"det_{VERSION}_amd64.deb"
    given = make_packages(cpp, package.parent, top)
    assert given.status == 0 and name not in listed(package), str(given)
    page = top / "out" / "page" / "det_page.html"
    page.parent.mkdir(parents=True)
    page.write_text("a page")
    given = make_packages(cpp, package.parent, top)
    assert given.status == 0 and name in listed(package), str(given)


def test_maintainer(cpp: CppBench) -> None:
    """Packages of other people name them."""
    to = cpp.folder / "others"
    given = make_packages(cpp, to, DEBFULLNAME="A Packer", DEBEMAIL="packer@example.org")
    assert given.status == 0, str(given)
    for file in to.iterdir():
        assert fields_of(file)["Maintainer"] == "A Packer <packer@example.org>"


def test_same_bytes(cpp: CppBench, packages: Unpacked) -> None:
    """Two calls with one SOURCE_DATE_EPOCH make the same packages."""
    again = cpp.folder / "again"
    assert make_packages(cpp, again).status == 0
    for file in packages.files.values():
        assert (again / file.name).read_bytes() == file.read_bytes()


def test_sums(packages: Unpacked) -> None:
    """The digests are those of the files: all of them."""
    for name, file in packages.files.items():
        control = packages.root.parent / f"control-{name}"
        make(["dpkg-deb", "-e", file, control])
        given = run(["md5sum", "--check", "--quiet", control / "md5sums"], packages.root)
        assert given == Outcome(0, b"", b"")
        count = len([it for it in listed(file) if not it.endswith("/")])
        assert len((control / "md5sums").read_text().splitlines()) == count


def test_programs(bench: Bench, packages: Unpacked) -> None:
    """The programs of the root run, write the records of those under test, and find each other."""
    bin_folder = packages.root / "usr/bin"
    for name in NAMES:
        given = run([bin_folder / name, "--version"], bench.folder)
        assert given.out == f"{name} {VERSION}\n".encode()
    examples = packages.root / "usr/share/doc/det/examples"
    files = [examples / "cloud.toml", examples / "cloud.stim"]
    given = run([bin_folder / "det", "record", *files, "--workers", "3"], bench.folder)
    assert (given.status, given.out) == (0, bench.example("cloud")), str(given)
    record = bench.file("cloud.rec", given.out)
    assert run([bin_folder / "det", "check", record], bench.folder).out.startswith(b"genuine 4\n")
    path = {"PATH": f"{bin_folder}:/usr/bin:/bin"}
    assert run([bin_folder / "det_lane", "det", 3, *files], bench.folder, path).out == b"agree 4\n"
    assert run([bin_folder / "det_twin", 3, *files], bench.folder).out == b"agree 4\n"


def test_tool(bench: Bench, packages: Unpacked) -> None:
    """A tool in Python runs with the modules of the package alone, and has its version."""
    record = bench.file("guard.rec", bench.example("guard"))
    tool = packages.root / "usr/share/det/tools/det_record.py"
    ours, given = (run(["python3", "-B", it, record], bench.folder) for it in (SOURCE_TOOL, tool))
    assert ours.status == 0 and ours.out, str(ours)
    assert given == ours
    for name in TOOLS:
        words = ["python3", "-B", tool.with_name(f"{name}.py"), "--version"]
        given = run(words, bench.folder)
        assert given == Outcome(0, f"{name} {VERSION}\n".encode(), b"")


def test_manual_pages(packages: Unpacked) -> None:
    for name in NAMES:
        page = packages.root / f"usr/share/man/man1/{name}.1.gz"
        assert gzip.decompress(page.read_bytes()) == (TOP / f"docs/{name}.1").read_bytes()


def test_changes(packages: Unpacked) -> None:
    """The changelog is one that Debian's tools read, with the version and the changes."""
    need("dpkg-parsechangelog")
    data = (packages.root / "usr/share/doc/det/changelog.gz").read_bytes()
    plain = packages.root.parent / "changelog"
    plain.write_bytes(gzip.decompress(data))
    words = ["dpkg-parsechangelog", "-l", plain, "-S"]
    assert make([*words, "Version"]).decode().strip() == VERSION
    found = make([*words, "Changes"]).decode()
    first = re.search(r"^- (\w+ \w+)", text_of("CHANGELOG.md"), re.MULTILINE)
    assert first and f"* {first[1]}" in found


def test_copyright_names_the_crates() -> None:
    """Each crate of the kit that a program or the library is made of is in the copyright file."""
    lines = [it.split("#")[0].split(":") for it in text_of("crates.txt").splitlines()]
    pairs = {it[0].split()[0]: it[1].split() for it in lines if len(it) == 2}
    used = {crate for crates in pairs.values() for crate in crates} - set(pairs)
    text = text_of("packaging/copyright")
    # Only programs that print times use this one.
    assert {it for it in used - {"anyhow"} if not re.search(rf"\b{it}\b", text)} == set()


def test_pkg_config(bench: Bench, packages: Unpacked) -> None:
    """An example of the root by pkg-config over the root."""
    need("g++", "pkg-config")
    search = {"PKG_CONFIG_PATH": str(packages.root / LIBDIR / "pkgconfig")}
    shutil.copy(packages.root / "usr/share/doc/det/examples/cpp/tracker.cpp", bench.folder)
    line = LINE.search(text_of("docs/CPP.md"))[1]  # type: ignore
    environment = {**bench.programs.environment(), **search}
    assert run(["sh", "-c", line], bench.folder, environment) == Outcome(0, b"", b"")
    check_tracker(bench, bench.folder / "tracker")
    words = ["pkg-config", "--modversion", "deterministic_client"]
    assert run(words, bench.folder, environment).out == f"{VERSION}\n".encode()


@pytest.mark.slow
def test_cmake(bench: Bench, packages: Unpacked) -> None:
    """Examples of the root by CMake over the root."""
    need("g++", "cmake")
    source, build = packages.root / "usr/share/doc/det/examples/cpp", bench.folder / "build"
    make(["cmake", "-S", source, "-B", build, f"-DCMAKE_PREFIX_PATH={packages.root / 'usr'}"])
    make(["cmake", "--build", build, "--target", "tracker"])
    check_tracker(bench, build / "tracker")


def test_lintian(packages: Unpacked) -> None:
    """lintian has no error and no warning that packaging/ doesn't explain."""
    need("lintian")
    words = ["lintian", "--allow-root", "--fail-on", "error,warning", *packages.files.values()]
    given = run(words, packages.root.parent, limit=600)
    assert (given.status, given.out) == (0, b""), given.out.decode()


def dpkg(root: Path, *words: object) -> Outcome:
    """dpkg with a root of its own, whose packages need nothing."""
    command = ["dpkg", f"--root={root}", "--force-depends", "--log=/dev/null", *words]
    return run(command, root)


@pytest.mark.skipif(os.geteuid() != 0, reason="only root can install a package")
def test_installed_and_removed(folder: Path, packages: Unpacked) -> None:
    """dpkg installs both below a folder, verifies their files, and leaves nothing of them."""
    need("dpkg")
    admin = folder / "var/lib/dpkg"
    for name in ("info", "updates", "triggers"):
        (admin / name).mkdir(parents=True)
    (admin / "status").write_text("")
    given = dpkg(folder, "--install", *packages.files.values())
    assert given.status == 0, str(given)
    assert run([folder / "usr/bin/det", "--version"], folder).out == f"det {VERSION}\n".encode()
    assert dpkg(folder, "--verify", *PACKAGES) == Outcome(0, b"", b"")
    (folder / "usr/share/doc/det/README.md").write_text("changed")
    assert b"usr/share/doc/det/README.md" in dpkg(folder, "--verify", "det").out
    given = dpkg(folder, "--purge", *PACKAGES)
    assert given.status == 0, str(given)
    assert [it for it in folder.rglob("*") if it.is_file() and admin not in it.parents] == []


def test_nothing_built(folder: Path) -> None:
    """Without the programs nothing is packed, and a line says what to do."""
    top = copy_of_the_top(folder / "top")
    given = run(["python3", "-B", top / "tools/debian.py"], folder)
    assert (given.status, given.out) == (1, b""), str(given)
    assert b"run `make` first" in given.err
    assert not (top / "out").exists()


def test_missing_tool(folder: Path) -> None:
    """Without dpkg-deb a line names the Debian package that has it."""
    words = [sys.executable, "-B", TOP / "tools" / "debian.py", "--to", folder / "to"]
    given = run(words, folder, {"PATH": str(folder)})
    line = b"debian: no dpkg-deb, dpkg-shlibdeps, strip here: install the Debian packages"
    assert given.status == 1 and given.err.startswith(line), str(given)
    assert not (folder / "to").exists()


def test_makefile() -> None:
    given = run(["make", "-n", "--no-print-directory", "deb"], TOP)
    assert given.status == 0 and b"tools/debian.py" in given.out, str(given)
