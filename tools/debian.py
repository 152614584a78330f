#!/usr/bin/env python3
"""Makes Debian packages of what `make` built, and builds nothing.

    python3 tools/debian.py                           what `make deb` does: into out/debian
    .. --to FOLDER                                    into another folder
    .. --programs FOLDER --library ARCHIVE            of other builds

The package `det` has the programs, the tools of records, the page if `make page` built it, manual
pages, completions, documents and examples. `libdeterministic-client-dev` has the library, its
headers and the files for CMake and pkg-config. Both hold what `make install` installs, without the
list for `make uninstall`. Symbols that only a debugger reads are stripped from programs and
library; code stays as it was built. The tools are run by Debian's own Python, which has its
packages.

The version is that of the file VERSION, the changes are those of CHANGELOG.md. DEBFULLNAME and
DEBEMAIL name another maintainer. With SOURCE_DATE_EPOCH two calls over the same files make the same
bytes. packaging/ has the copyright and what lintian is told. It needs dpkg-deb, dpkg-shlibdeps and
strip.
"""

from __future__ import annotations

import argparse
import gzip
import hashlib
import os
import re
import shutil
import subprocess
import sys
import tempfile
import textwrap
import time
from dataclasses import dataclass, replace
from email.utils import formatdate
from pathlib import Path
from typing import Sequence

sys.dont_write_bytecode = True

import install  # noqa: E402
from install import Copy, Places, Refused  # noqa: E402

TOP = install.TOP
ARCHITECTURE, TRIPLET = "amd64", "x86_64-linux-gnu"
PYTHON = "/usr/bin/python3"
PLACES = Places(f"lib/{TRIPLET}", "include", "share/man")
MAINTAINER = ("Wirafotsy maintainers", "maintainers@users.noreply.wirafotsy.example")
# The Debian package of each tool that is called.
NEEDED = {"dpkg-deb": "dpkg", "dpkg-shlibdeps": "dpkg-dev", "strip": "binutils"}
STRIP_PROGRAM = ("strip", "--remove-section=.comment", "--remove-section=.note")
STRIP_LIBRARY = ("strip", "--strip-debug", "--enable-deterministic-archives")
HEADING = re.compile(r"^## \[(\S+)\] - (\S+)$", re.M)


@dataclass(frozen=True)
class Package:
    """A package: its name, the fields that are its own, its description and its files."""

    name: str
    fields: dict[str, str]
    brief: str
    about: str
    copies: list[Copy]


def check_tools() -> None:
    missing = [it for it in NEEDED if not shutil.which(it)]
    if missing:
        packages = " ".join(NEEDED[it] for it in missing)
        raise Refused(f"no {', '.join(missing)} here: install the Debian packages {packages}")


def call(words: Sequence[str], folder: Path, **more: str) -> str:
    """What a tool prints, which has to end well. `more` are variables of its environment."""
    pipes = {"stdout": subprocess.PIPE, "stderr": subprocess.PIPE}
    done = subprocess.run(words, cwd=folder, env={**os.environ, **more}, **pipes)
    if done.returncode:
        raise Refused(f"{words[0]} ends with {done.returncode}: {done.stderr.decode().strip()}")
    return done.stdout.decode()


def strip_symbols(data: bytes, words: Sequence[str]) -> bytes:
    """A program or an archive without what only a debugger reads."""
    with tempfile.TemporaryDirectory() as name:
        file = Path(name) / "file"
        file.write_bytes(data)
        call([*words, str(file)], Path(name))
        return file.read_bytes()


def gzip_bytes(data: bytes) -> bytes:
    """The bytes as gzip has them, the same at any time."""
    return gzip.compress(data, 9, mtime=0)


def debian_copy(copy: Copy) -> Copy:
    """A file as Debian wants it."""
    if copy.data.startswith(b"\x7fELF"):
        return replace(copy, data=strip_symbols(copy.data, STRIP_PROGRAM))
    if copy.to.endswith(".a"):
        return replace(copy, data=strip_symbols(copy.data, STRIP_LIBRARY))
    if copy.to.startswith(f"{PLACES.mandir}/"):
        return replace(copy, to=f"{copy.to}.gz", data=gzip_bytes(copy.data))
    if copy.data.startswith(b"#!"):
        return replace(copy, mode=install.PROGRAM)
    return copy


def maintainer() -> str:
    name, mail = os.environ.get("DEBFULLNAME"), os.environ.get("DEBEMAIL")
    return f"{name or MAINTAINER[0]} <{mail or MAINTAINER[1]}>"


def version() -> str:
    return install.source("VERSION").decode().strip()


def changes() -> tuple[str, list[str]]:
    """When the version was released, and its changes, from CHANGELOG.md."""
    text = install.source("CHANGELOG.md").decode()
    heads = list(HEADING.finditer(text))
    for head, after in zip(heads, [*heads[1:], None]):
        if head[1] == version():
            part = text[head.end() : after.start() if after else len(text)]
            items = re.findall(r"^- (.*(?:\n  .*)*)", part, re.M)
            return head[2], [" ".join(it.split()) for it in items]
    raise Refused(f"CHANGELOG.md has no part on {version()}")


def changelog(when: int) -> bytes:
    """The changes of the version in Debian's form."""
    released, items = changes()
    place = "UNRELEASED" if released == "unreleased" else "unstable"
    lines = [f"det ({version()}) {place}; urgency=medium", ""]
    for item in items:
        lines += textwrap.wrap(item, 76, initial_indent="  * ", subsequent_indent="    ")
    lines += ["", f" -- {maintainer()}  {formatdate(when)}", ""]
    return "\n".join(lines).encode()


def papers(name: str, when: int) -> list[Copy]:
    """What each package says of itself: copyright, changes, and what lintian is told."""
    folder = f"share/doc/{name}"
    copies = [
        Copy(f"{folder}/copyright", install.source("packaging/copyright")),
        Copy(f"{folder}/changelog.gz", gzip_bytes(changelog(when))),
    ]
    overrides = f"packaging/{name}.lintian-overrides"
    if (TOP / overrides).is_file():
        copies.append(Copy(f"share/lintian/overrides/{name}", install.source(overrides)))
    return copies


def needed_libraries(programs: Sequence[Copy]) -> str:
    """The packages of the shared libraries that the programs need, as dpkg-shlibdeps finds them."""
    with tempfile.TemporaryDirectory() as name:
        folder = Path(name)
        (folder / "debian").mkdir()
        wanted = "Source: det\n\nPackage: det\nArchitecture: any\n"
        (folder / "debian" / "control").write_text(wanted)
        for it in programs:
            (folder / Path(it.to).name).write_bytes(it.data)
        names = [Path(it.to).name for it in programs]
        found = call(["dpkg-shlibdeps", "-O", *names], folder)
    return found.strip().partition("shlibs:Depends=")[2]


def program_package(given: argparse.Namespace, when: int) -> Package:
    programs = [debian_copy(it) for it in install.programs(given.programs)]
    others = [*install.manuals(PLACES), *install.completions(), *install.tools("/usr", PYTHON)]
    others += [*install.page(), *install.documents(), *papers("det", when)]
    fields = {
        "Section": "utils",
        "Depends": f"{needed_libraries(programs)}, python3 (>= 3.9)",
        "Suggests": "bash-completion, libdeterministic-client-dev, parallel, python3-h5py",
    }
    about = (
        "Runs cyclic jobs as redundant copies do, after the class DeterministicClient of the "
        "AUTOSAR Adaptive Platform, on any number of threads. Writes a binary record of every "
        "cycle, and reads, compares, checks and votes records. The programs are written in Rust "
        "with contracts; README.md says what is proved of them."
    )
    brief = "records of deterministic cyclic jobs"
    return Package("det", fields, brief, about, [*programs, *map(debian_copy, others)])


def library_package(given: argparse.Namespace, when: int) -> Package:
    archive = str(given.library.resolve()) if given.library else install.LIBRARY
    name = "libdeterministic-client-dev"
    copies = [*install.library(PLACES, archive), *papers(name, when)]
    suggests = "cmake, det, g++, pkg-config"
    fields = {"Section": "libdevel", "Depends": "libc6-dev", "Suggests": suggests}
    about = (
        "A static library with headers for C++17 and C11, by which an application has a class "
        "DeterministicClient as the AUTOSAR Adaptive Platform has it, and writes and reads the "
        "records of the package det. The package det has its documents and examples."
    )
    brief = "deterministic client for applications in C++"
    return Package(name, fields, brief, about, list(map(debian_copy, copies)))


def control(package: Package) -> str:
    """The package's control file."""
    size = sum(len(it.data) // 1024 + 1 for it in package.copies)
    fields = {
        "Package": package.name,
        "Version": version(),
        "Architecture": ARCHITECTURE,
        "Maintainer": maintainer(),
        "Installed-Size": str(size),
        **package.fields,
        "Priority": "optional",
        "Description": package.brief,
    }
    lines = [f"{name}: {value}" for name, value in fields.items()]
    about = textwrap.wrap(package.about, 78, initial_indent=" ", subsequent_indent=" ")
    return "\n".join([*lines, *about, ""])


def sums(package: Package) -> str:
    """The digest of each file, by which `dpkg --verify` finds changed ones."""
    lines = (f"{hashlib.md5(it.data).hexdigest()}  usr/{it.to}\n" for it in package.copies)
    return "".join(sorted(lines, key=lambda it: it.split()[1]))


def make_package(package: Package, to: Path, when: int) -> Path:
    """Lays the files out and has dpkg-deb pack them."""
    with tempfile.TemporaryDirectory() as name:
        root = Path(name) / package.name
        root.mkdir(mode=install.FOLDER)
        root.chmod(install.FOLDER)
        install.install(root / "usr", package.copies)
        own = [Copy("control", control(package).encode()), Copy("md5sums", sums(package).encode())]
        install.install(root / "DEBIAN", own)
        for path in (root, *root.rglob("*")):
            os.utime(path, (when, when))
        file = to / f"{package.name}_{version()}_{ARCHITECTURE}.deb"
        words = ["dpkg-deb", "--root-owner-group", "-Zxz", "--build", str(root), str(file)]
        call(words, to, SOURCE_DATE_EPOCH=str(when))
    return file


def main() -> int:
    parser = argparse.ArgumentParser(description="Makes Debian packages of what `make` built.")
    parser.add_argument("--to", type=Path, default=TOP / "out" / "debian", help="a folder")
    parser.add_argument("--programs", type=Path, help="a folder of other builds of the programs")
    parser.add_argument("--library", type=Path, help="another build of the library")
    given = parser.parse_args()
    when = int(os.environ.get("SOURCE_DATE_EPOCH", time.time()))
    try:
        check_tools()
        packages = [program_package(given, when), library_package(given, when)]
        given.to.mkdir(parents=True, exist_ok=True)
        for it in packages:
            print(make_package(it, given.to.resolve(), when))
        print(f"of {install.kinds(given.programs)}")
    except (Refused, OSError) as why:
        print(f"debian: {why}", file=sys.stderr)
        return 1
    return 0


if __name__ == "__main__":
    sys.exit(main())
