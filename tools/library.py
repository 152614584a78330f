#!/usr/bin/env python3
"""Has the static library for C and C++ built where it isn't, or where a source of it is newer.

    bin/build_library                      takes what is there, else compiles it without its proofs
    bin/build_library --prove              takes or makes a proved one
    bin/build_library --compile            takes what is there, or compiles it; never proves
    bin/build_library --target TARGET      for x86_64-unknown-linux-gnu or aarch64-unknown-linux-gnu

Prints where it lies: out/lib/libdeterministic_client.a, or out/lib/TARGET/libdeterministic_client.a
for a TARGET; `made` beside it says how it was made. One for another target than this machine's is
always proved, and so is one with a kit that doesn't serve for compiling. Over the libraries that
`make prove` left only its own crates are proved, which takes minutes; else all below them too.
It ends with 0, with 2 for other words, or with 70 and a line that says why it isn't built.
"""

from __future__ import annotations

import argparse
import errno
import fcntl
import importlib
import os
import shutil
import signal
import sys
import tempfile
from functools import partial
from pathlib import Path

from compile import NoModule, compile_library, run_logged
from crate_list import CRATES, LIST, TOP, listed_crates, needed_by, newest_source, time_of_change

# The crates whose exports are in the library.
EXPORTING = (
    "det_client_c",
    "det_record_c",
    "det_reading_c",
    "det_stimulus_c",
    "det_manifest_c",
    "det_verdict_c",
)
HOST, ARM = "x86_64-unknown-linux-gnu", "aarch64-unknown-linux-gnu"
# What is in C: memory, in an object of its own, and the version that the headers ask for.
C_SOURCES = [TOP / "cpp" / name for name in ("rattle_heap.c", "library_version.c")]
VERSION_HEADER = TOP / "include" / "det" / "exec" / "version.h"
OUT = TOP / "out" / "lib"
GATE = TOP / "out" / "proved"  # as old as the beginning of the gate that passed last
COMPILED, PROVED = "compiled", "proved"
NOT_BUILT = 70


class NotBuilt(Exception):
    """The library can't be built; the text says why."""


def report(text: str) -> None:
    print(f"build_library: {text}", file=sys.stderr, flush=True)


class Library:
    """The library for one target, in a folder of its own."""

    def __init__(self, target: str, folder: Path, never_proves: bool) -> None:
        self.target, self.folder, self.never_proves = target, folder, never_proves
        self.archive, self.made = folder / "libdeterministic_client.a", folder / "made"
        folder.mkdir(parents=True, exist_ok=True)
        self.run = partial(run_logged, folder / "log")
        self.kit = Path(self.run(["rt", "doc"], TOP)[1].strip()).parent
        self.clang = f"{self.kit}/toolchain/bin/clang"

    def is_there(self, is_proof: bool) -> bool:
        """Whether the archive is there, as new as its sources, and proved where that is wanted."""
        if not self.archive.is_file() or not self.made.is_file():
            return False
        crates = {name for it in EXPORTING for name in needed_by(it, listed_crates())}
        files = [*C_SOURCES, VERSION_HEADER, LIST]
        sources = [*(time_of_change(str(it)) for it in files), *map(newest_source, crates)]
        is_new = max(sources) <= self.archive.stat().st_mtime
        return is_new and (not is_proof or self.made.read_text() == f"{PROVED}\n")

    def compile(self, work: Path) -> list[Path]:
        report("compiling it from source, in some minutes ..")
        return [compile_library(self.kit, CRATES / it, work, self.run) for it in EXPORTING]

    def over_the_gate(self, crate: str) -> bool:
        """Proves and builds a crate over the libraries that `make prove` left, where they are all
        there and no source changed since it began. rt gives old libraries that it kept, so their
        own times say nothing."""
        for name in needed_by(crate, listed_crates())[:-1]:
            checked = CRATES / name / "out/rlib" / f"{name}.rlib" / "format"
            if not checked.is_file() or time_of_change(str(GATE)) < newest_source(name):
                return False
        sys.path.insert(0, str(self.kit / "bin"))
        try:
            rtlib = importlib.import_module("rtlib")
            found = rtlib.crates_below(str(CRATES / crate))
            one = next(it for it in found if it.name == crate)
            words = one.words(["--jobs", str(len(os.sched_getaffinity(0)))], keeps=False)
        except (Exception, SystemExit):
            return False
        words += ["--target", self.target] * (self.target != HOST)
        words += ["--toolchain", f"{self.kit}/toolchain", "-o", f"out/lib{crate}.a"]
        (CRATES / crate / "out").mkdir(exist_ok=True)
        report(f"proving {crate} for {self.target} over what the gate proved ..")
        status, _ = self.run([f"{self.kit}/bin/rattle", "build", *words], CRATES / crate)
        return status == 0

    def prove(self, work: Path) -> list[Path]:
        for crate in EXPORTING:
            if not self.over_the_gate(crate):
                report(
                    f"proving {crate} for {self.target} and all below it, which takes minutes .."
                )
                status, output = self.run(["rt", "lib", "--target", self.target], CRATES / crate)
                if status:
                    raise NotBuilt(f"{crate} isn't proved: {self.folder / 'log'} says why")
            shutil.move(CRATES / crate / "out" / f"lib{crate}.a", work / f"{crate}.a")
        return [work / f"{crate}.a" for crate in EXPORTING]

    def compile_c(self, source: Path, work: Path) -> Path:
        made = work / f"{source.stem}.o"
        words = [f"--target={self.target}", "-O2", "-fPIC", f"-I{TOP / 'include'}"]
        self.run([self.clang, *words, "-c", str(source), "-o", str(made)], work)
        return made

    def merge(self, files: list[Path], work: Path) -> None:
        """Makes one archive of archives and of the objects of the C sources."""
        merged = work / "merged.a"
        objects = [self.compile_c(source, work) for source in C_SOURCES]
        names = [*files, *objects]
        adds = [f"add{'lib' if it.suffix == '.a' else 'mod'} {it.name}" for it in names]
        script = work / "script"
        script.write_text("\n".join([f"create {merged.name}", *adds, "save", "end", ""]))
        self.run(["sh", "-c", f'"{self.kit}/toolchain/bin/llvm-ar" -M < script'], work)
        if not merged.is_file():
            raise NotBuilt(f"the archive isn't made: {self.folder / 'log'} says why")

    def build(self, is_proof: bool, work: Path) -> None:
        how = PROVED if is_proof or self.target != HOST else COMPILED
        files: list[Path] = []
        if how == COMPILED:
            try:
                files = self.compile(work)
            except NoModule as why:
                reason = f"can't be compiled without its proofs with this kit: {why}"
                if self.never_proves:
                    raise NotBuilt(reason) from why
                report(reason)
                how = PROVED
        self.merge(files or self.prove(work), work)
        self.made.write_text(f"{how}\n")
        os.replace(work / "merged.a", self.archive)
        if how == COMPILED:
            report("compiled from source; its proofs weren't checked here: make prove")


def build_locked(target: str, folder: Path, given: argparse.Namespace) -> Path:
    """Has the library built where it isn't, once no other process builds one."""
    OUT.mkdir(parents=True, exist_ok=True)
    with open(OUT / "lock", "w") as lock:
        # The builds for both targets write one file of a crate's folder.
        fcntl.flock(lock, fcntl.LOCK_EX)
        library = Library(target, folder, given.compile)
        if not library.is_there(given.prove):
            if not shutil.which("rt"):
                raise NotBuilt("no rt on the path; README.md says what is needed")
            with tempfile.TemporaryDirectory(prefix="made-", dir=OUT) as work:
                os.environ["TMPDIR"] = work
                library.build(given.prove, Path(work))
        return library.archive


def main() -> int:
    parser = argparse.ArgumentParser(prog="build_library", description="Has the library built.")
    parser.add_argument("--target", choices=(HOST, ARM))
    how = parser.add_mutually_exclusive_group()
    how.add_argument("--prove", action="store_true", help="no library without its proofs")
    how.add_argument("--compile", action="store_true", help="no proving build")
    given = parser.parse_args()
    for number in (signal.SIGTERM, signal.SIGHUP):
        signal.signal(number, signal.default_int_handler)
    folder = OUT / given.target if given.target else OUT
    try:
        print(build_locked(given.target or HOST, folder, given))
        return 0
    except NotBuilt as why:
        report(str(why))
    except KeyboardInterrupt:
        report("stopped; the next call builds it anew")
    except OSError as why:
        is_full = why.errno == errno.ENOSPC
        report(f"{why}" + f": free a gigabyte for {OUT}, and call again" * is_full)
    return NOT_BUILT


if __name__ == "__main__":
    sys.exit(main())
