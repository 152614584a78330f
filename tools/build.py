#!/usr/bin/env python3
"""Has a program built where it isn't, or where a source that it needs is newer.

    python3 tools/build.py det             what bin/det calls
    python3 tools/build.py --prove det     proves and builds it, by rt

Prints its path. A proved program, crates/NAME/out/NAME, is taken where it is there; else it is
compiled from source, without its proofs, as out/compiled/NAME, or proved where the kit doesn't
serve for that. Beside it NAME.log has what the tools write. Of two builds of a program the second
waits, and takes what the first one made. Where it isn't built, a line says why; the status is 70.
"""

from __future__ import annotations

import argparse
import errno
import fcntl
import os
import shutil
import signal
import sys
import tempfile
import time
from contextlib import suppress
from functools import partial
from pathlib import Path
from typing import Optional

from compile import NoModule, compile_program, run_logged
from crate_list import CRATES, TOP, is_built, listed_crates, needed_by, program_file

COMPILED = TOP / "out" / "compiled"
NOT_BUILT = 70
SHOWN = 15  # lines of a log


class NotBuilt(Exception):
    """The program can't be built; the text says why."""


class Build:
    def __init__(self, name: str, is_proof: bool) -> None:
        self.name, self.is_proof = name, is_proof
        self.needed = needed_by(name, listed_crates())
        self.compiled, self.log = COMPILED / name, COMPILED / f"{name}.log"
        self.run = partial(run_logged, self.log)

    def report(self, text: str) -> None:
        print(f"{self.name}: {text}", file=sys.stderr, flush=True)

    def find(self) -> Optional[Path]:
        """The program that is there and as new as its sources. It is made as new as this look at
        them, so that bin/build_and_run sees that no source is newer."""
        looked = time.time()
        for file in [program_file(self.name)] + [self.compiled] * (not self.is_proof):
            if is_built(file, self.needed):
                with suppress(OSError):
                    os.utime(file, (looked, looked))
                return file
        return None

    def compile(self, room: Path) -> Path:
        begun = time.time()  # what is changed from now on is newer than the program
        self.report("compiling it from source, in a minute or two ..")
        kit = Path(self.run(["rt", "doc"], TOP)[1].strip()).parent
        program = compile_program(kit, CRATES / self.name, room, self.run)
        os.utime(program, (begun, begun))
        program.rename(self.compiled)
        self.report("compiled from source; its proofs weren't checked here: make prove")
        return self.compiled

    def prove(self) -> Path:
        begun, program = time.time(), program_file(self.name)
        self.report(f"proving {len(self.needed)} crates, which takes long; log: {self.log}")
        for words in (["rt", "all", "check"], ["rt", "run", "--", "--version"]):
            status, output = self.run(words, CRATES / self.name)
            if status or (words[1] == "run" and not program.is_file()):
                end = "\n".join(f"    {line}" for line in output.splitlines()[-SHOWN:])
                remedy = f"mend what {self.log} says, or see whether `rt selftest` passes"
                raise NotBuilt(f"`{' '.join(words)}` fails: {remedy}\n{end}")
        os.utime(program, (begun, begun))
        return program

    def build(self, room: Path) -> Path:
        if not shutil.which("rt"):
            raise NotBuilt("no rt on the path; README.md says what is needed")
        self.log.write_text("")
        try:
            return self.prove() if self.is_proof else self.compile(room)
        except NoModule as why:
            self.report(f"can't be compiled without its proofs with this kit: {why}")
            return self.prove()

    def build_locked(self) -> Path:
        """Has the program built once no other process builds it, in a folder that goes again."""
        COMPILED.mkdir(parents=True, exist_ok=True)
        with open(COMPILED / f"{self.name}.lock", "w") as lock:
            try:
                fcntl.flock(lock, fcntl.LOCK_EX | fcntl.LOCK_NB)
            except BlockingIOError:
                self.report("another process builds it; waiting for its end")
                fcntl.flock(lock, fcntl.LOCK_EX)
            for left in COMPILED.glob(f"{self.name}-*"):  # of a build that was killed
                shutil.rmtree(left, ignore_errors=True)
            with tempfile.TemporaryDirectory(prefix=f"{self.name}-", dir=COMPILED) as room:
                os.environ["TMPDIR"] = room
                return self.find() or self.build(Path(room))


def main() -> int:
    parser = argparse.ArgumentParser(description="Has a program built where needed.")
    names = [path.parent.parent.name for path in CRATES.glob("*/src/main.rt")]
    parser.add_argument("program", metavar="NAME", choices=names)
    parser.add_argument("--prove", action="store_true", help="prove it, by rt")
    given = parser.parse_args()
    for number in (signal.SIGTERM, signal.SIGHUP):
        signal.signal(number, signal.default_int_handler)
    build = Build(given.program, given.prove)
    try:
        print(build.find() or build.build_locked())
        return 0
    except NotBuilt as why:
        build.report(str(why))
    except KeyboardInterrupt:
        build.report("stopped; the next call builds it anew")
    except OSError as why:
        is_full = why.errno == errno.ENOSPC
        build.report(f"{why}" + f": free a gigabyte for {COMPILED}, and call again" * is_full)
    return NOT_BUILT


if __name__ == "__main__":
    sys.exit(main())
