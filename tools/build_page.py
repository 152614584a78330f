#!/usr/bin/env python3
"""Has the page that compares records in a browser built, where it isn't or a source is newer.

    make page                              what it calls
    python3 tools/build_page.py --prove    proves the crate of its module first

Prints where it lies: out/page/det_page.html, one file that needs no network. `made` beside it says
whether the proofs of the crate were checked. Beside out/compiled/page.lock, page.log has what the
tools write. Where the page isn't built, a line says why; the status is 70.
"""

from __future__ import annotations

import argparse
import base64
import os
import signal
import sys
from pathlib import Path
from typing import Optional

from build import NOT_BUILT, SHOWN, Build, NotBuilt
from compile import NoModule
from crate_list import CRATES, LIST, TOP, newest_source, time_of_change
from wasm import compile_wasm

SOURCES, VERSION = TOP / "page", TOP / "VERSION"
OUT = TOP / "out" / "page"
COMPILED, PROVED = "compiled", "proved"
# The scripts of the worker and of the page itself, in order.
WORKER = ("fields.js", "records.js", "worker.js")
PAGE = ("fields.js", "draw.js", "words.js", "parts.js", "charts.js", "page.js")


def one_file(module: bytes) -> str:
    """The page with its version, its scripts and its module."""
    parts = {
        "VERSION": VERSION.read_text().strip(),
        "MODULE": base64.b64encode(module).decode(),
        "WORKER": "\n".join((SOURCES / name).read_text() for name in WORKER),
        "PAGE": "\n".join((SOURCES / name).read_text() for name in PAGE),
    }
    page = (SOURCES / "page.html").read_text()
    for name, text in parts.items():
        page = page.replace(f"/*{name}*/", text)
    return page


class PageBuild(Build):
    """The page. Its program is a module, which is in it."""

    def __init__(self, is_proof: bool) -> None:
        super().__init__("page", is_proof)
        self.page, self.made = OUT / "det_page.html", OUT / "made"

    def find(self) -> Optional[Path]:
        if not self.page.is_file() or not self.made.is_file():
            return None
        files = [LIST, VERSION, SOURCES, *SOURCES.iterdir()]
        sources = [*map(newest_source, self.needed), *(time_of_change(str(it)) for it in files)]
        is_new = max(sources) <= self.page.stat().st_mtime
        is_enough = not self.is_proof or self.made.read_text() == f"{PROVED}\n"
        return self.page if is_new and is_enough else None

    def prove(self) -> Path:
        self.report(f"proving {len(self.needed)} crates, which takes long; log: {self.log}")
        status, output = self.run(["rt", "lib"], CRATES / self.name)
        if status:
            end = "\n".join(f"    {line}" for line in output.splitlines()[-SHOWN:])
            raise NotBuilt(f"`rt lib` fails; {self.log} says more\n{end}")
        return self.page

    def build(self, room: Path) -> Path:
        self.log.write_text("")
        kit = Path(self.run(["rt", "doc"], TOP)[1].strip()).parent
        if not kit.is_absolute():
            raise NotBuilt("no rt on the path; README.md says what is needed")
        if self.is_proof:
            self.prove()
        self.report("compiling it from source, in a minute or two ..")
        try:
            heap = SOURCES / "heap.c"
            module = compile_wasm(kit, CRATES / self.name, heap, room, self.run)
        except NoModule as why:
            raise NotBuilt(f"this kit doesn't serve: {why}; {self.log} says more") from why
        new = room / self.page.name
        new.write_text(one_file(module.read_bytes()))
        OUT.mkdir(parents=True, exist_ok=True)
        os.replace(new, self.page)
        self.made.write_text(f"{PROVED if self.is_proof else COMPILED}\n")
        if not self.is_proof:
            self.report("compiled from source; its proofs weren't checked here: make prove")
        return self.page


def main() -> int:
    parser = argparse.ArgumentParser(description="Has the page for a browser built.")
    parser.add_argument("--prove", action="store_true", help="prove its crate first")
    given = parser.parse_args()
    for number in (signal.SIGTERM, signal.SIGHUP):
        signal.signal(number, signal.default_int_handler)
    build = PageBuild(given.prove)
    try:
        print(build.find() or build.build_locked())
        return 0
    except NotBuilt as why:
        build.report(str(why))
    except KeyboardInterrupt:
        build.report("stopped; the next call builds it anew")
    except OSError as why:
        build.report(str(why))
    return NOT_BUILT


if __name__ == "__main__":
    sys.exit(main())
