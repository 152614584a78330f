#!/usr/bin/env python3
"""Puts records of `det` into the page that compares them in a browser.

    det_page RECORD .. > page.html
    det_page RECORD .. -o page.html [--page FILE]

In the repository it is called as tools/det_page.py.

One to eight records become part of one file, which a build can keep as an artifact. A browser shows
them when it opens the file, without a network. A record with a fault is shown up to it. `--page` is
the page to take; without it, the installed one or the one that `make page` built. With -o the file
is there once it is whole.

Exit statuses: 0 done; 2 bad words; 6 a record or the page without records can't be read; 7 the
page can't be written. On standard error, 2 is `det_page: bad words: WHY`, 6 is `det_page: NAME:
read fault: WHY` with the name of the file, and 7 is `det_page: FILE: write fault: WHY`, with the
first RECORD in place of FILE if it is standard output. Python's standard library is all that it
needs.
"""

from __future__ import annotations

import argparse
import base64
import html
import os
import sys
from pathlib import Path
from typing import Optional, Sequence

from det_tool import BadWords, Parser, ReadFault
from det_tool import check_output, reading, run_tool, standard_output, write_file

MOST_RECORDS = 8
MARK = "<!--EMBEDDED-->"
PAGE = "det_page.html"
HERE = Path(__file__).resolve().parent
# Where the page is beside an installed tool, and in a repository.
PAGES = (HERE.parent / PAGE, HERE.parent / "out" / "page" / PAGE)


def file_bytes(path: Path) -> bytes:
    with reading(path):
        return path.read_bytes()


def page_file(given: argparse.Namespace) -> Optional[Path]:
    """The page without records, if there is one."""
    return given.page or next((it for it in PAGES if it.is_file()), None)


def empty_page(path: Optional[Path]) -> str:
    if path is None:
        raise ReadFault(PAGE, "the page isn't built: `make page` builds it")
    page = file_bytes(path).decode(errors="replace")
    if page.count(MARK) != 1:
        raise ReadFault(path, "it isn't a page that takes records")
    return page


def record_element(path: Path) -> str:
    """A record as an element of the page. A name that isn't UTF-8 is shown with replacements."""
    name = html.escape(os.fsencode(path.name).decode(errors="replace"))
    data = base64.b64encode(file_bytes(path)).decode()
    return f'<script type="text/plain" class="record" data-name="{name}">{data}</script>'


def page_with(records: Sequence[Path], page: Optional[Path]) -> str:
    if not 1 <= len(records) <= MOST_RECORDS:
        raise BadWords(f"{len(records)} records: a page takes 1 to {MOST_RECORDS}")
    before, after = empty_page(page).split(MARK)
    return "\n".join([before, *map(record_element, records), after])


def parser() -> Parser:
    made = Parser("det_page", __doc__)
    made.add_argument("records", metavar="RECORD", nargs="*", type=Path)
    made.add_argument("-o", dest="out", metavar="FILE", help="not standard output")
    made.add_argument("--page", metavar="FILE", type=Path, help="the page without records")
    return made


def work(given: argparse.Namespace) -> int:
    file = page_file(given)
    check_output("-o", given.out, [*given.records, *([file] if file else [])])
    page = page_with(given.records, file)
    if given.out is not None:
        write_file(given.out, [page])
        return 0
    with standard_output(given.records[0]) as out:
        out.write(page)
    return 0


if __name__ == "__main__":
    sys.exit(run_tool(parser(), work))
