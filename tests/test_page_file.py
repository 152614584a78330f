"""The page for a browser as a file: its scripts, and pictures of it by the commands of the
tutorial."""

from __future__ import annotations

import os
import re
from pathlib import Path

import pytest

from browsers import CHROMIUM, FIREFOX, Lacking, program
from build_page import PAGE, SOURCES, WORKER
from builds import build_page
from commands import TOP, run
from documents import section
from page_picture import MANIFEST, PICTURE, SIZE, other_copy, stimulus
from pictures import colours, size_of
from record_bench import RecordBench

MOST_LINES, MOST_COLUMNS, MOST_LINES_OF_FUNCTION = 400, 100, 40
# A function at the top of a script, and a method of a class there.
FUNCTION = re.compile(r"^(?:async )?function \w+\(.*?^\}$", re.M | re.S)
METHOD = re.compile(r"^  (?!if |for )(?:static |async )*\w+\([^;]*?\) \{$.*?^  \}$", re.M | re.S)
# The colours of a verdict that isn't good, and of the elements in a map.
DRAWN = {(0xD5, 0x5E, 0x00), (0x00, 0x72, 0xB2)}
ROWS = 600


@pytest.fixture(scope="module")
def page() -> Path:
    return build_page()


def test_all_scripts_are_in_the_page() -> None:
    assert {it.name for it in SOURCES.glob("*.js")} == {*WORKER, *PAGE}


@pytest.mark.parametrize("name", sorted({*WORKER, *PAGE}))
def test_script_is_short(name: str) -> None:
    """A script has few lines, none of them is long, and no function is."""
    text = (SOURCES / name).read_text()
    assert len(text.splitlines()) <= MOST_LINES
    assert [it for it in text.splitlines() if len(it) > MOST_COLUMNS] == []
    functions = [*FUNCTION.findall(text), *METHOD.findall(text)]
    assert functions
    assert [it for it in functions if len(it.splitlines()) > MOST_LINES_OF_FUNCTION] == []


def picture_of(page: Path, browser: str) -> bytes:
    """The picture that a browser's command in the tutorial makes of `page.html` in a folder."""
    lines = section("docs/TUTORIAL.md", "## A page that compares records").splitlines()
    command = next(it.strip() for it in lines if it.startswith(f"    {browser} --headless "))
    if browser == CHROMIUM:
        command += " --no-sandbox"  # for root, and for containers
    given = run(["bash", "-c", command], page.parent, {**os.environ, "HOME": str(page.parent)})
    assert given.status == 0, given
    return (page.parent / "page.png").read_bytes()


@pytest.mark.slow
@pytest.mark.parametrize("browser", (CHROMIUM, FIREFOX))
def test_picture_without_a_window(browser: str, page: Path, records: RecordBench) -> None:
    """It has the records of a page, also if the browser is fast. Without records there are none."""
    try:
        program(browser)
    except Lacking as why:
        pytest.fail(str(why))
    changed = (TOP / "examples" / "wheels.stim").read_text().replace("sample 0 250", "sample 0 -9")
    words = ["record", TOP / "examples" / "wheels.toml", records.file("changed.stim", changed)]
    files = {"a.rec": records.example("wheels"), "b.rec": records.output("det", *words)}
    names = [records.file(name, data) for name, data in files.items()]
    made = records.folder / "page.html"
    assert records.tool("det_page.py", *names, "-o", "page.html", "--page", str(page)).status == 0
    for _ in range(2):
        assert DRAWN <= colours(picture_of(made, browser), ROWS)
    made.write_bytes(page.read_bytes())
    assert not DRAWN & colours(picture_of(made, browser), ROWS)


def test_picture_of_the_documents(records: RecordBench) -> None:
    """Its records differ from cycle 94 on, as the documents say, and it has the size that is asked
    for."""
    words = [records.file("cloud.toml", MANIFEST), records.file("cloud.stim", stimulus())]
    data = records.output("det", "record", *words)
    files = [records.file("cloud.rec", data), records.file("other.rec", other_copy(data))]
    assert records.run("det", "compare", *files).out == b"differ copy 1 element 94 56\n"
    assert records.output("det", "check", files[0]).startswith(b"genuine 240\n")
    width, height, scale = (float(it) for it in re.findall(r"[\d.]+", " ".join(SIZE)))
    assert size_of(PICTURE.read_bytes()) == (width * scale, height * scale)
