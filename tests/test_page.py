"""The page that compares records in a browser: in Chromium and in Firefox it says what `det
compare` and `det show` say, and shows the values that tools/det_record.py reads."""

from __future__ import annotations

import random
import re
import tempfile
from pathlib import Path
from typing import Any, Iterator, Sequence

import pytest

from browsers import CHROMIUM, FIREFOX, Browser, Lacking, opened
from build_page import one_file
from builds import build_page
from commands import TOP
from det_record import Finished, Refused
from documents import section
from hint_inputs import RUN_1_AT, WHOLE
from hint_records import RECORDS
from mutations import changed_record
from page_words import REASONS, expected_verdict, expected_words, runs_in
from record_bench import RecordBench
from record_bytes import many_runs, mixed_record

# How many draws of copies a browser compares.
DRAWS = {CHROMIUM: 60, FIREFOX: 15}
EXACT_CYCLES = 200

# What the page shows, as one value.
SHOWN = """({
  verdict: document.getElementById('verdict').textContent,
  words: document.getElementById('words').textContent,
  copies: [...document.querySelectorAll('#copies tr')].slice(1)
    .map((row) => [...row.children].map((it) => it.textContent)),
  texts: Object.fromEntries([...document.querySelectorAll('pre')]
    .map((it) => [it.id, it.textContent])),
  differing: [...document.querySelectorAll('.differing')].map((it) => it.textContent),
  headings: [...document.querySelectorAll('h2')].map((it) => it.textContent),
  width: document.documentElement.scrollWidth,
})"""


@pytest.fixture(scope="module")
def page() -> Path:
    return build_page()


@pytest.fixture(scope="module", params=(CHROMIUM, FIREFOX))
def browser(request: pytest.FixtureRequest, module_folder: Path) -> Iterator[Browser]:
    folder = Path(tempfile.mkdtemp(prefix=f"{request.param}-", dir=module_folder))
    try:
        with opened(request.param, folder) as found:
            yield found
    except Lacking as why:
        pytest.fail(str(why))


def load(browser: Browser, page: Path) -> None:
    """Opens a page and waits until it takes records, or says why it can't."""
    browser.go(page.resolve().as_uri())
    browser.wait("document.body.dataset.ready || document.body.dataset.done")


def choose(browser: Browser, files: Sequence[str]) -> dict[str, Any]:
    """Chooses files on the page. Returns what it shows then."""
    browser.value(
        "(() => { document.getElementById('files').value = ''; "
        "delete document.body.dataset.done; return 1 })()"
    )
    browser.choose([Path(it) for it in files])
    browser.wait("document.body.dataset.done")
    assert browser.errors == []
    return browser.value(SHOWN)


def text_of(browser: Browser, cycle: int) -> str:
    """The text of a cycle, as the module prints it of copy 0."""
    return browser.value(f"ask('text', 0, {cycle})")


def some_copies(draw: int, records: RecordBench) -> list[bytes]:
    """Two to four copies: equal, changed, cut, or of other runs."""
    chance = random.Random(draw)
    bases = [records.example(it) for it in ("guard", "wheels", "bank")] + [mixed_record(2)]
    base = chance.choice(bases)
    copies = [base]
    for _ in range(chance.choice((1, 1, 2, 3))):
        kind = chance.randrange(8)
        if kind < 4:
            copies.append(changed_record(chance, base))
        elif kind == 4:
            copies.append(base[: chance.randrange(len(base))])
        else:
            copies.append(base if kind < 7 else chance.choice(bases))
    chance.shuffle(copies)
    return copies


def name_of(browser: Browser) -> str:
    return CHROMIUM if type(browser).__name__ == "Chromium" else FIREFOX


@pytest.mark.slow
def test_verdicts_are_those_of_compare(browser: Browser, page: Path, records: RecordBench) -> None:
    """Copies drawn by chance: the verdict and its meaning, the faults, the numbers of cycles and of
    refusals, and the text of a cycle of copy 0."""
    load(browser, page)
    for draw in range(DRAWS[name_of(browser)]):
        copies = some_copies(draw, records)
        files = [records.file(f"{draw}-{k}.rec", it) for k, it in enumerate(copies)]
        shown = choose(browser, files)
        given = records.run("det", "compare", *files)
        assert shown["verdict"] == expected_verdict(given), draw
        words = expected_words(given, copies, [Path(it).name for it in files])
        assert shown["words"].startswith(words), draw
        for k, (row, data) in enumerate(zip(shown["copies"], copies)):
            runs = runs_in(data)
            refused = sum(isinstance(it.outcome, Refused) for it in runs)
            fault = records.run("det", "show", files[k]).line().decode()
            state = re.sub(r"bad record: copy 0 offset (\d+) (\w+)", r"fault at \1: \2", fault)
            assert row[3:] == [str(len(runs)), str(refused), state or "whole"], (draw, k)
        cycle = 1 + draw % 5
        printed = records.run("det", "show", files[0], "--cycle", str(cycle)).out.decode()
        assert text_of(browser, cycle) == printed, draw


def test_words_on_each_kind_of_fault(browser: Browser, page: Path, records: RecordBench) -> None:
    """Beside a whole record: a fault at each place that hints name, and each reason."""
    load(browser, page)
    whole = records.example("guard")
    cases = [it for it in RECORDS if [*it.words[1:3]] == [b"compare", b"r"] and "q" in it.files]
    faulty = [it.files["q"] for it in cases] + [whole[:7] + b"\3" + whole[8:]]
    seen = set()
    for k, data in enumerate(faulty):
        files = [records.file("r.rec", WHOLE), records.file(f"q{k}.rec", data)]
        shown, given = choose(browser, files), records.run("det", "compare", *files)
        assert shown["verdict"] == expected_verdict(given)
        words = expected_words(given, [WHOLE, data], ["r.rec", f"q{k}.rec"])
        assert shown["words"] == words
        seen.add(shown["verdict"].split()[-1])
    assert len(cases) > 10
    assert seen == set(REASONS) - {"too_many"}


def test_words_on_one_record(browser: Browser, page: Path, records: RecordBench) -> None:
    """A whole record; one that is torn in its last cycle; one without cycles; a text; a file
    without bytes. What a file doesn't have has no heading."""
    load(browser, page)
    whole = records.example("guard")
    parts = {"A cycle as text", "Header of copy 0"}
    for name, data, headings in (
        ("whole.rec", whole, parts),
        ("torn.rec", whole[:-9], parts),
        ("no cycle.rec", WHOLE[:RUN_1_AT], {"Header of copy 0"}),
        ("notes.txt", b"no record\n", set()),
        ("empty", b"", set()),
    ):
        file = records.file(name, data)
        shown, given = choose(browser, [file]), records.run("det", "show", file, "--reports")
        assert shown["words"].startswith(expected_words(given, [data], [name]))
        assert parts & {*shown["headings"]} == headings, name


@pytest.mark.slow
def test_words_on_too_many_cycles(browser: Browser, page: Path, records: RecordBench) -> None:
    load(browser, page)
    data = many_runs(1_000_001)
    file = records.file("many.rec", data)
    shown, given = choose(browser, [file]), records.run("det", "show", file, "--reports")
    place = "where frame 1000003 begins: a run or Terminate"
    assert given.hints()[0].decode().endswith(f": {place}")
    # The run too many takes 15 bytes, and Terminate one.
    assert shown["verdict"] == f"bad record: copy 0 offset {len(data) - 16} too_many"
    assert shown["words"] == (
        f"many.rec has a fault at offset {len(data) - 16}, {place}. {REASONS['too_many']} "
        "The 1,000,000 whole cycles before the fault are shown."
    )


def test_records_beside_a_text(browser: Browser, page: Path, records: RecordBench) -> None:
    """The header and the names of numbers are those of the first record, and a cycle is shown of
    the copies that have it. The table has the faults that the verdict isn't about."""
    load(browser, page)
    data = records.example("wheels")
    names = {"notes.txt": b"no record\n", "a.rec": data, "torn.rec": data[:-1]}
    shown = choose(browser, [records.file(name, it) for name, it in names.items()])
    assert shown["words"].endswith(" The table names the fault of copy 2.")
    assert "Header of copy 1" in shown["headings"]
    assert shown["texts"]["header"].startswith("format 2\njob 3\n")
    assert shown["texts"]["outputs"].startswith("cycle\tcopy 0 corrections of all cycles\t")
    printed = records.run("det", "show", "a.rec", "--cycle", "1").out.decode()
    text = f"copy 1, copy 2\n{printed}\n\ncopy 0 has no such cycle"
    assert shown["texts"]["text"] == text


def fields_of(data: bytes) -> tuple[list[str], list[str]]:
    """The header and the lines of the first cycles' elements 0 of a guard, as the page shows them:
    number, held value and streak, each as docs/FORMATS.md spells it."""
    lines = []
    for cycle, run in enumerate(runs_in(data)[:EXACT_CYCLES], 1):
        numbers = ["-", "-", "-"]
        if isinstance(run.outcome, Finished):
            content = run.outcome.elements.content(0)
            held = int.from_bytes(content[4:12], "big", signed=True)
            numbers = [str(int.from_bytes(content[:4], "big")), str(held)]
            numbers.append(str(int.from_bytes(content[12:14], "big")))
        lines.append("\t".join([str(cycle), *numbers]))
    return ["number", "held value", "streak"], lines


def guard_outputs(data: bytes) -> list[str]:
    """Corrections of all cycles, and those of the cycle, which a guard's output begins with."""
    lines = []
    for cycle, run in enumerate(runs_in(data)[:EXACT_CYCLES], 1):
        numbers = ["-", "-"]
        if isinstance(run.outcome, Finished):
            output = run.outcome.output
            numbers = [str(int.from_bytes(output[:8], "big"))]
            numbers.append(str(int.from_bytes(output[8:12], "big")))
        lines.append("\t".join([str(cycle), *numbers]))
    return lines


def test_numbers_are_those_of_the_record(
    browser: Browser, page: Path, records: RecordBench
) -> None:
    """The values of an element and the outputs of a guard, of which a cycle is refused."""
    load(browser, page)
    data = records.example("guard")
    shown = choose(browser, [records.file("guard.rec", data)])
    browser.value("showValues(document.createElement('div'), 3, '0').then(() => 1)")
    names, lines = fields_of(data)
    values = shown["texts"]["values"].splitlines()
    assert [it.split("\t")[:4] for it in values[1:]] == [it.split("\t") for it in lines]
    assert values[0].split("\t")[1:4] == [f"copy 0 element 0 {it}" for it in names]
    assert shown["texts"]["outputs"].splitlines()[1:] == guard_outputs(data)
    refusals = [it for it in runs_in(data) if isinstance(it.outcome, Refused)]
    assert len(shown["texts"]["refusals"].splitlines()) == len(refusals) > 0


def differing_cycles(ours: bytes, theirs: bytes) -> int:
    """In how many cycles two records differ, of those that both have."""
    return sum(a != b for a, b in zip(runs_in(ours), runs_in(theirs)))


def test_map_counts_cycles_that_differ(browser: Browser, page: Path, records: RecordBench) -> None:
    """Two clouds of which one has changed bytes. The difference is said in words."""
    load(browser, page)
    data = records.example("cloud")
    changed = bytearray(data)
    # The last bytes of elements are draws; a change there keeps the record whole.
    for at in range(60_000, len(data) - 3_000, 7_919):
        changed[at] ^= 1
    files = [records.file("a.rec", data), records.file("b.rec", bytes(changed))]
    shown = choose(browser, files)
    count = differing_cycles(data, bytes(changed))
    assert shown["differing"][0].startswith(f"{count} of {len(runs_in(data))} cycles differ.")
    found = re.fullmatch(r"differ copy 1 element (\d+) (\d+)", shown["verdict"])
    assert found and count > 1
    assert shown["words"].startswith(
        f"Copy 1 differs from copy 0: element {found[2]} of cycle {found[1]} differs. Copy 0 has "
        f"number {found[2]}, x "
    )


def wheels_of(records: RecordBench, name: str, stimulus: str) -> str:
    """The file of a record of the example wheels, of another stimulus."""
    manifest, file = TOP / "examples" / "wheels.toml", records.file(f"{name}.stim", stimulus)
    return records.file(f"{name}.rec", records.output("det", "record", manifest, file))


def test_words_of_the_tutorial(browser: Browser, page: Path, records: RecordBench) -> None:
    """The words that the tutorial quotes. `WHOLE` has the first two cycles of its `one.rec`."""
    load(browser, page)
    quotes = section("docs/TUTORIAL.md", "## A page that compares records").split("\n\n")
    quoted = [it.replace("\n> ", " ")[2:] for it in quotes if it.startswith("> ")]
    text = (TOP / "examples" / "wheels.stim").read_text()
    other = wheels_of(records, "other", text.replace("sample 0 250", "sample 0 -250"))
    pairs = [
        [wheels_of(records, "wheels", text), other],
        [records.file("one.rec", WHOLE), records.file("torn.rec", WHOLE[:300])],
    ]
    assert [choose(browser, it)["words"] for it in pairs] == quoted


def test_words_on_less(browser: Browser, page: Path, records: RecordBench) -> None:
    """A copy with a sample less, and no bytes."""
    load(browser, page)
    text = (TOP / "examples" / "wheels.stim").read_text()
    less = wheels_of(records, "less", text.replace("sample 1 262\n", ""))
    words = choose(browser, [wheels_of(records, "wheels", text), less])["words"]
    assert words == (
        "Copy 1 differs from copy 0: the samples of cycle 2 differ. Copy 0 has sample 1 262. "
        "Copy 1 has no further sample."
    )
    lines = ("output -", "element 7 - 3")
    found = [browser.value(f"lineInWords('{it}', {{ job: 9, events: 0 }})") for it in lines]
    assert found == ["no bytes", "no bytes, 3 draws"]


def test_times_are_exact(browser: Browser, page: Path, records: RecordBench) -> None:
    """Also those beyond 2^53, and their steps. A number of a chart that isn't exact says so."""
    load(browser, page)
    times = [1_700_000_000_000_000_001 + 10_000_000 * k for k in range(4)]
    cycles = "".join(f"cycle {it}\n" for it in times)
    choose(browser, [wheels_of(records, "late", f"stim 1\n{cycles}terminate\n")])
    charts = browser.value("[...document.querySelectorAll('.chart')].map((it) => it.textContent)")
    assert "step of time to the cycle, in ns, from 10,000,000 to 10,000,000" in charts
    pointed = (
        "(() => { const it = document.querySelector('.copy canvas'); "
        "const { left, top } = it.getBoundingClientRect(); it.dispatchEvent("
        "new MouseEvent('mousemove', { clientX: left + 4, clientY: top + 4 })); "
        "return document.getElementById('tip').textContent })()"
    )
    assert browser.value(pointed).startswith(f"cycle 1: finished, time {times[0]:,} ns, ")
    assert browser.value("number(2 ** 63)") == "about 9,223,372,036,854,780,000"


def test_page_that_cant_run(browser: Browser, records: RecordBench) -> None:
    """A page without a module says so, and is loaded."""
    load(browser, Path(records.file("page.html", one_file(b""))))
    assert browser.value(SHOWN)["verdict"].startswith("this browser can't run the page: ")
    assert browser.value("document.readyState") == "complete"


def test_file_that_is_gone(browser: Browser, page: Path, records: RecordBench) -> None:
    """The line has its name, in which `?` is in place of an odd character."""
    load(browser, page)
    file = records.file("gone\u202e.rec", WHOLE)
    choose(browser, [file])
    Path(file).unlink()
    browser.value(
        "(() => { delete document.body.dataset.done; document.getElementById('files')"
        ".dispatchEvent(new Event('change')); return 1 })()"
    )
    browser.wait("document.body.dataset.done")
    shown = browser.value(SHOWN)
    assert (shown["verdict"], shown["words"], shown["copies"]) == ("can't read gone?.rec", "", [])


def test_records_that_come_fast(browser: Browser, page: Path) -> None:
    """Records that are taken while others are read are shown in place of those."""
    load(browser, page)
    files = "[{ name: '%s', blob: new Blob(['x']) }]"
    browser.value(f"(take({files % 'a'}), take({files % 'b'})).then(() => 1)")
    assert [row[1] for row in browser.value(SHOWN)["copies"]] == ["b"]


def test_choice_before_other_records(browser: Browser, page: Path, records: RecordBench) -> None:
    """What was asked for before other records came is dropped."""
    load(browser, page)
    choose(browser, [records.file("whole.rec", WHOLE)])
    browser.value(
        "(() => { showChosenCycle(); "
        "return take([{ name: 'x', blob: new Blob(['x']) }]).then(() => 1) })()"
    )
    assert browser.value(SHOWN)["verdict"] == "bad record: copy 0 offset 0 magic"
    assert browser.errors == []


def test_drop_without_files(browser: Browser, page: Path, records: RecordBench) -> None:
    """A text that is dropped changes nothing."""
    load(browser, page)
    shown = choose(browser, [records.file("whole.rec", WHOLE)])
    text = "(() => { const it = new DataTransfer(); it.setData('text/plain', 'x'); return it })()"
    browser.value(
        f"(document.dispatchEvent(new DragEvent('drop', {{ dataTransfer: {text} }})), "
        "new Promise((resolve) => setTimeout(() => resolve(1))))"
    )
    assert browser.value(SHOWN) == shown


def test_too_many_records(browser: Browser, page: Path, records: RecordBench) -> None:
    load(browser, page)
    data = mixed_record(2)
    files = [records.file(f"{k}.rec", data) for k in range(9)]
    assert choose(browser, files)["verdict"] == "9 records: the page takes 1 to 8"
    shown = choose(browser, files[:8])
    assert shown["verdict"] == expected_verdict(records.run("det", "compare", *files[:8]))


def test_records_that_are_embedded(browser: Browser, page: Path, records: RecordBench) -> None:
    """A page with two records shows them when it is opened, under their names. A name is one line,
    with `?` for what would move its other characters."""
    data = records.example("guard")
    odd = "".join(("a <b>&amp;", "\u202e", "\n\x07", "\u00e9", "x" * 200))
    files = [records.file(odd, data), records.file("torn.rec", data[:-1])]
    out = records.folder / "with records.html"
    given = records.tool("det_page.py", *files, "-o", str(out), "--page", str(page))
    assert (given.status, given.out, given.err) == (0, b"", b"")
    load(browser, out)
    shown = browser.value(SHOWN)
    assert shown["verdict"] == f"bad record: copy 1 offset {len(data) - 1} truncated"
    names = ["a <b>&amp;???\u00e9" + "x" * 200, "torn.rec"]
    assert [row[1] for row in shown["copies"]] == names
    assert shown["words"].startswith("Copy 1, torn.rec, has a fault at offset ")
    assert shown["width"] <= browser.value("document.documentElement.clientWidth")
