"""Data in: tables of measurements (CSV) as stimuli."""

from __future__ import annotations

import random
import re
from decimal import ROUND_HALF_EVEN, Context, Decimal
from typing import Any

import pytest

from commands import TOP, Outcome
from record_bench import RecordBench
from shown_tables import table_of

GUARD = TOP / "examples" / "guard.toml"


def convert(records: RecordBench, table: str, *words: str) -> Outcome:
    return records.tool("det_stimulus.py", records.file("log.csv", table), *words)


def taken(records: RecordBench, table: str, *words: str) -> str:
    given = convert(records, table, *words)
    assert given.status == 0, str(given)
    return given.out.decode()


LOG = """t,pressure,heat,note
0,0.25,,first
1.5,0.0005,-3,"a, b"
,0.0015,7,
2.000001,-0.0025,,
"""
STIMULUS = """stim 1
cycle 0
sample 0 250
cycle 1500000
sample 0 0
sample 1 -3
cycle -
sample 0 2
sample 1 7
cycle 2000001
sample 0 -2
terminate
"""
WORDS = ("--time", "t", "--unit", "ms", "--event", "0=pressure", "--scale", "0=1000")
WORDS += ("--event", "1=heat")


@pytest.mark.parametrize(
    "table",
    (
        LOG,
        LOG.replace("\n", "\r\n"),
        "\ufeff" + LOG,
        LOG.replace("\n", "\n\n"),
        LOG.replace("0.0005", " 0.5e-3 ").replace("0.25,", "+.25,").replace("7,", "7.,"),
    ),
)
def test_stimulus(table: str, records: RecordBench) -> None:
    """A worked table. 0.5 goes to 0 and 1.5 to 2, -2.5 to -2: halves go to the even one."""
    assert taken(records, table, *WORDS) == STIMULUS


def test_stimulus_is_recorded(records: RecordBench) -> None:
    """`det record` takes the stimulus, and its samples come back in the table of the record."""
    text = taken(records, LOG, *WORDS)
    file = records.file("log.stim", text)
    record = records.output("det", "record", GUARD, file)
    rows = table_of(records, records.file("log.rec", record), "samples")
    assert rows[1:] == [
        ["1", "0", "0", "pressure", "250"],
        ["2", "1500000", "0", "pressure", "0"],
        ["2", "1500000", "1", "heat", "-3"],
        ["3", "", "0", "pressure", "2"],
        ["3", "", "1", "heat", "7"],
        ["4", "2000001", "0", "pressure", "-2"],
    ]


def test_times_alone(records: RecordBench) -> None:
    """A stimulus of times has no samples."""
    text = taken(records, LOG, "--time", "t", "--unit", "ms")
    assert text == re.sub(r"sample .*\n", "", STIMULUS)


def test_nothing_is_taken(records: RecordBench) -> None:
    """Without a column there would be only empty cycles, so one line refuses that."""
    given = convert(records, LOG, "--unit", "ms", "-o", "a.stim")
    line, hint = given.err.decode().splitlines()
    assert (given.status, given.out, hint) == (2, b"", "  see det_stimulus --help")
    assert line.startswith("det_stimulus: bad words: neither --time nor --event, so nothing")
    assert not (records.folder / "a.stim").exists()


def test_columns(records: RecordBench) -> None:
    """Two columns can be samples of one event, in the order of the words; a delimiter is given."""
    table = "a;b=c\n1;2\n3;\n"
    words = ("--event", "2=b=c", "--event", "2=a", "--delimiter", ";", "--scale", "2=-1/3")
    text = "stim 1\ncycle -\nsample 2 -1\nsample 2 0\ncycle -\nsample 2 -1\nterminate\n"
    assert taken(records, table, *words) == text


def decimal_by_random(numbers: random.Random) -> str:
    """A number that isn't more than a million."""
    digits = f"{numbers.choice(['', '-', '+'])}{numbers.randrange(10**numbers.randrange(1, 7))}"
    if numbers.random() < 0.7:
        digits += "." + "".join(numbers.choices("0055123456789", k=numbers.randrange(9)))
    return digits + numbers.choice(["", "", f"e{numbers.randrange(-12, 4)}"])


def test_rounding(records: RecordBench) -> None:
    """Values are those of Python's decimal module, which rounds a product of all its digits."""
    numbers = random.Random(7)
    cells = [decimal_by_random(numbers) for _ in range(2000)]
    context = Context(prec=200, rounding=ROUND_HALF_EVEN)
    for factor in ("1", "-0.5", "2.5e-3", "1000"):
        products = [context.multiply(Decimal(it), Decimal(factor)) for it in cells]
        expected = [int(it.to_integral_value(context=context)) for it in products]
        # A cell is quoted, so that a table of one column has no empty line.
        text = taken(records, "x\n" + "\n".join(cells), "--event", "0=x", "--scale", f"0={factor}")
        assert [int(it) for it in re.findall(r"^sample 0 (.*)$", text, re.M)] == expected


REFUSED = (
    ("x\n1\n1x\n", (), "line 3 column x: '1x' isn't a decimal number"),
    ("x\n1e100\n", (), "line 2 column x: '1e100' isn't a decimal number"),
    ("x\nnan\n", (), "line 2 column x: 'nan' isn't a decimal number"),
    ("x\n0x10\n", (), "line 2 column x: '0x10' isn't a decimal number"),
    ("x\n1_000\n", (), "line 2 column x: '1_000' isn't a decimal number"),
    ("x\n\u0661\n", (), "line 2 column x: '\u0661' isn't a decimal number"),
    ("x\n1/2\n", (), "line 2 column x: '1/2' isn't a decimal number"),
    ("x\n1000000000000.5\n", (), None),
    (
        "x\n1000000000001\n",
        (),
        "line 2 column x: '1000000000001' gives 1000000000001, "
        "which isn't -1000000000000 to 1000000000000",
    ),
    ("x\n0.5\n", ("--exact",), "line 2 column x: '0.5' times 1 isn't a whole number"),
    ("x\n5\n", ("--range", "0=-4..4"), "line 2 column x: '5' gives 5, which isn't -4 to 4"),
    ("x\n4.4\n-4.5\n", ("--range", "0=-4..4"), None),
    ("x,y\n1\n", (), "line 2: 1 cells, where the first line has 2"),
    ("x,x\n1,1\n", (), "line 1 column x: two columns have this name"),
    ("y\n1\n", (), "line 1 column x: no column has this name"),
    ("", (), "line 1 column x: no column has this name"),
    ('x\n"1"2\n', (), "line 2: it isn't CSV: ',' expected after '\"'"),
    ('x,y\n1,"\n\n"\n,b,c\n', (), "line 5: 3 cells, where the first line has 2"),
    ("x\n1\n", ("--time", "x", "--unit", "s"), None),
    ("x\n1.0000000001\n", ("--time", "x", "--unit", "s"), "whole number of nanoseconds"),
    ("x\n-1\n", ("--time", "x"), "line 2 column x: '-1' ns isn't from 0 to 2^64 - 1 nanoseconds"),
    ("x\n18446744073.709551616\n", ("--time", "x", "--unit", "s"), "isn't from 0 to 2^64 - 1"),
)


@pytest.mark.parametrize("table, words, line", REFUSED, ids=range(len(REFUSED)))
def test_refused_tables(table: str, words: tuple, line: Any, records: RecordBench) -> None:
    """A cell that is no value is refused with its line and column, and nothing is written."""
    records.file("kept.stim", "as before")
    words = ("--event", "0=x", *words)
    given = convert(records, table, *words)
    to_file = convert(records, table, *words, "-o", "kept.stim")
    kept = (records.folder / "kept.stim").read_text()
    if line is None:
        assert given.status == to_file.status == 0 and kept == given.out.decode(), str(given)
        return
    assert (given.status, given.out, to_file.status) == (4, b"", 4), str(given)
    beginning = f"det_stimulus: {records.folder}/log.csv: bad table: "
    assert given.err.decode().startswith(beginning) and line in given.err.decode()
    assert to_file.err == given.err and kept == "as before"
    assert sorted(it.name for it in records.folder.iterdir()) == ["kept.stim", "log.csv"]


DELIMITER = "--delimiter takes one character that isn't a quote or the end of a line"
# Words that don't fit, and how the line begins after `bad words: `.
BAD_WORDS = {
    ("--event", "x"): "--event x: it takes EVENT=..",
    ("--event", "256=x"): "--event 256=x: events are 0 to 255",
    ("--event=-1=x",): "--event -1=x: it takes EVENT=..",
    ("--scale", "1=2"): "event 1 has no --event",
    ("--scale", "0=0"): "--scale 0=0: '0' is 0, so it leaves nothing of a value",
    ("--scale", "0=1/0"): "--scale 0=1/0: '1/0' isn't a decimal number",
    ("--scale", "0=2", "--scale", "0=3"): "--scale 0=3: event 0 has one already",
    ("--range", "1=2..3"): "event 1 has no --event",
    ("--range", "0=3"): "--range 0=3: '' isn't a whole number",
    ("--range", "0=3..2"): "--range 0=3..2: 3..2 isn't a range in -10^12 to 10^12",
    ("--range", "0=0..1000000000001"): "--range 0=0..1000000000001: 0..1000000000001 isn't a range",
    ("--unit", "h"): "argument --unit: invalid choice: 'h' (choose from",
    ("--delimiter", ""): DELIMITER,
    ("--delimiter", ",,"): DELIMITER,
    ("--delimiter", '"'): DELIMITER,
    ("-o", "log.csv"): "-o log.csv: this file is read",
}


@pytest.mark.parametrize("words", BAD_WORDS, ids=" ".join)
def test_refused_words(words: tuple, records: RecordBench) -> None:
    """One line says which word is refused, and why. The table stays as it is."""
    given = convert(records, "x\n1\n", "--event", "0=x", *words)
    assert (given.status, given.out) == (2, b""), str(given)
    assert given.line().decode().startswith(f"det_stimulus: bad words: {BAD_WORDS[words]}")
    assert (records.folder / "log.csv").read_text() == "x\n1\n"


def test_statuses_of_converter(records: RecordBench) -> None:
    """A missing table, a full output and a missing folder have statuses of their own."""
    words = ("--event", "0=x")
    assert records.tool("det_stimulus.py", "nothing.csv", *words).status == 6
    assert records.tool("det_stimulus.py", ".", *words).status == 6
    assert convert(records, "x\n1\n", *words, "-o", "nothing/a.stim").status == 7
    file = records.file("log.csv", "x\n1\n")
    with open("/dev/full", "wb") as full:
        given = records.tool("det_stimulus.py", file, *words, stdout=full)
    assert given.status == 7 and given.err.count(b"\n") == 1, str(given)


def test_bytes_of_another_encoding(records: RecordBench) -> None:
    """Bytes that aren't UTF-8 are no number, and don't matter in a column that isn't used."""
    table = records.file("log.csv", b"x,\xb0C\n1,\xff\n2,\n")
    given = records.tool("det_stimulus.py", table, "--event", "0=x")
    assert given.out.decode() == "stim 1\ncycle -\nsample 0 1\ncycle -\nsample 0 2\nterminate\n"
    table = records.file("log.csv", b"x,y\n\xff,\n")
    given = records.tool("det_stimulus.py", table, "--event", "0=x")
    assert given.status == 4 and b"line 2 column x" in given.err, str(given)


@pytest.mark.slow
def test_most_rows(records: RecordBench) -> None:
    """1,000,000 rows are a stimulus that `det` takes, and one more is refused."""
    table = "t\n" + "1\n" * 1_000_000
    text = taken(records, table, "--time", "t")
    assert text.count("cycle 1\n") == 1_000_000
    file = records.file("most.stim", text)
    with open(records.folder / "most.rec", "wb") as out:
        given = records.run("det", "record", TOP / "examples" / "bank.toml", file, stdout=out)
    assert given.status == 0, str(given)
    given = convert(records, table + "1\n", "--time", "t")
    assert (given.status, given.out) == (4, b"") and b"line 1000002" in given.err, str(given)


def test_most_columns(records: RecordBench) -> None:
    """4,096 samples a cycle are a stimulus that `det` takes, and one more is refused."""
    for count in (4_096, 4_097):
        names = [f"c{number}" for number in range(count)]
        table = ",".join(names) + "\n" + ",".join(["-1000000000000"] * count) + "\n"
        words = [word for name in names for word in ("--event", f"0={name}")]
        given = convert(records, table, *words)
        if count == 4_096:
            assert given.out.count(b"sample 0 -1000000000000\n") == count, str(given)
            file = records.file("most.stim", given.out)
            assert records.run("det", "record", GUARD, file).status == 0
        else:
            assert (given.status, given.out) == (2, b""), str(given)
