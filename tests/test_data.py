"""Data out: records as tables (CSV) and as HDF5 files.

Of what is in a record, `det show` is the other reader; numbers of elements and outputs are worked
by hand. The files of HDF5 are read by h5py and by h5dump, of Debian's python3-h5py and hdf5-tools.
"""

from __future__ import annotations

import importlib.util
import io
import os
import re
import resource
import shutil
import sys
from typing import Any, Iterator

import pytest

from commands import TOP, Outcome, run
from det_record import Summary
from documents import section
from record_bench import RecordBench
from record_bytes import counting_record, event, finished_outcome, header, init, run_begin
from record_csv import write_csv
from shown_tables import HEADS, Shown, rows_of, table_of

NAMES = ("mixed1", "mixed2", "bank", "wheels", "cloud", "guard")
# How much memory a reader has, and how many outputs of a mebibyte a record has.
MOST_MEMORY, RUNS = 56 << 20, 112


def record_of(records: RecordBench, name: str) -> bytes:
    small = records.small_records()
    return small[name] if name in small else records.example(name)


@pytest.mark.parametrize("name", NAMES)
def test_tables(name: str, records: RecordBench) -> None:
    """The tables of whole records have what `det show` prints."""
    file = records.file("a.rec", record_of(records, name))
    text, _ = records.det("show", file)
    shown = Shown(text.decode())
    for table, head in HEADS.items():
        rows = [row[: len(head)] for row in table_of(records, file, table)]
        assert rows == [head, *getattr(shown, table)], table


def written_tables(data: bytes) -> dict[str, list[list[str]]]:
    """The tables of a record, which may have a fault, as they are written."""
    found = {}
    for table in HEADS:
        out = io.StringIO()
        write_csv(table, Summary().read(io.BytesIO(data)), out)
        found[table] = rows_of(out.getvalue())
    return found


@pytest.mark.parametrize("name", ("mixed1", "mixed2"))
def test_tables_of_broken_records(name: str, records: RecordBench) -> None:
    """A record that breaks off anywhere gives the rows of its whole items."""
    data = record_of(records, name)
    for length in range(0, len(data), 5):
        text, _ = records.det("show", records.file("torn.rec", data[:length]))
        shown = Shown(text.decode())
        # Names of columns come with the header, whose last line is that of event 1.
        for table, rows in written_tables(data[:length]).items():
            expected = [HEADS[table], *getattr(shown, table)] if "event 1" in text.decode() else []
            assert rows == expected, (length, table)


def test_status_of_broken_record(records: RecordBench) -> None:
    """A record that breaks off ends with 5 and the line of `show`, after the rows before it. A hint
    has the tool and the file."""
    file = records.file("torn.rec", record_of(records, "mixed2")[:-1])
    text, line = records.det("show", file)
    given = records.tool("det_record.py", file, "--csv", "cycles")
    assert (given.status, given.err.decode()) == (5, f"{line}  {file}: read by det_record\n")
    assert given.out.count(b"\n") == 1 + len(Shown(text.decode()).cycles)


def test_numbers_of_bank(records: RecordBench) -> None:
    """The bank of the tutorial: levels of 0, 25 and 18, and their sums."""
    file = records.file("bank.rec", records.example("bank"))
    levels = [row[4:] for row in table_of(records, file, "elements")]
    assert levels == [["level"]] + [["0"]] * 8 + [["25"]] * 4 + [["18"]] * 4
    sums = [row[9:] for row in table_of(records, file, "cycles")]
    assert sums[0] == ["output_sum", "output_least", "output_greatest"]
    assert sums[1:] == [["0", "0", "0"], ["100", "25", "25"], ["72", "18", "18"]]


def test_numbers_of_two_events(records: RecordBench) -> None:
    """A bank of two events has the event before the level."""
    start = header(2, 1, [1, 0], [event(2, 1, "x", 0), event(2, 1, "y", 0)])
    data = start + init([b"\0\1" + (-5).to_bytes(8, "big", signed=True)]) + b"\5"
    rows = table_of(records, records.file("two.rec", data), "elements")
    assert [row[4:] for row in rows] == [["event", "level"], ["1", "-5"]]


def test_numbers_of_guard(records: RecordBench) -> None:
    """Channel 3 of the wheels: bad samples in cycles 2, 3 and 4 (refused), then 261. A channel is
    corrected in cycle 2, and again in cycle 3."""
    file = records.file("wheels.rec", records.example("wheels"))
    rows = [row for row in table_of(records, file, "elements") if row[1] in ("element", "3")]
    assert rows[0][4:] == ["number", "value", "streak"]
    assert [(row[0], *row[4:]) for row in rows[1:]] == [
        ("0", "3", "0", "0"),
        ("1", "3", "0", "0"),
        ("2", "3", "0", "1"),
        ("3", "3", "0", "2"),
        ("5", "3", "261", "0"),
    ]
    counts = [row[9:] for row in table_of(records, file, "cycles")]
    assert counts[0] == ["output_corrections", "output_corrected"]
    assert counts[1:] == [["0", "0"], ["1", "1"], ["2", "1"], ["", ""], ["2", "0"]]


def test_numbers_of_cloud(records: RecordBench) -> None:
    """The output of cycle 1 that the tutorial explains: particle 850 at 31, 10, 41 away."""
    file = records.file("cloud.rec", records.example("cloud"))
    head, first = table_of(records, file, "cycles")[:2]
    names = ["nearest", "x", "y", "distance", "finished_cycles"]
    assert head[9:] == [f"output_{name}" for name in names]
    assert first[9:] == ["850", "31", "10", "41", "1"]
    rows = table_of(records, file, "elements")
    assert rows[0][4:] == ["number", "x", "y"]
    # fffffffffffffded and fffffffffffffd79 of the tutorial's element 999 are -531 and -647.
    data = "0x000003e7fffffffffffffdedfffffffffffffd79"
    found = [it[2:] for it in rows if it[:2] == ["1", "999"]]
    assert found == [["3", data, "999", "-531", "-647"]]


def test_other_lengths(records: RecordBench) -> None:
    """Elements and outputs of a job's number that don't have its lengths have no numbers."""
    run = run_begin(7, []) + finished_outcome(2, [(b"\1\2", 3)], b"\4")
    data = header(2, 1, [1, 0], []) + init([b""]) + run + b"\5"
    file = records.file("other.rec", data)
    assert table_of(records, file, "elements")[1:] == [
        ["0", "0", "", "0x", ""],
        ["1", "0", "3", "0x0102", ""],
    ]
    assert table_of(records, file, "cycles")[1][8:] == ["0x04", "", "", ""]


def test_large_numbers(records: RecordBench) -> None:
    """Numbers of 64 bits are exact: 2^64 - 1 and -2^63 are no floats."""
    levels = [(-(2**63)).to_bytes(8, "big", signed=True), (2**63 - 1).to_bytes(8, "big")]
    run = run_begin(2**64 - 1, []) + finished_outcome(2, [(it, 0) for it in levels], b"")
    data = header(2, 1, [2, 0], []) + init(levels) + run + b"\5"
    file = records.file("large.rec", data)
    assert table_of(records, file, "cycles")[1][1] == "18446744073709551615"
    assert [it[4] for it in table_of(records, file, "elements")[1:]] == [
        "-9223372036854775808",
        "9223372036854775807",
    ] * 2


def limit_memory() -> None:
    resource.setrlimit(resource.RLIMIT_AS, (MOST_MEMORY, MOST_MEMORY))


def limit_files(most: int) -> None:
    """No file of this process can become longer."""
    resource.setrlimit(resource.RLIMIT_FSIZE, (most, most))


@pytest.mark.slow
@pytest.mark.parametrize("table", ("samples", "elements"))
def test_memory(table: str, records: RecordBench) -> None:
    """A record has twice as many bytes as there is memory: one frame is held at a time."""
    path = records.folder / "long.rec"
    with open(path, "wb") as out:
        out.write(header(2, 9, [], []) + init([]))
        for _ in range(RUNS):
            # An output of zeros takes no room on the disk.
            out.write(run_begin(None, []) + b"\0" + bytes(4) + (1 << 20).to_bytes(4, "big"))
            out.seek(1 << 20, os.SEEK_CUR)
        out.write(b"\5")
    assert path.stat().st_size > 2 * MOST_MEMORY
    with open(os.devnull, "wb") as null:
        how: dict[str, Any] = {"stdout": null, "preexec_fn": limit_memory}
        given = records.tool("det_record.py", str(path), "--csv", table, **how)
    assert given.status == 0, str(given)


def test_statuses_of_reader(records: RecordBench) -> None:
    """Words, a missing record, a full output and a missing folder have statuses of their own."""
    file = records.file("a.rec", records.example("bank"))
    with open("/dev/full", "wb") as full:
        assert records.tool("det_record.py", file, "--csv", "cycles", stdout=full).status == 7
    assert records.tool("det_record.py", file, "--csv", "frames").status == 2
    assert records.tool("det_record.py", file, "--csv", "cycles", "--hdf5", "x").status == 2
    assert records.tool("det_record.py", file, "--hdf5", file).status == 2
    assert records.tool("det_record.py", "nothing.rec", "--csv", "cycles").status == 6
    assert records.tool("det_record.py", ".", "--csv", "cycles").status == 6


# HDF5.


def need_hdf5() -> None:
    """Fails if the machine lacks what this needs, and says which Debian package has it."""
    lacks = [] if importlib.util.find_spec("h5py") else ["python3-h5py"]
    lacks += [] if shutil.which("h5dump") else ["hdf5-tools"]
    assert not lacks, f"install the Debian packages {' '.join(lacks)}"


def export(records: RecordBench, data: bytes, status: int = 0) -> Any:
    """A record as an open file of HDF5."""
    need_hdf5()
    import h5py

    file = records.file("a.rec", data)
    given = records.tool("det_record.py", file, "--hdf5", "a.h5")
    assert given.status == status, str(given)
    assert sorted(it.name for it in records.folder.iterdir()) == ["a.h5", "a.rec"]
    return h5py.File(records.folder / "a.h5", "r")


def cycle_cells(file: Any) -> Iterator[list[str]]:
    """The rows of `--csv cycles` by the datasets of a file, without the output."""
    columns = file["cycles"]
    for row, is_finished in enumerate(columns["finished"]):
        time = str(columns["time"][row]) if columns["has_time"][row] else ""
        place = [""] * 4
        if not is_finished:
            phase = ("prepare", "pool", "conclude")[columns["phase"][row]]
            place = [phase, *(str(columns[it][row]) for it in ("pass", "element", "code"))]
        result = "finished" if is_finished else "refused"
        yield [str(row + 1), time, result, *place, str(columns["samples"][row])]


def element_cells(file: Any) -> Iterator[list[str]]:
    """The rows of `--csv elements`, from datasets of either shape."""
    columns = file["elements"]
    is_even = "element" not in columns
    has_draws = "draws" in columns
    for row, cycle in enumerate(columns["cycle"]):
        elements = range(columns["bytes"].shape[1]) if is_even else [columns["element"][row]]
        for element in elements:
            at = (row, element) if is_even else row
            draws = str(columns["draws"][at]) if has_draws and cycle else ""
            yield [str(cycle), str(element), draws, f"0x{bytes(columns['bytes'][at]).hex()}"]


def check_file(file: Any, shown: Shown, text: str) -> None:
    """The file has what `show` prints."""
    assert list(cycle_cells(file)) == [row[:-1] for row in shown.cycles]
    assert list(element_cells(file)) == shown.elements
    outputs = zip(file["outputs"]["cycle"], file["outputs"]["bytes"])
    finished = [(row[0], row[-1]) for row in shown.cycles if row[2] == "finished"]
    assert [(str(cycle), f"0x{bytes(it).hex()}") for cycle, it in outputs] == finished
    samples = zip(*(file["samples"][it] for it in ("cycle", "event", "value")))
    rows = [(it[0], it[2], it[4]) for it in shown.samples]
    assert [tuple(map(str, it)) for it in samples] == rows
    events = zip(*(file["events"][it] for it in ("name", "capacity")))
    lines = re.findall(r"^event \d+ (\w+) (\d+)", text, re.M)
    assert [(name.decode(), str(capacity)) for name, capacity in events] == lines
    facts = {it: re.search(rf"^{it} (\d+)$", text, re.M) for it in ("job", "seed", "cycle_time")}
    for name, fact in facts.items():
        assert fact and file.attrs[name.replace("time", "time_ns")] == int(fact[1])
    params = re.search(r"^params (.*)$", text, re.M)
    assert params and " ".join(map(str, file.attrs["params"])) == params[1]


@pytest.mark.parametrize("name", ("mixed1", "mixed2", "bank", "wheels", "guard"))
def test_hdf5(name: str, records: RecordBench) -> None:
    """The file of a record has what `det show` prints, where elements are even and where not."""
    data = record_of(records, name)
    with export(records, data) as file:
        text = records.det("show", records.file("a.rec", data))[0].decode()
        check_file(file, Shown(text), text)
        assert file.attrs["fault"] == ""
        assert ("element" in file["elements"]) == name.startswith("mixed")


@pytest.mark.parametrize("cut", (1, 30, 300))
def test_hdf5_of_broken_record(cut: int, records: RecordBench) -> None:
    """Of a record that breaks off the file has the whole items, and the fault."""
    data = record_of(records, "mixed2")[:-cut]
    with export(records, data, 5) as file:
        text, line = records.det("show", records.file("a.rec", data))
        assert line == f"bad record: copy 0 {file.attrs['fault']}\n"
        check_file(file, Shown(text.decode()), text.decode())


def test_hdf5_without_header(records: RecordBench) -> None:
    with export(records, b"DETREC", 5) as file:
        assert file.attrs["fault"] == "offset 6 truncated" and list(file) == []


def test_hdf5_numbers(records: RecordBench) -> None:
    """Numbers of elements and outputs, which the tutorial explains, have datasets."""
    with export(records, records.example("cloud")) as file:
        columns = file["elements"]
        assert columns["bytes"].shape == (5, 1000, 20) and columns["draws"].shape == (5, 1000)
        assert [columns[it][1, 999] for it in ("number", "x", "y", "draws")] == [999, -531, -647, 3]
        names = ("nearest", "x", "y", "distance", "finished_cycles")
        assert [file["outputs"][it][0] for it in names] == [850, 31, 10, 41, 1]
        assert file.attrs["job_name"] == "cloud"


def test_hdf5_by_h5dump(records: RecordBench) -> None:
    """Another reader of HDF5 has the same numbers: levels and sums of the tutorial's bank."""
    with export(records, records.example("bank")):
        pass
    numbers = {}
    for name in ("/elements/level", "/outputs/sum", "/samples/value"):
        given = run(["h5dump", "-y", "-w", "0", "-d", name, "a.h5"], records.folder)
        assert given.status == 0, str(given)
        data = given.out.decode().partition("DATA {")[2]
        numbers[name] = [int(it) for it in re.findall(r"-?\d+", data)]
    assert numbers["/elements/level"] == [0] * 8 + [25] * 4 + [18] * 4
    assert numbers["/outputs/sum"] == [0, 100, 72]
    assert numbers["/samples/value"] == [100, -1]


def test_hdf5_of_the_tutorial(records: RecordBench) -> None:
    """The commands of the tutorial, which prints the values after the last cycle."""
    need_hdf5()
    lines = section("docs/TUTORIAL.md", "## Data in and out").splitlines()
    text = "\n".join(line[4:] for line in lines if line.startswith("    "))
    records.file("wheels.rec", records.example("wheels"))
    environment = dict(os.environ, tools=str(TOP / "tools"))
    # The python3 of the tests is one that was seen to have h5py.
    text = text.replace("/usr/bin/python3", sys.executable)
    given = run(["bash", "-e", "-c", text], records.folder, environment)
    assert given == Outcome(0, b"[260 262 258 261]\n", b""), str(given)


def test_hdf5_in_pieces(records: RecordBench) -> None:
    """More rows than are written at once: cycle 20,000 of as many, with time and level."""
    with export(records, counting_record(20_500)) as file:
        assert len(file["cycles"]["time"]) == 20_500
        assert (file["cycles"]["time"][:] // 1000 == range(1, 20_501)).all()
        # Each cycle of which 1,000 is a divisor is refused.
        finished = [it for it in range(1, 20_501) if it % 1000]
        assert (file["outputs"]["cycle"][:] == finished).all()
        assert (file["elements"]["level"][1:, 0] == finished).all()
        assert (~file["cycles"]["finished"][:]).nonzero()[0].tolist() == list(
            range(999, 20_500, 1000)
        )


@pytest.mark.parametrize("most", (1 << 10, 1 << 11, 1 << 13, 1 << 14))
def test_hdf5_that_cannot_be_written(most: int, records: RecordBench) -> None:
    """Wherever a file becomes too large, there is one line, and the file stays as it was."""
    need_hdf5()
    records.file("a.h5", "as before")
    file = records.file("a.rec", records.example("wheels"))
    how: dict[str, Any] = {"preexec_fn": lambda: limit_files(most)}
    given = records.tool("det_record.py", file, "--hdf5", "a.h5", **how)
    assert given == Outcome(7, b"", b"det_record: a.h5: write fault: File too large\n"), given.err
    assert (records.folder / "a.h5").read_text() == "as before"
    assert sorted(it.name for it in records.folder.iterdir()) == ["a.h5", "a.rec"]


def test_hdf5_of_a_pipe(records: RecordBench) -> None:
    """A pipe can't be read twice, and a line says so."""
    need_hdf5()
    words = ["bash", "-c", 'cat "$1" | "$2" -B "$3" /dev/stdin --hdf5 a.h5', "-"]
    file = records.file("a.rec", records.example("bank"))
    given = run([*words, file, sys.executable, TOP / "tools" / "det_record.py"], records.folder)
    line = b"det_record: /dev/stdin: read fault: --hdf5 reads a record twice: "
    assert given.status == 6 and given.err.startswith(line), str(given)
    assert given.err.count(b"\n") == 1 and not (records.folder / "a.h5").exists()


def test_without_h5py(records: RecordBench) -> None:
    """Without h5py there is a line with the Debian package, and a status of its own."""
    (records.folder / "h5py.py").write_text("raise ImportError('no h5py')\n")
    file = records.file("a.rec", records.example("bank"))
    environment = dict(os.environ, PYTHONPATH=str(records.folder))
    words = [sys.executable, TOP / "tools" / "det_record.py", file]
    given = run([*words, "--hdf5", "a.h5"], records.folder, environment)
    line = "det_record: no h5py: install the Debian package python3-h5py, and call /usr/bin/python3"
    assert given == Outcome(11, b"", f"{line}\n".encode()), f"{given.err!r}"
    assert not (records.folder / "a.h5").exists()
    assert run([*words, "--csv", "cycles"], records.folder, environment).status == 0
