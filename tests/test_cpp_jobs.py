"""An application's own job has the commands of `det`: examples/cpp, with files and live.

They need g++.
"""

from __future__ import annotations

from pathlib import Path

import pytest

from against_det import JOBS, Against
from commands import TOP, difference
from cpp_bench import EXAMPLES, CppBench, compile_example
from hint_records import ODD, SHOWN_ODD

WORKERS = (1, 4, 16)
SEED = 5
# How many runs there are for each of these seeds, and hints that come in each of them, with 0 in
# place of numbers.
RUNS, SEEDS = 1000, range(1, 6)
HINTS = {b"  line 0", b"  wanted: stim 0", b"  wanted: cycle T, cycle -, sample E V or terminate"}
HINTS |= {b"  copy 0: r.rec", b"  r.rec: in the header", b"  r.rec: in frame 0, the run of cycle 0"}


def files(name: str, folder: Path = TOP / "examples") -> tuple[Path, Path]:
    return folder / f"{name}.toml", folder / f"{name}.stim"


@pytest.mark.slow
@pytest.mark.parametrize("job", JOBS)
def test_same_record(job: str, cpp: CppBench) -> None:
    """`record` writes det's bytes, and `replay` writes them again, for each number of workers."""
    program = cpp.example_program(job)
    words = ["record", *files(job), "--seed", SEED]
    expected = cpp.output_of([cpp.det, *words])
    record = cpp.file(f"{job}.rec", expected)
    for workers in WORKERS:
        given = cpp.output_of([program, *words, "--workers", workers])
        assert given == expected, f"on {workers} workers: {difference(expected, given)}"
        again = cpp.output_of([program, "replay", record, "--workers", workers])
        assert again == expected, f"replay on {workers}: {difference(expected, again)}"


@pytest.mark.slow
@pytest.mark.parametrize("job", JOBS)
def test_same_verdict(job: str, cpp: CppBench) -> None:
    """`check` finds a record genuine, and finds det's place of a changed byte."""
    program = cpp.example_program(job)
    record = cpp.output_of([cpp.det, "record", *files(job), "--seed", SEED])
    changed = [record]
    for at in range(60, len(record), len(record) // 20):
        changed.append(record[:at] + bytes([record[at] ^ 1]) + record[at + 1 :])
    for number, data in enumerate(changed):
        file = cpp.file("changed.rec", data)
        wanted = cpp.command([cpp.det, "check", file])
        given = cpp.command([program, "check", file, "--workers", WORKERS[number % 3]])
        assert given == wanted, f"copy {number}: {given}, not {wanted}"


@pytest.mark.slow
@pytest.mark.parametrize("seed", SEEDS)
def test_random_files(seed: int, cpp: CppBench) -> None:
    """Over random files, good and broken, `cloud` and `guard` end as det does."""
    for job in JOBS:
        link = cpp.folder / job
        if not link.exists():
            link.symlink_to(cpp.example_program(job))
    work = cpp.folder / f"against{seed}"
    work.mkdir()
    against = Against(Path(cpp.det), cpp.folder, work, seed)
    against.run(RUNS)
    assert not against.apart, "\n".join(against.apart)
    statuses = {status for _, status in against.seen}
    assert statuses >= {0, 1, 2, 3, 4, 5}, f"the files are too tame: {against.seen}"
    assert HINTS <= set(against.hints), f"no file has these hints: {HINTS - set(against.hints)}"


SANITIZED = {
    "address": ("-O1", "-g", "-fsanitize=address,undefined", "-fno-sanitize-recover=all"),
    "thread": ("-O1", "-g", "-fsanitize=thread"),
}


@pytest.mark.slow
@pytest.mark.parametrize("build", SANITIZED)
def test_random_files_sanitized(build: str, cpp: CppBench) -> None:
    """The same under sanitizers, over fewer files."""
    folder = cpp.folder / build
    folder.mkdir()
    for job in JOBS:
        compile_example(job, cpp.archive, folder / job, SANITIZED[build])
    against = Against(Path(cpp.det), folder, folder, 9)
    against.run(300)
    assert not against.apart, "\n".join(against.apart)


BAD_WORDS = ([], ["nosuch"], ["record"], ["record", "a"], ["record", "a", "b", "c"])
BAD_WORDS += (["record", "a", "b", "--seed"], ["record", "a", "b", "--workers", "65"])
BAD_WORDS += (["check", "a", "--seed", "1"], ["replay", "a", "--workers=2"], ["needs", "-x"])
BAD_WORDS += (["needs", "a", "--strict", "--strict"], ["check", "a\x01" + "b" * 70, "c"])
BAD_WORDS += (["record", "a", "b", "--force", "x"], ["--help", "nosuch"], ["check", b"\xff\xc3"])
BAD_WORDS += (["--version", "a"], ["-h", "a"], ["help", "a", "b"], ["-V", "--help"])
BAD_WORDS += (["--help", "record", "a"], ["record", "--help", "a"], ["-h", "--help"])


@pytest.mark.parametrize("words", BAD_WORDS, ids=repr)
def test_hints_on_words(words: list[str], cpp: CppBench) -> None:
    """Bad words have det's line and its hints, with the program's own name."""
    program = cpp.example_program("cloud")
    wanted, given = (cpp.command([it, *words]) for it in (cpp.det, program))
    assert given.err == wanted.err.replace(b"see det", b"see cloud"), f"{given.err!r}"
    assert (given.status, given.out) == (2, b"")


MANIFESTS = {
    "params = [": "params = [0, ",
    'job = "cloud"': "job = 5",
    "cycle_time_ns = ": "cycle_time_ns = -",
    "workers = ": "workers = 65",
    'name = "x"': 'name = "X"',
    "capacity = ": "capacity = 1.",
}


def test_hints_on_manifests(cpp: CppBench) -> None:
    """Bad manifests have det's hints; the only job is the program's own."""
    program = cpp.example_program("cloud")
    text = files("cloud")[0].read_text()
    texts = [text.replace(old, new, 1) for old, new in MANIFESTS.items()]
    assert all(it != text for it in texts)
    for data in (*texts, "#" * 65537, text.replace("capacity", "pocket", 1)):
        words = ["needs", cpp.file("bad.toml", data)]
        wanted, given = (cpp.command([it, *words]) for it in (cpp.det, program))
        assert wanted.status == 3
        assert given.err == wanted.err.replace(b"bank, cloud or guard", b"cloud"), data
    other = cpp.file("other.toml", text.replace('"cloud"', '"other"'))
    given = cpp.command([program, "needs", other])
    assert given.err == b"bad manifest: unknown job\n  job: cloud\n"


WANTED = {
    b"cycle 5\n": b"stim 1",
    b"stim 1\nsample 0 5\n": b"cycle T, cycle - or terminate",
    b"stim 1\ncycle 5\nsample 0\n": b"cycle T, cycle -, sample E V or terminate",
    b"stim 1\ncycle 5\nsample  0 5\n": b"E as a decimal below 2",
    b"stim 1\ncycle -\n": b"cycle T, cycle -, sample E V or terminate",
    b"stim 1\nterminate\n\n": b"nothing behind terminate",
    b"stim 1\nterminate\n" + b"x" * 200: b"nothing behind terminate",
    b"stim 1\n" + b"x" * 129: b"a line of at most 128 bytes",
    b"stim 1\r\n": b"no carriage return at the end of a line",
    b"stim 1\ncycle 18446744073709551616\n": b"T as a decimal, 0 to 18446744073709551615",
    b"stim 1\ncycle 0\nsample 3 5\n": b"E as a decimal below 2",
    b"stim 1\ncycle 0\nsample 00 5\n": b"E as a decimal below 2",
    b"stim 1\ncycle 0\nsample " + b"0" * 121: b"cycle T, cycle -, sample E V or terminate",
    b"stim 1\ncycle 0\nsample 0 -0\n": b"V as a decimal, -1000000000000 to 1000000000000",
    b"stim 1\ncycle 0\n" + b"sample 0 5\n" * 4097: b"at most 4096 samples in a cycle",
    b"stim 1\nterminate": b"a line feed at the end",
}


@pytest.mark.parametrize("text", WANTED, ids=lambda it: repr(it[:40]))
def test_hints_on_stimuli(text: bytes, cpp: CppBench) -> None:
    """A bad stimulus has det's hint: what is wanted in place of its bad line."""
    program = cpp.example_program("cloud")
    words = ["record", files("cloud")[0], cpp.file("bad.stim", text)]
    wanted, given = (cpp.command([it, *words]) for it in (cpp.det, program))
    assert given.err.split(b"\n", 1)[1] == b"  wanted: " + WANTED[text] + b"\n"
    assert given == wanted, f"{given.err!r}, not {wanted.err!r}"


NOT_TOML = {b"job = \n": 1, b"# \xff\n": 1, b"a = 1\nb = 2\n\n[[event]\n": 4}
NOT_TOML.update({b"a = 1\na = 2\n": 2, b'\ns = """\nx\n': 4, b"a = 1\r\nb = 08\r\n": 2})


@pytest.mark.parametrize("text", NOT_TOML, ids=repr)
def test_line_that_is_not_toml(text: bytes, cpp: CppBench) -> None:
    """A manifest that isn't TOML has det's hint: the line at which it stops being that."""
    program = cpp.example_program("cloud")
    words = ["needs", cpp.file("bad.toml", text)]
    wanted, given = (cpp.command([it, *words]) for it in (cpp.det, program))
    assert given.err == b"bad manifest: not toml\n  line %d\n" % NOT_TOML[text]
    assert given == wanted, f"{given.err!r}, not {wanted.err!r}"


def test_hints_on_records(cpp: CppBench) -> None:
    """Bad records, files that can't be read and other profiles have det's hints."""
    program = cpp.example_program("cloud")
    record = cpp.output_of([cpp.det, "record", *files("cloud")])
    odd = [record[:8] + b"\xff\xff" + record[10:], record + b"x"]
    odd += [record[:at] for at in range(0, len(record), len(record) // 40 + 1)]
    odd += [record[:at] + b"\xff" * 9 + record[at + 9 :] for at in range(0, len(record), 97)]
    for data in odd:
        words = ["check", cpp.file("odd.rec", data)]
        wanted, given = (cpp.command([it, *words]) for it in (cpp.det, program))
        assert given == wanted, f"{given.err!r}, not {wanted.err!r}"
    for name in ("nosuch", "/"):
        wanted, given = (cpp.command([it, "check", name]) for it in (cpp.det, program))
        assert wanted.status == 6 and given == wanted, f"{given.err!r}, not {wanted.err!r}"


def with_flipped(record: bytes, at: int, bits: int) -> bytes:
    made = bytearray(record)
    made[at] ^= bits
    return bytes(made)


@pytest.mark.parametrize("name, shown", [("odd.rec", "odd.rec"), (ODD, SHOWN_ODD)], ids=ascii)
def test_names_in_hints(name: str, shown: str, cpp: CppBench) -> None:
    """A hint on a record has its name as det shows it."""
    program = cpp.example_program("cloud")
    record = cpp.output_of([cpp.det, "record", *files("cloud")])
    # The last byte of an output, the job's number, and the highest byte of the first parameter.
    flipped = [with_flipped(record, *it) for it in ((-2, 1), (9, 8), (28, 1))]
    statuses = []
    for data in (record, record[:30], record[:-1], *flipped):
        cpp.file(name, data)
        for command in ("check", "replay"):
            wanted, given = (cpp.command([it, command, name]) for it in (cpp.det, program))
            assert given == wanted, f"{given.err!r}, not {wanted.err!r}"
            assert (shown.encode() in given.err) == (given.status != 0), str(given)
            statuses.append(given.status)
    assert statuses == [0, 0, 5, 5, 5, 5, 1, 0, 5, 5, 5, 5]


def test_help(cpp: CppBench) -> None:
    """Each command has a page; `live` is one only where the program has a source."""
    tracker, cloud = (cpp.example_program(it) for it in ("tracker", "cloud"))
    pages = cpp.output_of([tracker, "--help"]).decode()
    for command in ("record", "replay", "check", "needs", "live"):
        assert f"tracker {command} " in pages
        page = cpp.output_of([tracker, command, "--help"])
        assert page.startswith(f"tracker {command} ".encode())
        assert page == cpp.output_of([tracker, "help", command])
    assert b"live" not in cpp.output_of([cloud, "-h"])
    assert cpp.command([cloud, "live", "a"]).status == 2
    assert cpp.output_of([tracker, "--version"]) == b"tracker 0\n"


def test_full_disk(cpp: CppBench) -> None:
    """An output that can't be written is a write fault, with det's hint."""
    program = cpp.example_program("cloud")
    for words in (["record", *files("cloud")], ["needs", files("cloud")[0]], ["--help"]):
        line = ["sh", "-c", '"$0" "$@" > /dev/full']
        wanted, given = (cpp.command([*line, it, *words]) for it in (cpp.det, program))
        assert given == wanted and given.status == 7, f"{words}: {given.err!r}"


def test_copies(cpp: CppBench) -> None:
    """det_lane runs three copies of an application, and finds the mistake in `buggy`."""
    lane = cpp.programs.path("det_lane")
    manifest, stimulus = files("tracker", EXAMPLES)
    words = [lane, cpp.example_program("tracker"), 3, manifest, stimulus]
    assert cpp.output_of(words) == b"agree 5\n"
    words = [lane, cpp.example_program("buggy"), 3, *files("buggy", EXAMPLES)]
    found = [cpp.command(words) for _ in range(20)]
    assert any(it.status == 1 and it.out.startswith(b"differ copy ") for it in found)


def test_live(cpp: CppBench) -> None:
    """A live drive is genuine in the lab, and is replayed byte for byte."""
    program = cpp.example_program("tracker")
    manifest = files("tracker", EXAMPLES)[0]
    drive = cpp.output_of([program, "live", manifest, "--seed", SEED, "--workers", 4])
    record = cpp.file("drive.rec", drive)
    assert cpp.output_of([program, "check", record]).startswith(b"genuine 50\n")
    assert cpp.output_of([program, "replay", record, "--workers", 16]) == drive
    assert b"job 77\n" in cpp.output_of([cpp.det, "show", record])


def test_own_loop(cpp: CppBench) -> None:
    """An application with a loop of its own records, and checks its record in the lab."""
    program = cpp.example_program("own_loop")
    drive = cpp.output_of([program, "record"])
    record = cpp.file("own.rec", drive)
    assert cpp.output_of([program, "check", record]) == b"genuine\n"
    changed = cpp.file("changed.rec", drive[:-20] + bytes([drive[-20] ^ 1]) + drive[-19:])
    given = cpp.command([program, "check", changed])
    assert given.status == 1 and given.out.startswith(b"departs "), str(given)
    broken = cpp.file("broken.rec", drive[:-1])
    assert cpp.command([program, "check", broken]).status in (1, 5)


def test_floating_point(cpp: CppBench) -> None:
    """`estimate` computes the same bits for each number of workers."""
    program = cpp.example_program("estimate")
    words = [program, "record", *files("estimate", EXAMPLES), "--workers"]
    records = {cpp.output_of([*words, workers]) for workers in WORKERS}
    assert len(records) == 1
    record = cpp.file("estimate.rec", records.pop())
    assert cpp.output_of([program, "check", record, "--workers", 3]).startswith(b"genuine 5\n")


def test_job_fault(cpp: CppBench) -> None:
    """An exception of the job ends the run with status 70 and a line, before that cycle's frame."""
    text = (EXAMPLES / "buggy.cpp").read_text()
    throws = "if (cycle.Number() == 2 && thread.Element() == 77) throw 1;\n"
    text = text.replace("WorkerThread&) {", f"WorkerThread& thread) {{ {throws}")
    source = cpp.file("faulty.cpp", text)
    program = cpp.folder / "faulty"
    flags = ["-std=c++17", f"-I{TOP / 'include'}"]
    cpp.output_of(["g++", *flags, source, cpp.archive, "-pthread", "-o", program])
    given = cpp.command([program, "record", *files("buggy", EXAMPLES)])
    line = b"job fault: cycle 2: the application threw an exception, element 77\n"
    assert (given.status, given.err) == (70, line)
    record = cpp.file("faulty.rec", given.out)
    assert cpp.output_of([cpp.det, "salvage", record, "--reports"]).startswith(b"salvaged 1\n")
