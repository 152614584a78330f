"""Many records: the scripts of examples/many over GNU parallel and over a Slurm cluster of this
machine alone. What docs/MANY.md says of the cluster is run here. These need Debian's parallel,
slurm-wlm and shellcheck.
"""

from __future__ import annotations

import shutil
from typing import Iterator

import pytest

from commands import TOP, Bench, Outcome, run
from documents import indented_lines
from servers import MANY, MANY_PAGE, NotBegun, path_of, running_cluster, shell, write_script

CI = TOP / "examples" / "ci"
CLUSTER = "## A cluster with Slurm"


def write_records(bench: Bench, count: int) -> None:
    """Records of the bank in the folder `runs`. The second departs, and the last is torn."""
    (bench.folder / "runs").mkdir()
    record = bytearray(bench.example("bank"))
    for number in range(count):
        (bench.folder / "runs" / f"{number:04}.rec").write_bytes(record)
    (bench.folder / "runs" / f"{count - 1:04}.rec").write_bytes(record[:300])
    # The level of element 2 in cycle 2, as the tutorial has it.
    record[277] += 1
    (bench.folder / "runs" / "0001.rec").write_bytes(record)


def summary_of(count: int) -> str:
    """The summary of those records."""
    fault = "bad record: copy 0 offset 300 truncated"
    lines = [f"records {count}", f"status 0 {count - 2}", "status 1 1", "status 5 1"]
    lines += ["1\truns/0001.rec\tdeparts element 2 2", f"5\truns/{count - 1:04}.rec\t{fault}"]
    return "".join(f"{line}\n" for line in lines)


def job_log(bench: Bench) -> list[tuple[str, str, str]]:
    """The status, the signal and the last word of each command in the job log of parallel."""
    lines = (bench.folder / "results.log").read_text().splitlines()[1:]
    rows = [line.split("\t") for line in lines]
    return [(row[6], row[7], row[8].split()[-1]) for row in rows]


def test_scripts() -> None:
    """shellcheck finds nothing in the scripts."""
    scripts = sorted([*MANY.glob("*.sh"), *CI.glob("*.sh")])
    assert len(scripts) > 5
    given = run([path_of("shellcheck"), "-x", *scripts], TOP)
    assert given == Outcome(0, b"", b""), given.out.decode()


@pytest.mark.slow
def test_thousand_records(bench: Bench) -> None:
    """A thousand records: a summary names the two that aren't genuine, and so does the job log."""
    path_of("parallel")
    write_records(bench, 1000)
    given = shell(bench, 'bash "$many/check_all.sh" runs results')
    assert (given.status, given.out.decode()) == (1, summary_of(1000)), str(given)
    lines = [line.split("\t") for line in (bench.folder / "results").read_text().splitlines()]
    assert [line[1] for line in lines] == [f"runs/{number:04}.rec" for number in range(1000)]
    assert {tuple(line[2:]) for line in lines if line[0] == "0"} == {("genuine 3", "")}
    failed = [it for it in job_log(bench) if it[:2] != ("0", "0")]
    assert sorted(failed) == [("1", "0", "runs/0001.rec"), ("5", "0", "runs/0999.rec")]


def test_all_are_genuine(bench: Bench) -> None:
    """Names with spaces and other letters are kept; without a record the status is 2."""
    path_of("parallel")
    record = bench.example("bank")
    (bench.folder / "a 'b").mkdir()
    for name in ("x y.rec", "$HOME.rec", "{}.rec", "line\nend.rec", "tab\t.rec"):
        (bench.folder / "a 'b" / name).write_bytes(record)
    given = shell(bench, """bash "$many/check_all.sh" "a 'b" results 2""")
    assert given == Outcome(0, b"records 5\nstatus 0 5\n", b""), str(given)
    names = [it.split("\t")[1] for it in (bench.folder / "results").read_text().splitlines()]
    assert len(names) == 5 and {"a 'b/x y.rec", "a 'b/$HOME.rec", "a 'b/{}.rec"} <= set(names)
    (bench.folder / "none").mkdir()
    assert shell(bench, 'bash "$many/check_all.sh" none results').status == 2


def test_killed_check(bench: Bench) -> None:
    """A check that is killed isn't a genuine record: its line is missing, and the status is 3."""
    path_of("parallel")
    write_records(bench, 4)
    # det's parent is the script, or a process of it that waits for det's output.
    text = """[ "$2" = runs/0002.rec ] || exit 0
for it in $(cut -d ' ' -f 4 /proc/$PPID/stat) $PPID; do
    head -c 5 /proc/$it/cmdline | grep -aq '^bash' && kill -9 $it
done
"""
    write_script(bench, "det", text)
    environment = bench.programs.environment()
    path = f"{bench.folder}:{environment['PATH']}"
    given = shell(bench, 'bash "$many/check_all.sh" runs results', PATH=path)
    assert given.status == 3 and given.out.startswith(b"records 3\n"), str(given)
    assert given.err.endswith(b"records without a result: 1\n"), str(given)
    assert [it[1:] for it in job_log(bench) if it[1] != "0"] == [("9", "runs/0002.rec")]


def test_two_folders(bench: Bench) -> None:
    """Records of two folders are compared by their names; one that either lacks is a read fault."""
    path_of("parallel")
    write_records(bench, 4)
    shutil.copytree(bench.folder / "runs", bench.folder / "other")
    (bench.folder / "other" / "0001.rec").write_bytes(bench.example("bank"))
    (bench.folder / "other" / "0002.rec").rename(bench.folder / "other" / "0004.rec")
    given = shell(bench, 'bash "$many/compare_all.sh" runs other results')
    assert given.status == 1, str(given)
    assert given.out.decode().splitlines() == [
        "records 5",
        "status 0 1",
        "status 1 1",
        "status 5 1",
        "status 6 2",
        "1\truns/0001.rec other/0001.rec\tdiffer copy 1 element 2 2",
        "5\truns/0003.rec other/0003.rec\tbad record: copy 0 offset 300 truncated",
        "6\truns/0002.rec other/0002.rec\tread fault",
        "6\truns/0004.rec other/0004.rec\tread fault",
    ]
    lines = (bench.folder / "results").read_text().splitlines()
    genuine, differs, missing, torn, new = (line.split("\t")[3] for line in lines)
    assert (genuine, differs) == ("", "")
    assert missing.startswith("other/0002.rec: No such file"), missing
    assert new.startswith("runs/0004.rec: No such file"), new
    assert torn == "runs/0003.rec: in frame 4, the run of cycle 2"


def test_folders_with_braces(bench: Bench) -> None:
    """What GNU parallel would replace in a name of a folder is kept, also in those of the scripts
    and of the results."""
    path_of("parallel")
    record = bench.example("bank")
    for name in ("x{}y", "{#} {= 1 =}"):
        (bench.folder / name).mkdir()
        (bench.folder / name / "{.} a.rec").write_bytes(record)
    shutil.copytree(MANY, bench.folder / "{/}")
    given = shell(bench, """bash "{/}/compare_all.sh" "x{}y" "{#} {= 1 =}" "{%}" """)
    assert given == Outcome(0, b"records 1\nstatus 0 1\n", b""), str(given)
    line = "0\tx{}y/{.} a.rec {#} {= 1 =}/{.} a.rec\tagree 3\t\n"
    assert (bench.folder / "{%}").read_text() == line


@pytest.mark.parametrize("name", ("results", "results.log", "none/results"))
def test_results_not_written(bench: Bench, name: str) -> None:
    """If the results can't be written, no summary of older ones is printed."""
    path_of("parallel")
    write_records(bench, 3)
    bench.file("results", "0\truns/0000.rec\tgenuine 3\t\n" * 3)
    results = "none/results" if name.startswith("none") else "results"
    if results == "results":
        (bench.folder / name).unlink(missing_ok=True)
        (bench.folder / name).mkdir()
    for call in ("check_all.sh runs", "compare_all.sh runs runs"):
        given = shell(bench, f'bash "$many"/{call} {results}')
        assert given == Outcome(3, b"", f"can't write {name}\n".encode()), str(given)


CHECK_USAGE = "usage: check_all.sh FOLDER RESULTS [JOBS]"
COMPARE_USAGE = "usage: compare_all.sh FOLDER FOLDER RESULTS [JOBS]"
SUMMARY_USAGE = "usage: summary.sh COUNT RESULTS .."
TASK_USAGE = "usage: slurm_check.sh MANY LIST RESULTS TASKS"
HOST_USAGE = "usage: det_lane on_hosts.sh COPIES MANIFEST STIM [-- WORD ..]"
WORKERS_USAGE = (
    "usage: compare_workers.sh MANIFEST STIM FOLDER [WORKERS ..], with at most 7 WORKERS"
)


@pytest.mark.parametrize(
    "words, line",
    (
        ("check_all.sh", CHECK_USAGE),
        ("check_all.sh runs", CHECK_USAGE),
        ("check_all.sh runs results 2 3", CHECK_USAGE),
        ("check_all.sh none results", "none is no folder"),
        ("compare_all.sh runs runs", COMPARE_USAGE),
        ("compare_all.sh runs none results", "none is no folder"),
        ("summary.sh", SUMMARY_USAGE),
        ("summary.sh 3", SUMMARY_USAGE),
        ("summary.sh runs/0000.rec runs/0001.rec", SUMMARY_USAGE),
        ("slurm_check.sh", TASK_USAGE),
        ('slurm_check.sh "$many" list results', TASK_USAGE),
        ('slurm_check.sh "$many" list results 0', TASK_USAGE),
        ('slurm_check.sh "$many" list results x', TASK_USAGE),
        ("slurm_check.sh runs list results 3", "runs has no one_line.sh"),
        ("on_hosts.sh", HOST_USAGE),
        ("on_hosts.sh record m s --workers", HOST_USAGE),
        ("on_hosts.sh record m s --workers 0", HOST_USAGE),
        ("on_hosts.sh check m s --workers 1", HOST_USAGE),
        ("on_hosts.sh record m s --workers 1", "DET_HOSTS has no host"),
        ("../ci/compare_workers.sh", WORKERS_USAGE),
        ("../ci/compare_workers.sh m s", WORKERS_USAGE),
        ("../ci/compare_workers.sh m s results 2 3 4 5 6 7 8 9", WORKERS_USAGE),
    ),
)
def test_wrong_words(bench: Bench, words: str, line: str) -> None:
    """Wrong words and a missing folder are told in one line, and nothing is written."""
    write_records(bench, 3)
    given = shell(bench, f'bash "$many"/{words}', DET_HOSTS=" ")
    assert given == Outcome(2, b"", f"{line}\n".encode()), str(given)
    assert not (bench.folder / "results").exists()


def task_names(bench: Bench, tasks: int) -> list[list[str]]:
    """The names in the results of each task."""
    texts = [(bench.folder / f"results.{task}").read_text() for task in range(tasks)]
    return [[line.split("\t")[1] for line in text.splitlines()] for text in texts]


def run_task(bench: Bench, task: str, tasks: int = 3, names: str = "list results") -> Outcome:
    """A task without a cluster."""
    call = f'bash "$many/slurm_check.sh" "$many" {names} {tasks}'
    return shell(bench, call, SLURM_ARRAY_TASK_ID=task)


def summary(bench: Bench) -> Outcome:
    """What the page says after the tasks."""
    return shell(bench, indented_lines(MANY_PAGE, CLUSTER).splitlines()[-1])


def write_list(bench: Bench, count: int) -> None:
    """Records, and their names in the file `list`."""
    write_records(bench, count)
    assert shell(bench, "find runs -name '*.rec' | sort > list").status == 0


def test_tasks_without_cluster(bench: Bench) -> None:
    """Three tasks take ten records in turn, and end with 1 if one of theirs isn't genuine. One task
    alone can be run again."""
    write_list(bench, 10)
    # The second record departs, the last is torn.
    assert [run_task(bench, task).status for task in "012"] == [1, 1, 0]
    expected = [[f"runs/{it:04}.rec" for it in range(task, 10, 3)] for task in range(3)]
    assert task_names(bench, 3) == expected
    assert summary(bench) == Outcome(1, summary_of(10).encode(), b"")
    (bench.folder / "results.1").write_text("of an earlier run\n")
    assert run_task(bench, "1").status == 1
    assert task_names(bench, 3) == expected


def test_task_left_out(bench: Bench) -> None:
    """The summary says how many records have no result, as if the array began with task 1, or a
    task was killed."""
    write_list(bench, 10)
    given = summary(bench)
    assert (given.status, given.last_line()) == (3, b"records without a result: 10")
    assert [run_task(bench, task).status for task in "12"] == [1, 0]
    assert run_task(bench, "3") == Outcome(2, b"", b"task 3 isn't below 3, the number of tasks\n")
    given = summary(bench)
    assert given.status == 3 and given.out.startswith(b"records 6\n"), str(given)
    assert given.err == b"records without a result: 4\n"
    # A task that is killed has no results, also not those of an earlier run.
    text = f"""[ "$2" = runs/0005.rec ] || exec "{bench.programs.path("det")}" "$@"
it=$PPID
until grep -aq slurm_check /proc/$it/cmdline; do it=$(cut -d ' ' -f 4 /proc/$it/stat); done
kill -9 $it
"""
    write_script(bench, "det", text)
    path = f"{bench.folder}:{bench.programs.environment()['PATH']}"
    call = 'bash "$many/slurm_check.sh" "$many" list results 3'
    given = shell(bench, f"{call} || true", SLURM_ARRAY_TASK_ID="2", PATH=path)
    given = summary(bench)
    assert given.status == 3 and given.out.startswith(b"records 3\n"), str(given)
    for task in ("3", "4"):
        shutil.copy(bench.folder / "results.1", bench.folder / f"results.{task}")
    (bench.folder / "list").write_text("runs/0000.rec\n")
    assert summary(bench).last_line() == b"results of no record: 8"


def test_refused_tasks(bench: Bench) -> None:
    """A task without a number, without a list, or with results that can't be written."""
    write_list(bench, 3)
    bench.file("empty", "")
    (bench.folder / "results.2").mkdir()
    for task, names, status, line in (
        ("", "list results", 2, "SLURM_ARRAY_TASK_ID is no number: this is a task of an array"),
        ("08", "list results", 2, "task 08 isn't below 3, the number of tasks"),
        ("0", "none results", 2, "none is no list of records"),
        ("0", "runs results", 2, "runs is no list of records"),
        ("0", "empty results", 2, "empty is no list of records"),
        ("0", "list none/results", 3, "can't write none/results.0"),
        ("2", "list results", 3, "can't write results.2"),
    ):
        given = run_task(bench, task, names=names)
        assert given == Outcome(status, b"", f"{line}\n".encode()), str(given)
    assert not (bench.folder / "results.0").exists()


@pytest.fixture
def cluster(bench: Bench) -> Iterator[dict[str, str]]:
    try:
        with running_cluster(bench) as variables:
            yield variables
    except NotBegun as why:
        pytest.skip(f"no cluster begins here: {why}")


@pytest.mark.slow
def test_cluster(bench: Bench, cluster: dict[str, str]) -> None:
    """The commands of the page, over a cluster: four tasks take ten records in turn."""
    path_of("sbatch")
    write_records(bench, 10)
    given = shell(bench, indented_lines(MANY_PAGE, CLUSTER), **cluster)
    logs = "".join(it.read_text() for it in bench.folder.glob("det-check-*.txt"))
    assert given.out.decode().endswith(f"not all genuine\n{summary_of(10)}"), f"{given} {logs}"
    assert given.status == 1
    expected = [[f"runs/{it:04}.rec" for it in range(task, 10, 4)] for task in range(4)]
    assert task_names(bench, 4) == expected
