"""A continuous integration: the script of examples/ci, and the command of its workflow."""

from __future__ import annotations

import re
from pathlib import Path

from commands import TOP, Bench, Outcome
from servers import FLIPPING, path_of, shell, write_script

WORKFLOW = TOP / "examples" / "ci" / "records.yml"
RECORDS = [f"workers-{it}.rec" for it in (1, 2, 4, 8)]


def command_of_workflow() -> str:
    """The command of the workflow. The other steps are actions of GitHub's."""
    found = re.findall(r"^ +run: (.+)$", WORKFLOW.read_text(), re.M)
    assert len(found) == 1
    return found[0]


def path_with_page(bench: Bench) -> str:
    """A path with the tool `det_page`, over a page without scripts, and with the bench's folder."""
    page = bench.file("empty.html", "<!--EMBEDDED-->\n")
    tool = TOP / "tools" / "det_page.py"
    write_script(bench, "det_page", f'exec python3 -B "{tool}" --page "{page}" "$@"\n')
    return f"{bench.folder}:{bench.programs.environment()['PATH']}"


def kept(bench: Bench) -> Path:
    """The folder that the workflow uploads."""
    found = re.findall(r"^ +path: (.+)$", WORKFLOW.read_text(), re.M)
    return bench.folder / found[0]


def shown_records(bench: Bench) -> list[str]:
    """The names of the records in the page that is kept."""
    page = (kept(bench) / "page.html").read_text()
    return re.findall(r'class="record" data-name="([^"]*)"', page)


def test_workflow(bench: Bench) -> None:
    """The workflow's command, at the top of a checkout, passes, and leaves what is uploaded."""
    (bench.folder / "examples").symlink_to(TOP / "examples")
    given = shell(bench, command_of_workflow(), PATH=path_with_page(bench))
    assert given.status == 0 and given.out.endswith(b"agree 4\n"), str(given)
    assert given.err == b""
    names = sorted(it.name for it in kept(bench).iterdir())
    assert names == ["page.html", "verdict.txt", *RECORDS]
    assert (kept(bench) / "verdict.txt").read_bytes() == given.out
    assert shown_records(bench) == RECORDS


def test_workflow_without_page(bench: Bench) -> None:
    """If the page or its tool isn't installed, a line says so, and the status is the same."""
    (bench.folder / "examples").symlink_to(TOP / "examples")
    path = path_with_page(bench)
    (bench.folder / "empty.html").unlink()
    given = shell(bench, command_of_workflow(), PATH=path)
    line = f"det_page: {bench.folder}/empty.html: read fault: No such file or directory\n"
    assert given.status == 0 and given.out.endswith(b"agree 4\n"), str(given)
    assert given.err.decode() == line
    # A folder with the programs that the script calls, and no other one.
    (bench.folder / "few").mkdir()
    for name in ("bash", "mkdir", "rm", "tee"):
        (bench.folder / "few" / name).symlink_to(path_of(name))
    (bench.folder / "few" / "det").symlink_to(bench.programs.path("det"))
    given = shell(bench, command_of_workflow(), PATH=str(bench.folder / "few"))
    assert given.status == 0 and given.out.endswith(b"agree 4\n"), str(given)
    assert given.err == b"no page of the records: det_page isn't installed\n"
    assert sorted(it.name for it in kept(bench).iterdir()) == ["verdict.txt", *RECORDS]


def test_workflow_again(bench: Bench) -> None:
    """What an earlier call left isn't kept beside the records of one that fails."""
    (bench.folder / "examples").symlink_to(TOP / "examples")
    path = path_with_page(bench)
    assert shell(bench, command_of_workflow(), PATH=path).status == 0
    (kept(bench) / "notes.txt").touch()
    text = f"""[ "$5" != 4 ] || exit 7
exec "{bench.programs.path("det")}" "$@"
"""
    write_script(bench, "det", text)
    assert shell(bench, command_of_workflow(), PATH=path) == Outcome(7, b"", b"")
    names = sorted(it.name for it in kept(bench).iterdir())
    assert names == ["notes.txt", *RECORDS[:3]]
    (kept(bench) / "verdict.txt").mkdir()
    assert shell(bench, command_of_workflow(), PATH=path).status == 3


def test_workflow_finds_a_difference(bench: Bench) -> None:
    """If a number of workers changes a record, the command fails and the records are kept."""
    (bench.folder / "examples").symlink_to(TOP / "examples")
    # The script's words are those of a lane: `record MANIFEST STIM --workers K`.
    write_script(bench, "det", FLIPPING.format(det=bench.programs.path("det")))
    given = shell(bench, command_of_workflow(), PATH=path_with_page(bench))
    names = (f"out/records/workers-{workers}.rec" for workers in (1, 2, 4, 8))
    hints = "".join(f"  copy {copy}: {name}\n" for copy, name in enumerate(names))
    end = f"differ copy 1 header\n{hints}"
    assert given.status == 1 and given.out.decode().endswith(end), str(given)
    assert sorted(it.name for it in kept(bench).glob("*.rec")) == RECORDS
    assert shown_records(bench) == RECORDS
