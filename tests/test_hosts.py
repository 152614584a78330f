"""Copies of a lane on several hosts: the script on_hosts.sh of examples/many over ssh servers on the
loopback of this machine. What docs/MANY.md says of it is run here. These need Debian's
openssh-server and openssh-client.
"""

from __future__ import annotations

import shlex
import shutil
import signal
import time
from typing import Iterator

import pytest

from children import send
from commands import Bench, Outcome
from documents import indented_lines
from servers import CLOUD, FLIPPING, MANY_PAGE, Hosts, running_hosts, shell, write_script


@pytest.fixture
def hosts(bench: Bench) -> Iterator[Hosts]:
    with running_hosts(bench) as there:
        yield there


def lane(
    bench: Bench, hosts: Hosts, copies: int, names: str, words: str = "", **variables: str
) -> Outcome:
    """A lane of the cloud on hosts of these names, for at most a minute."""
    files = " ".join(f"'{it}'" for it in CLOUD)
    given = {"DET_HOSTS": names, **hosts.variables, **variables}
    call = f'timeout 60 det_lane "$many/on_hosts.sh" {copies} {files} {words}'
    return shell(bench, call, **given)


def remote(bench: Bench, name: str, text: str) -> dict[str, str]:
    """The variable by which the hosts run a script of this name, below its first line."""
    return {"DET_REMOTE": str(write_script(bench, name, text))}


def verdict(given: Outcome) -> tuple[int, bytes]:
    """Status and output of a lane. The shell of a host may write something of its own to standard
    error."""
    return given.status, given.out


def test_lane_of_the_page(bench: Bench, hosts: Hosts) -> None:
    """The commands of the page."""
    given = shell(bench, indented_lines(MANY_PAGE, "## Copies on several hosts"), **hosts.variables)
    assert verdict(given) == (0, b"agree 4\n"), str(given)


def test_lane_on_hosts(bench: Bench, hosts: Hosts) -> None:
    """More copies than hosts agree; a copy that flips a bit is named, and so is a missing host."""
    given = lane(bench, hosts, 5, "one two")
    assert verdict(given) == (0, b"agree 4\n"), str(given)
    flipping = remote(bench, "it's flipping", FLIPPING.format(det=bench.programs.path("det")))
    given = lane(bench, hosts, 3, "one two three", **flipping)
    assert verdict(given) == (1, b"differ copy 1 header\n"), str(given)
    given = lane(bench, hosts, 2, "one none")
    assert (given.status, given.last_line()) == (9, b"child 1 status 255"), str(given)


def test_refused_on_hosts(bench: Bench, hosts: Hosts) -> None:
    """What det refuses on a host is its child's status; names of files may have spaces."""
    shutil.copy(CLOUD[0], bench.folder / "of the cloud.toml")
    shutil.copy(CLOUD[1], bench.folder / "its stimulus")
    bench.file("bad.toml", "job = 1\n")
    given = {"DET_HOSTS": "one", **hosts.variables}
    text = 'det_lane "$many/on_hosts.sh" 2 {} "its stimulus"'
    assert shell(bench, text.format('"of the cloud.toml"'), **given).out == b"agree 4\n"
    refused = shell(bench, text.format("bad.toml"), **given)
    assert (refused.status, refused.last_line()) == (9, b"child 0 status 3"), str(refused)


def test_words_on_hosts(bench: Bench, hosts: Hosts) -> None:
    """The words after `--` arrive on the hosts, each one whole."""
    expected = bench.output("det", "record", *CLOUD, "--seed", "7")
    assert expected != bench.output("det", "record", *CLOUD)
    files = " ".join(f"'{it}'" for it in CLOUD)
    call = f'bash "$many/on_hosts.sh" record {files} --workers 2 --seed 7'
    given = shell(bench, call, DET_HOSTS="one two", **hosts.variables)
    assert given.status == 0 and given.out == expected, str(given)
    given = lane(bench, hosts, 3, "one two", "-- --seed 7")
    assert verdict(given) == (0, b"agree 4\n"), str(given)
    words = [
        "--seed",
        "7",
        "a b",
        "it's 'so'",
        '"',
        "\\'",
        "$HOME `id` \\",
        "*",
        "",
        "a\nb\n",
        "&ä",
    ]
    text = f"""printf '%s\\0' "$@" > "{bench.folder}/words $5"
exec "{bench.programs.path("det")}" record "$2" "$3" --workers "$5"
"""
    quoted = " ".join(map(shlex.quote, words))
    given = lane(bench, hosts, 2, "one two", f"-- {quoted}", **remote(bench, "writing", text))
    assert verdict(given) == (0, b"agree 4\n"), str(given)
    for workers in ("1", "2"):
        arrived = (bench.folder / f"words {workers}").read_text().split("\0")[:-1]
        assert arrived[0] == "record" and arrived[3:5] == ["--workers", workers]
        assert arrived[5:] == words


@pytest.mark.slow
def test_silent_host(bench: Bench, hosts: Hosts) -> None:
    """A host that takes a connection and says nothing is given up, and so is one that falls silent
    later."""
    begin, seconds = time.monotonic(), {"DET_SSH_SECONDS": "4"}
    given = lane(bench, hosts, 2, "one silent", **seconds)
    assert given.status == 9 and given.err.endswith(b"child 1 status 255\n"), str(given)
    # The server's process of the connection is stopped.
    stopped = bench.folder / "stopped"
    text = f"""[ "$5" = 2 ] || exec "{bench.programs.path("det")}" "$@"
it=$PPID
until grep -q '^Name:.sshd' /proc/$it/status; do it=$(cut -d ' ' -f 4 /proc/$it/stat); done
kill -STOP $it
echo $it > "{stopped}"
"""
    try:
        stopping = remote(bench, "stopping", text)
        given = lane(bench, hosts, 2, "one two", **seconds, **stopping)
    finally:
        if stopped.exists():
            send(int(stopped.read_text()), signal.SIGCONT)
    assert given.status == 9 and given.err.endswith(b"child 1 status 255\n"), str(given)
    assert time.monotonic() - begin < 40


@pytest.mark.slow
def test_hanging_program(bench: Bench, hosts: Hosts) -> None:
    """A host that answers is only given up by det_lane, if its program writes nothing."""
    going = bench.folder / "going"
    going.touch()
    text = f"""[ "$5" = 2 ] || exec "{bench.programs.path("det")}" "$@"
while [ -e "{going}" ]; do sleep 0.1; done
"""
    try:
        waiting = remote(bench, "waiting", text)
        given = lane(bench, hosts, 2, "one two", "--timeout 8", **waiting)
    finally:
        going.unlink()
    assert given.status == 10, str(given)
    assert given.err.endswith(b"spawn fault\n  child 1 wrote nothing for 8 s\n"), str(given)
