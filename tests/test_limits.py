"""Runs with little memory and without threads: no answer changes, and none ends by a signal."""

from __future__ import annotations

import os
import resource
from pathlib import Path
from typing import Optional

import pytest

from commands import NOBODY, Bench, Outcome, Word, as_nobody, excerpt, run

# The sizes of the address space in KiB that are tried, from one in which the C library has no room.
# The least size lets the system map a program and its loader, of which it needs some 1,040 KiB.
SIZES = [*range(1200, 4000, 200), *range(4000, 20000, 800), *range(20000, 120000, 10000)]
NO_MEMORY = (8, b"out of memory\n")
# How the system's loader says that it has no room, and the status that it then ends with.
LOADER_STATUS = 127
LOADER_SAYS = (
    b"error while loading shared libraries",
    b"cannot allocate TLS data structures for initial thread",
)

MANIFEST = """job = "cloud"
cycle_time_ns = 10
workers = 1
params = [{count}, 1000, 50, 4_000_000_000_000]
"""
STIMULUS = "stim 1\n" + "cycle -\n" * 4 + "terminate\n"
RECORD = ["det", "record", "cloud.toml", "cloud.stim"]
MANY, FEWER = 40_000, 20_000
# Commands that are run with little memory, and how many particles their cloud has.
SMALL = {
    "record": (RECORD, MANY),
    "record on 8 workers": ([*RECORD, "--workers", "8"], MANY),
    "show": (["det", "show", "cloud.rec"], MANY),
    "check": (["det", "check", "cloud.rec"], MANY),
    "vote": (["det", "vote", *["cloud.rec"] * 3], MANY),
    "det_twin": (["det_twin", "3", *RECORD[2:]], FEWER),
}
CLOUD = ["CLOUD.toml", "CLOUD.stim"]
SPAWN_FAULT = Outcome(10, b"", b"spawn fault\n")
# Commands that may start no thread and no process, and how they end if not as they do otherwise.
ALONE: dict[str, tuple[list[str], Optional[Outcome]]] = {
    "record": (["det", "record", *CLOUD, "--workers", "64"], None),
    "sim": (["det", "sim", "7", "--workers", "4"], None),
    "det_twin": (["det_twin", "4", *CLOUD], None),
    "det_lane": (["det_lane", "det", "2", *CLOUD], SPAWN_FAULT),
}


def run_limited(bench: Bench, words: list[str], which: int, most: int) -> Outcome:
    """Runs a command under a limit of the system, not as root."""
    limit = lambda: resource.setrlimit(which, (most, most))  # noqa: E731
    return bench.run(*words, preexec_fn=limit, **as_nobody())


def way_of(given: Outcome, whole: Outcome) -> Optional[str]:
    """In which of the three ways a run ended, or none."""
    if given == whole:
        return "whole"
    is_short = (given.status, given.error_without_hints()) == NO_MEMORY
    if is_short and whole.out.startswith(given.out):
        return "memory"
    if given.status == LOADER_STATUS and not given.out:
        if any(says in given.err for says in LOADER_SAYS):
            return "loader"
    return None


@pytest.mark.parametrize("words, count", SMALL.values(), ids=SMALL)
def test_little_memory(words: list[str], count: int, bench: Bench) -> None:
    """At each size a command gives all, or the beginning of it, or isn't loaded."""
    bench.file("cloud.toml", MANIFEST.format(count=count))
    bench.file("cloud.stim", STIMULUS)
    bench.file("cloud.rec", bench.output(*RECORD))
    whole = bench.run(*words)
    assert whole.status == 0, "it fails with ample memory"
    ways = set()
    for size in SIZES:
        given = run_limited(bench, words, resource.RLIMIT_AS, size * 1024)
        way = way_of(given, whole)
        assert way, f"at {size} KiB: {given}"
        ways.add(way)
    assert ways >= {"whole", "memory"}, f"the sizes show nothing: {ways}"


def test_limit_of_processes() -> None:
    """The limit is one: a shell under it can't start a process."""
    words: list[Word] = ["/bin/sh", "-c", "/bin/true; /bin/true"]
    limit = lambda: resource.setrlimit(resource.RLIMIT_NPROC, (1, 1))  # noqa: E731
    given = run(words, Path("/"), dict(os.environ), preexec_fn=limit, **as_nobody())
    if given.status == 0:
        pytest.skip(f"this system refuses user {os.geteuid() or NOBODY} no process")


@pytest.mark.parametrize("words, expected", ALONE.values(), ids=ALONE)
def test_no_threads(words: list[str], expected: Optional[Outcome], bench: Bench) -> None:
    """A command that may start no thread and no process ends as one that may."""
    examples = bench.programs.room / "examples"
    command = [word.replace("CLOUD", f"{examples}/cloud") for word in words]
    free = bench.run(*command)
    given = run_limited(bench, command, resource.RLIMIT_NPROC, 1)
    assert free.status == 0, str(free)
    wanted = expected or free
    assert (given.status, given.out) == (wanted.status, wanted.out), str(given)
    assert given.error_without_hints() == wanted.err, excerpt(given.err)
