#!/usr/bin/env python3
"""Shows that the records of many disturbed runs are the same bytes.

    python3 tests/one_digest.py                       1,000 runs with the program of bin/det
    python3 tests/one_digest.py --runs 20             20 runs
    python3 tests/one_digest.py --programs FOLDER     with another build of det
    python3 tests/one_digest.py --busy 4              beside four busy processes
    python3 tests/one_digest.py --seed 7              other random choices

A run records a bank, and a cloud and a guard that refuse cycles, with some number of workers from 1
to 64. Its digest is the SHA-256 of the three records, and has to be that of the records that
tests/plain writes, which has one thread. While a record is made, the process is stopped and goes on
at random moments, and its threads are pinned to random processors; beside it one process for each
processor is busy, where no other number is given. Prints the digest, how many runs had it and how
they were disturbed, or the first run that hasn't; ends with 1 where there is one. A run with a
record that takes more than a minute has none. bin/det builds where needed. It needs Python's
standard library and rustc, on Linux.
"""

from __future__ import annotations

import argparse
import hashlib
import os
import random
import signal
import subprocess
import sys
import tempfile
import time
from collections import Counter
from contextlib import contextmanager
from pathlib import Path
from typing import Iterator, Optional, Sequence

from both_programs import Plain
from builds import build_plain, build_programs
from clients import MOST_VALUE, Client, stimulus

LIMIT = 60
MOST_WORKERS = 64
# The most seconds between two disturbances, and that a process is stopped.
MOMENT = 0.004
BUSY = """
import os
parent = os.getppid()
while os.getppid() == parent:
    for _ in range(1000000):
        pass
"""
# Each client with the cycles and the values of its stimulus. The cloud refuses where its third
# event is negative or its nearest particle is too far away, the guard where a channel is bad twice
# in a row or more than half of all are bad.
INPUTS = (
    (Client("bank", [9000, 1], 3), 15, [0, 7, -5, MOST_VALUE, -MOST_VALUE, 1000]),
    (Client("cloud", [1500, 50, 3, 6000], 3), 30, [0, 2000, 40, 3000, 3000, 3000, -1, 90]),
    (Client("guard", [5000, -1000, 1000, 2, 2500], 3), 30, [1, 500, 2000, 3000, 7, 8, 20]),
)


Words = list[str]


def write_inputs(folder: Path) -> list[Words]:
    """Writes the inputs of a run. Returns the words of its recordings, without the workers."""
    words = []
    for client, cycles, values in INPUTS:
        manifest, text = folder / f"{client.job}.toml", folder / f"{client.job}.stim"
        manifest.write_text(client.manifest())
        text.write_text(stimulus(client.events, cycles, values))
        words.append(["record", str(manifest), str(text)])
    return words


class Disturber:
    """Disturbs a process at random moments, and counts how often in which way."""

    def __init__(self, choose: random.Random) -> None:
        self.choose = choose
        self.processors = sorted(os.sched_getaffinity(0))
        self.counts: Counter[str] = Counter()

    def some_processors(self) -> set[int]:
        count = self.choose.randint(1, len(self.processors))
        return set(self.choose.sample(self.processors, count))

    def stop(self, process: int) -> None:
        os.kill(process, signal.SIGSTOP)
        time.sleep(self.choose.uniform(0, MOMENT))
        os.kill(process, signal.SIGCONT)
        self.counts["stops"] += 1

    def pin(self, process: int) -> None:
        """Pins a thread, which may have ended by now."""
        try:
            thread = int(self.choose.choice(os.listdir(f"/proc/{process}/task")))
            os.sched_setaffinity(thread, self.some_processors())
            self.counts["pinned threads"] += 1
        except (OSError, IndexError):
            pass

    def disturb(self, process: "subprocess.Popen[bytes]") -> bool:
        """Disturbs a process until its end. Returns whether it ended in time."""
        ends_at = time.monotonic() + LIMIT
        while process.poll() is None:
            if time.monotonic() > ends_at:
                process.kill()
                process.wait()
                return False
            self.choose.choice((self.stop, self.pin, self.pin))(process.pid)
            time.sleep(self.choose.uniform(0, MOMENT))
        return True


class NoRecord(Exception):
    """Why a process gave no record."""


class Runs:
    """Runs of one build of the program."""

    def __init__(self, program: Path, folder: Path, disturber: Disturber) -> None:
        self.program, self.folder, self.disturber = program, folder, disturber

    def record(self, words: Words, workers: int) -> bytes:
        """The record that words give."""
        command = [str(self.program), *words, "--workers", str(workers)]
        processors = self.disturber.some_processors()
        with open(self.folder / "record", "wb") as out:
            process = subprocess.Popen(
                command,
                stdout=out,
                stderr=subprocess.DEVNULL,
                preexec_fn=lambda: os.sched_setaffinity(0, processors),
            )
            if not self.disturber.disturb(process):
                raise NoRecord(f"no end in {LIMIT} seconds")
        if process.returncode != 0:
            raise NoRecord(f"status {process.returncode}")
        return (self.folder / "record").read_bytes()

    def digest(self, recordings: Sequence[Words], workers: int) -> str:
        digest = hashlib.sha256()
        for words in recordings:
            digest.update(self.record(words, workers))
        return digest.hexdigest()


@contextmanager
def keep_busy(count: int) -> Iterator[None]:
    """Keeps some processes busy, which end with this one at the latest."""
    processes = [subprocess.Popen([sys.executable, "-c", BUSY]) for _ in range(count)]
    try:
        yield
    finally:
        for process in processes:
            process.kill()
            process.wait()


def expected_digest(recordings: Sequence[Words], plain: Path, folder: Path) -> str:
    """The digest of the records that the plain program writes."""
    program = Plain(plain, folder)
    digest = hashlib.sha256()
    for words in recordings:
        given = program.run(["det", *words])
        if given.status != 0:
            raise RuntimeError(f"{words}: {given}")
        digest.update(given.out)
    program.close()
    return digest.hexdigest()


def workers_of(run: int) -> int:
    """The number of workers of a run: another one in each of 64 runs."""
    return run * 37 % MOST_WORKERS + 1


def departure(runs: Runs, recordings: Sequence[Words], run: int, expected: str) -> Optional[str]:
    """The digest of a run, where it is another one."""
    try:
        digest = runs.digest(recordings, workers_of(run))
    except NoRecord as why:
        return f"run {run} with {workers_of(run)} workers has none: {why}"
    if digest != expected:
        return f"run {run} with {workers_of(run)} workers has the digest {digest}"
    return None


def options(description: str) -> argparse.Namespace:
    """The options of a command of disturbed runs."""
    parser = argparse.ArgumentParser(description=description)
    parser.add_argument("--runs", type=int, default=1000)
    parser.add_argument("--programs", type=Path, help="a folder of builds in place of bin/")
    parser.add_argument("--busy", type=int, default=os.cpu_count(), help="how many busy processes")
    parser.add_argument("--seed", default="0", help="any text")
    return parser.parse_args()


def main() -> int:
    given = options("Compares the records of many disturbed runs.")
    with tempfile.TemporaryDirectory() as name, keep_busy(given.busy):
        folder, disturber = Path(name), Disturber(random.Random(given.seed))
        program = build_programs(folder / "programs", given.programs, names=("det",)).folder / "det"
        recordings = write_inputs(folder)
        expected = expected_digest(recordings, build_plain(folder), folder)
        print(f"digest {expected}", flush=True)
        runs = Runs(program, folder, disturber)
        for run in range(given.runs):
            other = departure(runs, recordings, run, expected)
            if other:
                print(other)
                return 1
    counts = ", ".join(f"{count} {what}" for what, count in sorted(disturber.counts.items()))
    print(f"{given.runs} runs had it; {counts}, {given.busy} busy processes")
    return 0


if __name__ == "__main__":
    sys.exit(main())
