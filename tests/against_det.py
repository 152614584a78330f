"""Applications over det::exec beside `det`, on random files, nine tenths of them broken.

    python3 tests/against_det.py --runs 50000 [--seed N]     says what differs

A run gives both programs the same arguments. Status, standard output and standard error have to be
the same, with all hints; only the program's own name and that of its job are others. Files of a run
that differs are kept. Beside a name of no file, `det` may have no hint.
"""

from __future__ import annotations

import argparse
import random
import re
import shutil
import sys
import tempfile
from collections import Counter
from dataclasses import dataclass, field, replace
from pathlib import Path
from typing import Iterator, Union

from commands import Outcome, run

Argument = Union[str, int, Path]

# Of each job the parameters, and its events with the greatest samples.
JOBS = {
    "cloud": (
        ([700, 1000, 5, 1_400_000], [65, 50, 0, 4 * 10**12], [1, 1, 1, 0]),
        (("x", 10**6), ("y", 10**6), ("hold", 5)),
    ),
    "guard": (
        ([300, -1000, 1000, 3, 200], [64, -10, 10, 1, 65536], [1, 0, 0, 1000, 0]),
        (("a", 1200), ("b", 1200)),
    ),
}
NEEDS = """[run_needs]
instructions = 5
sequential_begin = 0
sequential_end = 1_0
speedup_thousandths = 0x10
"""
# What an edit puts into a file.
STIMULUS_TOKENS = ["\n", " ", "cycle ", "sample 0 ", "-", "0", "1000000000000", "1000000000001"]
STIMULUS_TOKENS += ["terminate\n", "stim 1\n", "18446744073709551615", "18446744073709551616"]
STIMULUS_TOKENS += ["\r", "x" * 129, "x" * 128, "cycle -\n", "sample 2 5\n"]
RECORD_TOKENS = [b"\0", b"\xff", b"\5", b"\4", b"\0\1", b"\0\0\0\1", b"DETREC", b"\0" * 12]
MANIFEST_TOKENS = ["1", '"', "'", "=", "\n", "[", "]", "#", "-", "0x1F", "1.5", "1e3", "true"]
MANIFEST_TOKENS += ["[[event]]\n", "[run_needs]\n", "params = []\n", "a.b = 1\n", 'zz = "q"\n']
MANIFEST_TOKENS += ["{}", "{ a = 1 }", "1_0", "9223372036854775808", "\\u0041", "1979-05-27"]
MANIFEST_TOKENS += ['"fresh"', 'platform = ""\n', "capacity = 1025\n", "event = 3\n", "+5", "inf"]
MANIFEST_TOKENS += ['"""a"""', "\r\n", "\ufeff"]
NO_FILE = "nosuch"
EXTRA: list[list[str]] = [["--seed", "7"], ["--workers", "2"], ["--strict"], ["--seed"], ["-"]]
EXTRA += [["--workers", "0"], ["--workers", "65"], ["--seed", "18446744073709551616"], [""]]
EXTRA += [["--seed", "00"], ["--seed", ""], ["--workers=2"], ["--force"], ["m.toml"], [NO_FILE]]
EXTRA += [["--dissent"], ["--seed", "--workers"], ["--workers", "+1"], ["\udcff"]]


def manifest(choose: random.Random, job: str) -> str:
    """A good manifest of a job."""
    params, events = JOBS[job]
    lines = [f'job = "{job}"', f"cycle_time_ns = {choose.choice([1, 10_000_000, 2**63 - 1])}"]
    lines += [f"workers = {choose.randint(1, 4)}", f"params = {choose.choice(params)}"]
    if choose.random() < 0.3:
        lines.append('platform = "x86-64"')
    for name, _ in events:
        lines += ["[[event]]", f'name = "{name}"', f"capacity = {choose.choice([1, 2, 7])}"]
        lines += choose.choice([[], ['policy = "last"'], ['policy = "fresh"']])
    return "\n".join([*lines, ""]) + choose.choice(["", "", NEEDS])


def stimulus(choose: random.Random, job: str) -> str:
    """A good stimulus for a job."""
    events = JOBS[job][1]
    lines = ["stim 1"]
    for cycle in range(choose.randint(0, 12)):
        lines.append(f"cycle {choose.choice(['-', cycle * 10**7, choose.randrange(2**64)])}")
        for _ in range(choose.randrange(4)):
            event = choose.randrange(len(events))
            most = events[event][1]
            lines.append(f"sample {event} {choose.randint(-most if event < 2 else -1, most)}")
    return "\n".join([*lines, "terminate", ""])


class InFormat1:
    """A record of format 2, written without its policies and draws."""

    def __init__(self, record: bytes) -> None:
        self.record, self.at, self.out = record, 0, bytearray()

    def take(self, count: int) -> bytes:
        self.at += count
        return self.record[self.at - count : self.at]

    def keep(self, count: int) -> bytes:
        self.out += self.take(count)
        return self.record[self.at - count : self.at]

    def number(self, width: int) -> int:
        return int.from_bytes(self.keep(width), "big")

    def elements(self, has_draws: bool) -> None:
        for _ in range(self.number(4)):
            self.keep(self.number(2))
            if has_draws:
                self.take(4)

    def header(self) -> None:
        self.keep(6)
        self.take(2)
        self.out += b"\0\1"
        self.keep(18)
        self.keep(8 * self.number(2))
        for _ in range(self.number(2)):
            self.keep(self.keep(3)[2])
            self.take(1)

    def run(self) -> None:
        self.keep(8 * self.number(1))
        self.keep(10 * self.number(4))
        if self.number(1):
            self.keep(10)
            return
        self.elements(has_draws=True)
        self.keep(self.number(4))

    def bytes(self) -> bytes:
        self.header()
        while self.at < len(self.record):
            tag = self.number(1)
            if tag == 3:
                self.elements(has_draws=False)
            elif tag == 4:
                self.run()
        return bytes(self.out)


def broken(choose: random.Random, data: bytes, tokens: list[bytes]) -> bytes:
    """The same with an edit or two."""
    made = bytearray(data)
    for _ in range(choose.randint(1, 2)):
        at = choose.randrange(len(made) + 1)
        end = min(len(made), at + choose.randint(1, 12))
        kind = choose.randrange(6)
        if kind == 0:
            made[at : at + 1] = bytes([choose.randrange(256)])
        elif kind == 1 and at < len(made):
            made[at] ^= 1 << choose.randrange(8)
        elif kind == 2:
            del made[at:end]
        elif kind == 3:
            made[at:at] = choose.choice(tokens)
        elif kind == 4:
            del made[at:]
        else:
            made[at:end] = choose.choice(tokens)
    return bytes(made)


def named_after(job: str, outcome: Outcome) -> Outcome:
    """How `det` ended, where the names are those of a program with this only job."""
    err = outcome.err.replace(b"bank, cloud or guard", job.encode())
    return replace(outcome, err=err.replace(b"see det", b"see " + job.encode()))


def is_without_hint(wanted: Outcome, given: Outcome) -> bool:
    """Whether only the hint on a file is missing: `det` has none beside a name of no file."""
    return wanted.err == wanted.line() + b"\n" and wanted.is_like(given)


def kind_of(hint: bytes) -> bytes:
    """A hint with 0 in place of each number."""
    return re.sub(rb"\d+", b"0", hint)


@dataclass
class Against:
    """`det`, the applications `cloud` and `guard` in a folder, and a folder for files."""

    det: Path
    programs: Path
    work: Path
    seed: int
    seen: Counter[tuple[str, int]] = field(default_factory=Counter)
    hints: Counter[bytes] = field(default_factory=Counter)
    apart: list[str] = field(default_factory=list)

    def compare(self, job: str, *arguments: Argument) -> None:
        """Gives both programs these arguments."""
        wanted = named_after(job, run([self.det, *arguments], self.work))
        given = run([self.programs / job, *arguments], self.work)
        self.seen[str(arguments[0]), wanted.status] += 1
        self.hints.update(kind_of(it) for it in wanted.hints())
        if wanted != given and not (NO_FILE in arguments and is_without_hint(wanted, given)):
            kept = self.work / f"apart{len(self.apart)}"
            kept.mkdir()
            for file in ("m.toml", "s.stim", "r.rec"):
                shutil.copy(self.work / file, kept)
            self.apart.append(f"{job} {arguments}: det {wanted}; given {given}; see {kept}")

    def arguments(self, choose: random.Random) -> list[Argument]:
        """The arguments of a command, or some that are no command."""
        files = {"record": ["m.toml", "s.stim"], "needs": ["m.toml"]}
        command = choose.choice(["record", "replay", "check", "needs"])
        made: list[Argument] = [*files.get(command, ["r.rec"])]
        for _ in range(choose.randrange(4)):
            at = choose.randrange(len(made) + 1)
            made[at:at] = choose.choice(EXTRA)
        if made and choose.random() < 0.2:
            del made[choose.randrange(len(made))]
        return [command, *made]

    def round(self, choose: random.Random, job: str) -> Iterator[list[Argument]]:
        """Files, and the arguments of runs over them."""
        toml, stim, rec = (self.work / it for it in ("m.toml", "s.stim", "r.rec"))
        text, good = manifest(choose, job).encode(), stimulus(choose, job).encode()
        toml.write_bytes(text)
        stim.write_bytes(good)
        seed = choose.choice([0, 9, 2**64 - 1])
        recording = ["record", "m.toml", "s.stim", "--seed", seed]
        record = run([self.det, *recording], self.work).out
        for data in (record, InFormat1(record).bytes()):
            rec.write_bytes(data)
            yield ["check", "r.rec", "--workers", 2]
            yield ["replay", "r.rec", "--workers", 3]
            for _ in range(12):
                rec.write_bytes(broken(choose, data, RECORD_TOKENS))
                yield ["check", "r.rec"]
                yield ["replay", "r.rec"]
        rec.write_bytes(record)
        yield from ([*recording, "--workers", workers] for workers in (1, 4, 16))
        yield from (self.arguments(choose) for _ in range(12))
        for _ in range(12):
            stim.write_bytes(broken(choose, good, [it.encode() for it in STIMULUS_TOKENS]))
            yield ["record", "m.toml", "s.stim"]
        for _ in range(12):
            toml.write_bytes(broken(choose, text, [it.encode() for it in MANIFEST_TOKENS]))
            yield ["needs", "m.toml", *choose.choice([[], ["--strict"]])]

    def run(self, runs: int, most_apart: int = 10) -> None:
        """Compares at least this many runs, unless too many differ."""
        choose = random.Random(self.seed)
        while sum(self.seen.values()) < runs and len(self.apart) < most_apart:
            for job in JOBS:
                for arguments in self.round(choose, job):
                    self.compare(job, *arguments)


def main() -> int:
    from builds import build, build_library
    from cpp_bench import compile_example

    parser = argparse.ArgumentParser(description="Compares applications with det.")
    parser.add_argument("--runs", type=int, default=50_000)
    parser.add_argument("--seed", type=int, default=1)
    parser.add_argument("--library", type=Path, help="an archive of the library")
    given = parser.parse_args()
    archive = (given.library or build_library(False)).resolve()
    folder = Path(tempfile.mkdtemp(prefix="against-det-"))
    for job in JOBS:
        compile_example(job, archive, folder / job)
    against = Against(build("det"), folder, folder, given.seed)
    against.run(given.runs)
    for (command, status), count in sorted(against.seen.items()):
        print(f"{count:7} {command}, status {status}")
    print("\n".join(against.apart))
    print(f"{sum(against.seen.values())} runs, {len(against.apart)} apart")
    return 1 if against.apart else 0


if __name__ == "__main__":
    sys.exit(main())
