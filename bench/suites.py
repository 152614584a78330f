"""What is measured on each input, and which outputs have to be equal."""

import os
import shlex
import shutil
import subprocess
import sys
from dataclasses import dataclass
from pathlib import Path
from typing import Optional

from inputs import RECORDED, SIM_NUMBER, Recording, cloud, cycles, second_client, write_greatest
from passes import heavy_passes
from running import Command, Result, Runner, digest_of, digest_of_text, run_into, size, text_of

PLAIN = Path(__file__).resolve().parent
DERIVED = PLAIN.parent / "tests" / "derived.py"
REQUESTS = PLAIN.parent / "tests" / "memory_requests.py"
WORKERS = (1, 2, 4)
CLIENT_WORKERS = (1, 4)
MOST_COPIES = 8
CYCLES_DIVISOR = 10

# Endings of the names of lines, for those of the plain programs.
IN_PLAIN = ", plain Rust"
BY_CLIENT = ", same interfaces"
# Of one whose output goes into a new file or through a pipe to a `cat`, and of one that reads the
# greatest frames.
KEPT = ", into a file"
PIPED = ", into a pipe"
GREATEST = ", greatest frames"


@dataclass(frozen=True)
class Programs:
    """The program that is measured, those of copies and of its pool, and the plain ones, where
    there is a compiler for them."""

    det: Path
    lane: Optional[Path]
    twin: Optional[Path]
    pool: Optional[Path]
    baseline: Optional[Path]
    client: Optional[Path]


def build_plain(name: str, room: Path) -> Optional[Path]:
    """One of the plain Rust programs, where there is a compiler for it."""
    program = room / name
    words = ["rustc", "-O", "--edition", "2021", "-o", str(program), str(PLAIN / name / "main.rs")]
    if not shutil.which("rustc") or subprocess.run(words).returncode != 0:
        return None
    return program


@dataclass(frozen=True)
class Row:
    """A line of the table: what was found, the bytes of its record, and the time that is 1."""

    result: Result
    size: int
    first: Optional[float]


class Measurements:
    """The measurements, and what they found."""

    def __init__(self, runner: Runner, programs: Programs, is_quick: bool) -> None:
        self.runner = runner
        self.programs = programs
        self.is_quick = is_quick
        self.rows: list[Row] = []
        self.remarks: list[str] = []
        self.is_same = True

    def room(self, name: str) -> Path:
        return self.runner.room / name

    def det(self, *words: object) -> list[str]:
        return [str(self.programs.det), *map(str, words)]

    def in_plain(self, what: str, gives: str, *words: object) -> list[Command]:
        """A command of the least plain program, where there is one."""
        if self.programs.baseline is None:
            return []
        return [
            Command(what + IN_PLAIN, [str(self.programs.baseline), *map(str, words)], gives=gives)
        ]

    def add_rows(self, results: list[Result], size: int, first: Optional[float] = None) -> None:
        self.rows += [Row(result, size, first) for result in results]

    def judge(self, results: list[Result], expected: dict[str, str]) -> None:
        """Says of each output whether its bytes were equal, and equal to the expected ones."""
        found: dict[str, list[str]] = {gives: [digest] for gives, digest in expected.items()}
        for result in results:
            if result.trial and result.command.gives:
                found.setdefault(result.command.gives, []).append(result.trial.digest)
        for gives, digests in found.items():
            if len(digests) > 1:
                self.remark_whether_same(f"{gives}, {len(digests)} times", digests)

    def remark_whether_same(self, what: str, digests: list[str]) -> None:
        is_same = len(set(digests)) == 1
        self.is_same = self.is_same and is_same
        self.remarks.append(f"{what}: {'equal, byte for byte' if is_same else 'THEY DIFFER'}")

    # ---- a stimulus recorded ----

    def inputs(self, recording: Recording) -> tuple[Path, list[str]]:
        """Writes a manifest and a stimulus. Returns the stimulus, and the words that record it."""
        name = recording.name.replace(" / ", "_")
        manifest, stimulus = self.room(f"{name}.toml"), self.room(f"{name}.stim")
        manifest.write_text(recording.manifest())
        stimulus.write_text(recording.stimulus())
        return stimulus, self.det("record", manifest, stimulus, "--seed", recording.seed)

    def record_commands(self, recording: Recording, record: Path) -> list[Command]:
        """The recording by each number of workers, of which the first keeps the record, and by
        plain Rust."""
        stimulus, words = self.inputs(recording)
        what, gives, plain = (
            f"record {recording.name}",
            f"record of {recording.name}",
            recording.plain_words(stimulus),
        )
        commands = [
            Command(
                what,
                [*words, "--workers", str(workers)],
                workers,
                gives,
                keep=record if workers == 1 else None,
            )
            for workers in WORKERS
        ]
        if self.programs.client:
            client = [str(self.programs.client), *plain]
            commands += [
                Command(what + BY_CLIENT, [*client, str(workers)], workers, gives)
                for workers in CLIENT_WORKERS
            ]
        return commands + self.in_plain(what, gives, *plain)

    def read_commands(self, name: str, record: Path) -> list[Command]:
        """The commands that read the record."""
        text = f"text of {name}"
        return [
            Command(f"replay {name}", self.det("replay", record), gives=f"record of {name}"),
            Command(f"check {name}", self.det("check", record), gives=f"verdict on {name}"),
            Command(f"show {name}", self.det("show", record), gives=text),
            *self.in_plain(f"show {name}", text, "show", record),
        ]

    def tenth(self) -> Command:
        """The recording of a part of the short cycles, for its memory."""
        few = cycles(self.is_quick, CYCLES_DIVISOR)
        return Command(f"record {few.name}", self.inputs(few)[1], 1, records=1 / CYCLES_DIVISOR)

    def file_commands(self, recorded: list[Command]) -> list[Command]:
        """Recordings by one worker and by plain Rust, into a file and through a pipe."""
        commands = []
        for command in recorded:
            if command.workers in (1, None) and not command.what.endswith(BY_CLIENT):
                piped = ["sh", "-c", f"{shlex.join(command.words)} | cat"]
                commands.append(self.into_file(command.what + KEPT, command.words))
                commands.append(Command(command.what + PIPED, piped))
        return commands

    def record(self, recording: Recording) -> None:
        name, record = recording.name, self.room("record")
        commands = self.record_commands(recording, record)
        if name == "cycles":
            commands += [self.tenth(), *self.file_commands(commands)]
        results = self.runner.measure(commands + self.read_commands(name, record))
        self.add_rows(results, size(record), results[0].seconds)
        verdict = f"genuine {recording.cycles()}\n" + text_of(self.det("show", "--reports", record))
        self.judge(results, {f"verdict on {name}": digest_of_text(verdict)})

    # ---- a record and its copies ----

    def compare_commands(self, copies: list[Path]) -> list[Command]:
        def compare(count: int) -> Command:
            words = self.det("compare", *copies[:count])
            return Command(f"compare {count}", words, gives="verdict on copies", records=count)

        cmp = (
            [Command("cmp", ["cmp", *map(str, copies[:2])], records=2)]
            if shutil.which("cmp")
            else []
        )
        return [compare(2), *cmp, compare(MOST_COPIES), *self.vote_commands(copies[:3])]

    def into_file(
        self, what: str, words: list[str], *before: list[str], records: float = 1
    ) -> Command:
        """A command whose output goes into a new file, after others that a shell runs first.

        A shell starts it whatever is before it, so that what is compared with it has one too.
        """
        made = self.room("made")
        last = shlex.join(words) + (f" {made}" if words[0] == "cp" else f" > {made}")
        script = " && ".join([*map(shlex.join, before), f"exec {last}"])
        return Command(what, ["sh", "-c", script], records=records, makes=made)

    def vote_commands(self, copies: list[Path]) -> list[Command]:
        """Three copies voted into one, and the least that does as much with equal copies."""
        first, second, third = map(str, copies)
        vote = self.det("vote", *copies)
        plain = self.into_file(
            "two cmp and a cp",
            ["cp", first],
            ["cmp", first, second],
            ["cmp", first, third],
            records=3,
        )
        return [
            Command("vote 3", vote, gives="voted record", records=3),
            self.into_file(f"vote 3{KEPT}", vote, records=3),
            *([plain] if shutil.which("cmp") else []),
        ]

    def salvage_commands(self, record: Path, cycles: int) -> list[Command]:
        """A record that breaks off in the middle of its last cycle, made whole, and copied as it
        is.

        `cp` leaves the copying to the kernel, and `dd` reads and writes pieces as large as those of
        `salvage`.
        """
        cut = self.room("cut")
        shutil.copyfile(record, cut)
        os.truncate(cut, size(record) - size(record) // cycles // 2)
        salvage = self.det("salvage", cut)
        return [
            Command("salvage", salvage, gives="salvaged record"),
            *self.in_plain("salvage", "salvaged record", "salvage", cut),
            self.into_file(f"salvage{KEPT}", salvage),
            self.into_file("cp", ["cp", str(cut)]),
            *(
                [self.into_file("dd", ["dd", f"if={cut}", "bs=64K", "status=none"])]
                if shutil.which("dd")
                else []
            ),
        ]

    def upgrade_commands(self, record: Path) -> list[Command]:
        """A record in format 1, which only a plain program makes, run again in format 2."""
        if self.programs.baseline is None:
            return []
        old = self.room("old")
        run_into(old, [str(self.programs.baseline), "downgrade", str(record)])
        upgrade = Command("upgrade", self.det("upgrade", old), gives="upgraded record")
        return [upgrade, *self.in_plain("upgrade", "upgraded record", "upgrade", old)]

    def copies(self) -> None:
        recording = cloud(self.is_quick)
        paths = [self.room(f"copy{number}") for number in range(MOST_COPIES)]
        run_into(paths[0], self.inputs(recording)[1])
        for path in paths[1:]:
            shutil.copyfile(paths[0], path)
        commands = (
            self.compare_commands(paths)
            + self.salvage_commands(paths[0], recording.cycles())
            + self.upgrade_commands(paths[0])
        )
        results = self.runner.measure(commands)
        self.add_rows(results, size(paths[0]))
        agree = digest_of_text(f"agree {recording.cycles()}\n")
        digest = digest_of(paths[0])
        self.judge(
            results, {"verdict on copies": agree, "voted record": digest, "upgraded record": digest}
        )

    # ---- the greatest frames ----

    def greatest(self) -> None:
        """Copies of a record of the greatest frames, for the memory. All are one file."""
        record = self.room("greatest")
        runs = 2 if self.is_quick else 4
        write_greatest(record, runs)
        verdict = "verdict on the greatest frames"
        commands = [
            Command(
                f"compare {count}{GREATEST}",
                self.det("compare", *[record] * count),
                gives=verdict,
                records=count,
            )
            for count in (2, MOST_COPIES)
        ]
        results = self.runner.measure(commands)
        self.add_rows(results, size(record))
        self.judge(results, {verdict: digest_of_text(f"agree {runs}\n")})
        record.unlink()

    # ---- two clients ----

    def chain(self) -> None:
        """A cloud and a bank after it, and both recorded one after the other, the bank over a
        stimulus made of the cloud."""
        first, second = cloud(self.is_quick), second_client(self.is_quick)
        one, two, derived = (self.room(name) for name in ("first", "second", "derived"))
        stimulus, first_words = self.inputs(first)
        run_into(one, first_words)
        run_into(derived, [sys.executable, str(DERIVED), str(one), str(len(second.events))])
        _, second_words = self.inputs(second)
        second_words[3] = str(derived)
        words = self.det("chain", first_words[2], second_words[2], stimulus, "--seed", first.seed)
        both = shlex.join(first_words) + " > /dev/null && " + shlex.join(second_words)
        given = "record of a second client"
        commands = [
            Command("chain", words, 1, given, keep=two, records=2),
            Command("two records", ["sh", "-c", both], 1, given, records=2),
        ]
        results = self.runner.measure(commands)
        self.add_rows(results, (size(one) + size(two)) // 2)
        self.judge(results, {})

    # ---- copies that run now ----

    def running_copies(self) -> None:
        """Two copies of a cloud as processes and as threads, one by itself, and two that nobody
        compares."""
        if None in (self.programs.lane, self.programs.twin):
            self.remarks.append("running copies are left out: there are no programs of them")
            return
        recording = cloud(self.is_quick)
        record = self.room("record")
        _, words = self.inputs(recording)
        manifest, stimulus = words[2:4]
        lane = [str(self.programs.lane), str(self.programs.det), "2", manifest, stimulus]
        twin = [str(self.programs.twin), "2", manifest, stimulus]
        one = self.det("record", manifest, stimulus, "--workers", 1)
        single = shlex.join(one)
        read = f"{single} | cat > /dev/null"
        commands = [
            Command("one record", one, 1, keep=record),
            Command(
                "two at once", ["sh", "-c", f"{single} > /dev/null & {single}; wait"], 1, records=2
            ),
            Command("two at once, read", ["sh", "-c", f"{read} & {read}; wait"], 1, records=2),
            Command("det_lane 2", lane, gives="verdict on running copies", records=2),
            Command("det_twin 2", twin, gives="verdict on running copies", records=2),
        ]
        results = self.runner.measure(commands)
        self.add_rows(results, size(record))
        self.judge(
            results, {"verdict on running copies": digest_of_text(f"agree {recording.cycles()}\n")}
        )

    # ---- a simulated run ----

    def sim(self) -> None:
        """The simulated run by each number of workers, and the time of only its digest."""
        record, summary = self.room("record"), self.room("summary")
        run_into(record, self.inputs(cloud(False))[1])
        what, sim = f"sim {SIM_NUMBER}", self.det("sim", SIM_NUMBER, "--workers")
        text = f"text of {what}"
        commands = [
            Command(what, [*sim, str(workers)], workers, text, keep=summary) for workers in WORKERS
        ]
        if shutil.which("sha256sum"):
            commands.append(Command("sha256sum of its record", ["sha256sum", str(record)]))
        results = self.runner.measure(commands)
        self.add_rows(results, size(record), results[0].seconds)
        self.judge(results, {})
        values = dict(line.split(" ", 1) for line in summary.read_text().splitlines())
        self.remark_whether_same(
            "digests by sim and of the recorded cloud", [values["sha256"], digest_of(record)]
        )

    def heavy(self) -> None:
        """Passes over a job that does next to nothing but draw random words."""
        if self.programs.pool is None:
            self.remarks.append("heavy passes are left out: there is no program of the pool")
            return
        results = heavy_passes(self.programs.pool, self.runner.rounds)
        self.add_rows(results, 0, results[0].seconds)

    # ---- memory that is asked for ----

    def requests(self) -> None:
        """Counts how often the most workers ask for memory while they record."""
        words = [
            sys.executable,
            str(REQUESTS),
            "--programs",
            str(self.programs.det.parent),
            "--only",
            "det record",
        ]
        done = subprocess.run(
            [*words, "--workers", str(WORKERS[-1])], stdout=subprocess.PIPE, text=True
        )
        if done.returncode == 0:
            self.remarks += [
                f"with {WORKERS[-1]} workers, {line}" for line in done.stdout.splitlines()
            ]
        else:
            print("requests for memory can't be counted", file=sys.stderr)

    def measure(self, only: Optional[str]) -> None:
        for name, recording in RECORDED.items():
            if only in (None, name):
                self.record(recording(self.is_quick))
        if only in (None, "copies"):
            self.copies()
        if only in (None, "greatest"):
            self.greatest()
        if only in (None, "chain"):
            self.chain()
        if only in (None, "running"):
            self.running_copies()
        if only in (None, "sim"):
            self.sim()
        if only in (None, "heavy"):
            self.heavy()
        if only is None and self.programs.det.name == "det":
            self.requests()
