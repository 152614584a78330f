"""Reads that fail in mid-file: what was read before is written as if the file ended there."""

from __future__ import annotations

import errno
from pathlib import Path

import pytest

from commands import TOP, Outcome
from det_record import Summary
from failing_bench import FailingBench, Setting, Trials, check_trials
from item_lines import report_text

# How many bytes a read gives.
PIECE = 7
# Commands, of whose files the last one fails, and how many bytes at the end of their output wait
# for the file's end: Terminate, or the reports.
KEEPING = {
    "det demo examples/bank.stim": 1,
    "det record examples/wheels.toml examples/wheels.stim --workers 2": 1,
    "det chain examples/bank.toml examples/guard.toml examples/bank.stim --workers 2": 1,
    "det replay OUT/bank.rec": 1,
    "det upgrade OUT/old.rec --workers 2": 1,
    "det salvage OUT/cut.rec": 1,
    "det show OUT/bank.rec": len(report_text(Summary(cycles=3, gap=10_000_000))),
    "det show OUT/bank.rec --cycle 2": 0,
}
# It ends a record wherever that breaks off, but not at a read that fails.
SALVAGE = "det salvage"


def files_of(command: list[str]) -> list[int]:
    """The places of the files among a command's words."""
    return [place for place, word in enumerate(command) if place and "/" in word]


def reads_of(path: Path) -> int:
    """How many reads take a whole file: those of its pieces, and one that finds its end."""
    return -(-path.stat().st_size // PIECE) + 1


def expected_output(
    bench: FailingBench, words: str, command: list[str], read: bytes, is_whole: bool
) -> bytes:
    """What a command writes that has read these bytes of its last file, and may read no more."""
    first = bench.folder / "first"
    first.write_bytes(read)
    place = files_of(command)[-1]
    out = bench.run_without([*command[:place], str(first), *command[place + 1 :]]).out
    is_ended = is_whole or words.startswith(SALVAGE)
    return out[: len(out) - KEEPING[words]] if is_ended else out


def kept_reads(bench: FailingBench, words: str, whole: Outcome) -> Trials:
    """Each read of a command's last file failing in turn, and whether what was read is written."""
    command = bench.command(words)
    paths = [TOP / command[place] for place in files_of(command)]
    before, data = sum(reads_of(path) for path in paths[:-1]), paths[-1].read_bytes()
    for number in range(reads_of(paths[-1])):
        setting = Setting(call="read", number=before + number + 1, error=errno.EIO, read=PIECE)
        outcome, _ = bench.run_setting(words, setting)
        read = data[: PIECE * number]
        out = expected_output(bench, words, command, read, number + 1 == reads_of(paths[-1]))
        good = (outcome.status, outcome.out) == (6, out) and whole.out.startswith(out)
        yield f"{len(read)} bytes read before a failed read", good


@pytest.mark.parametrize("words", KEEPING)
def test_kept_reads(words: str, failing_bench: FailingBench) -> None:
    whole = failing_bench.whole(words)
    check_trials(kept_reads(failing_bench, words, whole))
