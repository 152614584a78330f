"""The programs over words and files that they refuse: status, output, line and hints.

It needs /dev/full and pseudo terminals.
"""

from __future__ import annotations

import os
import pty
import signal
import subprocess
import threading
import tty
from dataclasses import dataclass
from pathlib import Path
from typing import Optional

import pytest

from commands import Outcome, Programs, difference, excerpt
from hint_cases import CASES
from hint_inputs import HintCase, To

LIMIT = 60


@dataclass
class Stream:
    """One end for the program, and where what it wrote is read from."""

    given: int
    read: Optional[int] = None

    @staticmethod
    def to(where: To) -> Stream:
        if where is To.FULL:
            return Stream(os.open("/dev/full", os.O_WRONLY))
        if where is To.CLOSED:
            return Stream(os.open(os.devnull, os.O_WRONLY))
        if where is To.TERMINAL:
            ours, given = pty.openpty()
            # Bytes pass a raw terminal as they are.
            tty.setraw(given)
            return Stream(given, ours)
        ours, given = os.pipe()
        if where is To.DEAF:
            os.close(ours)
            return Stream(given)
        return Stream(given, ours)

    def read_all(self) -> bytes:
        """What was written. A terminal whose other end is closed gives an error at its end."""
        parts: list[bytes] = []
        if self.read is None:
            return b""
        try:
            while part := os.read(self.read, 65536):
                parts.append(part)
        except OSError:
            pass
        os.close(self.read)
        return b"".join(parts)


def make_pipes(case: HintCase, folder: Path) -> None:
    for name, content in case.pipes.items():
        os.mkfifo(folder / name)
        threading.Thread(target=(folder / name).write_bytes, args=[content], daemon=True).start()


def run(case: HintCase, programs: Programs, folder: Path) -> Outcome:
    """Runs a case's program, whose streams go where the case says."""
    out, err = Stream.to(case.out_to), Stream.to(case.err_to)

    def close_streams() -> None:
        for number, where in ((1, case.out_to), (2, case.err_to)):
            if where is To.CLOSED:
                os.close(number)

    child = subprocess.Popen(
        [programs.path(str(case.words[0])), *case.words[1:]],
        cwd=folder,
        stdin=subprocess.DEVNULL,
        stdout=out.given,
        stderr=err.given,
        preexec_fn=close_streams,
        # A write to a pipe that nobody reads gives an error, as where a shell ignores the signal.
        restore_signals=False,
        start_new_session=True,
    )
    os.close(out.given)
    os.close(err.given)
    # One that takes too long is killed with what it started.
    watch = threading.Timer(LIMIT, os.killpg, (child.pid, signal.SIGKILL))
    watch.start()
    written, line = out.read_all(), err.read_all()
    status = child.wait()
    watch.cancel()
    return Outcome(status, written, line)


@pytest.mark.parametrize("case", CASES, ids=str)
def test_hint(case: HintCase, programs: Programs, folder: Path) -> None:
    case.write_files(folder)
    make_pipes(case, folder)
    given, expected = run(case, programs, folder), case.outcome
    assert given.status == expected.status, f"{given}"
    assert given.err == expected.err, f"{excerpt(given.err)}, not {excerpt(expected.err)}"
    assert given.out == expected.out, difference(expected.out, given.out)
