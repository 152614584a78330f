"""The script that counts the minutes of the gate, over a stand-in for the prover."""

from __future__ import annotations

import re
from pathlib import Path

import pytest

from commands import TOP, run

# A stand-in: in its crate's folder, for its tests, and elsewhere. It takes some seconds, so that
# the script sees it in time on a busy machine too.
PROVER = "for ((i = 0; i < 2000000; i++)); do :; done"
COMMAND = f"""cd low && bash -c '{PROVER}' --crate-name low src/lib.rt &
cd low && bash -c '{PROVER}' --crate-name low src/lib.rt --test &
cd edit && bash -c '{PROVER}' --crate-name low src/lib.rt &
wait
exit 3
"""


@pytest.mark.slow
def test_minutes_of_crate(folder: Path) -> None:
    """Proofs, tests and edits of a crate are counted apart, and the command's status is kept."""
    for name in ("low", "edit"):
        (folder / name).mkdir()
    words = ["python3", TOP / "tools" / "gate_times.py", "bash", "-c", COMMAND]
    given = run(words, folder, {"PATH": "/usr/bin:/bin"}, limit=600)
    row = re.search(rb"^\| `low` \| (\S+) \| (\S+) \| (\S+) \| (\S+) \|$", given.out, re.M)
    assert given.status == 3 and row, f"{given}"
    minutes = [float(it) for it in row.groups()]
    assert min(minutes) > 0 and abs(sum(minutes[:3]) - minutes[3]) < 0.02, minutes
    assert re.search(rb"^The system counted (\S+) minutes", given.out, re.M), given.out
