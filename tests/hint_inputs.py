"""Records, manifests and stimuli of the cases of hints, and the form of such a case."""

from __future__ import annotations

from dataclasses import dataclass, field
from enum import Enum
from typing import Any, Optional, Union

from commands import Case, Outcome

# A record of the filter bank of `demo`, by the tables of docs/FORMATS.md.
HEADER = bytes.fromhex(
    # The magic, version 2, job 1, seed 0, cycle time.
    "444554524543 0002 0001 0000000000000000 0000000000989680"
    "0002 0000000000000004 0000000000000002"  # 4 channels, shift 2
    "0001 0002 01 78 00"  # one event: capacity 2, name x, policy last
)
# Register, Discover, and Init with four levels of 0.
OPENING = b"\x01\x02" + bytes.fromhex("03 00000004" + "0008 0000000000000000" * 4)
# Cycle 1 at 0 ns, in which the sample 100 arrives: four levels of 0, and an output of three zeros.
RUN_1 = bytes.fromhex(
    "04 01 0000000000000000 00000001 0000 0000000000000064 00 00000004"
    + "0008 0000000000000000 00000000" * 4
    + "00000018"
    + "0000000000000000" * 3
)
# Cycle 2 at 10 ms: four levels of 25, a quarter of the way to 100; their sum, the least and the
# greatest.
RUN_2 = bytes.fromhex(
    "04 01 0000000000989680 00000000 00 00000004"
    + "0008 0000000000000019 00000000" * 4
    + "00000018 0000000000000064 0000000000000019 0000000000000019"
)
# A cycle without a time and without samples, where all levels are 0.
RUN_OF_NOTHING = bytes.fromhex(
    "04 00 00000000 00 00000004" + "0008 0000000000000000 00000000" * 4 + "00000018"
) + bytes(24)
END = b"\x05"
EMPTY = HEADER + OPENING + END
WHOLE = HEADER + OPENING + RUN_1 + RUN_2 + END
# The header has 51 bytes, Register and Discover one each, and Init 1 + 4 + 4 * 10. A run with time
# has 23 bytes, its output, 10 for each sample and 14 for each element of 8 bytes: 113 and 103.
REGISTER_AT, INIT_AT, RUN_1_AT, RUN_2_AT, END_AT = 51, 53, 98, 211, 314

BANK = b"""job = "bank"
cycle_time_ns = 10_000_000
workers = 1
params = [4, 2]

[[event]]
name = "x"
capacity = 2
"""
EVENT_Y = b'[[event]]\nname = "y"\ncapacity = 1\n'
CLOUD = BANK.replace(b"bank", b"cloud").replace(b"[4, 2]", b"[1000, 1000, 50, 4_000_000_000_000]")
GUARD = BANK.replace(b"bank", b"guard").replace(b"[4, 2]", b"[100, 0, 1000, 1, 100]")
NEEDS = b"""[run_needs]
instructions = 1
sequential_begin = 1
sequential_end = 1
speedup_thousandths = 2500
"""
STIMULUS = b"stim 1\nterminate\n"
FILES = {"m": BANK, "s": STIMULUS, "r": WHOLE}


class To(Enum):
    """Where a stream goes."""

    PIPE = "a pipe"
    FULL = "/dev/full"
    CLOSED = "nowhere: it is closed"
    DEAF = "a pipe that nobody reads"
    TERMINAL = "a terminal"


@dataclass(frozen=True)
class HintCase(Case):
    """A case whose hints are compared too, with the streams of its command."""

    out_to: To = To.PIPE
    err_to: To = To.PIPE
    # Named pipes, and what is written to each once.
    pipes: dict[str, bytes] = field(default_factory=dict)


def case(
    name: str,
    words: Union[str, list[bytes]],
    status: int,
    err: list[str],
    out: bytes = b"",
    files: Optional[dict[str, bytes]] = None,
    program: str = "det",
    **streams: Any,
) -> HintCase:
    """A case by the line on standard error and the hints after it."""
    split = words if isinstance(words, list) else [it.encode() for it in words.split(" ") if it]
    lines = "".join(("  " if number else "") + line + "\n" for number, line in enumerate(err))
    outcome = Outcome(status, out, lines.encode())
    return HintCase(name, [program, *split], outcome, files or {}, **streams)
