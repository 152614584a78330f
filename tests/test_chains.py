"""`det chain` against two recordings, the second over the outputs of the first as
tests/derived.py reads them.

Each pair of clients is run by 1 and by 64 workers. Its record has to be the one that `record`
writes of the second manifest over the derived stimulus, byte for byte.
"""

from __future__ import annotations

import pytest

from clients import MOST_VALUE, Client, stimulus
from commands import Bench
from derived import stimulus_from

BANK = Client("bank", [5, 1], 2)
NARROW = Client("bank", [3, 0], 1)
WIDE = Client("bank", [7, 2], 6)
CLOUD = Client("cloud", [130, 1_000_000, 3, 4 * MOST_VALUE], 3)
NEAR_CLOUD = Client("cloud", [70, 50, 0, 400], 3)
GUARD = Client("guard", [200, -1000, 1000, 4, 200], 3)
STRICT_GUARD = Client("guard", [9, 0, 100, 2, 3], 3)
NO_EVENTS = Client("guard", [3, 0, 1, 1, 1], 0)

SMALL = [0, 7, -5, 1000, 250, -1000, 3]
LARGE = [MOST_VALUE, -MOST_VALUE, 5, MOST_VALUE - 1, -3]
WILD = [0, 2000, 40, 3000, 3000, 3000, -1, 90]

# What each pair shows, its clients, and the values of its stimulus.
PAIRS = {
    "bank to guard": (BANK, GUARD, SMALL),
    "bank to guard, which refuses": (BANK, STRICT_GUARD, SMALL),
    "bank to a wider bank": (BANK, WIDE, LARGE),
    "bank to cloud, with sums beyond the range": (WIDE, CLOUD, LARGE),
    "cloud to bank": (CLOUD, NARROW, SMALL),
    "cloud, which refuses, to bank": (NEAR_CLOUD, WIDE, WILD),
    "guard to cloud, with words beyond the range": (GUARD, CLOUD, WILD),
    "guard, which refuses, to guard, which refuses": (STRICT_GUARD, STRICT_GUARD, WILD),
    "guard to bank, with a rest of fewer than 8 bytes": (STRICT_GUARD, WIDE, [1, 500, 20]),
    "bank to a client without events": (BANK, NO_EVENTS, SMALL),
}


@pytest.mark.parametrize("first, second, values", PAIRS.values(), ids=PAIRS)
def test_chain(first: Client, second: Client, values: list[int], bench: Bench) -> None:
    one, two = bench.file("1.toml", first.manifest()), bench.file("2.toml", second.manifest())
    text = bench.file("text.stim", stimulus(first.events, 23, values))
    recorded = bench.output("det", "record", one, text, "--seed", 9)
    derived = bench.file("derived.stim", stimulus_from(recorded, second.events))
    expected = bench.output("det", "record", two, derived, "--seed", 9)
    for workers in (1, 64):
        words = ("chain", one, two, text, "--seed", 9, "--workers", workers)
        assert bench.output("det", *words) == expected
