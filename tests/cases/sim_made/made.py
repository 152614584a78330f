"""made.py N: prints the stimulus of `sim N`, as docs/FORMATS.md has it."""

import sys

MASK = 2**64 - 1


def words(state):
    """The words of SplitMix64 from a state on."""
    while True:
        state = (state + 0x9E3779B97F4A7C15) & MASK
        word = state
        word = (word ^ (word >> 30)) * 0xBF58476D1CE4E5B9 & MASK
        word = (word ^ (word >> 27)) * 0x94D049BB133111EB & MASK
        yield word ^ (word >> 31)


drawn = words(int(sys.argv[1]))
print("stim 1")
for cycle in range(200):
    print("cycle", 10_000_000 * cycle)
    for event in (0, 1):
        print("sample", event, next(drawn) % 2_000_001 - 1_000_000)
print("terminate")
