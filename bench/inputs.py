"""The inputs: manifests and stimuli, as values."""

import struct
from dataclasses import dataclass
from pathlib import Path
from typing import Callable, Iterator

SIM_NUMBER = 7
CYCLE_TIME = 10_000_000
WORD = (1 << 64) - 1
# The most that a frame may have of each.
MOST_SAMPLES = 4_096
MOST_ELEMENTS = 65_536
MOST_ELEMENT_BYTES = 64
MOST_OUTPUT = 1_048_576


@dataclass(frozen=True)
class Recording:
    """A manifest and a stimulus."""

    name: str
    job: str
    params: list[int]
    events: list[str]
    lines: list[str]
    seed: int = 0

    def cycles(self) -> int:
        return sum(line.startswith("cycle ") for line in self.lines)

    def manifest(self) -> str:
        head = f'job = "{self.job}"\ncycle_time_ns = {CYCLE_TIME}\nworkers = 1\n'
        head += f"params = {self.params}\n"
        return head + "".join(
            f'\n[[event]]\nname = "{event}"\ncapacity = 1\n' for event in self.events
        )

    def stimulus(self) -> str:
        return "".join(f"{line}\n" for line in self.lines)

    def plain_words(self, stimulus: Path) -> list[str]:
        """The words by which the plain programs record it."""
        params = ",".join(str(param) for param in self.params)
        events = ",".join(f"{event}:1:last" for event in self.events)
        return ["record", self.job, str(CYCLE_TIME), params, events, str(self.seed), str(stimulus)]


def split_mix(state: int) -> Iterator[int]:
    """The outputs of the generator SplitMix64."""
    while True:
        state = (state + 0x9E3779B97F4A7C15) & WORD
        word = state
        word = (word ^ (word >> 30)) * 0xBF58476D1CE4E5B9 & WORD
        word = (word ^ (word >> 27)) * 0x94D049BB133111EB & WORD
        yield word ^ (word >> 31)


def made_lines(number: int, cycles: int) -> list[str]:
    """The first cycles of the stimulus that `sim` makes of a number. It has 200."""
    words = split_mix(number)
    lines = ["stim 1"]
    for cycle in range(cycles):
        lines.append(f"cycle {CYCLE_TIME * cycle}")
        lines += [f"sample {event} {next(words) % 2_000_001 - 1_000_000}" for event in (0, 1)]
    return [*lines, "terminate"]


def sampled_lines(cycles: int, value: Callable[[int], int]) -> list[str]:
    """A sample of event 0 in each cycle."""
    lines = ["stim 1"]
    for cycle in range(cycles):
        lines += [f"cycle {CYCLE_TIME * cycle}", f"sample 0 {value(cycle)}"]
    return [*lines, "terminate"]


def wave(cycle: int) -> int:
    return cycle * 7_919 % 2_001 - 1_000


def spiky(cycle: int) -> int:
    """A wave of which every fifth value is out of the guard's range."""
    return 5_000 if cycle % 5 == 3 else wave(cycle)


def bank(is_quick: bool) -> Recording:
    return Recording("bank", "bank", [65_536, 2], ["x"], sampled_lines(4 if is_quick else 60, wave))


def cloud_of(name: str, particles: int, cycles: int) -> Recording:
    """A cloud over the first cycles of the stimulus that `sim` makes, with its seed."""
    params, events = [particles, 1_000, 50, 4_000_000_000_000], ["x", "y", "hold"]
    return Recording(name, "cloud", params, events, made_lines(SIM_NUMBER, cycles), seed=SIM_NUMBER)


def cloud(is_quick: bool) -> Recording:
    return cloud_of("cloud", 10_000, 20 if is_quick else 200)


def large(is_quick: bool) -> Recording:
    """Passes so long that what is done once in each of them counts for less."""
    return cloud_of("large", 65_536, 8 if is_quick else 40)


def guard(is_quick: bool) -> Recording:
    """A bad sample has all channels corrected in the cycle after it."""
    params = [65_536, -1_000, 1_000, 3, 65_536]
    return Recording("guard", "guard", params, ["x"], sampled_lines(4 if is_quick else 60, spiky))


def cycles(is_quick: bool, divisor: int = 1) -> Recording:
    """Short cycles, and of their number the part that a divisor leaves."""
    number = (20_000 if is_quick else 200_000) // divisor
    name = "cycles" if divisor == 1 else f"cycles / {divisor}"
    return Recording(name, "bank", [4, 2], ["x"], sampled_lines(number, wave))


def crowded_lines(cycles: int, samples: int, events: int) -> list[str]:
    """The same number of samples in each cycle, spread over the events."""
    lines = ["stim 1"]
    for cycle in range(cycles):
        lines.append(f"cycle {CYCLE_TIME * cycle}")
        lines += [
            f"sample {(number * 37 + cycle) % events} {number - cycle}" for number in range(samples)
        ]
    return [*lines, "terminate"]


def many(is_quick: bool) -> Recording:
    """Cycles of many samples, whose reading takes longer than their running."""
    events = 256
    lines = crowded_lines(40 if is_quick else 400, 4_000, events)
    return Recording("many", "bank", [16, 2], [f"e{event}" for event in range(events)], lines)


def second_client(is_quick: bool) -> Recording:
    """A bank that follows the words of a cloud's output. Its own stimulus is made of them."""
    return Recording(
        "behind",
        "bank",
        [1_000 if is_quick else 10_000, 2],
        ["a", "b", "c", "d"],
        ["stim 1"],
        seed=SIM_NUMBER,
    )


def greatest_frame(time: int) -> bytes:
    """A Run frame in format 2 with as much as one may hold: 4,096 samples, 65,536 elements of 64
    bytes, and 1,048,576 bytes of output. It has 5,677,079 bytes."""
    samples = struct.pack(">Hq", 0, time) * MOST_SAMPLES
    element = (
        struct.pack(">H", MOST_ELEMENT_BYTES) + bytes([time % 256]) * MOST_ELEMENT_BYTES + bytes(4)
    )
    start = (
        struct.pack(">BBQI", 4, 1, time, MOST_SAMPLES)
        + samples
        + struct.pack(">BI", 0, MOST_ELEMENTS)
    )
    return start + element * MOST_ELEMENTS + struct.pack(">I", MOST_OUTPUT) + bytes(MOST_OUTPUT)


def write_greatest(record: Path, runs: int) -> None:
    """Writes a record of an unknown job with some of the greatest frames. No shipped job has
    elements of 64 bytes, and commands that only read records ask for no job."""
    event = struct.pack(">HB", 1, 1) + b"x" + bytes(1)
    header = b"DETREC" + struct.pack(">HHQQHH", 2, 999, 0, CYCLE_TIME, 0, 1) + event
    element = struct.pack(">H", MOST_ELEMENT_BYTES) + bytes(MOST_ELEMENT_BYTES)
    with record.open("wb") as file:
        file.write(header + b"\1\2\3" + struct.pack(">I", MOST_ELEMENTS) + element * MOST_ELEMENTS)
        for run in range(runs):
            file.write(greatest_frame(run * CYCLE_TIME))
        file.write(b"\5")


RECORDED = {
    "bank": bank,
    "cloud": cloud,
    "large": large,
    "guard": guard,
    "cycles": cycles,
    "many": many,
}
NAMES = (*RECORDED, "copies", "greatest", "chain", "running", "sim", "heavy")
