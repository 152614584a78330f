"""Good manifests, stimuli and records, from which changed ones are made."""

import random
import struct
from dataclasses import dataclass
from typing import List, Tuple

MOST_VALUE = 10**12
MOST_CYCLES = 1_000_000
NAMES = ("x", "y", "hold", "pressure", "e_1", "a" * 32, "0", "_")


@dataclass
class Profile:
    """What a good manifest says of a run. An event is its name, its capacity and its policy."""

    job: str
    params: List[int]
    events: List[Tuple[str, int, str]]


def params_of(choose: random.Random, job: str) -> List[int]:
    count = choose.choice((1, 2, 5, 64, 65, 130))
    if job == "bank":
        return [count, choose.choice((0, 1, 2, 16))]
    if job == "cloud":
        spread, reseed = choose.choice((1, 1000, 1000000)), choose.choice((0, 1, 2))
        return [count, spread, reseed, choose.choice((0, 5000, 4 * MOST_VALUE))]
    low = choose.choice((-MOST_VALUE, -100, 0))
    high, limit = choose.choice((low, 1000, MOST_VALUE)), choose.choice((1, 2, 1000))
    return [count, low, high, limit, choose.choice((0, 1, 100, 65536))]


def event_of(choose: random.Random, name: str) -> Tuple[str, int, str]:
    return name, choose.choice((1, 2, 1024)), choose.choice(("last", "fresh", ""))


def profile(choose: random.Random) -> Profile:
    job = choose.choice(("bank", "cloud", "guard"))
    names = choose.sample(NAMES, choose.choice((0, 1, 2, 3, 3)))
    return Profile(job, params_of(choose, job), [event_of(choose, name) for name in names])


def needs_lines(choose: random.Random, name: str) -> List[str]:
    if choose.random() < 0.6:
        return []
    return [
        f"[{name}]",
        f"instructions = {choose.choice((0, 1_000, 2**63 - 1))}",
        "sequential_begin = 2_000",
        f"sequential_end = {choose.randrange(9)}",
        f"speedup_thousandths = {choose.choice((1, 1000, 1_000_000))}",
    ]


def event_lines(choose: random.Random, event: Tuple[str, int, str]) -> List[str]:
    name, capacity, policy = event
    keys = [f"name = '{name}'", f"capacity = {capacity}"]
    if policy:
        keys.append(f'policy = "{policy}"')
    choose.shuffle(keys)
    return ["[[event]]", *keys]


def manifest_of(choose: random.Random, given: Profile) -> bytes:
    time, workers = choose.choice((1, 10, 20_000_000, 2**63 - 1)), choose.choice((1, 2, 64))
    lines = [f'job = "{given.job}"', f"cycle_time_ns = {time}", f"workers = {workers}"]
    if given.params or choose.random() < 0.5:
        lines.append(f"params = {given.params}")
    needs = needs_lines(choose, "init_needs") + needs_lines(choose, "run_needs")
    if needs or choose.random() < 0.2:
        lines.append("platform = 'x86-64'")
    choose.shuffle(lines)
    for event in given.events:
        lines += event_lines(choose, event)
    return "\n".join([*lines, *needs, ""]).encode()


def stimulus_of(choose: random.Random, events: int) -> bytes:
    lines, time = ["stim 1"], choose.choice((0, 0, 5, 2**64 - 20))
    for _ in range(choose.choice((0, 1, 3, 5))):
        lines.append(choose.choice(("cycle -", f"cycle {time}", f"cycle {time}")))
        time = min(time + choose.choice((0, 10, 10, 10_000_000)), 2**64 - 1)
        for _ in range(choose.choice((0, 1, 2, 4)) if events else 0):
            value = choose.choice((0, 7, -5, 1000, 2000, -1, MOST_VALUE, -MOST_VALUE))
            lines.append(f"sample {choose.randrange(events)} {value}")
    return "\n".join([*lines, "terminate", ""]).encode()


def number(width: int, value: int) -> bytes:
    return (value % (1 << 8 * width)).to_bytes(width, "big")


class FreeRecord:
    """A whole record of either format, whose values no job needs to give."""

    def __init__(self, choose: random.Random) -> None:
        self.choose = choose
        self.format = choose.randint(1, 2)
        self.events = choose.choice((0, 1, 2, 5, 256))

    def one_of(self, width: int, values: Tuple[int, ...]) -> bytes:
        return number(width, self.choose.choice(values))

    def event(self) -> bytes:
        name = self.choose.choice(NAMES).encode()
        policy = self.one_of(1, (0, 1)) if self.format == 2 else b""
        return self.one_of(2, (1, 2, 256, 1024)) + number(1, len(name)) + name + policy

    def header(self) -> bytes:
        params = self.choose.choice((0, 1, 2, 16))
        out = b"DETREC" + number(2, self.format) + self.one_of(2, (0, 1, 2, 3, 4, 65535))
        out += self.choose.randbytes(8) + self.one_of(8, (1, 255, 256, 10**7, 2**63 - 1))
        out += number(2, params)
        out += b"".join(self.one_of(8, (0, 1, 4, -1, 2**63)) for _ in range(params))
        return out + number(2, self.events) + b"".join(self.event() for _ in range(self.events))

    def elements(self, in_run: bool) -> bytes:
        count = self.choose.choice((0, 1, 2, 3))
        out = number(4, count)
        for _ in range(count):
            length = self.choose.choice((0, 1, 8, 20, 64))
            out += number(2, length) + self.choose.randbytes(length)
            if in_run and self.format == 2:
                out += self.one_of(4, (0, 1, 17, 2**32 - 1))
        return out

    def refusal(self) -> bytes:
        phase, place = self.choose.randrange(3), bytes(5)
        if phase == 1:
            place = number(1, self.choose.randrange(8)) + self.one_of(4, (0, 1, 65535))
        return number(1, phase) + place + self.one_of(4, (0, 1, 2, 2**32 - 1))

    def run(self) -> bytes:
        out = b"\4" + self.choose.choice((b"\0", b"\1" + self.one_of(8, (0, 1, 10, 2**64 - 1))))
        count = self.choose.choice((0, 1, 2)) if self.events else 0
        out += number(4, count)
        for _ in range(count):
            out += number(2, self.choose.randrange(self.events))
            out += self.one_of(8, (0, -1, 5, MOST_VALUE, -MOST_VALUE))
        if self.choose.random() < 0.3:
            return out + b"\1" + self.refusal()
        length = self.choose.choice((0, 1, 24, 300))
        out += b"\0" + self.elements(True)
        return out + number(4, length) + self.choose.randbytes(length)

    def record(self) -> bytes:
        out = self.header() + b"\1\2\3" + self.elements(False)
        runs = self.choose.choice((0, 1, 2, 4))
        return out + b"".join(self.run() for _ in range(runs)) + b"\5"


def long_record(choose: random.Random) -> bytes:
    """A record with as many runs as there may be, or one more, without elements or output."""
    out = b"DETREC" + struct.pack(">HHQQHH", 2, 1, 0, 1, 0, 0) + b"\1\2\3" + number(4, 0)
    run = b"\4\0" + number(4, 0) + b"\0" + number(4, 0) + number(4, 0)
    return out + run * (MOST_CYCLES + choose.choice((0, 1))) + b"\5"


def long_stimulus(choose: random.Random) -> bytes:
    """A stimulus with as many cycles as there may be, or one more."""
    return b"stim 1\n" + b"cycle -\n" * (MOST_CYCLES + choose.choice((0, 1))) + b"terminate\n"


def stimulus_of_length(length: int) -> bytes:
    """A stimulus of a given number of bytes."""
    begin, line, end = b"stim 1\n", b"cycle -\n", b"terminate\n"
    text = begin + line * ((length - len(begin) - len(end)) // len(line) - 1)
    digits = length - len(text) - len(end) - len(b"cycle \n")
    return text + b"cycle " + b"1" * digits + b"\n" + end
