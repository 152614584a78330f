"""Records as bytes, spelled by hand after docs/FORMATS.md."""

from __future__ import annotations

from typing import Optional

FORMATS = (1, 2)
MOST_VALUE = 10**12


def number(width: int, value: int) -> bytes:
    return value.to_bytes(width, "big", signed=value < 0)


def event(record_format: int, capacity: int, name: str, policy: int) -> bytes:
    spelled = number(2, capacity) + number(1, len(name)) + name.encode()
    return spelled + (number(1, policy) if record_format == 2 else b"")


def header(record_format: int, job: int, params: list[int], events: list[bytes]) -> bytes:
    """A header with the seed 258 and a cycle time of 1,000 nanoseconds."""
    fixed = b"DETREC" + number(2, record_format) + number(2, job) + number(8, 258) + number(8, 1000)
    spelled = number(2, len(params)) + b"".join(number(8, param) for param in params)
    return fixed + spelled + number(2, len(events)) + b"".join(events)


def content(data: bytes) -> bytes:
    return number(2, len(data)) + data


def init(elements: list[bytes]) -> bytes:
    spelled = b"".join(content(element) for element in elements)
    return b"\1\2\3" + number(4, len(elements)) + spelled


def run_begin(time: Optional[int], samples: list[tuple[int, int]]) -> bytes:
    """The tag of a Run frame, its time and its samples."""
    spelled = b"".join(number(2, event) + number(8, value) for event, value in samples)
    moment = b"\0" if time is None else b"\1" + number(8, time)
    return b"\4" + moment + number(4, len(samples)) + spelled


def finished_outcome(record_format: int, elements: list[tuple[bytes, int]], output: bytes) -> bytes:
    """A finished outcome, of elements with their draws."""
    spelled = b"".join(
        content(data) + (number(4, draws) if record_format == 2 else b"")
        for data, draws in elements
    )
    return b"\0" + number(4, len(elements)) + spelled + number(4, len(output)) + output


def refused_outcome(phase: int, pass_number: int, element: int, code: int) -> bytes:
    place = number(1, phase) + number(1, pass_number) + number(4, element)
    return b"\1" + place + number(4, code)


def mixed_record(record_format: int) -> bytes:
    """A record of an unknown job with each kind of frame, field and outcome."""
    events = [event(record_format, 3, "wheel_1", 1), event(record_format, 1024, "x", 0)]
    pair = [(b"\0" * 7 + b"\x19", 2), (b"\xff" * 8, 70000)]
    mixed = [(b"", 0), (b"abc", 1), (b"\x80" + b"\1" * 15, 4_000_000_000)]
    runs = [
        run_begin(5, [(1, MOST_VALUE), (0, -MOST_VALUE)])
        + finished_outcome(record_format, pair, b"out"),
        run_begin(None, [(0, 0)]) + refused_outcome(1, 7, 65_535, 4_000_000_000),
        run_begin(1005, []) + refused_outcome(0, 0, 0, 1),
        run_begin(1000, []) + refused_outcome(2, 0, 0, 2),
        run_begin(2**64 - 1, []) + finished_outcome(record_format, mixed, b""),
        run_begin(None, []) + finished_outcome(record_format, [], b"\0" * 20),
    ]
    start = header(record_format, 515, [-1, 2**63 - 1], events)
    return start + init([b"", b"xy", b"\7" * 64]) + b"".join(runs) + b"\5"


def many_runs(runs: int) -> bytes:
    """A record of finished cycles without anything in them."""
    run = run_begin(None, []) + finished_outcome(2, [], b"")
    return header(2, 9, [], []) + init([]) + run * runs + b"\5"


def record_of_words(cycles: list[list[int]]) -> bytes:
    """A record of an unknown job in whose cycles the elements are these numbers."""
    runs = []
    for words in cycles:
        elements = [(number(8, word), 0) for word in words]
        runs.append(run_begin(None, []) + finished_outcome(2, elements, b""))
    start = header(2, 9, [], []) + init([bytes(8)] * len(cycles[0]))
    return start + b"".join(runs) + b"\5"


def counting_record(runs: int) -> bytes:
    """A bank of one channel whose level is the number of the cycle, at one time a cycle. Each
    cycle of which 1,000 is a divisor is refused in prepare with code 3."""
    frames = []
    for cycle in range(1, runs + 1):
        word = number(8, cycle)
        outcome = (
            finished_outcome(2, [(word, 1)], word * 3)
            if cycle % 1000
            else refused_outcome(0, 0, 0, 3)
        )
        frames.append(run_begin(1000 * cycle, []) + outcome)
    start = header(2, 1, [1, 0], [event(2, 1, "x", 0)]) + init([b"\0" * 8])
    return start + b"".join(frames) + b"\5"
