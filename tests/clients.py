"""Clients of the shipped jobs by their parameters, and stimuli for them."""

from __future__ import annotations

from dataclasses import dataclass

MOST_VALUE = 10**12


@dataclass(frozen=True)
class Client:
    """A job by its parameters and the number of its events."""

    job: str
    params: list[int]
    events: int
    cycle_time: int = 10

    def manifest(self) -> str:
        lines = [
            f"job = '{self.job}'",
            f"cycle_time_ns = {self.cycle_time}",
            "workers = 2",
            f"params = {self.params}",
        ]
        for number in range(self.events):
            lines += ["[[event]]", f"name = 'e{number}'", "capacity = 1"]
        return "\n".join([*lines, ""])


def stimulus(events: int, cycles: int, values: list[int]) -> str:
    """A stimulus over values in turn; some cycles have no time and some no samples."""
    lines = ["stim 1"]
    for cycle in range(cycles):
        lines.append("cycle -" if cycle % 7 == 3 else f"cycle {10 * cycle}")
        if cycle % 5 != 4:
            samples = ((event, values[(cycle + event) % len(values)]) for event in range(events))
            lines += [f"sample {event} {value}" for event, value in samples]
    return "\n".join([*lines, "terminate", ""])
