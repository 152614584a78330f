"""The lines of `det show` for the items that tools/det_record.py reads, and of its reports."""

from __future__ import annotations

from typing import Iterator

from det_record import Init, Item, Run, Summary, header_lines
from record_values import Elements, Finished, Header


def element_lines(elements: Elements) -> Iterator[str]:
    for index in range(len(elements)):
        draws = f" {elements.draws(index)}" if elements.has_draws else ""
        yield f"element {index} {elements.content(index).hex() or '-'}{draws}"


def run_lines(cycle: int, run: Run) -> Iterator[str]:
    yield f"run {cycle} time {'-' if run.time is None else run.time}"
    yield from (f"sample {event} {value}" for event, value in run.samples)
    outcome = run.outcome
    if isinstance(outcome, Finished):
        yield f"finished {len(outcome.elements)}"
        yield from element_lines(outcome.elements)
        yield f"output {outcome.output.hex() or '-'}"
    else:
        place = f"{outcome.pass_number} {outcome.element} {outcome.code}"
        yield f"refused {outcome.phase.word} {place}"


def item_lines(item: Item, cycle: int) -> Iterator[str]:
    """The lines of `det show` for an item."""
    if isinstance(item, Header):
        lines = list(header_lines(item))
        yield from lines if item.format == 2 else without_policies(lines)
    elif isinstance(item, Init):
        yield f"init {len(item.elements)}"
        yield from element_lines(item.elements)
    elif isinstance(item, Run):
        yield from run_lines(cycle, item)
    else:
        yield type(item).__name__.lower()


def without_policies(lines: list[str]) -> Iterator[str]:
    """The lines of a header of format 1, which names neither its format nor policies."""
    for line in lines[1:]:
        yield line.removesuffix(" last") if line.startswith("event ") else line


def report_lines(summary: Summary) -> list[str]:
    """The reports on the cycles of a summary. That of a refusal comes first."""
    counts = [f"count {summary.cycles - summary.refused} {summary.refused}"]
    counts.append(f"gap {'none' if summary.gap is None else summary.gap}")
    if summary.first_refusal is None:
        return [*counts, "refusal none"]
    cycle, at = summary.first_refusal
    first = f"refusal {cycle} {at.phase.word} {at.pass_number} {at.element} {at.code}"
    return [first, *counts]


def report_text(summary: Summary) -> bytes:
    """The reports as `det show` prints them."""
    return "".join(f"{line}\n" for line in report_lines(summary)).encode()
