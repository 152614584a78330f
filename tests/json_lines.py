"""The lines of `det show --json` for the items that tools/det_record.py reads, and its reports."""

from __future__ import annotations

import json
from typing import Any, Iterator, Optional

from det_record import Init, Item, Run, Summary
from item_lines import report_lines
from record_fields import element_fields
from record_values import Elements, Event, Finished, Header

# Beyond it, a double doesn't tell each number from the next.
MOST_EXACT = 2**53


def exact(value: int) -> Any:
    return value if abs(value) <= MOST_EXACT else str(value)


def event_value(event: Event, record_format: int) -> dict[str, Any]:
    value = {"name": event.name, "capacity": event.capacity}
    return {**value, "policy": event.policy} if record_format == 2 else value


def header_value(header: Header) -> dict[str, Any]:
    return {
        "format": header.format,
        "job": header.job,
        "seed": exact(header.seed),
        "cycle_time": exact(header.cycle_time),
        "params": [exact(it) for it in header.params],
        "events": [event_value(it, header.format) for it in header.events],
    }


def element_values(elements: Elements, header: Header) -> Iterator[dict[str, Any]]:
    fields = element_fields(header)
    for index in range(len(elements)):
        content = elements.content(index)
        value: dict[str, Any] = {"bytes": content.hex()}
        if elements.has_draws:
            value["draws"] = elements.draws(index)
        numbers = fields.numbers(content)
        if numbers:
            value["fields"] = dict(zip(fields.names, map(exact, numbers)))
        yield value


def outcome_value(run: Run, header: Header) -> dict[str, Any]:
    outcome = run.outcome
    if isinstance(outcome, Finished):
        elements = list(element_values(outcome.elements, header))
        return {"finished": {"elements": elements, "output": outcome.output.hex()}}
    at = {"phase": outcome.phase.word, "pass": outcome.pass_number, "element": outcome.element}
    return {"refused": {**at, "code": outcome.code}}


def run_value(run: Run, cycle: int, header: Header) -> dict[str, Any]:
    time = None if run.time is None else exact(run.time)
    samples = [{"event": event, "value": value} for event, value in run.samples]
    return {"cycle": cycle, "time": time, "samples": samples, **outcome_value(run, header)}


def item_value(item: Item, cycle: int, header: Optional[Header]) -> dict[str, Any]:
    if isinstance(item, Header):
        return {"header": header_value(item)}
    assert header is not None
    if isinstance(item, Init):
        return {"init": list(element_values(item.elements, header))}
    if isinstance(item, Run):
        return {"run": run_value(item, cycle, header)}
    return {type(item).__name__.lower(): True}


def json_line(value: Any) -> str:
    return json.dumps(value, separators=(",", ":"))


def reports_line(summary: Summary) -> str:
    return json_line({"reports": report_lines(summary)})
