"""What is aimed at, and whether it was reached."""

import os
from dataclasses import dataclass
from typing import Optional

from inputs import RECORDED, SIM_NUMBER
from running import Result
from suites import BY_CLIENT, CYCLES_DIVISOR, GREATEST, IN_PLAIN, KEPT, MOST_COPIES, PIPED, WORKERS

ABSENT = "not in this program"

# A line of the table, by its name and its number of workers.
Key = tuple[str, Optional[int]]


@dataclass(frozen=True)
class Goal:
    """A bound on what one line found by a multiple of what another one found."""

    what: str
    of: Key
    beside: Key
    bound: float
    times: int = 1
    is_memory: bool = False
    is_least: bool = False
    processors: int = 1

    def figure(self, of: Result, beside: Result) -> Optional[float]:
        """The ratio of both, or None where the program hasn't got one of them."""
        if of.trial is None or beside.trial is None or of.seconds is None or beside.seconds is None:
            return None
        if self.is_memory:
            return of.trial.memory / beside.trial.memory
        return of.seconds / beside.seconds / self.times

    def by_medians(self, of: Result, beside: Result) -> str:
        """The ratio of the medians of both, which a goal doesn't go by."""
        has_both = of.median is not None and beside.median is not None
        return (
            f"{of.median / beside.median / self.times:.3f}"
            if has_both and not self.is_memory
            else ""
        )

    def verdict(self, figure: Optional[float], processors: int) -> str:
        if figure is None:
            return ABSENT
        if processors < self.processors:
            return f"needs {self.processors} processors"
        holds = figure >= self.bound if self.is_least else figure <= self.bound
        return "holds" if holds else "missed"

    def cells(self, of: Result, beside: Result, processors: int) -> list[str]:
        figure = self.figure(of, beside)
        text = "" if figure is None else f"{figure:.3f}"
        bound = f"at {'least' if self.is_least else 'most'} {self.bound}"
        return [
            self.what,
            text,
            bound,
            self.verdict(figure, processors),
            self.by_medians(of, beside),
        ]


@dataclass(frozen=True)
class MemoryGoal:
    """The most memory that a line may take, in MB, whatever any other one takes."""

    what: str
    of: Key
    bound: float

    def cells(self, of: Result) -> list[str]:
        if of.trial is None:
            return [self.what, "", f"at most {self.bound}", ABSENT, ""]
        megabytes = of.trial.memory / 1e6
        verdict = "holds" if megabytes <= self.bound else "missed"
        return [self.what, f"{megabytes:.1f}", f"at most {self.bound}", verdict, ""]


def workers_goals(what: str) -> list[Goal]:
    """That more workers are not slower than one, and take not much more memory."""
    one, goals = (what, 1), []
    for workers in WORKERS[1:]:
        more, many = (what, workers), f"{what}, {workers} workers"
        goals.append(Goal(f"{many}: time, of one worker", more, one, 1.05))
        goals.append(Goal(f"{many}: memory, of one worker", more, one, 1.4, is_memory=True))
    return goals


def gain_goal(name: str, least: float) -> Goal:
    most = WORKERS[-1]
    return Goal(
        f"{name}: gain of {most} workers",
        (name, 1),
        (name, most),
        least,
        is_least=True,
        processors=most,
    )


def written_goals(what: str) -> list[Goal]:
    """That a record which goes into a file or a pipe takes no longer than by plain Rust."""
    return [
        Goal(
            f"{what}{end}: time, of plain Rust",
            (what + end, None),
            (what + IN_PLAIN + end, None),
            1.0,
        )
        for end in (KEPT, PIPED)
    ]


def record_goals(name: str) -> list[Goal]:
    what, show = f"record {name}", f"show {name}"
    one = (what, 1)
    again = [
        Goal(f"{command} {name}: time, of {what}", (f"{command} {name}", None), one, 1.1)
        for command in ("replay", "check")
    ]
    return [
        Goal(f"{what}: time, of plain Rust", one, (what + IN_PLAIN, None), 1.0),
        Goal(
            f"{what}: time, of the same interfaces in plain Rust", one, (what + BY_CLIENT, 1), 1.0
        ),
        *workers_goals(what),
        *again,
        Goal(f"{show}: time, of plain Rust", (show, None), (show + IN_PLAIN, None), 0.8),
    ]


def copies_goals() -> list[Goal]:
    cmp = ("cmp", None)
    return [
        Goal("compare 2: time, of cmp", ("compare 2", None), cmp, 1.2),
        Goal("compare 8: time, of seven cmp", ("compare 8", None), cmp, 1.0, times=MOST_COPIES - 1),
        Goal(
            "vote 3: time, of two cmp and a cp",
            (f"vote 3{KEPT}", None),
            ("two cmp and a cp", None),
            1.5,
        ),
        Goal("salvage: time, of cp", (f"salvage{KEPT}", None), ("cp", None), 1.2),
        *(
            Goal(f"{what}: time, of plain Rust", (what, None), (what + IN_PLAIN, None), 1.5)
            for what in ("salvage", "upgrade")
        ),
    ]


def memory_goals() -> list[MemoryGoal]:
    what = f"compare {MOST_COPIES}{GREATEST}"
    return [MemoryGoal(f"{what}: memory in MB", (what, None), 12.0)]


def all_goals() -> list[Goal]:
    part = f"record cycles / {CYCLES_DIVISOR}"
    return [
        *(goal for name in RECORDED for goal in record_goals(name)),
        *written_goals("record cycles"),
        gain_goal("record cloud", 2.9),
        gain_goal("record large", 2.9),
        gain_goal("record bank", 2.0),
        gain_goal("record guard", 2.0),
        gain_goal("heavy pass", 3.5),
        Goal(
            f"record cycles: memory, of {part}",
            ("record cycles", 1),
            (part, 1),
            1.2,
            is_memory=True,
        ),
        *copies_goals(),
        Goal("chain: time, of two records", ("chain", 1), ("two records", 1), 1.1),
        *(
            Goal(f"{what}: time, of one record", (what, None), ("one record", 1), 1.3, processors=2)
            for what in ("det_lane 2", "det_twin 2")
        ),
        *workers_goals(f"sim {SIM_NUMBER}"),
    ]


def goal_rows(results: list[Result]) -> list[list[str]]:
    """The cells of each goal whose lines were asked for."""
    found = {(result.command.what, result.command.workers): result for result in results}
    processors = len(os.sched_getaffinity(0))
    ratios = [
        goal.cells(found[goal.of], found[goal.beside], processors)
        for goal in all_goals()
        if goal.of in found and goal.beside in found
    ]
    return ratios + [goal.cells(found[goal.of]) for goal in memory_goals() if goal.of in found]
