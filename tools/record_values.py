"""The values that stand in a record of `det`: its header, its frames and its fault."""

from __future__ import annotations

from dataclasses import dataclass, field
from enum import Enum
from functools import cached_property
from typing import NamedTuple, Optional, Sequence, Union


class Reason(Enum):
    """Why bytes are no record."""

    MAGIC = "magic"
    VERSION = "version"
    RANGE = "range"
    ORDER = "order"
    TOO_MANY = "too_many"
    TRAILING = "trailing"
    TRUNCATED = "truncated"


class BadRecord(Exception):
    """A record's fault: the offset of the first byte with which no record is left, and why."""

    def __init__(self, offset: int, reason: Reason) -> None:
        super().__init__(f"offset {offset} {reason.value}")
        self.offset = offset
        self.reason = reason


class Phase(Enum):
    """A phase of a cycle. Its value is its number in a record."""

    PREPARE = 0
    POOL = 1
    CONCLUDE = 2

    @property
    def word(self) -> str:
        return self.name.lower()


class Sample(NamedTuple):
    event: int
    value: int


@dataclass(frozen=True)
class Event:
    capacity: int
    name: str
    is_fresh: bool

    @property
    def policy(self) -> str:
        return "fresh" if self.is_fresh else "last"


@dataclass(frozen=True)
class Header:
    format: int
    job: int
    seed: int
    cycle_time: int
    params: tuple[int, ...]
    events: tuple[Event, ...]


@dataclass(frozen=True)
class Elements:
    """Elements as a record spells them: each its length, its bytes and perhaps its draws."""

    raw: bytes
    count: int
    has_draws: bool
    # The bytes that each takes, where all take as many, or None.
    stride: Optional[int] = field(compare=False)

    def __len__(self) -> int:
        return self.count

    @cached_property
    def starts(self) -> Sequence[int]:
        """Where each begins in the raw bytes."""
        if self.stride is not None:
            return range(0, self.count * self.stride, self.stride)
        starts, at = [], 0
        for _ in range(self.count):
            starts.append(at)
            at += 2 + int.from_bytes(self.raw[at : at + 2], "big") + (4 if self.has_draws else 0)
        return starts

    def content(self, index: int) -> bytes:
        """The bytes of an element."""
        if self.stride is not None:
            end = (index + 1) * self.stride - (4 if self.has_draws else 0)
            return self.raw[index * self.stride + 2 : end]
        start = self.starts[index] + 2
        return self.raw[start : start + int.from_bytes(self.raw[start - 2 : start], "big")]

    def draws(self, index: int) -> int:
        """How many words an element drew. Format 1 tells none."""
        if not self.has_draws:
            return 0
        end = self.starts[index] + 2 + len(self.content(index))
        return int.from_bytes(self.raw[end : end + 4], "big")

    def all_draws(self) -> int:
        """How many words all elements drew."""
        if not self.has_draws:
            return 0
        if self.stride is None:
            return sum(self.draws(index) for index in range(self.count))
        raw, stride = self.raw, self.stride
        high = (sum(raw[stride - 4 :: stride]) << 8) + sum(raw[stride - 3 :: stride])
        return (high << 16) + (sum(raw[stride - 2 :: stride]) << 8) + sum(raw[stride - 1 :: stride])


@dataclass(frozen=True)
class Register:
    """The client is registered."""


@dataclass(frozen=True)
class Discover:
    """Services are discovered."""


@dataclass(frozen=True)
class Init:
    elements: Elements


@dataclass(frozen=True)
class Finished:
    elements: Elements
    output: bytes


@dataclass(frozen=True)
class Refused:
    phase: Phase
    pass_number: int
    element: int
    code: int


@dataclass(frozen=True)
class Run:
    """A cycle: what it was given, and how it ended."""

    time: Optional[int]
    samples: tuple[Sample, ...]
    outcome: Union[Finished, Refused]


@dataclass(frozen=True)
class Terminate:
    """The client has ended."""


Frame = Union[Register, Discover, Init, Run, Terminate]
Item = Union[Header, Frame]
