"""What stands in the cells of a table of measurements: times and values, read without rounding on
the way. No float is used."""

from __future__ import annotations

import re
from dataclasses import dataclass
from fractions import Fraction
from typing import Optional

MOST_TIME = 2**64 - 1
MOST_VALUE = 10**12
# How many nanoseconds there are in a unit of time.
UNITS = {"ns": 1, "us": 10**3, "ms": 10**6, "s": 10**9}
# An exponent has at most two digits, so no cell asks for a number of a million digits.
DECIMAL = re.compile(r"[+-]?(?:\d+\.?\d*|\.\d+)(?:[eE][+-]?\d{1,2})?", re.ASCII)
RATIO = re.compile(r"([+-]?\d+)/(\d+)", re.ASCII)
WHOLE = re.compile(r"-?\d{1,20}", re.ASCII)
MOST_LETTERS = 64


class BadCell(Exception):
    """A cell isn't what its column has; the text says why."""


def quote(text: str) -> str:
    """A text for a line of error: its beginning, if it is long."""
    return repr(text if len(text) <= MOST_LETTERS else f"{text[:MOST_LETTERS]}..")


def decimal_of(text: str) -> Fraction:
    """A decimal such as 12, -0.5, .5 or 1e-3, exactly."""
    if len(text) > MOST_LETTERS or not DECIMAL.fullmatch(text):
        raise BadCell(f"{quote(text)} isn't a decimal number")
    return Fraction(text)


def factor_of(text: str) -> Fraction:
    """A factor: a decimal, or a ratio such as 1/3. It isn't 0."""
    ratio = RATIO.fullmatch(text) if len(text) <= MOST_LETTERS else None
    if ratio and int(ratio[2]):
        factor = Fraction(int(ratio[1]), int(ratio[2]))
    else:
        factor = decimal_of(text)
    if factor == 0:
        raise BadCell(f"{quote(text)} is 0, so it leaves nothing of a value")
    return factor


def whole_of(text: str) -> int:
    """A whole number, as an end of a range."""
    if not WHOLE.fullmatch(text):
        raise BadCell(f"{quote(text)} isn't a whole number")
    return int(text)


def time_of(text: str, unit: str) -> Optional[int]:
    """A time in whole nanoseconds; an empty cell is none."""
    if not text:
        return None
    time = decimal_of(text) * UNITS[unit]
    if time.denominator != 1:
        raise BadCell(f"{quote(text)} {unit} isn't a whole number of nanoseconds")
    if not 0 <= time <= MOST_TIME:
        raise BadCell(f"{quote(text)} {unit} isn't from 0 to 2^64 - 1 nanoseconds")
    return int(time)


@dataclass(frozen=True)
class Rule:
    """How the cells of an event become values: by a factor, and within a range."""

    factor: Fraction
    least: int
    most: int
    is_exact: bool

    def value_of(self, text: str) -> Optional[int]:
        """The nearest whole number to a cell times the factor, of two as near the even one; an
        empty cell is none."""
        if not text:
            return None
        product = decimal_of(text) * self.factor
        if self.is_exact and product.denominator != 1:
            raise BadCell(f"{quote(text)} times {self.factor} isn't a whole number")
        value = round(product)
        if not self.least <= value <= self.most:
            raise BadCell(f"{quote(text)} gives {value}, which isn't {self.least} to {self.most}")
        return value
