"""Random texts that are nearly TOML: keys, values and tables over few names, so that they meet."""

import random
from typing import Dict, List, Sequence

HEAD = "job = 'bank'\ncycle_time_ns = 1\nworkers = 1\nparams = [4, 2]\n"
PARTS = ("a", "b", "c", "d", '"a"', "'b'", '"\\u0061"', '""', "1", "-", "_")
BAD_PARTS = ("a b", '"', "é", '"a\nb"', "'''a'''", "", "'a", "a\\b")
SCALARS = (
    "1",
    "-17",
    "+0",
    "1_000",
    "0x1f",
    "0o17",
    "0b11",
    "9223372036854775807",
    "true",
    "false",
    "1.5",
    "-0.0",
    "1e3",
    "6.02_2e+2_3",
    "inf",
    "-nan",
    "2020-02-29",
    "07:32",
    "07:32:00.5",
    "1979-05-27T07:32:00Z",
    "1979-05-27 07:32:00.999+01:30",
    "1979-05-27t07:32-23:59",
)
ALPHABETS = (
    "0123456789_",
    "01+-_.eE",
    "0x_fFgG1",
    "0o_718",
    "0b_012",
    "0123456789-T:Z .+",
    "infnatrue+-",
)
QUOTES = ('"', "'", '"""', "'''")
# What may be between each of the quotes.
INSIDE: Dict[str, Sequence[str]] = {
    '"': ("a", " ", '\\"', "\\\\", "'", "''", "\\x41", "\\u00e9", "\\U0001F600", "\\e", "é", "#"),
    "'": ("a", " ", '"', '""', "\\", "é", "#", "\t"),
    '"""': ("a", '"', '""', "'", "\n", "\r\n", "\\\n  ", "\\  \n\n ", "\\t", "#", '\\"'),
    "'''": ("a", "'", "''", '"', "\\", "\n", "\r\n", "#"),
}
BAD_INSIDE = (
    "\\q",
    "\\x4",
    "\\ud800",
    "\\U00110000",
    "\\",
    "\n",
    "\r",
    "\x00",
    "\x7f",
    '"""',
    "'''",
)
SPACES = ("", "", " ", "\t", "\n", "\r\n", " # x\n", "\n\n")
BAD_SPACES = ("\r", "x", " #", "\x0b", "\u00a0")
ENDS = ("\n", "\n", "\r\n", " # c\n", "\t\n")
BAD_ENDS = ("", " x\n", "\r", " # \x01\n", ",\n")


class TomlText:
    """Makes one text. Each of its parts is a bad one with a small probability."""

    def __init__(self, choose: random.Random) -> None:
        self.choose = choose
        self.badness = choose.choice((0, 0, 0.01, 0.05))

    def one_of(self, good: Sequence[str], bad: Sequence[str]) -> str:
        return self.choose.choice(bad if self.choose.random() < self.badness else good)

    def key(self) -> str:
        count = self.choose.choice((1, 1, 1, 2, 2, 3))
        parts = [self.one_of(PARTS, BAD_PARTS) for _ in range(count)]
        return self.choose.choice((".", ".", ". ", " .", "\t.\t")).join(parts)

    def scalar(self) -> str:
        text = self.choose.choice(SCALARS)
        if self.choose.random() > 5 * self.badness:
            return text
        alphabet = self.choose.choice(ALPHABETS)
        at, length = self.choose.randint(0, len(text)), self.choose.randint(0, 1)
        put = self.choose.choice(alphabet) if self.choose.random() < 0.7 else ""
        return text[:at] + put + text[at + length :]

    def string(self) -> str:
        quote = self.choose.choice(QUOTES)
        parts = [self.one_of(INSIDE[quote], BAD_INSIDE) for _ in range(self.choose.randint(0, 5))]
        return quote + "".join(parts) + quote

    def space(self) -> str:
        return self.one_of(SPACES, BAD_SPACES)

    def items(self, items: List[str]) -> str:
        """Items with commas between them, and perhaps after them."""
        spaced = [self.space() + item + self.space() for item in items]
        after = "," + self.space() if items and self.choose.random() < 0.3 else ""
        return ",".join(spaced) + after

    def value(self, depth: int) -> str:
        way = self.choose.random() if depth < 3 else 1
        count = self.choose.randint(0, 3)
        if way < 0.15:
            return "[" + self.items([self.value(depth + 1) for _ in range(count)]) + "]"
        if way < 0.35:
            return "{" + self.items([self.pair(depth + 1) for _ in range(count)]) + "}"
        return self.string() if self.choose.random() < 0.3 else self.scalar()

    def pair(self, depth: int) -> str:
        return self.key() + self.choose.choice((" = ", "=", "\t= ")) + self.value(depth)

    def expression(self) -> str:
        way = self.choose.random()
        if way < 0.5:
            return self.pair(0)
        if way < 0.75:
            return f"[{self.one_of(('', ' '), ('[',))}{self.key()}]"
        if way < 0.95:
            return f"[[{self.one_of(('', ' '), ('[', ']'))}{self.key()} ]]"
        return self.one_of(("", "# é", "#\t#"), ("# \x7f", "\r", "="))

    def text(self) -> bytes:
        lines = [self.choose.choice(("", "", "\ufeff")) + HEAD]
        for _ in range(self.choose.randint(1, 6)):
            indent = self.choose.choice(("", "", "  ", "\t"))
            lines.append(indent + self.expression() + self.one_of(ENDS, BAD_ENDS))
        return "".join(lines).encode()
