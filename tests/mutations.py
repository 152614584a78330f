"""Ways to change inputs: bytes, lines of text, fields and frames of a record, and words.

Each is a function of a source of random choices, so that the same source gives the same change.
"""

import random
import re
from dataclasses import dataclass, field
from typing import Callable, Dict, List, Sequence, Tuple

# Numbers at the limits of a record's fields, by what the field is, and of fields of any kind.
LIMITS_OF: Dict[str, Sequence[int]] = {
    "version": (0, 1, 2, 3, 256),
    "cycle time": (0, 1, (1 << 63) - 1, 1 << 63),
    "parameters": (0, 16, 17),
    "events": (0, 1, 256, 257),
    "capacity": (0, 1, 1024, 1025),
    "name length": (0, 1, 32, 33),
    "letter": tuple(b"/09:@AZ[^_`az{"),
    "policy": (0, 1, 2),
    "tag": (0, 1, 2, 3, 4, 5, 6, 255),
    "elements": (0, 1, 65536, 65537),
    "element length": (0, 1, 64, 65),
    "has time": (0, 1, 2),
    "samples": (0, 1, 4096, 4097),
    "event": (0, 1, 2, 3, 255, 256),
    "value": (10**12, 10**12 + 1, -(10**12), -(10**12) - 1),
    "outcome": (0, 1, 2),
    "phase": (0, 1, 2, 3),
    "pass": (0, 1, 7, 8),
    "refused element": (0, 1, 65535, 65536),
    "output length": (0, 1, 1 << 20, (1 << 20) + 1),
}
LIMITS = (
    0,
    1,
    2,
    3,
    4,
    5,
    7,
    8,
    16,
    17,
    32,
    33,
    64,
    65,
    255,
    256,
    257,
    1024,
    1025,
    4096,
    4097,
    65535,
    65536,
    65537,
    1 << 20,
    (1 << 20) + 1,
    10**12,
    10**12 + 1,
    -(10**12),
    -(10**12) - 1,
    -1,
    1 << 31,
    1 << 63,
    (1 << 63) - 1,
    (1 << 64) - 1,
)
BYTES = (
    0,
    1,
    2,
    3,
    4,
    5,
    6,
    9,
    10,
    13,
    32,
    34,
    35,
    39,
    45,
    46,
    48,
    61,
    91,
    93,
    95,
    97,
    123,
    125,
    127,
    128,
    192,
    239,
    255,
)


@dataclass(frozen=True)
class Words:
    """What may be put into a kind of text: lines, numbers and characters, and where its lines are
    pairs, keys and values too, by the key and for any."""

    lines: List[bytes]
    numbers: List[bytes]
    characters: List[bytes]
    keys: List[bytes] = field(default_factory=list)
    values: List[bytes] = field(default_factory=list)
    values_of: Dict[bytes, List[bytes]] = field(default_factory=dict)


def cut_place(choose: random.Random, data: bytes) -> Tuple[int, int]:
    """Where a short part of some bytes begins and ends."""
    begin = choose.randint(0, len(data))
    return begin, min(len(data), begin + choose.choice((1, 1, 2, 4, 8, 20)))


def changed_bytes(choose: random.Random, data: bytes) -> bytes:
    """Some bytes flipped, replaced, put in, taken out, doubled, swapped or cut."""
    begin, end = cut_place(choose, data)
    before, part, after = data[:begin], data[begin:end], data[end:]
    way = choose.randrange(8)
    if way == 0 and part:
        return before + bytes([part[0] ^ 1 << choose.randrange(8)]) + part[1:] + after
    if way == 1 and part:
        return before + bytes([choose.choice(BYTES)]) + part[1:] + after
    if way == 2:
        put = bytes(choose.choice(BYTES) for _ in range(choose.randint(1, 4)))
        return before + put + part + after
    if way == 3:
        return before + after
    if way == 4:
        return before + part + part + after
    if way == 5 and after:
        return before + after[: len(part)] + part + after[len(part) :]
    if way == 6:
        return before
    return before + choose.randbytes(len(part)) + after


def changed_character(choose: random.Random, data: bytes, words: Words) -> bytes:
    """A character that means something put in, at a place or instead of another."""
    begin = choose.randint(0, len(data))
    return data[:begin] + choose.choice(words.characters) + data[begin + choose.randint(0, 1) :]


def changed_number(choose: random.Random, data: bytes, words: Words) -> bytes:
    """A decimal number replaced by another one."""
    numbers = list(re.finditer(rb"-?[0-9][0-9_]*", data))
    if not numbers:
        return data
    place = choose.choice(numbers)
    return data[: place.start()] + choose.choice(words.numbers) + data[place.end() :]


def changed_pair(choose: random.Random, data: bytes, words: Words) -> bytes:
    """The value of a line `key = value` replaced by another one, or its key."""
    pairs = list(re.finditer(rb"(?m)^([a-z_]+) = (.*)$", data))
    if not pairs:
        return data
    place = choose.choice(pairs)
    own = words.values_of.get(place.group(1), words.values)
    group, others = choose.choice(((2, own), (2, own), (2, words.values), (1, words.keys)))
    return data[: place.start(group)] + choose.choice(others) + data[place.end(group) :]


def changed_line(choose: random.Random, line: bytes) -> bytes:
    """A line with blanks, another end, or a comment."""
    before = choose.choice((b"", b" ", b"\t"))
    after = choose.choice((b"", b" ", b"\r\n", b"\n\n", b" # x\n"))
    return before + line.rstrip(b"\n") + after


def changed_lines(choose: random.Random, data: bytes, words: Words) -> bytes:
    """Lines doubled, swapped, moved, taken out, put in, joined, or ended otherwise."""
    lines = data.splitlines(keepends=True)
    place, other = choose.randint(0, len(lines)), choose.randint(0, len(lines))
    low, high = min(place, other), max(place, other)
    way = choose.randrange(9)
    if way == 0:
        lines = lines[:high] + lines[low:]
    elif way == 1 and high < len(lines):
        lines[low], lines[high] = lines[high], lines[low]
    elif way == 2:
        del lines[low:high]
    elif way == 3 and place < len(lines):
        del lines[place]
    elif way == 4 and place < len(lines):
        lines.insert(other, lines.pop(place))
    elif way == 5 and place < len(lines):
        lines[place] = changed_line(choose, lines[place])
    elif way == 6:
        del lines[place:]
    else:
        lines.insert(place, choose.choice(words.lines) + b"\n")
    return b"".join(lines)


def changed_text(choose: random.Random, data: bytes, words: Words) -> bytes:
    """A text changed in a number, in a pair, in its lines, or in its bytes, and perhaps again."""
    while True:
        way = choose.randrange(12)
        if way < 3 or (way < 7 and not words.values):
            data = changed_number(choose, data, words)
        elif way < 7:
            data = changed_pair(choose, data, words)
        elif way < 10:
            data = changed_lines(choose, data, words)
        elif way < 11:
            data = changed_character(choose, data, words)
        else:
            data = changed_bytes(choose, data)
        if choose.random() < 0.7:
            return data


@dataclass
class Layout:
    """Where the fields of each kind are in a whole record, by their beginnings and widths, and
    where its frames are."""

    fields: Dict[str, List[Tuple[int, int]]] = field(default_factory=dict)
    frames: List[Tuple[int, int]] = field(default_factory=list)
    # The fields that only format 2 has: policies and draws.
    second_format: List[Tuple[int, int]] = field(default_factory=list)


class Walker:
    """Goes through a whole record field by field."""

    def __init__(self, data: bytes) -> None:
        self.data, self.at, self.layout = data, 0, Layout()
        self.raw(6, "magic")
        self.version = self.number(2, "version")

    def raw(self, width: int, kind: str) -> None:
        if width:
            self.layout.fields.setdefault(kind, []).append((self.at, width))
        self.at += width

    def number(self, width: int, kind: str) -> int:
        self.raw(width, kind)
        return int.from_bytes(self.data[self.at - width : self.at], "big")

    def second_format_field(self, width: int, kind: str) -> None:
        """A field that only format 2 has."""
        if self.version == 2:
            self.layout.second_format.append((self.at, width))
            self.raw(width, kind)

    def header(self) -> None:
        for width, kind in ((2, "job"), (8, "seed"), (8, "cycle time")):
            self.raw(width, kind)
        for _ in range(self.number(2, "parameters")):
            self.raw(8, "parameter")
        for _ in range(self.number(2, "events")):
            self.raw(2, "capacity")
            for _ in range(self.number(1, "name length")):
                self.raw(1, "letter")
            self.second_format_field(1, "policy")

    def elements(self, in_run: bool) -> None:
        for _ in range(self.number(4, "elements")):
            self.raw(self.number(2, "element length"), "element")
            if in_run:
                self.second_format_field(4, "draws")

    def samples(self) -> None:
        for _ in range(self.number(4, "samples")):
            self.raw(2, "event")
            self.raw(8, "value")

    def outcome(self) -> None:
        if self.number(1, "outcome") == 0:
            self.elements(True)
            self.raw(self.number(4, "output length"), "output")
            return
        for width, kind in ((1, "phase"), (1, "pass"), (4, "refused element"), (4, "code")):
            self.raw(width, kind)

    def frame(self) -> None:
        begin, tag = self.at, self.number(1, "tag")
        if tag == 3:
            self.elements(False)
        elif tag == 4:
            self.raw(8 * self.number(1, "has time"), "time")
            self.samples()
            self.outcome()
        self.layout.frames.append((begin, self.at))


def layout_of(data: bytes) -> Layout:
    walker = Walker(data)
    walker.header()
    while walker.at < len(data):
        walker.frame()
    return walker.layout


def in_first_format(data: bytes) -> bytes:
    """A whole record of format 2 without what only that has."""
    out, at = bytearray(data[:6] + b"\0\1"), 8
    for begin, width in layout_of(data).second_format:
        out += data[at:begin]
        at = begin + width
    return bytes(out + data[at:])


def changed_field(choose: random.Random, data: bytes) -> bytes:
    """A number of a whole record replaced by one at a limit, by one beside it, or by any."""
    fields = layout_of(data).fields
    kind = choose.choice(sorted(fields))
    begin, width = choose.choice(fields[kind])
    beside = int.from_bytes(data[begin : begin + width], "big") + choose.choice((-1, 1))
    limit, any_limit = choose.choice(LIMITS_OF.get(kind, LIMITS)), choose.choice(LIMITS)
    number = choose.choice((limit, limit, any_limit, beside, choose.getrandbits(8 * width)))
    changed = (number % (1 << 8 * width)).to_bytes(width, "big")
    return data[:begin] + changed + data[begin + width :]


def changed_frames(choose: random.Random, data: bytes) -> bytes:
    """Frames of a whole record doubled, swapped, moved or taken out, or a tag put between two."""
    places = layout_of(data).frames
    frames = [data[begin:end] for begin, end in places]
    one, two = choose.randrange(len(frames)), choose.randrange(len(frames))
    way = choose.randrange(5)
    if way == 0:
        frames.insert(two, frames[one])
    elif way == 1:
        frames[one], frames[two] = frames[two], frames[one]
    elif way == 2:
        frames.insert(two, frames.pop(one))
    elif way == 3:
        del frames[min(one, two) : max(one, two) + 1]
    else:
        frames.insert(one, bytes([choose.randrange(8)]))
    return data[: places[0][0]] + b"".join(frames)


def changed_record(choose: random.Random, data: bytes) -> bytes:
    """A whole record changed in a field, in its frames or in its bytes, and perhaps once more."""
    ways: Sequence[Callable[[random.Random, bytes], bytes]]
    ways = (changed_field, changed_field, changed_frames, changed_bytes)
    data = choose.choice(ways)(choose, data)
    while choose.random() < 0.2:
        data = changed_bytes(choose, data)
    return data


def changed_words(choose: random.Random, words: List[str], others: Sequence[str]) -> List[str]:
    """Words doubled, swapped, moved, taken out, put in, replaced or cut."""
    words = list(words)
    place, other = choose.randint(0, len(words)), choose.randint(0, len(words))
    way = choose.randrange(6)
    if way == 0 and place < len(words):
        words.insert(other, words[place])
    elif way == 1 and max(place, other) < len(words):
        words[place], words[other] = words[other], words[place]
    elif way == 2 and place < len(words):
        words.insert(other, words.pop(place))
    elif way == 3:
        del words[place : place + 1]
    elif way == 4 and place < len(words):
        words[place] = choose.choice(others)
    else:
        words.insert(place, choose.choice(others))
    return words if choose.random() < 0.7 else changed_words(choose, words, others)
