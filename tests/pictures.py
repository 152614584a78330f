"""Reads pictures: PNG files in colours of 8 bits a channel, with or without opacity."""

from __future__ import annotations

import struct
import zlib
from typing import Iterator

SIGNATURE = b"\x89PNG\r\n\x1a\n"
# The bytes of a pixel, by the type of colour.
PIXELS = {2: 3, 6: 4}


def chunks(png: bytes) -> Iterator[tuple[bytes, bytes]]:
    """The kind and the bytes of each chunk."""
    at = len(SIGNATURE)
    while at < len(png):
        length, kind = struct.unpack_from(">I4s", png, at)
        yield kind, png[at + 8 : at + 8 + length]
        at += 12 + length


def size_of(png: bytes) -> tuple[int, int]:
    """The width and the height."""
    return struct.unpack_from(">II", next(chunks(png))[1])


def nearest(left: int, up: int, corner: int) -> int:
    """The neighbour that is nearest to a plane through all three (Paeth)."""
    sides = [(abs(left + up - corner - it), k) for k, it in enumerate((left, up, corner))]
    return (left, up, corner)[min(sides)[1]]


def unfiltered(kind: int, line: bytearray, above: bytes, step: int) -> bytearray:
    """The bytes of a row, which are stored as differences from its neighbours'."""
    for i in range(len(line) if kind else 0):
        left, corner = (line[i - step], above[i - step]) if i >= step else (0, 0)
        up = above[i]
        guesses = (0, left, up, (left + up) // 2)
        line[i] = line[i] + (guesses[kind] if kind < 4 else nearest(left, up, corner)) & 255
    return line


def colours(png: bytes, rows: int) -> set[tuple[int, int, int]]:
    """The colours in the first rows."""
    assert png.startswith(SIGNATURE)
    parts = list(chunks(png))
    width, height, depth, kind, _, _, interlaced = struct.unpack(">IIBBBBB", parts[0][1])
    assert (depth, interlaced) == (8, 0)
    data = zlib.decompress(b"".join(it for name, it in parts if name == b"IDAT"))
    step = PIXELS[kind]
    size, line, found = width * step, bytearray(width * step), set()
    for at in range(0, min(rows, height) * (size + 1), size + 1):
        line = unfiltered(data[at], bytearray(data[at + 1 : at + 1 + size]), line, step)
        found |= set(zip(line[::step], line[1::step], line[2::step]))
    return found
