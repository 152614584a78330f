"""Records with a fault, and records that differ, with their hints."""

from __future__ import annotations

from typing import Any

from commands import Outcome
from hint_inputs import (
    END_AT,
    HEADER,
    INIT_AT,
    REGISTER_AT,
    RUN_1_AT,
    RUN_2_AT,
    WHOLE,
    HintCase,
    To,
    case,
)


def with_byte(at: int, byte: int) -> bytes:
    return WHOLE[:at] + bytes([byte]) + WHOLE[at + 1 :]


def bad_record(
    shows: str, record: bytes, line: str, hint: str, words: str = "compare r q"
) -> HintCase:
    """A command over a whole record r and a bad one q."""
    err = [f"bad record: {line}", f"q: {hint}"]
    return case(shows, words, 5, err, b"", {"r": WHOLE, "q": record})


def second(offset: int, reason: str) -> str:
    return f"copy 1 offset {offset} {reason}"


FIRST_BYTE = "where frame 4 begins: a run or Terminate"
# A name of 75 bytes, and how it is shown: its first 64, some of them as question marks.
ODD = "a\u00e9\x07\n\t" + "x" * 69
SHOWN_ODD = "a?????" + "x" * 58 + ".."
RECORDS = [
    bad_record("no bytes", b"", second(0, "truncated"), "in the header"),
    bad_record("another magic", with_byte(5, 0), second(5, "magic"), "in the header"),
    bad_record("a torn header", WHOLE[:50], second(50, "truncated"), "in the header"),
    bad_record(
        "a header alone", HEADER, second(REGISTER_AT, "truncated"), "where frame 0 begins: Register"
    ),
    bad_record(
        "another tag of Register",
        with_byte(REGISTER_AT, 2),
        second(REGISTER_AT, "order"),
        "where frame 0 begins: Register",
    ),
    bad_record(
        "another tag of Discover",
        with_byte(52, 9),
        second(52, "range"),
        "where frame 1 begins: Discover",
    ),
    bad_record(
        "another tag of Init",
        with_byte(INIT_AT, 4),
        second(INIT_AT, "order"),
        "where frame 2 begins: Init",
    ),
    bad_record(
        "too many elements",
        with_byte(INIT_AT + 1, 1),
        second(INIT_AT + 1, "range"),
        "in frame 2, Init",
    ),
    bad_record(
        "a torn Init", WHOLE[: RUN_1_AT - 1], second(RUN_1_AT - 1, "truncated"), "in frame 2, Init"
    ),
    bad_record(
        "a torn run",
        WHOLE[: RUN_2_AT - 1],
        second(RUN_2_AT - 1, "truncated"),
        "in frame 3, the run of cycle 1",
    ),
    bad_record("torn between runs", WHOLE[:RUN_2_AT], second(RUN_2_AT, "truncated"), FIRST_BYTE),
    bad_record(
        "a run with another tag", with_byte(RUN_2_AT, 1), second(RUN_2_AT, "order"), FIRST_BYTE
    ),
    bad_record(
        "neither with nor without a time",
        with_byte(RUN_2_AT + 1, 2),
        second(RUN_2_AT + 1, "range"),
        "in frame 4, the run of cycle 2",
    ),
    bad_record(
        "no end",
        WHOLE[:END_AT],
        second(END_AT, "truncated"),
        "where frame 5 begins: a run or Terminate",
    ),
    bad_record(
        "bytes behind the end",
        WHOLE + b"\0",
        second(END_AT + 1, "trailing"),
        "behind frame 5, Terminate",
    ),
    case(
        "two copies torn in one frame",
        "compare p q",
        5,
        ["bad record: copy 0 offset 300 truncated", "p: in frame 4, the run of cycle 2"],
        b"",
        {"p": WHOLE[:300], "q": WHOLE[:RUN_2_AT]},
    ),
    case(
        "two copies, the second torn before the first",
        "compare p q",
        5,
        ["bad record: copy 1 offset 200 truncated", "q: in frame 3, the run of cycle 1"],
        b"",
        {"p": WHOLE[:300], "q": WHOLE[:200]},
    ),
    bad_record(
        "a torn record that is checked",
        WHOLE[:300],
        "copy 0 offset 300 truncated",
        "in frame 4, the run of cycle 2",
        "check q",
    ),
    bad_record(
        "a job of another number", with_byte(9, 9), "profile", "no job has the number 9", "replay q"
    ),
    bad_record(
        "a bank of no channel",
        with_byte(28, 0)[:28] + b"\0" * 8 + WHOLE[36:],
        "profile",
        "parameter 0 of bank: channels, 1 to 65536",
        "check q",
    ),
    case(
        "a torn record that is shown",
        "show q --reports",
        5,
        ["bad record: copy 0 offset 50 truncated", "q: in the header"],
        files={"q": WHOLE[:50]},
    ),
    case(
        "a record of nothing that is salvaged",
        "salvage q",
        5,
        ["bad record: copy 0 offset 51 truncated", "q: where frame 0 begins: Register"],
        files={"q": HEADER},
    ),
    case(
        "a torn copy of an odd name",
        [b"compare", b"r", ODD.encode(), b"q"],
        5,
        ["bad record: copy 1 offset 300 truncated", f"{SHOWN_ODD}: in frame 4, the run of cycle 2"],
        files={"r": WHOLE, ODD: WHOLE[:300], "q": WHOLE[:300]},
    ),
    case(
        "an odd name of a profile",
        [b"check", ODD.encode()],
        5,
        ["bad record: profile", f"{SHOWN_ODD}: no job has the number 9"],
        files={ODD: with_byte(9, 9)},
    ),
]


def differs(
    shows: str, words: str, out: bytes, names: list[str], files: dict[str, bytes], **streams: Any
) -> HintCase:
    """A case of status 1, with the names that its hints show."""
    hints = "".join(f"  copy {number}: {name}\n" for number, name in enumerate(names))
    outcome = Outcome(1, out, hints.encode())
    return HintCase(shows, ["det", *words.split(" ")], outcome, files, **streams)


# The last byte of the output of cycle 2 is 26 in place of 25.
CHANGED = with_byte(END_AT - 1, 26)
DEPARTS = b"departs output 2\ncount 2 0\ngap 10000000\nrefusal none\n"
COPIES = {"r": WHOLE, "q": CHANGED}
DIFFERS = b"differ copy 1 output 2\n"
DIFFERENCES = [
    differs(
        "the last of three differs", "compare r r q", b"differ copy 2 output 2\n", [*"rrq"], COPIES
    ),
    differs("all but the first differ", "compare q r r", DIFFERS, [*"qrr"], COPIES),
    differs("a changed output", "check q", DEPARTS, ["q"], COPIES),
    differs("a changed output, for two workers", "check --workers 2 q", DEPARTS, ["q"], COPIES),
    differs(
        "copies of odd names",
        f"compare q {ODD}",
        DIFFERS,
        ["q", SHOWN_ODD],
        {"q": CHANGED, ODD: WHOLE},
    ),
    differs("a name of 64 bytes", "check " + "x" * 64, DEPARTS, ["x" * 64], {"x" * 64: CHANGED}),
    differs(
        "a name of 65 bytes", "check " + "x" * 65, DEPARTS, ["x" * 64 + ".."], {"x" * 65: CHANGED}
    ),
    differs("a copy in a pipe", "compare r p", DIFFERS, [*"rp"], COPIES, pipes={"p": CHANGED}),
    differs("a record in a pipe", "check p", DEPARTS, ["p"], {}, pipes={"p": CHANGED}),
    differs("no room for the names", "check q", DEPARTS, [], COPIES, err_to=To.FULL),
    differs("no place for the names", "compare r q", DIFFERS, [], COPIES, err_to=To.CLOSED),
    differs("an upgrade names nothing", "upgrade q", WHOLE[:RUN_2_AT], [], COPIES),
]
