"""Stimuli and manifests that are refused, with their hints."""

from __future__ import annotations

from typing import Optional

from hint_inputs import (
    BANK,
    CLOUD,
    EVENT_Y,
    GUARD,
    HEADER,
    NEEDS,
    OPENING,
    RUN_OF_NOTHING,
    STIMULUS,
    HintCase,
    case,
)


def bad_stimulus(
    shows: str, text: bytes, line: int, hint: Optional[str], manifest: bytes = BANK
) -> HintCase:
    """A stimulus without a complete block: of the record only the opening is written."""
    err = [f"bad stimulus: line {line}"] + ([f"wanted: {hint}"] if hint else [])
    profile = HEADER + OPENING
    return case(shows, "record m s", 4, err, profile, {"m": manifest, "s": text})


BLOCK = "cycle T, cycle -, sample E V or terminate"
VALUE = "V as a decimal, -1000000000000 to 1000000000000"
TIME = "T as a decimal, 0 to 18446744073709551615"
STIMULI = [
    bad_stimulus("an empty stimulus", b"", 1, "stim 1"),
    bad_stimulus("another first line", b"stim 2\nterminate\n", 1, "stim 1"),
    bad_stimulus("a first line alone", b"stim 1\n", 2, "cycle T, cycle - or terminate"),
    bad_stimulus(
        "a sample before a cycle", b"stim 1\nsample 0 1\n", 2, "cycle T, cycle - or terminate"
    ),
    bad_stimulus("a first time that is no number", b"stim 1\ncycle x\n", 2, TIME),
    bad_stimulus("a first time too large", b"stim 1\ncycle 18446744073709551616\n", 2, TIME),
    bad_stimulus("a word that no line begins with", b"stim 1\ncycle 0\nsampel 0 1\n", 3, BLOCK),
    bad_stimulus("a sample without a value", b"stim 1\ncycle 0\nsample 0\n", 3, BLOCK),
    bad_stimulus(
        "an event that isn't there", b"stim 1\ncycle 0\nsample 1 1\n", 3, "E as a decimal below 1"
    ),
    case(
        "an event that two events don't have",
        "2 m s",
        4,
        ["bad stimulus: line 3", "wanted: E as a decimal below 2"],
        b"",
        {"m": BANK + EVENT_Y, "s": b"stim 1\ncycle 0\nsample 2 0\n"},
        program="det_twin",
    ),
    bad_stimulus(
        "an event with a leading zero",
        b"stim 1\ncycle 0\nsample 00 1\n",
        3,
        "E as a decimal below 1",
    ),
    bad_stimulus("a value too large", b"stim 1\ncycle 0\nsample 0 1000000000001\n", 3, VALUE),
    bad_stimulus("a minus zero", b"stim 1\ncycle 0\nsample 0 -0\n", 3, VALUE),
    bad_stimulus("a value with a blank", b"stim 1\ncycle 0\nsample 0  1\n", 3, VALUE),
    bad_stimulus("a time with a sign", b"stim 1\ncycle 0\nsample 0 5\ncycle +1\n", 4, TIME),
    bad_stimulus(
        "a sample too many",
        b"stim 1\ncycle 0\n" + b"sample 0 1\n" * 4097,
        4099,
        "at most 4096 samples in a cycle",
    ),
    bad_stimulus("no end", b"stim 1\ncycle 0\nsample 0 1\n", 4, BLOCK),
    bad_stimulus(
        "a last line without its line feed", b"stim 1\nterminate", 2, "a line feed at the end"
    ),
    bad_stimulus("a bad last line without its line feed", b"stim 1\ncycle 0\nterminat", 3, BLOCK),
    bad_stimulus(
        "carriage returns", b"stim 1\r\nterminate\r\n", 1, "no carriage return at the end of a line"
    ),
    bad_stimulus(
        "a long line", b"stim 1\ncycle " + b"0" * 123 + b"\n", 2, "a line of at most 128 bytes"
    ),
    bad_stimulus(
        "a bad line before 1 MB of others",
        b"stim 1\ncycle 0\ncycle\n" + b"cycle -\n" * 140_000,
        3,
        BLOCK,
    ),
    # 140,001 lines of 8 bytes; all blocks but the last are complete.
    case(
        "a bad line behind 1 MB",
        "demo s",
        4,
        ["bad stimulus: line 140003"],
        HEADER + OPENING + RUN_OF_NOTHING * 140_000,
        {"s": b"stim 1\ncycle -\n" + b"cycle -\n" * 140_000},
    ),
    case(
        "a line behind the end",
        "demo s",
        4,
        ["bad stimulus: line 3", "wanted: nothing behind terminate"],
        HEADER + OPENING,
        {"s": STIMULUS + b"\n"},
    ),
    case(
        "a bad stimulus of twins",
        "2 m s",
        4,
        ["bad stimulus: line 2", f"wanted: {TIME}"],
        b"",
        {"m": BANK, "s": b"stim 1\ncycle 01\n"},
        program="det_twin",
    ),
    case(
        "a long stimulus of twins",
        "2 m s",
        4,
        ["bad stimulus: too long", "a stimulus has at most 1048576 bytes here"],
        b"",
        {"m": BANK, "s": b"x" * 1_048_577},
        program="det_twin",
    ),
    case(
        "a stimulus of twins that isn't too long",
        "2 m s",
        4,
        ["bad stimulus: line 1", "wanted: stim 1"],
        b"",
        {"m": BANK, "s": b"stim\n" + b"x" * 1_048_571},
        program="det_twin",
    ),
    case(
        "a bad stimulus of a chain",
        "chain m m s",
        4,
        ["bad stimulus: line 3", "wanted: E as a decimal below 1"],
        HEADER + OPENING,
        {"m": BANK, "s": b"stim 1\ncycle 0\nsample 1 0\n"},
    ),
]


def bad_manifest(
    line: str, hint: Optional[str], text: bytes, words: str = "needs m", program: str = "det"
) -> HintCase:
    err = [f"bad manifest: {line}"] + ([hint] if hint else [])
    return case(
        f"{program}: {line}, {hint}",
        words,
        3,
        err,
        b"",
        {"m": text, "b": BANK, "s": STIMULUS},
        program,
    )


def parameter(text: bytes, old: str, new: str, number: int, hint: str) -> HintCase:
    assert old.encode() in text
    return bad_manifest(f"bad parameter {number}", hint, text.replace(old.encode(), new.encode()))


MANIFESTS = [
    parameter(BANK, "[4,", "[0,", 0, "parameter 0 of bank: channels, 1 to 65536"),
    parameter(BANK, "2]", "17]", 1, "parameter 1 of bank: shift, 0 to 16"),
    parameter(BANK, ", 2]", "]", 1, "parameter 1 of bank: shift, 0 to 16"),
    parameter(BANK, "2]", "2, 3]", 2, "bank has 2 parameters"),
    parameter(CLOUD, "[1000,", "[65537,", 0, "parameter 0 of cloud: particles, 1 to 65536"),
    parameter(CLOUD, " 1000,", " 0,", 1, "parameter 1 of cloud: spread, 1 to 1000000"),
    parameter(CLOUD, "50,", "-1,", 2, "parameter 2 of cloud: reseed, 0 to 1000000"),
    parameter(
        CLOUD,
        "4_000_000_000_000",
        "4_000_000_000_001",
        3,
        "parameter 3 of cloud: far, 0 to 4000000000000",
    ),
    parameter(CLOUD, "000]", "000, 1]", 4, "cloud has 4 parameters"),
    parameter(GUARD, "[100,", "[0,", 0, "parameter 0 of guard: channels, 1 to 65536"),
    parameter(
        GUARD,
        " 0, 1000",
        " -1000000000001, 1000",
        1,
        "parameter 1 of guard: low, -1000000000000 to 1000000000000",
    ),
    parameter(
        GUARD, " 0, 1000", " 1001, 1000", 2, "parameter 2 of guard: high, 1001 to 1000000000000"
    ),
    parameter(GUARD, " 1,", " 1001,", 3, "parameter 3 of guard: limit, 1 to 1000"),
    parameter(GUARD, "100]", "65537]", 4, "parameter 4 of guard: most, 0 to 65536"),
    parameter(GUARD, "100]", "100, 0]", 5, "guard has 5 parameters"),
    bad_manifest("not toml", "line 4", BANK.replace(b"params =", b"params = =")),
    bad_manifest("not toml", "line 1", b"\xff"),
    bad_manifest("not toml", "line 3", b"# one\n# two\n# \xc3\n"),
    bad_manifest("too long", "a manifest has at most 65536 bytes", BANK + b"#" * 65536),
    bad_manifest("missing job", "job: bank, cloud or guard", b""),
    bad_manifest("unknown job", "job: bank, cloud or guard", BANK.replace(b"bank", b"tank")),
    bad_manifest(
        "wrong kind workers",
        "workers: a whole number, 1 to 64",
        BANK.replace(b"workers = 1", b"workers = 1.0"),
    ),
    bad_manifest(
        "out of range run_needs.speedup_thousandths",
        "run_needs.speedup_thousandths: a whole number, 1 to 1000000",
        b'platform = "p"\n' + BANK + NEEDS.replace(b"2500", b"0"),
    ),
    bad_manifest(
        "out of range event.0.capacity",
        "event.0.capacity: a whole number, 1 to 1024",
        BANK.replace(b"capacity = 2", b"capacity = 1025"),
    ),
    bad_manifest(
        "unknown key event.0.polcy",
        None,
        BANK.replace(b"[4,", b"[0,") + b'polcy = "last"\n',
        "needs m --strict",
    ),
    bad_manifest(
        "bad parameter 0",
        "parameter 0 of bank: channels, 1 to 65536",
        BANK.replace(b"[4,", b"[0,"),
        "chain b m s",
    ),
    bad_manifest(
        "duplicate event 1", None, BANK + b'[[event]]\nname = "x"\ncapacity = 1\n', "chain m b s"
    ),
    bad_manifest(
        "bad parameter 0",
        "parameter 0 of bank: channels, 1 to 65536",
        BANK.replace(b"[4,", b"[0,"),
        "2 m s",
        "det_twin",
    ),
    bad_manifest("not toml", "line 1", b"=", "2 m s", "det_twin"),
]
