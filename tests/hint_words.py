"""Words that the programs refuse, with their hints."""

from __future__ import annotations

from typing import Optional

from hint_inputs import HintCase, case


def bad_words(words: str, hint: Optional[str], command: str = "") -> HintCase:
    page = f"see det {command} --help" if command else "see det --help"
    hints = [hint, page] if hint else [page]
    return case(f"det {words}", words, 2, ["bad words", *hints])


WORDS = [
    bad_words("", "a command is missing"),
    bad_words("recrod m s", "at the word 1: recrod"),
    bad_words("-h show", "at the word 1: -h"),
    bad_words("record", "a name is missing behind record", "record"),
    bad_words("record m", "a name is missing behind record", "record"),
    bad_words("compare r", "a name is missing behind compare", "compare"),
    bad_words("record m s t", "at the word 4: t", "record"),
    bad_words("record m s --workrs 3", "at the word 4: --workrs", "record"),
    bad_words("record m s --workers=3", "at the word 4: --workers=3", "record"),
    bad_words("record m s --workers", "a value is missing behind --workers", "record"),
    bad_words("record --workers m s", "at the word 3: m, where --workers takes 1 to 64", "record"),
    bad_words(
        "record m s --workers 65", "at the word 5: 65, where --workers takes 1 to 64", "record"
    ),
    bad_words(
        "replay r --workers 03", "at the word 4: 03, where --workers takes 1 to 64", "replay"
    ),
    bad_words(
        "record m s --seed -1",
        "at the word 5: -1, where --seed takes 0 to 18446744073709551615",
        "record",
    ),
    bad_words("show r --cycle 0", "at the word 4: 0, where --cycle takes 1 to 1000000", "show"),
    bad_words("show r --reports --reports", "at the word 4: --reports", "show"),
    bad_words("show r --cycle", "a value is missing behind --cycle", "show"),
    bad_words("record m s --seed 1 --seed 2", "at the word 6: --seed", "record"),
    bad_words("sim 0 --workers 65", "at the word 4: 65, where --workers takes 1 to 64", "sim"),
    bad_words("show r --reports --cycle 1", "--reports and --cycle stand together", "show"),
    bad_words("show r --json --reports", "--reports and --json stand together", "show"),
    bad_words("show --reports --json r", "--reports and --json stand together", "show"),
    bad_words("show --json --reports r --cycle 1", "--reports and --cycle stand together", "show"),
    bad_words("show r --json --json", "at the word 4: --json", "show"),
    bad_words("show r --json 1", "at the word 4: 1", "show"),
    bad_words("show --json", "a name is missing behind show", "show"),
    bad_words("salvage r --json", "at the word 3: --json", "salvage"),
    bad_words("show r --force", "at the word 3: --force", "show"),
    bad_words("demo s --force --force", "at the word 3: --force", "demo"),
    bad_words("vote a b", "a name is missing behind vote", "vote"),
    bad_words("vote a b c d e f g h", "at the word 9: h", "vote"),
    bad_words("sim x", "at the word 2: x", "sim"),
    bad_words("help recrod", "at the word 2: recrod"),
    bad_words("recrod --help", "at the word 1: recrod"),
    bad_words("--version --help", "at the word 2: --help"),
    bad_words("show --help r", "at the word 2: --help", "show"),
    # 64 bytes of a word are shown.
    bad_words("show r " + "x" * 64, "at the word 3: " + "x" * 64, "show"),
    bad_words("show r " + "x" * 65, "at the word 3: " + "x" * 64 + "..", "show"),
    bad_words("show r \u00e9\x7f", "at the word 3: ???", "show"),
    bad_words("show \u00e9\x7f x", "at the word 3: x", "show"),
    bad_words("\u00e9\x7f", "at the word 1: ???"),
    case(
        "an empty word", [b"show", b""], 2, ["bad words", "at the word 2: ", "see det show --help"]
    ),
    case(
        "a blank in a word", [b"a b\nc"], 2, ["bad words", "at the word 1: a b?c", "see det --help"]
    ),
    case(
        "a word that isn't UTF-8",
        [b"show", b"a\xffb"],
        2,
        ["bad words", "at the word 2: a?b", "see det --help"],
    ),
]


def lane(words: str, hint: str) -> HintCase:
    err = ["bad words", hint, "see det_lane --help"]
    return case(f"det_lane {words}", words, 2, err, program="det_lane")


def twin(words: str, hint: str) -> HintCase:
    err = ["bad words", hint, "see det_twin --help"]
    return case(f"det_twin {words}", words, 2, err, program="det_twin")


PLACES = [
    lane("", "PROGRAM is missing"),
    lane("det", "COPIES is missing"),
    lane("det 2 m", "STIM is missing"),
    lane("det 1 m s", "at the word 2: 1, where COPIES takes 2 to 8"),
    lane("det two m s", "at the word 2: two, where COPIES takes 2 to 8"),
    lane("det 2 -m s", "at the word 3: -m"),
    lane("det 2 m s t", "at the word 5: t"),
    lane("--helpp", "at the word 1: --helpp"),
    lane("--timeout 5 det 2 m s", "at the word 1: --timeout"),
    lane("det 2 m s t --timeout 5", "at the word 5: t"),
    lane("det 2 m s --timeout", "a value is missing behind --timeout"),
    lane("det 2 m s --timeout 0", "at the word 6: 0, where --timeout takes 1 to 86400"),
    lane("det 2 m s --timeout 86401", "at the word 6: 86401, where --timeout takes 1 to 86400"),
    lane("det 2 m s --timeout --", "at the word 6: --, where --timeout takes 1 to 86400"),
    lane("det 2 m s --timeout 5 t", "at the word 7: t"),
    twin("", "COPIES is missing"),
    twin("9 m s", "at the word 1: 9, where COPIES takes 2 to 8"),
    twin("2 m", "STIM is missing"),
    twin("2 m s t", "at the word 4: t"),
    twin("2 m s --strict --strict", "at the word 5: --strict"),
    twin("2 m s --flip", "a copy is missing behind --flip"),
    twin("2 m s --flip 1", "a frame is missing behind --flip"),
    twin("2 m s --flip 2 0", "at the word 5: 2, where --flip takes 0 to 1"),
    twin(
        "2 m s --flip 0 4294967296", "at the word 6: 4294967296, where --flip takes 0 to 4294967295"
    ),
    twin("2 m s --flip 0 1 --flip", "at the word 7: --flip"),
    case(
        "a word of a lane that isn't UTF-8",
        [b"\xfe", b"2"],
        2,
        ["bad words", "at the word 1: ?", "see det_lane --help"],
        program="det_lane",
    ),
]
