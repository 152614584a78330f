"""Hints where an input can't be read or an output can't be written, of terminals and pipes."""

from __future__ import annotations

from det_record import Summary
from hint_inputs import BANK, EMPTY, FILES, HEADER, OPENING, WHOLE, To, case
from item_lines import report_text

FORCE = "standard output is a terminal: redirect it, or add --force"
ABSENT = "No such file or directory"
READS = [
    case("no record", "show r", 6, ["read fault", f"r: {ABSENT}"]),
    case("no manifest", "record m s", 6, ["read fault", f"m: {ABSENT}"]),
    case("no stimulus", "record m s", 6, ["read fault", f"s: {ABSENT}"], files={"m": BANK}),
    case("no second manifest", "chain m n s", 6, ["read fault", f"n: {ABSENT}"], files=FILES),
    case("no third copy", "compare r r q", 6, ["read fault", f"q: {ABSENT}"], files=FILES),
    case("a folder", "check .", 6, ["read fault", ".: Is a directory"]),
    case(
        "a file in the place of a folder",
        "show m/r",
        6,
        ["read fault", "m/r: Not a directory"],
        files=FILES,
    ),
    case(
        "no stimulus of twins",
        "2 m t",
        6,
        ["read fault", f"t: {ABSENT}"],
        files=FILES,
        program="det_twin",
    ),
    case(
        "no manifest of twins",
        "2 n t",
        6,
        ["read fault", f"n: {ABSENT}"],
        files=FILES,
        program="det_twin",
    ),
]

SPACE = "No space left on device"
WRITES = [
    case("a full device", "needs m", 7, ["write fault", SPACE], files=FILES, out_to=To.FULL),
    case(
        "a full device and a record",
        "replay r",
        7,
        ["write fault", SPACE],
        files=FILES,
        out_to=To.FULL,
    ),
    case(
        "a closed output",
        "needs m",
        7,
        ["write fault", "Bad file descriptor"],
        files=FILES,
        out_to=To.CLOSED,
    ),
    case("a pipe that nobody reads", "needs m", 7, ["write fault"], files=FILES, out_to=To.DEAF),
    case(
        "no room for a lane's help",
        "--help",
        7,
        ["write fault", SPACE],
        program="det_lane",
        out_to=To.FULL,
    ),
    case(
        "no room for twins",
        "2 m s",
        7,
        ["write fault", SPACE],
        files=FILES,
        program="det_twin",
        out_to=To.FULL,
    ),
    case("no room for the line itself", "show r", 6, [], err_to=To.FULL),
    case("no place for the line itself", "recrod", 2, [], err_to=To.CLOSED),
]

SHOWN = report_text(Summary())
REFUSED = ["write fault", FORCE]
TERMINALS = [
    case("a record on a terminal", "demo s", 7, REFUSED, files=FILES, out_to=To.TERMINAL),
    case("a forced record", "demo s --force", 0, [], EMPTY, FILES, out_to=To.TERMINAL),
    case(
        "a forced record of a manifest",
        "record m s --seed 0 --force",
        0,
        [],
        EMPTY,
        FILES,
        out_to=To.TERMINAL,
    ),
    case("a forced record in a pipe", "demo s --force", 0, [], EMPTY, FILES),
    case("a manifest's record", "record m s", 7, REFUSED, files=FILES, out_to=To.TERMINAL),
    case("a record run again", "replay r", 7, REFUSED, files=FILES, out_to=To.TERMINAL),
    case("an upgraded record", "upgrade r", 7, REFUSED, files=FILES, out_to=To.TERMINAL),
    case("a majority's record", "vote r r r", 7, REFUSED, files=FILES, out_to=To.TERMINAL),
    case("a saved record", "salvage r", 7, REFUSED, files=FILES, out_to=To.TERMINAL),
    case("a chain's record", "chain m m s", 7, REFUSED, files=FILES, out_to=To.TERMINAL),
    case("nothing is opened", "demo absent", 7, REFUSED, out_to=To.TERMINAL),
    case("the dissenters", "vote r r r --dissent", 0, [], b"agree 2\n", FILES, out_to=To.TERMINAL),
    case(
        "what is saved",
        "salvage e --reports",
        0,
        [],
        b"salvaged 0\n" + SHOWN,
        {"e": EMPTY},
        out_to=To.TERMINAL,
    ),
    case("reports", "show e --reports", 0, [], SHOWN, {"e": EMPTY}, out_to=To.TERMINAL),
    case(
        "bad words on a terminal",
        "demo",
        2,
        ["bad words", "a name is missing behind demo", "see det demo --help"],
        out_to=To.TERMINAL,
    ),
    case(
        "twins on a terminal", "2 m s", 0, [], b"agree 0\n", FILES, "det_twin", out_to=To.TERMINAL
    ),
]

# What isn't a regular file isn't read again.
PIPES = [
    case(
        "a torn record in a pipe",
        "show p --reports",
        5,
        ["bad record: copy 0 offset 50 truncated"],
        pipes={"p": WHOLE[:50]},
    ),
    case("a bad manifest in a pipe", "needs p", 3, ["bad manifest: not toml"], pipes={"p": b"="}),
    case(
        "a bad stimulus in a pipe",
        "demo p",
        4,
        ["bad stimulus: line 1"],
        HEADER + OPENING,
        pipes={"p": b"stim\n"},
    ),
    case("a device", "needs /dev/null", 3, ["bad manifest: missing job"]),
    case(
        "a bad manifest of twins in a pipe",
        "2 p s",
        3,
        ["bad manifest: not toml"],
        files=FILES,
        program="det_twin",
        pipes={"p": b"="},
    ),
]
