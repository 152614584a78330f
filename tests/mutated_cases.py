"""Cases made of changed inputs: the words of a program, and the files that they name."""

import random
from dataclasses import replace
from typing import Callable, Dict, List, Sequence

from both_programs import PROGRAM
from commands import Case
from mutated_inputs import (
    FreeRecord,
    Profile,
    long_record,
    long_stimulus,
    manifest_of,
    profile,
    stimulus_of,
    stimulus_of_length,
)
from mutated_words import COMMAND_WORDS, OF_MANIFESTS, OF_STIMULI
from mutations import changed_record, changed_text, changed_words, in_first_format
from toml_texts import TomlText

GENUINE = 60
LARGE_WORDS = (
    ["show", "r0", "--reports"],
    ["show", "r0", "--cycle", "1000000"],
    ["salvage", "r0", "--reports"],
    ["vote", "r0", "r0", "r0"],
)
# Records a stimulus, given the manifest and the stimulus.
Recorder = Callable[[bytes, bytes], bytes]


def case_from(words: List[str], files: Dict[str, bytes]) -> Case:
    """A case whose outcome is that of the plain program."""
    return Case(" ".join(words), list(words), files=files)


class Cases:
    """Makes cases, each from the seed and its number only."""

    def __init__(self, seed: str, recorder: Recorder) -> None:
        self.seed = seed
        self.genuine = [self.genuine_record(number, recorder) for number in range(GENUINE)]

    def genuine_record(self, number: int, recorder: Recorder) -> bytes:
        choose = random.Random(f"genuine {number}")
        given = profile(choose)
        stimulus = stimulus_of(choose, len(given.events))
        record = recorder(manifest_of(choose, given), stimulus)
        is_fresh = any(policy == "fresh" for _, _, policy in given.events)
        return in_first_format(record) if number % 3 == 0 and not is_fresh else record

    def record(self, choose: random.Random) -> bytes:
        if choose.random() < 0.3:
            return FreeRecord(choose).record()
        return choose.choice(self.genuine)

    def change_some(self, choose: random.Random, data: bytes, share: float) -> bytes:
        return changed_record(choose, data) if choose.random() < share else data

    def record_options(self, choose: random.Random, word: str) -> Sequence[str]:
        if word == "show":
            cycle = choose.choice(("1", "2", "3", "1000000"))
            return choose.choice(((), ("--reports",), ("--cycle", cycle)))
        if word == "salvage":
            return choose.choice(((), ("--reports",)))
        return ("--workers", choose.choice(("1", "2", "5"))) if choose.random() < 0.3 else ()

    def one_record(self, choose: random.Random) -> Case:
        data = self.change_some(choose, self.record(choose), 0.97)
        word = choose.choice(("show", "show", "replay", "check", "check", "upgrade", "salvage"))
        return case_from(["det", word, "r0", *self.record_options(choose, word)], {"r0": data})

    def copies(self, choose: random.Random) -> Case:
        word, counts = choose.choice((("compare", (2, 2, 3, 8)), ("vote", (3, 3, 4, 5, 7))))
        good, share = self.record(choose), choose.choice((0.1, 0.3, 0.6))
        other, files = changed_record(choose, good), {}
        for copy in range(choose.choice(counts)):
            one = self.change_some(choose, good, share / 2)
            files[f"r{copy}"] = other if choose.random() < share else one
        options = ["--dissent"] if word == "vote" and choose.random() < 0.5 else []
        return case_from(["det", word, *files, *options], files)

    def run_options(self, choose: random.Random) -> List[str]:
        options = ["--workers", choose.choice(("1", "1", "2", "3"))]
        if choose.random() < 0.3:
            options += ["--seed", choose.choice(("0", "1", "7", "18446744073709551615"))]
        return options

    def strict(self, choose: random.Random) -> List[str]:
        return ["--strict"] if choose.random() < 0.5 else []

    def manifest(self, choose: random.Random) -> Case:
        given = profile(choose)
        data = manifest_of(choose, given)
        if choose.random() < 0.02:
            data += b"#" * (65_536 - len(data) - 2 + choose.randrange(4)) + b"\n"
        data = changed_text(choose, data, OF_MANIFESTS)
        if choose.random() < 0.7:
            return case_from(["det", "needs", "m0", *self.strict(choose)], {"m0": data})
        files = {"m0": data, "s": stimulus_of(choose, len(given.events))}
        words = ["det", "record", "m0", "s", *self.strict(choose), *self.run_options(choose)]
        return case_from(words, files)

    def toml(self, choose: random.Random) -> Case:
        return case_from(
            ["det", "needs", "m0", *self.strict(choose)], {"m0": TomlText(choose).text()}
        )

    def stimulus(self, choose: random.Random) -> Case:
        given = profile(choose)
        data = changed_text(choose, stimulus_of(choose, len(given.events)), OF_STIMULI)
        if given.events and choose.random() < 0.01:
            samples = b"sample 0 1\n" * choose.choice((4095, 4096, 4097))
            data = b"stim 1\ncycle -\n" + samples + data[len(b"stim 1\n") :]
        way = choose.random()
        if way < 0.2:
            return case_from(["det", "demo", "s"], {"s": data})
        files = {"m0": manifest_of(choose, given), "s": data}
        if way < 0.6:
            return case_from(["det", "record", "m0", "s", *self.run_options(choose)], files)
        if way < 0.8:
            return self.running_copies(choose, files)
        files["m1"] = manifest_of(choose, profile(choose))
        return case_from(["det", "chain", "m0", "m1", "s", *self.run_options(choose)], files)

    def running_copies(self, choose: random.Random, files: Dict[str, bytes]) -> Case:
        """Copies that run now."""
        copies = choose.choice((2, 2, 3, 8))
        if choose.random() < 0.2:
            return case_from(["det_lane", PROGRAM, str(copies), "m0", "s"], files)
        words = ["det_twin", str(copies), "m0", "s"]
        if choose.random() < 0.6:
            frame = choose.choice(("0", "2", "3", "3", "4", "5", "4294967295"))
            words += ["--flip", str(choose.randrange(copies)), frame]
        return case_from(words, files)

    def chain(self, choose: random.Random) -> Case:
        """Two clients, of which one manifest may be changed, or the stimulus."""
        one, two = profile(choose), profile(choose)
        files = {"m0": manifest_of(choose, one), "m1": manifest_of(choose, two)}
        files["s"] = stimulus_of(choose, len(one.events))
        changed = choose.choice(("m0", "m1", "s", ""))
        if changed:
            others = OF_STIMULI if changed == "s" else OF_MANIFESTS
            files[changed] = changed_text(choose, files[changed], others)
        words = ["det", "chain", "m0", "m1", "s"]
        return case_from([*words, *self.strict(choose), *self.run_options(choose)], files)

    def words(self, choose: random.Random) -> Case:
        """The words of a case changed, but not its program."""
        ways = (self.one_record, self.copies, self.manifest, self.stimulus, self.chain)
        case = choose.choice(ways)(choose)
        if case.words[0] != "det_lane":
            words = [str(word) for word in case.words[1:]]
            changed = changed_words(choose, words, COMMAND_WORDS)
            return replace(case, words=[case.words[0], *changed])
        return case

    def large(self, choose: random.Random) -> Case:
        """A case with as many cycles, events or held bytes as there may be, or one more."""
        way = choose.randrange(4)
        if way == 0:
            return case_from(["det", *choose.choice(LARGE_WORDS)], {"r0": long_record(choose)})
        if way == 1:
            return case_from(["det", "demo", "s"], {"s": long_stimulus(choose)})
        if way == 2:
            events = [(f"e{event}", 1, "") for event in range(choose.choice((256, 257)))]
            manifest = manifest_of(choose, Profile("bank", [4, 2], events))
            return case_from(["det", "needs", "m0"], {"m0": manifest})
        text = stimulus_of_length(choose.choice((1 << 20, (1 << 20) + 1)))
        manifest = manifest_of(choose, Profile("bank", [4, 2], [("x", 1, "")]))
        return case_from(["det_twin", "2", "m0", "s"], {"m0": manifest, "s": text})

    def case(self, number: int) -> Case:
        choose = random.Random(f"{self.seed}/{number}")
        if choose.random() < 0.001:
            return self.large(choose)
        twice = (self.one_record, self.manifest)
        once = (self.copies, self.toml, self.stimulus, self.chain, self.words)
        return choose.choice((*twice, *twice, *once))(choose)
