"""All cases of hints: words and files that the programs refuse, with the status, the output and the
hints expected."""

from __future__ import annotations

from hint_records import DIFFERENCES, RECORDS
from hint_streams import PIPES, READS, TERMINALS, WRITES
from hint_texts import MANIFESTS, STIMULI
from hint_words import PLACES, WORDS

CASES = [*PIPES, *WORDS, *PLACES, *READS, *WRITES, *STIMULI, *MANIFESTS, *RECORDS, *DIFFERENCES]
CASES += TERMINALS
