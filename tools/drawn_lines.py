#!/usr/bin/env python3
"""Holds the built program to a second reading of request lines, on lines that are drawn.

usage: drawn_lines.py PROGRAM [--first SEED] [--count N] [--lines N]

PROGRAM is the built program (./stateflow builds it). A seed gives lines, good and bad ones. What `local` and `run --batch 1` answer has to be, to the
letter, what `drawn/lines.py` gives. Prints the first difference of each seed, and the sums at the end. The status is 0 where there is none."""
import collections
import itertools
import json
import os
import random
import sys
import tempfile

from drawn.calls import replies, words_of
from drawn.lines import PROGRAM, LineDrawer, Session

RUNS = [["local"], ["run", "--batch", "1"]]


def kind_of(answer):
    told = json.loads(answer)
    return told.get("bad") or told.get("error") or "ok"


def main():
    given = words_of(__doc__, {"count": 20, "lines": 3000})
    kinds, wrong = collections.Counter(), 0
    with tempfile.TemporaryDirectory() as folder:
        file = os.path.join(folder, "lines.py")
        with open(file, "w", encoding="utf-8") as out:
            out.write(PROGRAM)
        for seed in range(given.first, given.first + given.count):
            drawer = LineDrawer(random.Random(seed))
            lines = [drawer.line(number) for number in range(given.lines)]
            wanted = list(Session().answers(lines))
            kinds.update(map(kind_of, wanted))
            for words in RUNS:
                told = replies(given.program, file, words, b"".join(line + b"\n" for line in lines))
                if told != wanted:
                    wrong += 1
                    pairs = itertools.zip_longest(told, wanted)
                    print(f"seed {seed}, {' '.join(words)}: {next(pair for pair in pairs if pair[0] != pair[1])}", flush=True)
    print(", ".join(f"{count} {kind}" for kind, count in sorted(kinds.items())))
    print(f"{wrong} runs differ")
    return 1 if wrong else 0


if __name__ == "__main__":
    sys.exit(main())
