#!/usr/bin/env python3
"""Holds the built program to a second reading of the language, on programs and requests that are drawn.

usage: drawn_programs.py PROGRAM [--first SEED] [--count N] [--spoiled PERCENT] [--served PERCENT]

PROGRAM is the built program (./stateflow builds it). A seed gives a program. `--spoiled` says how many of a hundred are spoiled: in their text, or in
that of a program of the repository, words are left out, doubled and replaced. `check` has to print of each the line that `python3 -m stateflow check --like-program` gives, without a process of
its own. Of the accepted ones that aren't spoiled `--served` of a hundred are served requests by `local`, by `run --batch 1` and by runs in batches, and each reply has to
be the one that the classes give in plain Python, where they act as in a test, to the letter, where the requests run one after another in the order of the
replies. Prints each difference, and the sums at the end. The status is 0 where there is none."""
import collections
import json
import os
import random
import sys
import tempfile

from drawn.calls import ended, printed, replies, words_of
from drawn import plain
from drawn.programs import Drawer, Undrawn
from drawn.requests import drawn_requests
from drawn.spoiled import samples, spoiled
from stateflow.check import like_program
from stateflow.language.program import read

NOISES = [0, 0, 0.003, 0.01, 0.03, 0.1]
DEEPEST_STACK = 20_000  # frames of CPython that the deepest request may take
COUNTS = [10, 40, 100]
SAMPLES = samples()
RUNS = [["local"], ["run", "--batch", "1"], ["run", "--batch", "7", "--partitions", "3"], ["run", "--batch", "256", "--partitions", "64"], ["run", "--batch", "32", "--reorder"]]


class Folder:
    """A program in a folder, and what the built program says of it."""

    def __init__(self, built, folder, seed, content):
        self.built, self.name = built, f"drawn_{seed}"
        self.file = os.path.join(folder, f"{self.name}.py")
        with open(self.file, "wb") as out:
            out.write(content)

    def check(self):
        """The line that `check` prints."""
        call = ended(self.built, self.file, ["check"])
        return (call.stdout + call.stderr).decode().rstrip("\n")

    def replies(self, words, lines):
        return replies(self.built, self.file, words, lines)


def in_order(requests, answers):
    """The requests in the order in which they were answered, and then those that weren't."""
    by_id = {request["id"]: request for request in requests}
    order = [by_id.pop(json.loads(line).get("id"), None) for line in answers if line.startswith("{")]
    return list(filter(None, [*order, *by_id.values()]))


def differences(program, requests):
    """What each kind of run answers otherwise than it should."""
    lines = "".join(printed(drawn.line) + "\n" for drawn in requests).encode()
    values = [drawn.request for drawn in requests]
    with plain.module_of(program.file, program.name) as module:
        one_by_one = plain.replies(module, values)
        for words in RUNS:
            answers = program.replies(words, lines)
            order = in_order(values, answers)
            wanted = list(map(printed, one_by_one if order == values else plain.replies(module, order)))
            if answers != wanted:
                found = next((pair for pair in zip(answers, wanted) if pair[0] != pair[1]), (len(answers), len(wanted)))
                yield f"{' '.join(words)}: {found[0]}, and not {found[1]}"


def looked_at(given, seed, folder):
    """What a seed's program comes to, and the differences."""
    chance = random.Random(seed)
    drawer = Drawer(seed, chance.choice(NOISES))
    is_spoiled, is_served = chance.random() * 100 < given.spoiled, chance.random() * 100 < given.served
    try:
        text = chance.choice(SAMPLES) if is_spoiled and chance.random() < 0.5 else drawer.program()
    except Undrawn:
        return "not drawn", []
    content = spoiled(text, chance) if is_spoiled else text.encode()
    program = Folder(given.program, folder, seed, content)
    reading = read(content)
    told, wanted = program.check(), like_program(program.file, reading)
    found = [] if told == wanted else [f"check: {told}, and not {wanted}"]
    if not found and not reading.faults and not is_spoiled and is_served:
        found = list(differences(program, list(drawn_requests(drawer, drawer.one_of(COUNTS)))))
    if not found:
        os.remove(program.file)
    return reading.faults[0].kind if reading.faults else "served" if is_served and not is_spoiled else "accepted", found


def main():
    given = words_of(__doc__, {"count": 200, "spoiled": 0, "served": 100})
    sys.setrecursionlimit(DEEPEST_STACK)
    ends, wrong = collections.Counter(), 0
    with tempfile.TemporaryDirectory() as folder:
        for seed in range(given.first, given.first + given.count):
            end, found = looked_at(given, seed, folder)
            ends[end] += 1
            wrong += bool(found)
            for difference in found:
                print(f"seed {seed}: {difference}", flush=True)
    print(", ".join(f"{count} {end}" for end, count in sorted(ends.items())))
    print(f"{wrong} of {given.count} differ")
    return 1 if wrong else 0


if __name__ == "__main__":
    sys.exit(main())
