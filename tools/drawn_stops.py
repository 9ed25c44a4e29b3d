#!/usr/bin/env python3
"""Stops drawn runs on a store behind each of their calls, and opens what the stop may leave.

usage: drawn_stops.py PROGRAM [--first SEED] [--count N] [--images N]

PROGRAM is the built program (./stateflow builds it); strace has to be there. A seed gives a run on a new store, or on one that another run left. strace tells what
it wrote into the files of the store, which of them it made safe, and what it printed. Behind each of these calls `--images` images are drawn of what a stop there may leave: of a
file that was written since it was made safe any length from its safe end to the written one, and in the written ranges any bytes. Each image has to stand
for a history by the second reading of a store, in which each reply line stands that was printed whole. Then the program is run on the image, with all
requests asked again: it has to end with 0, to write each of these lines again, and to answer the others as the program's methods do, one request after
another in the order of the replies. Prints each fault, and the sums at the end. The status is 0 where there is none."""
import collections
import json
import os
import random
import sys
import tempfile

from drawn import stores
from drawn.calls import printed, words_of
from drawn.stops import Disk, Print, traced
from drawn_stores import drawn_request, ended, expected, given, read_files, reply_of, wrong_replies


def whole_replies(text):
    """The whole reply lines to requests that are committed."""
    return [line for line in text.decode().split("\n")[:-1] if "seq" in json.loads(line)]


def write_files(folder, files):
    os.mkdir(folder)
    for name, content in files.items():
        with open(os.path.join(folder, name), "wb") as out:
            out.write(content)


class Run:
    """A drawn run on a store: what it was asked, and the calls that it made."""

    def __init__(self, built, chance, room):
        self.built, self.room, self.images = built, room, 0
        self.file = os.path.join(room, "program.py")
        with open(self.file, "w", encoding="utf-8") as out:
            out.write(stores.PROGRAM)
        folder = os.path.join(room, "stopped")
        os.mkdir(folder)
        self.requests = []
        if chance.random() < 0.5:
            self.requests += self.drawn(chance, "before")
            ended(built, self.file, folder, chance.choice([1, 2, 3]), chance.choice([1, 2, 99]), given(self.requests))
        self.found = read_files(folder)
        asked = self.drawn(chance, "asked")
        self.requests += asked
        words = ["--store", folder, "--batch", str(chance.choice([1, 2, 3, 8])), "--every", str(chance.choice([1, 2, 3, 99]))]
        self.calls, call = traced([built, "run", self.file, *words], given(asked), os.path.join(room, "trace"))
        if call.returncode != 0:
            sys.exit(f"drawn_stops: status {call.returncode}: {call.stderr.decode().strip()}")

    @staticmethod
    def drawn(chance, mark):
        return [drawn_request(chance, f"{mark}{place}") for place in range(chance.randint(0, 10))]

    def faults_of(self, files, lines):
        """What is wrong with an image, behind these reply lines."""
        core, status, line, _ = expected(files)
        if status != 0:
            return [f"the image stands for nothing: {line}"]
        kept = [printed(reply_of(request, outcome, place)) for place, (request, outcome) in enumerate(core.history, 1)]
        lost = [f"lost: {line}" for line in lines if line not in kept]
        return lost or self.faults_of_run(files, core, lines)

    def faults_of_run(self, files, core, lines):
        """What is wrong with a run on an image."""
        self.images += 1
        folder = os.path.join(self.room, f"image{self.images}")
        write_files(folder, files)
        asked = [request for request, _ in core.history]
        known = {*core.ids()}
        fresh = [request for request in self.requests if request.id not in known]
        call = ended(self.built, self.file, folder, 3, 2, given([*asked, *fresh]))
        if call.returncode != 0:
            return [f"status {call.returncode}: {call.stderr.decode(errors='replace').strip()}"]
        replies = call.stdout.decode().splitlines()
        return [f"not written again: {line}" for line in lines if line not in replies] + wrong_replies(core, core.history, fresh, replies)


def faults_of(built, seed, images, room):
    """The moments of a seed's run, how many different images were looked at, and their faults."""
    chance = random.Random(seed)
    run = Run(built, chance, room)
    disk, text, faults, moments = Disk(run.found), b"", [], 0
    for call in [None, *run.calls]:
        moments += 1
        disk.take(call)
        if isinstance(call, Print):
            text += call.content
        drawn = [disk.left(chance) for _ in range(images)]
        for image in {tuple(image.items()) for image in drawn}:
            faults += [f"behind call {moments - 1}: {fault}" for fault in run.faults_of(dict(image), whole_replies(text))]
    return moments, run.images, faults


def main():
    words = words_of(__doc__, {"count": 20, "images": 4})
    built = os.path.abspath(words.program)
    sums = collections.Counter()
    for seed in range(words.first, words.first + words.count):
        with tempfile.TemporaryDirectory() as room:
            moments, images, faults = faults_of(built, seed, words.images, room)
        sums.update(moments=moments, images=images, faults=len(faults))
        for fault in faults:
            print(f"seed {seed}: {fault}", flush=True)
    print(f"{words.count} runs, {sums['moments']} moments, {sums['images']} images, {sums['faults']} faults")
    return 1 if sums["faults"] else 0


if __name__ == "__main__":
    sys.exit(main())
