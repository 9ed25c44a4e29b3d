#!/usr/bin/env python3
"""Exports drawn runs, audits what was exported, and audits it again with one byte of a reply changed.

usage: audited_runs.py PROGRAM [--first SEED] [--count N] [--requests N] [--changes N]

PROGRAM is the built program (./stateflow builds it). A seed gives a run of so many drawn requests on a new store. What `export` writes has to be, in the
order of the replies, the line of each request with its keys in order and the reply line that the run wrote. `audit` has to find it serial. Then one byte of
one reply line is changed, its line end included, so many times: each time `audit` has to name that entry, with the line that is wanted and the one that stands there.
Prints each fault, and the sums at the end. The status is 0 where there is none."""
import dataclasses
import json
import os
import random
import subprocess
import sys
import tempfile

from drawn import stores
from drawn.calls import printed, words_of
from drawn.stores import Entity
from drawn_stores import drawn_request, given, in_json, line_of

SEVERAL = 40  # requests an entity, so that lists stay short


def moved(chance, request, keys):
    """The request, on other entities of the same class."""

    def other(value):
        return Entity(0, chance.choice(keys)) if isinstance(value, Entity) else value

    if request.key is None:
        return dataclasses.replace(request, arguments=(chance.choice(keys), *request.arguments[1:]))
    return dataclasses.replace(request, key=chance.choice(keys), arguments=tuple(map(other, request.arguments)))


def drawn_requests(chance, count):
    keys = [f"k{place}" for place in range(1 + count // SEVERAL)] + ["é", "d d"]
    return [moved(chance, drawn_request(chance, f"r{place}"), keys) for place in range(count)]


def exported(request):
    """The line of a request as `export` writes it: an int is a text where it fits 64 bits neither with a sign nor without."""
    numbers = [value if type(value) is int and -(2**63) <= value < 2**64 else in_json(value) for value in request.arguments]
    line = line_of(request)
    line["args" if "args" in line else "new"] = numbers
    return printed(dict(sorted(line.items()))).encode()


def lines_in(content):
    """The lines of a file: a CR directly before LF is dropped, and what stands behind the last LF is one more where it isn't empty."""
    *whole, last = content.split(b"\n")
    return [line.removesuffix(b"\r") for line in whole] + [last] * bool(last)


class Run:
    """A drawn run on a new store, and what the built program makes of it."""

    def __init__(self, built, room, seed, count):
        self.built, self.room, self.chance = built, room, random.Random(seed)
        self.file, self.exported = os.path.join(room, "program.py"), os.path.join(room, "exported")
        with open(self.file, "w", encoding="utf-8") as out:
            out.write(stores.PROGRAM)
        self.requests = drawn_requests(self.chance, count)

    def call(self, words, lines=b""):
        return subprocess.run([self.built, *words], input=lines, capture_output=True, check=False)

    def replies(self):
        """The replies of the run, by their places."""
        folder = os.path.join(self.room, "store")
        os.mkdir(folder)
        call = self.call(["run", self.file, "--store", folder, "--history", str(len(self.requests))], given(self.requests))
        if call.returncode != 0:
            sys.exit(f"audited_runs: the run ended with {call.returncode}: {call.stderr.decode().strip()}")
        return {json.loads(line)["seq"]: line for line in call.stdout.splitlines()}

    def wanted(self, replies):
        """What `export` has to write."""
        asked = {request.id: request for request in self.requests}
        for _, reply in sorted(replies.items()):
            yield exported(asked[json.loads(reply)["id"]])
            yield reply

    def faults_of_export(self):
        lines = list(self.wanted(self.replies()))
        call = self.call(["export", self.file, "--store", os.path.join(self.room, "store")])
        self.write(call.stdout)
        found = call.stdout.splitlines()
        if call.returncode != 0 or call.stdout[-1:] != b"\n" or len(found) != len(lines):
            return [f"export ended with {call.returncode} {call.stderr!r} and wrote {len(found)} lines, and {len(lines)} are wanted"]
        return [f"export: line {place}: {line!r}, and {want!r} is wanted" for place, (line, want) in enumerate(zip(found, lines), 1) if line != want]

    def write(self, content):
        with open(self.exported, "wb") as out:
            out.write(content)

    def audited(self):
        call = self.call(["audit", self.file, self.exported])
        return call.returncode, call.stdout, call.stderr

    def faults_of_audit(self):
        wanted = 0, f"serial: {len(self.requests)} entries\n".encode(), b""
        told = self.audited()
        return [] if told == wanted else [f"audit: {told}, and {wanted} is wanted"]

    def faults_of_change(self, lines):
        """What is wrong with the audit of these lines with one byte of a reply changed."""
        entry = self.chance.randrange(len(lines) // 2)
        reply = lines[2 * entry + 1] + b"\n"
        place = self.chance.randrange(len(reply))
        byte = self.chance.choice([other for other in range(256) if other != reply[place]])
        changed = reply[:place] + bytes([byte]) + reply[place + 1 :]
        front, behind = (b"".join(line + b"\n" for line in part) for part in (lines[: 2 * entry + 1], lines[2 * entry + 2 :]))
        self.write(front + changed + behind)
        found = lines_in(changed + behind)[0]
        name = f"entry {entry + 1}".encode()
        wanted = 13, name + b" expected: " + reply + name + b" found: " + found + b"\n", b"stateflow: not serial: " + name + b"\n"
        told = self.audited()
        return [] if told == wanted else [f"byte {place} of reply {entry + 1} made {byte}: {told}, and {wanted} is wanted"]

    def faults_of_changes(self, count):
        with open(self.exported, "rb") as file:
            lines = file.read().splitlines() if count else []
        return [fault for _ in range(count) for fault in self.faults_of_change(lines)]


def main():
    words = words_of(__doc__, {"count": 1, "requests": 1_000, "changes": 50})
    faults = 0
    for seed in range(words.first, words.first + words.count):
        with tempfile.TemporaryDirectory() as room:
            run = Run(os.path.abspath(words.program), room, seed, words.requests)
            found = run.faults_of_export() or run.faults_of_audit() or run.faults_of_changes(words.changes)
        faults += len(found)
        for fault in found[:20]:
            print(f"seed {seed}: {fault}", flush=True)
    print(f"{words.count} runs of {words.requests} requests, {words.count * words.changes} changed replies, {faults} faults")
    return 1 if faults else 0


if __name__ == "__main__":
    sys.exit(main())
