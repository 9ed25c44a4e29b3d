#!/usr/bin/env python3
"""Holds the built program to a second reading of its store, on stores that are drawn and then damaged.

usage: drawn_stores.py PROGRAM [--first SEED] [--count N]

PROGRAM is the built program (./stateflow builds it). A seed gives two stores that runs of one program left, and a few damages: bits are turned, a file is cut,
gets bytes at its end or is exchanged for one of the other store or for what it was before the last run, ranges are zeroed or doubled, numbers are written
anew. Then the program is run on the store, with all that stands committed there asked again, and some requests that are new. Its status and its line have to
be those of the second reading; where the store is taken each reply asked again has to be the one that is committed, and what is new or waited what the
program's methods give, one request after another in the order of the replies. Prints each difference, how many stores came to what, and at the end the sum.
The status is 0 where nothing differs."""
import collections
import json
import os
import random
import subprocess
import sys
import tempfile

from drawn import stores
from drawn.calls import printed, words_of
from drawn.stores import Bad, Core, Entity, OtherProgram, Request, run, stands_for

KEYS = ["a", "b", "é", "d d"]
NUMBERS = [0, 1, 2, 7, -3, 100, 2**63, 2**126, 2**127 - 1, -(2**127)]
TEXTS = ["", "x", "é\n", "long " * 9]
DAMAGES = [0, 1, 1, 1, 2, 3]


# Requests


def in_json(value):
    """How a value stands in a line and in a reply."""
    if isinstance(value, (list, tuple)):
        return [in_json(item) for item in value]
    if isinstance(value, Entity):
        return value.key
    is_wide = type(value) is int and not -(2**63) <= value < 2**63
    return str(value) if is_wide else value


def line_of(request):
    arguments = in_json(request.arguments)
    if request.key is None:
        return {"id": request.id, "class": "A", "new": arguments}
    return {"id": request.id, "class": "A", "key": request.key, "method": stores.METHODS[request.method], "args": arguments}


def reply_of(request, outcome, place):
    if outcome.failure is None:
        return {"id": request.id, "ok": in_json(outcome.value), "seq": place}
    return {"error": outcome.failure, "id": request.id, "message": outcome.message, "seq": place}


def drawn_request(chance, name):
    entity = Entity(0, chance.choice(KEYS))
    if chance.random() < 0.3:
        return Request(name, 0, None, None, (entity.key, chance.choice(NUMBERS)))
    method = chance.choice(stores.METHODS)
    drawn = {"int": chance.choice(NUMBERS), "str": chance.choice(TEXTS), "A": Entity(0, chance.choice(KEYS)), "A?": chance.choice([None, Entity(0, chance.choice(KEYS))])}
    return Request(name, 0, entity.key, stores.METHODS.index(method), tuple(drawn[kind] for kind in stores.PARAMETERS[method]))


# Runs


def given(requests, blanks=frozenset()):
    """Lines of requests, with an empty line behind some."""
    return "".join(printed(line_of(request)) + "\n" * (2 if place in blanks else 1) for place, request in enumerate(requests)).encode()


def ended(built, file, folder, batch, every, lines, history=1_000):
    words = [built, "run", file, "--store", folder, "--batch", str(batch), "--every", str(every), "--history", str(history)]
    return subprocess.run(words, input=lines, capture_output=True, check=False)


def read_files(folder):
    found = {}
    for name in stores.FILES:
        try:
            with open(os.path.join(folder, name), "rb") as file:
                found[name] = file.read()
        except FileNotFoundError:
            found[name] = b""
    return found


def drawn_store(built, file, chance, folder, mark):
    """What is in the files behind each of one or two drawn runs. A batch may carry some requests over, and a run whose history is full leaves them waiting."""
    os.mkdir(folder)
    left = []
    for number in range(chance.randint(1, 2)):
        requests = [drawn_request(chance, f"{mark}{number}{place}") for place in range(chance.randint(0, 12))]
        batch, every, history = chance.choice([1, 2, 3, 8]), chance.choice([1, 2, 5, 99]), chance.choice([4, 6, 8, 12, 99])
        call = ended(built, file, folder, batch, every, given(requests), history)
        if call.returncode not in (0, 10):
            sys.exit(f"drawn_stores: status {call.returncode}: {call.stderr.decode().strip()}")
        left.append(read_files(folder))
    return left


# Damages


def begin_of_body(content):
    """Where a slot's text ends, so that most damages don't fall into it."""
    return min(len(content), 1 + 8 + 8 + 4 + len(stores.PROGRAM)) if len(content) > len(stores.PROGRAM) else 0


def place_in(chance, content):
    if not content:
        return 0
    return chance.randrange(len(content)) if chance.random() < 0.3 else chance.randrange(begin_of_body(content) % len(content), len(content))


def turn_bit(chance, files, name, _):
    content = bytearray(files[name])
    if content:
        content[place_in(chance, content)] ^= 1 << chance.randrange(8)
    files[name] = bytes(content)


def write_number(chance, files, name, _):
    """Four bytes become a small number, or one of another place."""
    content = bytearray(files[name])
    at = place_in(chance, content)
    number = chance.choice([0, 1, 2, 3, 4, 5, 64, 255, 2**31, 2**32 - 1])
    content[at : at + 4] = number.to_bytes(4, "big")[: len(content) - at]
    files[name] = bytes(content)


def write_byte(chance, files, name, _):
    content = bytearray(files[name])
    if content:
        content[place_in(chance, content)] = chance.choice([0, 1, 2, 3, 4, 5, 6, 7, 9, 12, 13, 0xA5, 0xFF])
    files[name] = bytes(content)


def cut(chance, files, name, _):
    files[name] = files[name][: place_in(chance, files[name])]


def add(chance, files, name, _):
    files[name] += bytes(chance.choice([0, 0xA5, chance.randrange(256)]) for _ in range(chance.randint(1, 9)))


def zero(chance, files, name, _):
    content = bytearray(files[name])
    at = place_in(chance, content)
    much = min(chance.choice([1, 8, 64, 4096]), len(content) - at)
    content[at : at + much] = bytes(much)
    files[name] = bytes(content)


def double(chance, files, name, _):
    at = place_in(chance, files[name])
    end = at + chance.randint(1, 60)
    files[name] = files[name][:end] + files[name][at:]


def leave_out(chance, files, name, _):
    at = place_in(chance, files[name])
    files[name] = files[name][:at] + files[name][at + chance.randint(1, 60) :]


def exchange(chance, files, name, others):
    files[name] = others[name] if chance.random() < 0.7 else files[chance.choice(stores.FILES)]


def close_slot(chance, files, name, _):
    name = chance.choice(["snap0", "snap1"])
    files[name] = bytes([chance.randrange(256)]) + files[name][1:]


def step_number(chance, files, name, _):
    """A number of four bytes that is small becomes one more or less."""
    content = bytearray(files[name])
    small = [at for at in range(begin_of_body(content), len(content) - 3) if content[at : at + 3] == b"\0\0\0"]
    if small:
        at = chance.choice(small) + 3
        content[at] = (content[at] + chance.choice([-1, 1])) % 256
    files[name] = bytes(content)


def add_batch(chance, files, _, others):
    """A batch of this store's log, or of another one's, is put into the log."""
    to, source, kept = chance.choice(["log0", "log1"]), chance.choice(["log0", "log1"]), chance.choice([files, others])
    try:
        ends = [[at for at, _ in stores.batches(it, log)] for it, log in ((files, to), (kept, source))]
    except Bad:
        return
    if ends[1]:
        at, into = chance.choice(ends[1]), chance.choice([*ends[0], len(files[to]) if not ends[0] else ends[0][-1]])
        length = 5 + int.from_bytes(kept[source][at + 1 : at + 5], "big")
        files[to] = files[to][:into] + kept[source][at : at + length] + files[to][into:]


WAYS = [step_number] * 4 + [add_batch] * 3 + [turn_bit] * 4 + [write_byte] * 4 + [write_number] * 4 + [cut, cut, add, zero, double, leave_out, exchange, exchange, close_slot]


def damaged(chance, files, others):
    """others: the files of other stores, or of other moments of this one"""
    for _ in range(chance.choice(DAMAGES)):
        chance.choice(WAYS)(chance, files, chance.choice(stores.FILES), chance.choice(others))


# What is looked at


def expected(files):
    """The core that the store stands for, or none; the status and the line that it is opened with; and what it is in a word."""
    try:
        core = stands_for(files)
    except OtherProgram:
        return None, 7, "stateflow: the store holds another program", "another program"
    except Bad as bad:
        return None, 6, f"stateflow: bad store: {bad.file} at {bad.at}", f"bad: {bad.what}"
    return core, 0, "", "taken, and some wait" if core.pending else "taken"


def wrong_replies(core, asked, fresh, replies):
    """What is wrong with the replies to what is asked again and to what is new."""
    again = [reply_of(request, outcome, core.history.index((request, outcome)) + 1) for request, outcome in asked]
    by_id = {request.id: request for request in [*core.pending, *fresh]}
    found, others = [], []
    for line in replies:
        reply = json.loads(line)
        (others if reply.get("id") in by_id else found).append(line)
    wanted = [printed(reply) for reply in again]
    faults = [f"asked again: {one} where {other} is wanted" for one, other in zip(found, wanted) if one != other]
    if len(found) != len(wanted):
        faults.append(f"{len(found)} replies to what was asked again, {len(wanted)} are wanted")
    state = core.state
    for place, line in enumerate(others, len(core.history) + 1):
        request = by_id.pop(json.loads(line)["id"], None)
        if request is None:
            faults.append(f"answered twice: {line}")
            continue
        outcome, state = run(state, request)
        if line != printed(reply_of(request, outcome, place)):
            faults.append(f"{line} where {printed(reply_of(request, outcome, place))} is wanted")
    return faults + [f"no reply to {name}" for name in by_id]


def differences(built, file, seed, room):
    """What differs for a seed, and what its store is."""
    chance = random.Random(seed)
    (*before, files), (*_, other) = (drawn_store(built, file, chance, os.path.join(room, mark), mark) for mark in "xy")
    damaged(chance, files, [*before, other])
    folder = os.path.join(room, "damaged")
    os.mkdir(folder)
    for name, content in files.items():
        if content or chance.random() < 0.5:
            with open(os.path.join(folder, name), "wb") as out:
                out.write(content)
    core, status, line, what = expected(files)
    asked = list(core.history) if core else []
    chance.shuffle(asked)
    fresh = [drawn_request(chance, f"new{place}") for place in range(chance.randint(0, 4))]
    taken = {request.id for request, _ in asked} | {request.id for request in core.pending} if core else set()
    fresh = [request for request in fresh if request.id not in taken]
    call = ended(built, file, folder, chance.choice([1, 5, 256]), 7, given([request for request, _ in asked] + fresh))
    told = call.stderr.decode(errors="replace").rstrip("\n")
    if (call.returncode, told) != (status, line):
        return [f"status {call.returncode}, {told!r} where {status}, {line!r} is wanted"], what
    if core is None:
        return ([] if read_files(folder) == files else ["a store that was refused was written"]), what
    faults = wrong_replies(core, asked, fresh, call.stdout.decode().splitlines())
    behind = stands_for(read_files(folder))
    if behind.ids() and len(behind.history) != len(core.history) + len(core.pending) + len(fresh):
        faults.append(f"{len(behind.history)} entries are kept")
    return faults, what


def main():
    words = words_of(__doc__, {"count": 100})
    built, count, first = os.path.abspath(words.program), words.count, words.first
    came, differing = collections.Counter(), 0
    for seed in range(first, first + count):
        with tempfile.TemporaryDirectory() as room:
            file = os.path.join(room, "program.py")
            with open(file, "w", encoding="utf-8") as out:
                out.write(stores.PROGRAM)
            faults, what = differences(built, file, seed, room)
        came[what] += 1
        differing += bool(faults)
        for fault in faults:
            print(f"seed {seed}: {fault}")
    print(", ".join(f"{number} {name}" for name, number in sorted(came.items())))
    print(f"{differing} of {count} differ")
    return 1 if differing else 0


if __name__ == "__main__":
    sys.exit(main())
