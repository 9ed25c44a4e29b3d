#!/usr/bin/env python3
"""Kills a run on a store at random moments, opens it again with the same input, and looks for each reply line that had come out.

usage: kill_store.py PROGRAM [--kills N] [--requests N] [--seed N]

PROGRAM is the built program (./stateflow builds it). A round works on one folder: the run is killed by SIGKILL up to five times, at moments drawn
from the first half of the time that it takes, and then runs to its end. Each whole reply line that any of these runs wrote has to be written again, to the letter,
by the last one. Prints one line a round, and the sums at the end. The status is 0 where nothing was lost."""
import argparse
import json
import os
import random
import subprocess
import sys
import tempfile
import time

HERE = os.path.dirname(os.path.dirname(os.path.abspath(__file__)))
BANK = os.path.join(HERE, "examples", "bank", "bank.py")
ACCOUNTS = 20
KILLS_A_ROUND = 5


def request_lines(count, draw):
    """Creations of the accounts, and then transfers between them."""
    lines = [
        json.dumps({"id": f"n{i}", "class": "Account", "new": [f"a{i}", 100]})
        for i in range(ACCOUNTS)
    ]
    for i in range(count):
        source, target = draw.randrange(ACCOUNTS), draw.randrange(ACCOUNTS)
        call = {"id": f"t{i}", "class": "Account", "key": f"a{source}", "method": "give", "args": [draw.randint(1, 10), f"a{target}"]}
        lines.append(json.dumps(call))
    return "".join(line + "\n" for line in lines).encode()


def replies_in(output):
    """The whole reply lines, by their ids."""
    found = {}
    for line in output.split(b"\n")[:-1]:
        reply = json.loads(line)
        if "seq" in reply:
            found[reply["id"]] = line
    return found


def run(program, folder, given, seconds=None):
    """The output of a run, its status, and how long it took; it is killed after some seconds, where they are given."""
    words = [program, "run", BANK, "--batch", "8", "--every", "4", "--store", folder]
    begun = time.monotonic()
    # (to a file, since a pipe that nobody reads would stop the run once it is full)
    with open(given, "rb") as source, tempfile.TemporaryFile() as replies:
        process = subprocess.Popen(words, stdin=source, stdout=replies, stderr=subprocess.PIPE)
        if seconds is not None:
            time.sleep(seconds)
            process.kill()
        said = process.communicate()[1]
        took = time.monotonic() - begun
        replies.seek(0)
        output = replies.read()
    if process.returncode not in (0, -9):
        sys.exit(f"kill_store: status {process.returncode}: {said.decode().strip()}")
    return output, process.returncode, took


def a_round(program, given, draw, room):
    """Kills a run on a folder of its own, lets it end, and answers how often it was killed, how many lines were seen before, and which are lost."""
    whole = run(program, tempfile.mkdtemp(dir=room), given)[2]
    folder = tempfile.mkdtemp(dir=room)
    seen, killed = {}, 0
    for _ in range(KILLS_A_ROUND):
        output, status, _ = run(program, folder, given, draw.uniform(0, whole / 2))
        seen.update(replies_in(output))
        if status != -9:
            break
        killed += 1
    output, _, _ = run(program, folder, given)
    last = replies_in(output)
    return killed, len(seen), [line for id, line in seen.items() if last.get(id) != line]


def main():
    words = argparse.ArgumentParser()
    words.add_argument("program")
    words.add_argument("--kills", type=int, default=200)
    words.add_argument("--requests", type=int, default=2000)
    words.add_argument("--seed", type=int, default=1)
    asked = words.parse_args()
    draw = random.Random(asked.seed)
    program = os.path.abspath(asked.program)
    with tempfile.TemporaryDirectory() as room:
        given = os.path.join(room, "requests")
        with open(given, "wb") as it:
            it.write(request_lines(asked.requests, draw))
        kills, lines, lost, number = 0, 0, 0, 0
        while kills < asked.kills:
            killed, seen, missing = a_round(program, given, draw, room)
            kills, lines, lost, number = kills + killed, lines + seen, lost + len(missing), number + 1
            print(f"round {number}: {killed} kills, {seen} lines had come out, {len(missing)} lost", flush=True)
            for line in missing[:3]:
                print(f"  lost: {line.decode()}")
    print(f"{kills} kills in {number} rounds, {lines} reply lines had come out, {lost} lost")
    return 1 if lost else 0


if __name__ == "__main__":
    sys.exit(main())
