#!/usr/bin/env python3
"""Starts a second run on a folder that has one, and a run on a folder whose run was killed.

usage: second_run.py PROGRAM

PROGRAM is the built program (./stateflow builds it). While a run is served on a folder, another one on it has to end with status 5, to write nothing but
the line of a disk fault, and to change no byte of the folder; the first one goes on and ends with 0. A run that is killed by SIGKILL gives the folder up with
its process: the next one is served at once, answers again what had been answered, and runs what came since. Prints one line a case. The status is 0
where each is as it has to be."""
import os
import subprocess
import sys
import tempfile

HERE = os.path.dirname(os.path.dirname(os.path.abspath(__file__)))
COUNTER = os.path.join(HERE, "examples", "counter", "counter.py")
DISK_FAULT = b"stateflow: disk fault\n"
CREATION = b'{"id":"a","class":"Counter","new":["x",3]}\n'
CREATED = b'{"id":"a","ok":"x","seq":1}\n'
FIRST = b'{"id":"b","class":"Counter","key":"x","method":"add","args":[4]}\n'
FIRST_REPLY = b'{"id":"b","ok":7,"seq":2}\n'
SECOND = b'{"id":"c","class":"Counter","key":"x","method":"add","args":[5]}\n'
SECOND_REPLY = b'{"id":"c","ok":12,"seq":3}\n'
SECONDS = 30


def start(program, folder):
    """A run on the folder, whose input stays open."""
    words = [program, "run", COUNTER, "--batch", "1", "--store", folder]
    return subprocess.Popen(words, stdin=subprocess.PIPE, stdout=subprocess.PIPE, stderr=subprocess.PIPE)


def ask(process, line):
    """The line that a run answers to this one."""
    process.stdin.write(line)
    process.stdin.flush()
    return process.stdout.readline()


def end(process, lines=b""):
    """The status of a run that is given its last lines, and what it wrote since."""
    out, err = process.communicate(lines, timeout=SECONDS)
    return process.returncode, out, err


def held(folder):
    """The bytes of each file of the folder."""
    found = {}
    for name in sorted(os.listdir(folder)):
        with open(os.path.join(folder, name), "rb") as file:
            found[name] = file.read()
    return found


def second_is_refused(program, folder):
    """A run, another one on its folder, and the first one again."""
    first = start(program, folder)
    yield "the first run serves", ask(first, CREATION), CREATED
    before = held(folder)
    for count in ("a second", "a third"):
        yield f"{count} run is refused", end(start(program, folder), CREATION), (5, b"", DISK_FAULT)
    yield "no byte of the folder has changed", held(folder), before
    yield "the first run goes on", ask(first, FIRST), FIRST_REPLY
    yield "the first run ends", end(first), (0, b"", b"")
    yield "the next run goes on from there", end(start(program, folder), CREATION + FIRST), (0, CREATED + FIRST_REPLY, b"")


def killed_gives_up(program, folder):
    """A run that is killed while it waits for its input, and the next one."""
    first = start(program, folder)
    yield "a run serves", ask(first, CREATION), CREATED
    yield "it has the folder", end(start(program, folder)), (5, b"", DISK_FAULT)
    first.kill()
    yield "it is killed", first.wait(SECONDS), -9
    first.communicate()
    lines = CREATION + FIRST + SECOND
    yield "the next run serves at once", end(start(program, folder), lines), (0, CREATED + FIRST_REPLY + SECOND_REPLY, b"")


def main():
    if len(sys.argv) != 2:
        sys.exit(__doc__)
    program = os.path.abspath(sys.argv[1])
    failed = 0
    for case in (second_is_refused, killed_gives_up):
        with tempfile.TemporaryDirectory() as folder:
            for label, found, wanted in case(program, folder):
                if found == wanted:
                    print(f"ok: {label}")
                else:
                    failed = 1
                    print(f"FAILED: {label}: {found!r}, wanted {wanted!r}")
    return failed


if __name__ == "__main__":
    sys.exit(main())
