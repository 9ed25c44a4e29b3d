#!/usr/bin/env python3
"""Runs sessions with each growth of the program's memory refused in turn, and with each sync of their files.

usage: growth_of_a_run.py PROGRAM [--step N]

PROGRAM is the built program (./stateflow builds it), which takes its memory from the C library; `refuse_calls.c` beside this file is built with cc and
stands before that. The sessions are the shop's: one without a store and with a trace, two on a store, of one request and of batches with checkpoints, an
export of such a store, and an audit of what that wrote. For each number of a growth there are two calls on folders of their own: one where that growth alone
is refused, and one where all behind it are too. Each has to end with status 8, or with 0 where the program does without. Each refused sync has to end with status 5, and no batch's lines come without a sync before them.
What was written has to be whole lines, the first ones of the whole run's output, and so has the trace; and the next run on the folder has to end with 0 and to
write each of the lines again. Prints how many calls ended how. With --step only each Nth growth is tried."""
import argparse
import collections
import os
import subprocess
import sys
import tempfile

TOOLS = os.path.dirname(os.path.abspath(__file__))
SHOP = os.path.join(os.path.dirname(TOOLS), "examples", "shop")
SECONDS = 60

Kind = collections.namedtuple("Kind", "name setting statuses line")
GROWTH = Kind("growth", {}, (0, 8), b"stateflow: out of memory\n")
SYNC = Kind("sync", {"REFUSED_SYNCS": "1"}, (5,), b"stateflow: disk fault\n")

Sitting = collections.namedtuple("Sitting", "name command batch words requests is_stored")
SITTINGS = [
    Sitting("a session without a store", "run", 1, ["--batch", "1", "--trace"], 8, False),
    Sitting("one request on a store", "run", 1, ["--batch", "1"], 1, True),
    Sitting("batches and checkpoints on a store", "run", 2, ["--batch", "2", "--every", "2"], 8, True),
    Sitting("an export of a store", "export", 2, ["--batch", "2", "--every", "2"], 8, True),
    Sitting("an audit of an export", "audit", 2, ["--batch", "2", "--every", "2"], 8, True),
]


class Session:
    """A sitting of the shop on folders in a room, by a program whose calls of one kind may be refused."""

    def __init__(self, program, room, kind, sitting):
        self.program, self.room, self.kind, self.sitting, self.folders = program, room, kind, sitting, 0
        self.shim, self.count = os.path.join(room, "refuse_calls.so"), os.path.join(room, "count")
        source = os.path.join(TOOLS, "refuse_calls.c")
        subprocess.run(["cc", "-shared", "-fPIC", "-O1", "-fno-builtin", "-o", self.shim, source], check=True)
        with open(os.path.join(SHOP, "requests.jsonl"), "rb") as file:
            self.lines = b"".join(file.readlines()[: sitting.requests])

    def folder(self):
        """A new folder: empty for a run, and with a store of a whole run, which is exported beside it, for the commands that look at one."""
        self.folders += 1
        name = os.path.join(self.room, f"{self.kind.name}{self.folders}")
        os.mkdir(name)
        if self.sitting.command != "run":
            subprocess.run(self.words("run", name), input=self.lines, check=True, stdout=subprocess.DEVNULL)
            with open(f"{name}.jsonl", "wb") as exported:
                subprocess.run(self.words("export", name), check=True, stdout=exported)
        return name

    def words(self, command, folder):
        head, store = [self.program, command, os.path.join(SHOP, "shop.py")], ["--store", folder]
        if command == "audit":
            return [*head, f"{folder}.jsonl"]
        if command == "export":
            return [*head, *store]
        return [*head, *self.sitting.words, *(store if self.sitting.is_stored else [])]

    def run(self, folder, command=None, **refusal):
        """The status of a call on a folder, and what it wrote on its two outputs."""
        with_shim = dict(os.environ, LD_PRELOAD=self.shim, COUNT_FILE=self.count, **self.kind.setting, **refusal)
        words = self.words(command or self.sitting.command, folder)
        done = subprocess.run(words, input=self.lines, capture_output=True, env=with_shim, timeout=SECONDS)
        return done.returncode, done.stdout, done.stderr

    def asked(self, text):
        """The lines of requests among those of an export."""
        return set(text.splitlines()[::2]) if self.sitting.command == "export" else set()

    def calls(self):
        """How many calls of the kind the last run made."""
        with open(self.count, encoding="ascii") as file:
            return int(file.read())


def is_front(part, whole):
    """Whether these are whole lines, the first ones of the whole."""
    return whole.startswith(part) and part[-1:] in (b"", b"\n")


def fault_in(session, whole, refused, folder):
    """What is wrong with a run that ended so, if anything. whole: the two outputs of a whole run"""
    status, out, err = refused
    if status not in session.kind.statuses:
        return f"{err!r}"
    if status == 0 and (out, err) != whole:
        return f"it wrote {out!r} and {err!r}"
    if not is_front(out, whole[0]):
        return f"what it wrote is no first part of the whole: {out!r}"
    if not is_front(err.removesuffix(session.kind.line), whole[1]):
        return f"it told {err!r}"
    if not session.sitting.is_stored or session.sitting.command == "audit":
        return None
    behind, again, said = session.run(folder, "run")
    missing = set(out.splitlines()) - set(again.splitlines()) - session.asked(whole[0])
    if behind != 0 or missing:
        return f"the next run ended with {behind} {said!r}, and these lines are missing: {missing!r}"
    return None


def refuse_in_turn(session, whole, numbers, goes_on):
    """Refuses each of these calls, and tells how the runs ended. Answers how many lines they wrote, and whether all is as it has to be."""
    ended, written, is_right = collections.Counter(), set(), True
    for number in numbers:
        folder = session.folder()
        refused = session.run(folder, REFUSED=str(number), **({"REFUSED_ON": "1"} if goes_on else {}))
        ended[refused[0]] += 1
        written.add(refused[1].count(b"\n"))
        fault = fault_in(session, whole, refused, folder)
        if fault:
            is_right = False
            print(f"FAILED: {session.kind.name} {number}{' and all behind it' if goes_on else ''}: status {refused[0]}: {fault}", flush=True)
    counts = ", ".join(f"{ended[status]} with {status}" for status in sorted(ended))
    print(f"{session.kind.name}: {'each with all behind it' if goes_on else 'each alone'}: {counts}", flush=True)
    return written, is_right


def refuse_each(session, step):
    """Refuses each call of the session's kind in turn, and answers whether all ended as they have to."""
    name, batch = session.kind.name, session.sitting.batch
    status, *whole = session.run(session.folder())
    calls, lines = session.calls(), whole[0].count(b"\n")
    if status != 0 or calls == 0:
        sys.exit(f"growth_of_a_run: the whole run ended with {status} {whole[1]!r}, and has {calls} calls of the kind {name}")
    print(f"{session.sitting.name}: {name}: the whole run has {calls}, and writes {lines} lines", flush=True)
    are_right = True
    for goes_on in (False, True):
        written, is_right = refuse_in_turn(session, tuple(whole), range(1, calls + 1, step), goes_on)
        are_right = are_right and is_right
        ends = sorted(written | {0, lines})
        if session.kind is SYNC and any(later - ended > batch for ended, later in zip(ends, ends[1:])):
            are_right = False
            print(f"FAILED: more than {batch} lines were written without a sync before them: runs ended behind {ends} lines", flush=True)
    return are_right


def main():
    words = argparse.ArgumentParser()
    words.add_argument("program")
    words.add_argument("--step", type=int, default=1)
    asked = words.parse_args()
    program = os.path.abspath(asked.program)
    are_right = True
    for sitting in SITTINGS:
        for kind, step in [(SYNC, 1)] * (sitting.is_stored and sitting.command == "run") + [(GROWTH, asked.step)]:
            with tempfile.TemporaryDirectory() as room:
                are_right = refuse_each(Session(program, room, kind, sitting), step) and are_right
    return 0 if are_right else 1


if __name__ == "__main__":
    sys.exit(main())
