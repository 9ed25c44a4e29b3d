#!/usr/bin/env python3
"""Runs the tools that draw over many seeds, several at a time, and sums up what came.

usage: drawn_long.py PROGRAM [--first SEED] [--jobs N] [--lines N] [--programs N] [--spoiled N] [--calls N] [--stores N] [--stops N]

PROGRAM is the built program (./stateflow builds it). So many request lines are drawn, programs that are served, programs that are mostly spoiled and only
checked, calls, stores and stops; nothing of what is given as 0. The seeds go up from the first one, in parts of some seconds to a minute, of which `--jobs`
run at a time. A part that finds a difference, fails or has no end within an hour is printed with its call. Behind each kind comes a line of what was drawn,
and at the end the sum. The status is 0 where each part ended and found no difference. Counts that are left out are those of a long run, which takes hours."""
import collections
import concurrent.futures
import dataclasses
import os
import re
import subprocess
import sys
import time

from drawn.calls import words_of

TOOLS = os.path.dirname(os.path.abspath(__file__))
LONGEST_PART = 3600
COUNTED = re.compile(r"(\d+) (.+?)(?=, \d+ |$)")


@dataclasses.dataclass(frozen=True)
class Kind:
    """What is drawn: by which tool with which words, how many of a seed, how many seeds make a part, and which line from the end counts it."""

    tool: str
    words: tuple
    a_seed: int
    seeds: int
    counts: int = 2


KINDS = {
    "lines": Kind("drawn_lines.py", ("--lines", "3000"), 3000, 5),
    "programs": Kind("drawn_programs.py", (), 1, 100),
    "spoiled": Kind("drawn_programs.py", ("--spoiled", "90", "--served", "0"), 1, 500),
    "calls": Kind("drawn_words.py", ("--calls", "500"), 500, 1),
    "stores": Kind("drawn_stores.py", (), 1, 100),
    "stops": Kind("drawn_stops.py", (), 1, 5, 1),
}
COUNTS = {"lines": 10_000_000, "programs": 100_000, "spoiled": 100_000, "calls": 100_000, "stores": 10_000, "stops": 1_000}


def part_of(kind, program, first, count):
    """What is wrong with a part, or nothing, and what it counted."""
    words = [sys.executable, os.path.join(TOOLS, kind.tool), program, "--first", str(first), "--count", str(count), *kind.words]
    try:
        done = subprocess.run(words, capture_output=True, text=True, errors="replace", timeout=LONGEST_PART)
    except subprocess.TimeoutExpired:
        return f"{' '.join(words)}: no end", {}
    lines = done.stdout.splitlines()
    if done.returncode != 0:
        return "\n".join([f"{' '.join(words)}: status {done.returncode}", *lines, done.stderr]), {}
    return None, {name: int(number) for number, name in COUNTED.findall(lines[-kind.counts])}


def parts(kind, first, count):
    """The parts of as many seeds as it takes, each as its first seed and how many."""
    end = first + -(-count // kind.a_seed)
    return [(at, min(kind.seeds, end - at)) for at in range(first, end, kind.seeds)]


def drawn(name, given):
    """Draws one kind, prints what came, and answers how many parts are wrong, of how many."""
    kind, counted, wrong, begun = KINDS[name], collections.Counter(), 0, time.monotonic()
    todo = parts(kind, given.first, getattr(given, name))
    with concurrent.futures.ThreadPoolExecutor(given.jobs) as pool:
        for fault, counts in pool.map(lambda part: part_of(kind, given.program, *part), todo):
            counted.update(counts)
            if fault:
                wrong += 1
                print(fault, flush=True)
    seeds = sum(count for _, count in todo)
    sums = ", ".join(f"{count} {what}" for what, count in sorted(counted.items()))
    print(f"{name}: {seeds * kind.a_seed} of {seeds} seeds, {time.monotonic() - begun:.0f} seconds: {sums}", flush=True)
    return wrong, len(todo)


def main():
    given = words_of(__doc__, {"jobs": os.cpu_count() or 1, **COUNTS})
    given.program = os.path.abspath(given.program)
    names = [name for name in KINDS if getattr(given, name) > 0]
    ends = [drawn(name, given) for name in names]
    wrong = sum(count for count, _ in ends)
    print(f"{wrong} of {sum(count for _, count in ends)} parts differ")
    return 1 if wrong else 0


if __name__ == "__main__":
    sys.exit(main())
