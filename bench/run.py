#!/usr/bin/env python3
"""The yardstick: what StateFlow takes, beside plain CPython on the same inputs and the same machine.

    python3 bench/run.py [PROGRAM] [--long]

PROGRAM is the one that ./stateflow has built where it isn't given. Two tables in Markdown are printed. The first has for each input and side the
seconds of user and system together, the seconds that went by, the peak of memory, and what these are of the side that it is held against, with
the aim. The second has what a request takes in short and in long inputs. Each figure is the middle one of three runs, and the sides take turns.

The bank is examples/bank/bank.py with one more method, which tells a balance. Accounts are made, money is moved between random ones, and behind
that all balances are asked. Both sides run the same file on the same lines. What is served one after another has to be, byte for byte, what
CPython writes in memory. What is served in batches may stand in another order, and has to be what CPython writes for the requests in that
order (replay.py). CPython writes through a buffer; the program writes each reply or batch at once. A process that is started has the memory
of the one that starts it for a moment, so no peak is told that is below that; the first line says how much it is.

Where replies are wrong or a command ends badly, the row says so, and the script ends with status 1. A missed aim is no fault.
"""

import argparse
import os
import platform
import sys
import tempfile
from pathlib import Path

import measure
import sides
import tables

PROGRAM = Path(__file__).resolve().parent.parent / "crates/stateflow/out/stateflow"
COUNTS = [10_000, 100_000]
LONG = 1_000_000


def positive(word):
    """A number from 1, as a word of the call."""
    number = int(word)
    if number < 1:
        raise ValueError
    return number


def read_words():
    """The words of the call."""
    words = argparse.ArgumentParser(description="Measures StateFlow beside plain CPython, and prints tables in Markdown.")
    words.add_argument("program", nargs="?", type=Path, default=PROGRAM, metavar="PROGRAM", help="without it the one that ./stateflow builds")
    words.add_argument("--long", action="store_true", help="also a million moves")
    words.add_argument("--moves", type=positive, action="append", metavar="N", help="so many moves, instead of 10,000 and 100,000; may be repeated")
    words.add_argument("--accounts", type=positive, default=1_000, metavar="N", help="how many accounts there are: 1,000 where it isn't given")
    words.add_argument("--runs", type=positive, default=3, metavar="N", help="how often each side runs: 3 times where it isn't given")
    words.add_argument("--folder", type=Path, metavar="DIR", help="where files are made, so that a store and a database are on that disk")
    return words.parse_args()


def make_inputs(words, room):
    """The banks, and the two texts."""
    program = words.program.resolve()
    counts = (words.moves or COUNTS) + ([LONG] if words.long else [])
    banks = [sides.bank_input(program, room, words.accounts, count) for count in counts]
    dense = sides.text_input(program, room, "1 MiB of dense classes", False)
    calling = sides.text_input(program, room, "1 MiB of dense classes that call each other", True)
    return [*banks, dense, calling]


def fault_of(side, took, out):
    """What is wrong with a run."""
    if took.status == 2 and side.is_planned:
        return tables.NOT_SERVED
    if took.status < 0:
        return f"ended by signal {-took.status}"
    if took.status > 0:
        return f"status {took.status}: {took.error}"
    wrong = side.fault(out)
    return wrong and "wrong output: " + wrong


def run_once(side, source, room):
    """Runs a side in a folder of its own: what it took, and what is wrong."""
    with tempfile.TemporaryDirectory(dir=room) as name:
        folder = Path(name)
        kept, out = folder / "kept", folder / "out"
        kept.mkdir()
        took = measure.run(side.words(kept), source, out, folder / "err")
        return took, fault_of(side, took, out)


def figure_of(results):
    """The figure that stands for the runs of a side."""
    runs = [took for took, _ in results]
    numbers = (measure.middle([getattr(took, name) for took in runs]) for name in ("seconds", "elapsed", "peak"))
    return tables.Figure(*numbers, results[-1][1])


def measured(given, rounds, room):
    """The figures of all sides of an input. A side at which something is wrong doesn't run again."""
    results = {side.name: [] for side in given.sides}
    for number in range(1, rounds + 1):
        for side in given.sides:
            done = results[side.name]
            if done and done[-1][1]:
                continue
            print(f"bench: {given.name}, run {number} of {rounds}: {side.name}", file=sys.stderr)
            done.append(run_once(side, given.source, room))
    return {name: figure_of(done) for name, done in results.items()}


def headline(words):
    """What was measured where."""
    machine = f"{platform.python_implementation()} {platform.python_version()}, {platform.system()} {platform.machine()}, {os.cpu_count()} processors"
    least = f"a process that needs nothing has a peak of {measure.least_peak():.1f} MB"
    return f"{machine}; {words.accounts:,} accounts; the middle of {words.runs} runs; {least}."


def report(words, figures):
    """Prints the tables, and tells each fault on the error stream. Gives the status."""
    parts = [[headline(words)], tables.figure_table(figures), tables.growth_table(figures)]
    print("\n\n".join("\n".join(part) for part in parts if part))
    faults = tables.faults(figures)
    for fault in faults:
        print("bench: " + fault, file=sys.stderr)
    return 1 if faults else 0


def main():
    words = read_words()
    if not os.access(words.program, os.X_OK):
        print(f"bench: there is no program at {words.program}: ./stateflow builds it", file=sys.stderr)
        return 2
    with tempfile.TemporaryDirectory(dir=words.folder) as name:
        room = Path(name)
        figures = [(given, measured(given, words.runs, room)) for given in make_inputs(words, room)]
    return report(words, figures)


if __name__ == "__main__":
    sys.exit(main())
