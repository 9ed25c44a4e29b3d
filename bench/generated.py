#!/usr/bin/env python3
"""The yardstick of `gen`: its work by the program, in several batches and partitions, beside the same work under plain CPython.

    python3 bench/generated.py [PROGRAM] [--size M]..

For each number of requests a table in Markdown is printed: the seconds of user and system together, and the peak of memory. CPython reads the same
lines, which are made here as `work_gen` defines them, runs examples/bank/bank.py, and writes each reply; `gen` makes its lines,
and prints one line that sums them up. That line has to tell the requests, that all were committed, and the sum that the accounts opened with.
"""

import argparse
import os
import sys
import tempfile
from pathlib import Path

import measure

TOP = Path(__file__).resolve().parent.parent
PROGRAM = TOP / "crates/stateflow/out/stateflow"
NUMBER = 7
SIZES = [1_000, 10_000, 100_000]
BATCHES = [1, 64, 256]
PARTITIONS = [1, 64]
ACCOUNTS, PAID_IN = 200, 100


def draws(state):
    """The numbers that are drawn from this one on."""
    while True:
        state = (state * 6364136223846793005 + 1442695040888963407) % 2**64
        yield state >> 33


def lines_of(number, size):
    """The request lines of `gen`."""
    drawn = draws(number)
    for request in range(1, size + 1):
        if request <= ACCOUNTS:
            yield f'{{"id":"g{request}","class":"Account","new":["a{request}",{PAID_IN}]}}\n'
        else:
            giver, taker, amount = 1 + next(drawn) % ACCOUNTS, 1 + next(drawn) % ACCOUNTS, 1 + next(drawn) % 10
            yield f'{{"id":"g{request}","class":"Account","key":"a{giver}","method":"give","args":[{amount},"a{taker}"]}}\n'


def fault_of(took, told, size):
    """What is wrong with a run of `gen`."""
    words = told.split()
    numbers = dict(zip(words[::2], words[1::2]))
    wanted = {"requests": size, "committed": size, "failed": 0, "total": PAID_IN * min(size, ACCOUNTS)}
    if took.status != 0:
        return f"status {took.status}: {took.error}"
    wrong = [word for word, value in wanted.items() if numbers.get(word) != str(value)]
    return f"wrong: {' '.join(wrong)}" if wrong else ""


def row(name, took, fault):
    return f"| {name} | {took.seconds:.2f} | {took.peak:.0f} | {fault or 'ok'} |"


def python_row(room, size):
    """CPython's time for the same requests."""
    source, out, err = room / "requests", room / "replies", room / "errors"
    source.write_text("".join(lines_of(NUMBER, size)), encoding="utf-8")
    words = [sys.executable, str(TOP / "bench/in_memory.py"), str(TOP / "examples/bank/bank.py")]
    took = measure.run(words, source, out, err)
    replies = out.read_text(encoding="utf-8").count("\n")
    return row("CPython", took, "" if took.status == 0 and replies == size else "wrong replies")


def program_row(program, room, size, batch, partitions):
    """The program's time with these options."""
    out, err = room / "summary", room / "errors"
    options = ["--number", NUMBER, "--size", size, "--batch", batch, "--partitions", partitions]
    took = measure.run([str(program), "gen", *map(str, options)], os.devnull, out, err)
    fault = fault_of(took, out.read_text(encoding="utf-8"), size)
    return row(f"`gen --batch {batch} --partitions {partitions}`", took, fault), fault


def read_words():
    """The words of the call."""
    words = argparse.ArgumentParser(description="Measures `gen` beside plain CPython, and prints tables in Markdown.")
    words.add_argument("program", nargs="?", type=Path, default=PROGRAM, metavar="PROGRAM", help="without it the one that ./stateflow builds")
    words.add_argument("--size", type=int, action="append", metavar="M", help="so many requests, instead of 1,000, 10,000 and 100,000; may be repeated")
    return words.parse_args()


def main():
    words = read_words()
    program, faults = words.program.resolve(), 0
    with tempfile.TemporaryDirectory() as name:
        room = Path(name)
        for size in words.size or SIZES:
            print(f"\n{size:,} requests\n\n| | Seconds | Peak, MB | |\n|---|---|---|---|")
            print(python_row(room, size), flush=True)
            for batch in BATCHES:
                for partitions in PARTITIONS:
                    told, fault = program_row(program, room, size, batch, partitions)
                    print(told, flush=True)
                    faults += bool(fault)
    return 1 if faults else 0


if __name__ == "__main__":
    sys.exit(main())
