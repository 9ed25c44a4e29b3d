#!/usr/bin/env python3
"""How many requests a batch commits, and how many are served a second, in the order of the lines and with --reorder.

    python3 bench/orders.py [PROGRAM] [--requests N]

Moves of the yardstick's bank between random accounts, and payments into one account, alone and with as many requests among them that ask for a balance, of
the same accounts. Each is served in batches of 16, 64 and 256, without and with `--reorder`. Commits a batch are read off the lines of
`--trace`, whose first and last batches count too; requests a second are those of a second of user and system time. Each call is made once. A table in
Markdown is printed.
"""

import argparse
import os
import random
import re
import sys
import tempfile
from pathlib import Path
from typing import NamedTuple

import inputs
import measure
from starts import BANK, PROGRAM

BATCHES = [16, 64, 256]
COMMITTED = re.compile(rb"committed (\d+),")


class Work(NamedTuple):
    """Which requests are served."""

    name: str
    accounts: int
    is_hot: bool  # all is paid into one account, whose balance is asked for
    has_reads: bool  # every second request asks for a balance

    def lines(self, count):
        yield from map(inputs.line, inputs.openings(self.accounts))
        yield from ["\n"] * inputs.LARGEST_BATCH
        chance = random.Random(inputs.SEED)
        for number, move in enumerate(inputs.moves(self.accounts, count), 1):
            key = "a1" if self.is_hot else f"a{chance.randint(1, self.accounts)}"
            if self.has_reads and number % 2 == 0:
                yield inputs.line({"id": f"r{number}", "class": "Account", "key": key, "method": "money", "args": []})
            elif self.is_hot:
                yield inputs.line({**move, "key": key, "method": "take", "args": move["args"][:1]})
            else:
                yield inputs.line(move)


WORKS = [
    Work(f"{what}{' and balances' if reads else ''}", accounts, hot, reads)
    for what, accounts, hot in [("moves, 1,000 accounts", 1_000, False), ("moves, 200 accounts", 200, False), ("payments into one account", 1, True)]
    for reads in (False, True)
]


def cell(program, bank, room, source, count, words):
    """Commits a batch, and requests a second."""
    told = room / "err"
    took = measure.run([program, "run", bank, "--trace", *words], source, os.devnull, told)
    if took.status != 0:
        sys.exit(f"status {took.status}: {took.error}")
    committed = [int(found) for found in COMMITTED.findall(told.read_bytes())]
    return f"{sum(committed) / len(committed):.1f}, {count / took.seconds:,.0f}"


def read_words():
    """The words of the call."""
    words = argparse.ArgumentParser(description="Measures commits a batch and requests a second by the order, and prints a table in Markdown.")
    words.add_argument("program", nargs="?", type=Path, default=PROGRAM, metavar="PROGRAM", help="without it the one that ./stateflow builds")
    words.add_argument("--requests", type=int, default=20_000, metavar="N", help="so many requests behind those that make the accounts: 20,000")
    return words.parse_args()


def main():
    words = read_words()
    program = words.program.resolve()
    with tempfile.TemporaryDirectory() as folder:
        room = Path(folder)
        bank, source = room / "bank.py", room / "lines"
        bank.write_text(inputs.bank_program(BANK.read_text(encoding="utf-8")), encoding="utf-8")
        print("| Requests | " + " | ".join(f"{batch} | {batch} `--reorder`" for batch in BATCHES) + " |")
        print("|---|" + "---|" * (2 * len(BATCHES)))
        for work in WORKS:
            source.write_text("".join(work.lines(words.requests)), encoding="utf-8")
            cells = [
                cell(program, bank, room, source, words.requests, ["--batch", str(batch), *order])
                for batch in BATCHES
                for order in ([], ["--reorder"])
            ]
            print(f"| {work.name} | " + " | ".join(cells) + " |", flush=True)


if __name__ == "__main__":
    main()
