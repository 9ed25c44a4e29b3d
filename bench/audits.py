#!/usr/bin/env python3
"""What an export of a store takes, and an audit of what that writes, by how many requests the store holds.

    python3 bench/audits.py [PROGRAM] [--requests N].. [--accounts N] [--folder DIR]

For each number of requests a run on a new store serves the yardstick's moves, in batches of 64 with the usual options. Then its history is exported, and
the export is audited, which has to find it serial; and `local` serves the requests of the export, one after another, which is what an audit does beside
reading the replies. Seconds are user and system together, so the disk's own time isn't among them; the peak is of resident memory, and each call is made once.
A table in Markdown is printed.
"""

import argparse
import json
import os
import sys
import tempfile
from pathlib import Path
from typing import NamedTuple

import inputs
import measure
from starts import BANK, PROGRAM, REQUESTS, requests_of


class Bench(NamedTuple):
    """What is run, and where it keeps its files."""

    program: Path
    bank: Path
    room: Path

    def call(self, words, source=os.devnull, out=os.devnull):
        """A call of the program, which has to end with status 0."""
        took = measure.run([self.program, *words], source, out, self.room / "err")
        if took.status != 0:
            sys.exit(f"{words[0]}: status {took.status}: {took.error}")
        return took


def cell(took):
    return f"{took.seconds:.2f}, {took.peak:.0f}"


def row(bench, accounts, count):
    """A row of the table for so many requests."""
    store, exported, requests, told = (bench.room / f"{name}{count}" for name in ("store", "exported", "requests", "told"))
    store.mkdir()
    with open(requests, "w", encoding="utf-8") as file:
        file.writelines(json.dumps(line, separators=(",", ":")) + "\n" for line in requests_of(accounts, count))
    served = bench.call(["run", bench.bank, "--store", store], requests)
    written = bench.call(["export", bench.bank, "--store", store], out=exported)
    audited = bench.call(["audit", bench.bank, exported], out=told)
    if told.read_text(encoding="ascii") != f"serial: {count} entries\n":
        sys.exit(f"audit: {told.read_text(encoding='ascii')}")
    with open(exported, "rb") as lines, open(requests, "wb") as file:
        file.writelines(line for place, line in enumerate(lines) if place % 2 == 0)
    alone = bench.call(["local", bench.bank], requests)
    return f"| {count:,} | {cell(served)} | {exported.stat().st_size / 1e6:.0f} | {cell(written)} | {cell(audited)} | {cell(alone)} |"


def read_words():
    """The words of the call."""
    words = argparse.ArgumentParser(description="Measures exports and audits, and prints a table in Markdown.")
    words.add_argument("program", nargs="?", type=Path, default=PROGRAM, metavar="PROGRAM", help="without it the one that ./stateflow builds")
    words.add_argument("--requests", type=int, action="append", metavar="N", help="so many requests, instead of 100,000 and 300,000; may be repeated")
    words.add_argument("--accounts", type=int, default=1_000, metavar="N", help="how many accounts there are: 1,000")
    words.add_argument("--folder", type=Path, metavar="DIR", help="where files are made, so that the stores are on that disk")
    return words.parse_args()


def main():
    words = read_words()
    with tempfile.TemporaryDirectory(dir=words.folder) as room:
        bench = Bench(words.program.resolve(), Path(room) / "bank.py", Path(room))
        bench.bank.write_text(inputs.bank_program(BANK.read_text(encoding="utf-8")), encoding="utf-8")
        print("| Requests | `run --store`: seconds, MB | Export, MB | `export`: seconds, MB | `audit` | `local` |")
        print("|---|---|---|---|---|---|")
        for count in words.requests or REQUESTS:
            print(row(bench, words.accounts, count), flush=True)


if __name__ == "__main__":
    main()
