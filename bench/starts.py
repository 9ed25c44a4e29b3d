#!/usr/bin/env python3
"""What a start on a store takes, and a checkpoint, by how many requests the store holds.

    python3 bench/starts.py [PROGRAM] [--requests N].. [--batches N] [--accounts N] [--folder DIR]

For each number of requests a run on a new store serves the yardstick's moves, in batches of 64 with the usual options. Then a start without input is
measured: its seconds and its peak, and what of these comes to each entry of the history beside a start on a store that has the accounts alone. At last so many
batches more are served twice, each time on a copy of the store: with a checkpoint behind each batch, and with none. What they differ by, for each
batch, is what one checkpoint takes. Seconds are user and system together, so the disk's own time isn't among them; each figure is the middle of three.
A table in Markdown is printed. The replies of the runs aren't looked at: bench/run.py holds them to CPython's.
"""

import argparse
import itertools
import json
import os
import shutil
import sys
import tempfile
from pathlib import Path
from typing import NamedTuple

import inputs
import measure

TOP = Path(__file__).resolve().parent.parent
PROGRAM = TOP / "crates/stateflow/out/stateflow"
BANK = TOP / "examples/bank/bank.py"
REQUESTS = [100_000, 300_000]
BATCH = 64
NEVER = 65_535
TIMES = 3


class Bench(NamedTuple):
    """What is run, and where it keeps its files."""

    program: Path
    bank: Path
    room: Path


def serve(bench, store, lines, *words):
    """A run on a store, of which each reply goes nowhere. It has to end with status 0."""
    store.mkdir(exist_ok=True)
    source = bench.room / "lines"
    with open(source, "w", encoding="utf-8") as file:
        file.writelines(json.dumps(line, separators=(",", ":")) + "\n" for line in lines)
    took = measure.run([bench.program, "run", bench.bank, "--store", store, *words], source, os.devnull, bench.room / "err")
    if took.status != 0:
        sys.exit(f"status {took.status}: {took.error}")
    return took


def requests_of(accounts, count, behind=0):
    """So many of the yardstick's requests, behind the first so many."""
    return itertools.islice(itertools.chain(inputs.openings(accounts), inputs.moves(accounts, behind + count)), behind, behind + count)


def start_on(bench, store):
    """The middle of several starts, by seconds and by peak."""
    runs = [serve(bench, store, []) for _ in range(TIMES)]
    return measure.middle([run.seconds for run in runs]), measure.middle([run.peak for run in runs])


def more_on(bench, store, lines, every):
    """The seconds of serving these lines on a copy of a store, with a checkpoint behind so many batches."""
    copy = bench.room / "copy"

    def once():
        shutil.rmtree(copy, ignore_errors=True)
        shutil.copytree(store, copy)
        return serve(bench, copy, lines, "--every", str(every)).seconds

    return measure.middle([once() for _ in range(TIMES)])


def row(bench, accounts, count, batches, least):
    """A row of the table for so many requests; `least` is what a start on the accounts alone took."""
    store = bench.room / f"store{count}"
    served = serve(bench, store, requests_of(accounts, count))
    seconds, peak = start_on(bench, store)
    lines = list(requests_of(accounts, batches * BATCH, count))
    checkpoint = (more_on(bench, store, lines, 1) - more_on(bench, store, lines, NEVER)) / batches
    history = (store / "hist").stat().st_size
    entries = count - accounts
    each = f"{(seconds - least[0]) * 1e6 / entries:.2f}, {(peak - least[1]) * 1e3 / entries:.2f}"
    return f"| {count:,} | {served.seconds:.1f}, {served.peak:.0f} | {history / 1e6:.1f} | {seconds:.2f}, {peak:.0f} | {each} | {checkpoint * 1e3:.1f} |"


def read_words():
    """The words of the call."""
    words = argparse.ArgumentParser(description="Measures starts on stores, and checkpoints, and prints a table in Markdown.")
    words.add_argument("program", nargs="?", type=Path, default=PROGRAM, metavar="PROGRAM", help="without it the one that ./stateflow builds")
    words.add_argument("--requests", type=int, action="append", metavar="N", help="so many requests, instead of 100,000 and 300,000; may be repeated")
    words.add_argument("--batches", type=int, default=100, metavar="N", help="batches that are served more, for the checkpoints: 100")
    words.add_argument("--accounts", type=int, default=1_000, metavar="N", help="how many accounts there are: 1,000")
    words.add_argument("--folder", type=Path, metavar="DIR", help="where files are made, so that the stores are on that disk")
    return words.parse_args()


def main():
    words = read_words()
    with tempfile.TemporaryDirectory(dir=words.folder) as room:
        bench = Bench(words.program.resolve(), Path(room) / "bank.py", Path(room))
        bench.bank.write_text(inputs.bank_program(BANK.read_text(encoding="utf-8")), encoding="utf-8")
        serve(bench, bench.room / "accounts", requests_of(words.accounts, words.accounts))
        least = start_on(bench, bench.room / "accounts")
        print("| Requests | Serving: seconds, MB | History, MB | A start: seconds, MB | Of these an entry: µs, KB | A checkpoint, ms |")
        print("|---|---|---|---|---|---|")
        for count in words.requests or REQUESTS:
            print(row(bench, words.accounts, count, words.batches, least), flush=True)


if __name__ == "__main__":
    main()
