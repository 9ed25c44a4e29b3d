#!/usr/bin/env python3
"""Runs the service of examples/service under its load, beside the same service over SQLite, and prints what it took as a table.

usage: run_service.py PROGRAM [--requests N] [--threads N]

PROGRAM is the built program. Each row is a service of its own on a new folder; in some of them its child is killed meanwhile. All of it stays on 127.0.0.1.
The status is 0 where all sums are right.
"""

import argparse
import contextlib
import os
import statistics
import subprocess
import sys
import tempfile
import time

HERE = os.path.dirname(os.path.dirname(os.path.abspath(__file__)))
EXAMPLE = os.path.join(HERE, "examples", "service")
sys.path.insert(0, EXAMPLE)

import load  # noqa: E402

KILL_EVERY = 0.12
SYNCS = 50
ONE_BY_ONE = ("--batch=1",)
# What is asked, by what, with which options of `run`, and whether the child is killed.
ROWS = [
    ("transfers", "StateFlow", (), False),
    ("transfers", "StateFlow", (), True),
    ("transfers", "StateFlow", ONE_BY_ONE, False),
    ("transfers", "SQLite", (), False),
    ("deposits", "StateFlow", (), False),
    ("deposits", "StateFlow", ONE_BY_ONE, False),
    ("deposits", "StateFlow", ONE_BY_ONE, True),
    ("deposits", "SQLite", (), False),
]
WORDS = {"transfers": "transfers between 100 accounts", "deposits": "deposits on one account"}


def command(side, options, folder):
    if side == "SQLite":
        return [sys.executable, os.path.join(HERE, "tools", "sqlite_service.py"), folder]
    words = [os.path.join(EXAMPLE, "service.py"), os.path.join(EXAMPLE, "bank.py"), "--store", folder, "--port", "0", *options]
    return [sys.executable, *words]


@contextlib.contextmanager
def service(program, side, options):
    """A service on a new folder, which is stopped at the end; gives its port."""
    environment = {**os.environ, "STATEFLOW": program, "PYTHONPATH": os.pathsep.join([os.path.join(HERE, "python"), EXAMPLE])}
    with tempfile.TemporaryDirectory() as folder:
        process = subprocess.Popen(command(side, options, folder), env=environment, stdout=subprocess.PIPE, stderr=subprocess.DEVNULL, text=True)
        try:
            yield int(process.stdout.readline().rsplit(":", 1)[1])
        finally:
            process.terminate()
            status = process.wait()
            process.stdout.close()
        if status != 0:
            sys.exit(f"run_service: the service ended with status {status}")


def sync_milliseconds():
    """What the disk takes to make a few bytes safe: the middle of some tries."""
    times = []
    with tempfile.NamedTemporaryFile() as file:
        for _ in range(SYNCS):
            file.write(b"x" * 100)
            file.flush()
            begun = time.monotonic()
            os.fsync(file.fileno())
            times.append(time.monotonic() - begun)
    return statistics.median(times) * 1000


def cells(*texts):
    return "| " + " | ".join(texts) + " |"


def row(work, side, options, figures):
    """A row of the table."""
    over = f"`{' '.join(['run', *options])}`" if side == "StateFlow" else side
    sums = "right" if not figures.wrong else "; ".join(figures.wrong)
    rate, middle, slowest = figures.requests / figures.seconds, figures.middle * 1000, figures.slowest_hundredth * 1000
    return cells(WORDS[work], over, str(figures.kills), f"{rate:.0f}", f"{middle:.0f}", f"{slowest:.0f}", sums)


def main():
    words = argparse.ArgumentParser(description=__doc__, formatter_class=argparse.RawDescriptionHelpFormatter)
    words.add_argument("program", metavar="PROGRAM")
    words.add_argument("--requests", type=int, default=2000)
    words.add_argument("--threads", type=int, default=20)
    asked = words.parse_args()
    program = os.path.abspath(asked.program)
    print(f"{asked.requests} requests by {asked.threads} threads; a sync of the disk takes {sync_milliseconds():.1f} ms", end="\n\n")
    print(cells("Work", "Over", "Kills", "Requests a second", "p50, ms", "p99, ms", "Sums"), cells(*["---"] * 7), sep="\n")
    wrong = False
    for work, side, options, kills in ROWS:
        with service(program, side, options) as port:
            figures = load.run(port, work, asked.requests, asked.threads, KILL_EVERY if kills else 0)
        print(row(work, side, options, figures), flush=True)
        wrong = wrong or bool(figures.wrong)
    return 1 if wrong else 0


if __name__ == "__main__":
    sys.exit(main())
