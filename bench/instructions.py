#!/usr/bin/env python3
"""Where the instructions of a request go, by cause.

    python3 bench/instructions.py [PROGRAM] [--accounts N] [--most N]

PROGRAM is the one that ./stateflow has built where it isn't given. `valgrind --tool=callgrind` counts them, which doesn't depend on what else the
machine does. The program runs the bank twice, with few moves and with many: a request's share is the difference, so what starting takes isn't in it.
A table in Markdown is printed for `local` and for `run` in batches of 64, in thousands of instructions a request, and below it the functions that
take most. What clears and copies memory is a row of its own, since callgrind counts an instruction that repeats once for each byte.
"""

import argparse
import collections
import re
import subprocess
import sys
import tempfile
from pathlib import Path
from typing import Counter, NamedTuple

import inputs
from run import PROGRAM, positive
from sides import BANK

FEW, MANY = 1_000, 3_000
SIDES = {"`local`": ["local"], "`run --batch 64`": ["run", "--batch", "64"]}

# The causes, each with what the names of its functions have in them: the first that fits counts.
CAUSES = [
    ("clearing and copying memory", r"memset|memcpy|memmove|memcmp|bcmp"),
    ("the allocator", r"malloc|calloc|realloc|free|rattle_(?:de)?alloc|_int_|unlink_chunk|sysmalloc"),
    ("JSON", r"json|serde|itoa"),
    ("lines and sessions", r"input_lines|session|line_answers|batch_replies|real_devices|write|read"),
    ("tables and hashes", r"indexmap|hash"),
    ("the interpreter", r"source_meaning"),
    ("events and operators", r"event_step|block_step|operator_graph|transaction_buffers"),
    ("batches, commits and history", r"aria_batch|reservations|engine|keyed_state|request_history"),
    ("values, texts and lists", r"sf_value|sf_list|drop|Vec|vec"),
    ("all else", r""),
]


class Counts(NamedTuple):
    """The instructions of a run by function, and how often each was called."""

    own: Counter[str]
    calls: Counter[str]


def read_counts(file):
    """What callgrind wrote, with the instructions that a function ran itself."""
    own, calls, names = collections.Counter(), collections.Counter(), {}
    current, callee, is_call = "", "", False

    def name_of(text):
        number, _, name = text.partition(" ")
        return names.setdefault(number, name)

    with open(file, encoding="utf-8", errors="replace") as lines:
        for line in lines:
            key, _, rest = line.rstrip("\n").partition("=")
            if key == "fn":
                current = name_of(rest)
            elif key == "cfn":
                callee = name_of(rest)
            elif key == "calls":
                calls[callee] += int(rest.split()[0])
                is_call = True
            elif line[:1].isdigit() or line[:1] in ("+", "-", "*"):
                # (the line behind `calls` tells what the callee took)
                if not is_call:
                    own[current] += int(line.split()[-1])
                is_call = False
    return Counts(own, calls)


def count(words, lines, room):
    """The counts of one run on these lines."""
    kept = room / "counts"
    told = ["valgrind", "--tool=callgrind", f"--callgrind-out-file={kept}", *words]
    ended = subprocess.run(told, input=lines.encode(), stdout=subprocess.DEVNULL, stderr=subprocess.PIPE)
    if ended.returncode != 0:
        sys.exit(f"{' '.join(map(str, words))} ended with status {ended.returncode}: {ended.stderr.decode(errors='replace')[-400:]}")
    return read_counts(kept)


def share(words, accounts, room):
    """What one move more takes, by function: the instructions, and the calls."""
    few, many = (count(words, "".join(inputs.bank_lines(accounts, moves)), room) for moves in (FEW, MANY))
    more = MANY - FEW
    names = {*few.own, *many.own}
    own = collections.Counter({name: (many.own[name] - few.own[name]) / more for name in names})
    return Counts(own, collections.Counter({name: (many.calls[name] - few.calls[name]) / more for name in many.calls}))


def cause_of(name):
    return next(cause for cause, has in CAUSES if re.search(has, name))


def by_cause(own):
    sums = collections.Counter()
    for name, instructions in own.items():
        sums[cause_of(name)] += instructions
    return sums


def tell_causes(shares):
    """The table of causes, in thousands of instructions a request."""
    print("| Cause | " + " | ".join(shares) + " |")
    print("|---|" + "---|" * len(shares))
    sums = [by_cause(counts.own) for counts in shares.values()]
    for cause, _ in CAUSES:
        print(f"| {cause} | " + " | ".join(f"{it[cause] / 1000:.1f}" for it in sums) + " |")
    print("| all | " + " | ".join(f"{sum(it.values()) / 1000:.1f}" for it in sums) + " |")
    print("| of these without clearing and copying | " + " | ".join(f"{(sum(it.values()) - it[CAUSES[0][0]]) / 1000:.1f}" for it in sums) + " |")
    print("| calls of `malloc` | " + " | ".join(f"{counts.calls['malloc']:.1f}" for counts in shares.values()) + " |")


def tell_functions(name, counts, most):
    print(f"\n{name}, the functions that take most:\n")
    print("| Instructions | Calls | Function |\n|---|---|---|")
    for function, instructions in counts.own.most_common(most):
        print(f"| {instructions:.0f} | {counts.calls[function]:.2f} | `{function[:110]}` |")


def read_words():
    words = argparse.ArgumentParser(description=__doc__, formatter_class=argparse.RawDescriptionHelpFormatter)
    words.add_argument("program", nargs="?", type=Path, default=PROGRAM, metavar="PROGRAM", help="without it the one that ./stateflow builds")
    words.add_argument("--accounts", type=positive, default=200, metavar="N", help="how many accounts there are: 200 where it isn't given")
    words.add_argument("--most", type=positive, default=20, metavar="N", help="how many functions are told: 20 where it isn't given")
    return words.parse_args()


def main():
    words = read_words()
    with tempfile.TemporaryDirectory() as made:
        room = Path(made)
        bank = room / "bank.py"
        bank.write_text(inputs.bank_program(BANK.read_text()))
        shares = {
            name: share([words.program.resolve(), *command[:1], bank, *command[1:]], words.accounts, room) for name, command in SIDES.items()
        }
    tell_causes(shares)
    for name, counts in shares.items():
        tell_functions(name, counts, words.most)


if __name__ == "__main__":
    main()
