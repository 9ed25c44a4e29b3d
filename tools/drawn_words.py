#!/usr/bin/env python3
"""Holds the built program to a second reading of its words, on words that are drawn.

usage: drawn_words.py PROGRAM [--first SEED] [--count N] [--calls N]

PROGRAM is the built program (./stateflow builds it). A seed gives calls: words that a command takes, in any order and form, and many that are spoiled. Where the
second reading, `drawn/words.py`, refuses them, the status has to be 2 with the usage line alone; else the call has to do what the same words do in one plain
form, with options behind and numbers without zeros in front. Prints each difference, and the sums at the end. The status is 0 where there is none."""
import collections
import os
import random
import subprocess
import sys
import tempfile

from drawn.calls import words_of
from drawn.words import FILE_COMMANDS, FILES, FLAGS, NEEDED, NUMBERS, OPTIONS, USAGE, asked

PROGRAM = """from stateflow import entity

@entity
class E:
    def __init__(self, k: str):
        self.k: str = k
        self.n: int = 0
    def __key__(self):
        return self.k
    def add(self, by: int) -> int:
        self.n += by
        return self.n
"""
LINES = b'{"id":"a","class":"E","new":["e"]}\n' + b"".join(b'{"id":"%d","class":"E","key":"e","method":"add","args":[1]}\n' % number for number in range(5))
NAMES = ["e.py", "e.py", "e.py", "none.py", "é.py", "e py", "=", "e=1"]
FOLDERS = ["s", "s", "none", "--", "-x", "é", "a b", "=", "", "-"]
PLAINLY = {"number": ["--number", "7"], "size": ["--size=30"], "store": ["--store", "s"]}
ODD = ["", "-", "--", "-b", "-batch", "--b", "--batch", "--batch=", "--=", "--=1", "---", "--Batch=1", "--help", "--version", "-h", "--trace=", "--trace=1", "--reorder=", "--store", "1", "run", "\t"]


def number_drawn(chance, name):
    low, high = NUMBERS[name]
    number = chance.choice([low, high, low - 1, high + 1, 2, 7, chance.randint(low, min(high, 300))])
    if name == "size":
        number = min(number, 300) if number <= high else number
    text = str(number)
    return chance.choice([text, text, text, text.rjust(20, "0"), text.rjust(21, "0"), f"+{text}", f" {text}", f"{text}.", "", "x", "٣"])


def option_drawn(chance, name):
    """An option with a value, in one of its two forms."""
    if name in FLAGS:
        return [f"--{name}"]
    text = chance.choice(FOLDERS) if name == "store" else number_drawn(chance, name)
    return chance.choice([[f"--{name}={text}"], [f"--{name}", text]])


def words_drawn(chance):
    """The words of a call, mostly such as are taken."""
    command = chance.choice([*FILE_COMMANDS, "run", "run", "run", "gen", "gen", "audit", "audit", "export", "export"])
    names = [name for name in [*OPTIONS.get(command, []), *(FLAGS if command == "run" else [])] if chance.random() < 0.4]
    pieces = [option_drawn(chance, name) for name in names]
    pieces += [PLAINLY[name] for name in NEEDED.get(command, []) if name not in names]
    pieces += [[chance.choice(NAMES)] for _ in range(FILES[command])]
    chance.shuffle(pieces)
    return spoiled(chance, [command, *(word for piece in pieces for word in piece)])


def spoiled(chance, words):
    """The words, of which sometimes one is lost, doubled, moved, or stands beside an odd one."""
    for _ in range(chance.choice([0, 0, 0, 1, 1, 2])):
        at = chance.randrange(len(words) + 1)
        match chance.randrange(4):
            case 0:
                words = words[:at] + words[at + 1 :]
            case 1:
                words = words[:at] + words[at : at + 1] * 2 + words[at + 1 :]
            case 2:
                words = words[:at] + [chance.choice(ODD)] + words[at:]
            case _:
                chance.shuffle(words)
    return words


def ended(program, words):
    """What a call in a new folder with one program and one store comes to."""
    with tempfile.TemporaryDirectory() as folder:
        with open(os.path.join(folder, "e.py"), "w", encoding="utf-8") as out:
            out.write(PROGRAM)
        for name in ["s", "--", "-x", "é"]:
            os.mkdir(os.path.join(folder, name))
        call = subprocess.run([program, *words], input=LINES, capture_output=True, check=False, cwd=folder)
    return call.returncode, call.stdout, call.stderr


def main():
    given = words_of(__doc__, {"count": 20, "calls": 500})
    program, kinds, wrong = os.path.abspath(given.program), collections.Counter(), 0
    for seed in range(given.first, given.first + given.count):
        chance = random.Random(seed)
        for _ in range(given.calls):
            words = words_drawn(chance)
            read = asked(words)
            wanted = (2, b"", USAGE) if read is None else ended(program, read.words())
            told = ended(program, words)
            kinds["refused" if read is None else f"{read.command} {wanted[0]}"] += 1
            if told != wanted or (read is not None and wanted[0] == 2):
                wrong += 1
                print(f"seed {seed}, {words}: {told}, and {wanted} is wanted", flush=True)
    print(", ".join(f"{count} {kind}" for kind, count in sorted(kinds.items())))
    print(f"{wrong} calls differ")
    return 1 if wrong else 0


if __name__ == "__main__":
    sys.exit(main())
