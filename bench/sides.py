"""The inputs of the yardstick with their sides: what is run on each, what the output has to be, and what it is held against."""

import filecmp
import itertools
import shutil
import subprocess
import sys
from pathlib import Path
from typing import Callable, List, NamedTuple, Optional

import inputs

HERE = Path(__file__).resolve().parent
BANK = HERE.parent / "examples/bank/bank.py"

IN_MEMORY = "CPython in memory"
IN_SQLITE = "CPython with SQLite"
PARSE = "`ast.parse`"


class Side(NamedTuple):
    """What is run on an input."""

    name: str
    words: Callable[[Path], list]  # of the process, which may keep files in this folder
    fault: Callable[[Path], str]  # what is wrong with the output in this file; empty where nothing is
    against: str = ""  # the side that it is held against
    aim: Optional[float] = None  # the greatest ratio of seconds
    is_planned: bool = False  # where the program refuses the words with status 2, that is no fault


class Input(NamedTuple):
    """What all of its sides read."""

    name: str
    requests: int  # 0 where it is a program's text
    source: Path  # standard input
    sides: List[Side]


class Bank(NamedTuple):
    """The files of a bank: its program, request lines, and what a serial run replies to them."""

    program: Path
    requests: Path
    replies: Path


def fixed(*words):
    """The same words, whatever the folder."""
    return lambda kept: words


def python(script, *words):
    return (sys.executable, HERE / script, *words)


def first_difference(found, wanted):
    """Where two outputs differ, in words."""
    with open(found, "rb") as some, open(wanted, "rb") as others:
        for number, (one, other) in enumerate(itertools.zip_longest(some, others, fillvalue=b""), 1):
            if one != other:
                return f"line {number} is {one!r} where {other!r} is wanted"
    return ""


def same_as(wanted):
    """The output has to be this file, byte for byte."""
    return lambda out: first_difference(out, wanted)


def serial(bank, right):
    """The output has to be that of a serial run in its own order. What was found so is kept in the file `right`, and told again at once."""

    def fault(out):
        if right.exists() and filecmp.cmp(out, right, shallow=False):
            return ""
        ended = subprocess.run(python("replay.py", bank.program, bank.requests, out), capture_output=True, text=True)
        if ended.returncode != 0:
            return ended.stdout.strip() or "the replay failed: " + ended.stderr.strip()
        shutil.copy(out, right)
        return ""

    return fault


def text_is(wanted):
    """The output has to be this text."""

    def fault(out):
        found = out.read_text(encoding="utf-8", errors="replace")
        return "" if found == wanted else f"{found[:100]!r} where {wanted!r} is wanted"

    return fault


def begins_with(wanted):
    """The output has to begin so."""

    def fault(out):
        with open(out, encoding="utf-8", errors="replace") as file:
            found = file.read(len(wanted))
        return "" if found == wanted else f"begins with {found!r} where {wanted!r} is wanted"

    return fault


def make_bank(room, name, accounts, count):
    """Writes the bank's files."""
    bank = Bank(room / "bank.py", room / f"{name}.requests", room / f"{name}.replies")
    bank.program.write_bytes(inputs.bank_program(BANK.read_text(encoding="utf-8")).encode())
    with open(bank.requests, "w", encoding="utf-8", newline="") as file:
        file.writelines(inputs.bank_lines(accounts, count))
    with open(bank.requests, "rb") as asked, open(bank.replies, "wb") as told:
        subprocess.run(python("in_memory.py", bank.program), stdin=asked, stdout=told, check=True)
    return bank


def bank_sides(program, bank):
    """CPython in memory and with SQLite, and the program one by one, in batches, and with a store."""
    exact = same_as(bank.replies)

    def in_some_order(name):
        return serial(bank, bank.replies.with_suffix("." + name))

    def run(*options):
        return fixed(program, "run", bank.program, *options)

    def with_store(kept):
        return (program, "run", bank.program, "--store", kept, "--batch", "64", "--partitions", "4")

    def with_sqlite(kept):
        return python("in_sqlite.py", bank.program, kept / "bank.sqlite")

    return [
        Side(IN_MEMORY, fixed(*python("in_memory.py", bank.program)), exact),
        Side(IN_SQLITE, with_sqlite, exact),
        Side("`local`", fixed(program, "local", bank.program), exact, IN_MEMORY, 0.3),
        Side("`run --batch 1`", run("--batch", "1"), exact, IN_MEMORY),
        Side("`run --batch 64 --partitions 4`", run("--batch", "64", "--partitions", "4"), in_some_order("64"), IN_MEMORY, 0.4),
        Side("`run --batch 256 --partitions 64`", run("--batch", "256", "--partitions", "64"), in_some_order("256"), IN_MEMORY),
        Side("`run --store`", with_store, in_some_order("store"), IN_SQLITE, 0.33, is_planned=True),
    ]


def bank_input(program, room, accounts, count):
    """A bank with so many moves."""
    bank = make_bank(room, f"bank{count}", accounts, count)
    return Input(f"{count:,} moves", count + 2 * accounts, bank.requests, bank_sides(program, bank))


def text_input(program, room, name, calls):
    """A program's text, which is parsed, checked and compiled."""
    text, told = inputs.dense_program(calls)
    file = room / ("calling.py" if calls else "dense.py")
    file.write_bytes(text.encode())
    sides = [
        Side(PARSE, fixed(*python("parse.py", file)), text_is("")),
        Side("`check`", fixed(program, "check", file), text_is(told), PARSE, 0.2),
        Side("`compile`", fixed(program, "compile", file), begins_with("class C0: "), PARSE, 0.6),
    ]
    return Input(name, 0, Path("/dev/null"), sides)
