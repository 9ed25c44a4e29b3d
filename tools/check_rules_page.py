#!/usr/bin/env python3
"""Asks `check` of each broken and mended line of docs/RULES.md, and of what the tables of docs/LANGUAGE.md for those who come from Python say that it refuses.

Each is put into the program that stands above the table of docs/RULES.md. The program that is asked is the first word, and without one that which ./stateflow has
built. Prints one line a row of docs/RULES.md and a text of docs/LANGUAGE.md, and fails where one is wrong.
"""

import os
import re
import subprocess
import sys
import tempfile

HERE = os.path.dirname(os.path.dirname(os.path.abspath(__file__)))


def text_of(page):
    with open(os.path.join(HERE, "docs", page), encoding="utf-8") as file:
        return file.read()


def page():
    return text_of("RULES.md").split("## A broken line and its mend")[1]


def frame(text):
    """The program into which a line is put."""
    return re.search(r"```python\n(.*?)```", text, re.S).group(1)


def rows(text):
    """The kind, the broken lines and the mended ones, of each row of the first table."""
    table = text.split("```")[2].split("Of these the broken line stands elsewhere")[0]
    for kind, broken, mended in re.findall(r"^\| `(\w+)` \| `(.*?)` \| `(.*?)` \|$", table, re.M):
        yield kind, broken, mended


def refused(text):
    """Where each text of the tables for those who come from Python stands, the text, and the kind that is said to be told of it."""
    for where, table in re.findall(r"^\| (In a method|In a class|At the top) \|.*\n\|[-|]+\n((?:\|.*\n)+)", text, re.M):
        for texts, kind in re.findall(r"^\| (`.*?`) \| `(\w+)` \|", table, re.M):
            for typed in re.findall(r"`(.*?)`", texts):
                yield where, typed.replace("\\|", "|"), kind


def placed(program, where, lines):
    """The program with these lines where they are to stand."""
    if where == "In a method":
        return program.replace("LINE", lines)
    whole = program.replace("LINE", "pass")
    if where == "In a class":
        return whole.replace("    def m(", f"    {lines}\n    def m(")
    return whole.replace("@entity", f"{lines}\n\n@entity", 1)


def told(program, text):
    """The kind that `check` tells of a text, or `ok`."""
    with tempfile.TemporaryDirectory() as room:
        file = os.path.join(room, "rules.py")
        with open(file, "w", encoding="utf-8", newline="") as made:
            made.write(text)
        ended = subprocess.run([program, "check", file], capture_output=True, text=True, timeout=30)
    if ended.returncode == 0:
        return "ok"
    return ended.stderr.strip().rsplit(": ", 1)[-1]


def main():
    program = sys.argv[1] if len(sys.argv) > 1 else os.path.join(HERE, "crates/stateflow/out/stateflow")
    if not os.access(program, os.X_OK):
        print(f"check_rules_page: there is no program at {program}: ./stateflow builds it", file=sys.stderr)
        return 2
    text = page()
    failed = 0
    for kind, broken, mended in rows(text):
        results = []
        for line in (broken, mended):
            lines = line.replace("↵", "\n").replace("⇥", "\t")
            results.append(told(program, placed(frame(text), "In a method", lines)))
        if results == [kind, "ok"]:
            print(f"ok: {kind}")
        else:
            print(f"FAILED: {kind}: told {results[0]}, and {results[1]} of the mended one")
            failed += 1
    for where, typed, kind in refused(text_of("LANGUAGE.md")):
        result = told(program, placed(frame(text), where, typed.replace("↵", "\n")))
        failed += result != kind
        print(f"ok: {typed}" if result == kind else f"FAILED: {typed}: told {result} and not {kind}")
    return 1 if failed else 0


if __name__ == "__main__":
    sys.exit(main())
