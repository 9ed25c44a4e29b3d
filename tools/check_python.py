#!/usr/bin/env python3
"""Tries the examples under plain Python: python3 tools/check_python.py

Each program is loaded by CPython and each of its tests is run, with the marks of python/stateflow, and so are the tests of that package. mypy looks at
the package, the programs and the tests, where it is installed for this Python or stands on the path. The program at the head of docs/LANGUAGE.md has to be
that of examples/offer. Prints one line a case, and fails where one is wrong.
"""

import glob
import importlib.util
import os
import re
import shutil
import subprocess
import sys

HERE = os.path.dirname(os.path.dirname(os.path.abspath(__file__)))
MARKS = os.path.join(HERE, "python")


def calls(*words, folder=HERE):
    """Whether a call ends well; what it said is printed where it doesn't."""
    more = {"PYTHONPATH": MARKS, "MYPYPATH": MARKS, "PYTHONDONTWRITEBYTECODE": "1"}
    ended = subprocess.run(words, env={**os.environ, **more}, cwd=folder, capture_output=True, text=True)
    if ended.returncode != 0:
        print(ended.stdout + ended.stderr, end="")
    return ended.returncode == 0


def read(file):
    with open(os.path.join(HERE, file), encoding="utf-8") as text:
        return text.read()


def first_program(page):
    """The first text in Python on a page."""
    return re.search(r"```python\n(.*?)```", read(page), re.S).group(1)


def mypy_words():
    """The words that call mypy: as a module of this Python, else as a program on the path; none where it isn't installed."""
    if importlib.util.find_spec("mypy") is not None:
        return [sys.executable, "-m", "mypy"]
    program = shutil.which("mypy")
    return [program] if program else None


def with_mypy(words, *given, folder=HERE):
    """mypy's answer, or none where it isn't installed."""
    return calls(*words, "--cache-dir", os.devnull, *given, folder=folder) if words else None


def cases():
    """What is tried, by name, and whether it holds; none where it was skipped."""
    mypy = mypy_words()
    for folder in sorted(glob.glob(os.path.join(HERE, "examples/*"))):
        name = os.path.basename(folder)
        for file in sorted(glob.glob(os.path.join(folder, f"{name}.py")) + glob.glob(os.path.join(folder, "test_*.py"))):
            yield os.path.relpath(file, HERE), calls(sys.executable, file)
        # a folder at a time, since each has a module of the name of its program
        files = sorted(glob.glob(os.path.join(folder, "*.py")))
        yield f"mypy, {os.path.relpath(folder, HERE)}", with_mypy(mypy, "--check-untyped-defs", *files)
    yield "tests of python", calls(sys.executable, "-m", "unittest", folder=MARKS)
    yield "mypy, python", with_mypy(mypy, "--strict", "stateflow", "tests", "build_wheel_file.py", folder=MARKS)
    yield "the first program of docs/LANGUAGE.md", first_program("docs/LANGUAGE.md") == read("examples/offer/offer.py")


def main():
    failed = 0
    for name, holds in cases():
        failed += holds is False
        print({True: "ok", False: "FAILED", None: "skipped"}[holds] + f": {name}")
    return 1 if failed else 0


if __name__ == "__main__":
    sys.exit(main())
