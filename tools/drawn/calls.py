"""Calls of the built program, and how what it prints is written."""

import argparse
import json
import subprocess


def words_of(page, counts):
    """The words of a tool whose page begins with its usage: the program, the first seed and how many, and further counts with what they are if left out."""
    parser = argparse.ArgumentParser(usage=page.split("\n\n")[1].removeprefix("usage: "))
    parser.add_argument("program")
    for name, least in {"first": 1, **counts}.items():
        parser.add_argument(f"--{name}", type=int, default=least)
    return parser.parse_args()


def ended(built, file, words, lines=b""):
    """A call of a command on a file, with these bytes as its input."""
    return subprocess.run([built, words[0], file, *words[1:]], input=lines, capture_output=True, check=False)


def replies(built, file, words, lines):
    """The lines that a call prints, or its status where it doesn't end well."""
    call = ended(built, file, words, lines)
    return call.stdout.decode().splitlines() if call.returncode == 0 else [f"the status is {call.returncode}"]


def printed(value):
    """A reply line."""
    return json.dumps(value, ensure_ascii=False, separators=(",", ":"))
