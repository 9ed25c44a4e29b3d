#!/usr/bin/env python3
"""Tries the parked edits of a crate: those that stand as must-fail/NAME.edit.md and that the gate only reads.

    tools/parked_edits.py CRATE [WORD..]    all of them, or those whose name has one of the words in it

They are tried on a copy of the repository's sources by `rt must-fail`, over what checks on this machine kept, and the prover has to refuse each.
The status is 0 where it does. Whoever changes a crate runs it on that crate; an edit whose text is gone is told as a BAD EDIT, to be mended.
"""
import shutil
import subprocess
import sys
import tempfile
from pathlib import Path

TOP = Path(__file__).resolve().parent.parent
PARKED = ".edit.md"
SOURCES = ("src", "specs", "proofs")


def parked_edits(crate, words):
    """The files of the parked edits of a crate whose names have one of the words in them, or all."""
    files = sorted((TOP / "crates" / crate / "must-fail").glob(f"*{PARKED}"))
    return [file for file in files if not words or any(word in file.name for word in words)]


def copy_sources(room):
    """Copies what a check reads of each crate."""
    for file in ("crates.txt", "HANDLES"):
        shutil.copy(TOP / file, room)
    for crate in (TOP / "crates").iterdir():
        for part in SOURCES:
            if (crate / part).is_dir():
                shutil.copytree(crate / part, room / "crates" / crate.name / part)


def try_edits(crate, edits):
    with tempfile.TemporaryDirectory(prefix="parked-edits-") as folder:
        room = Path(folder)
        copy_sources(room)
        tried = room / "crates" / crate / "must-fail"
        tried.mkdir()
        for edit in edits:
            shutil.copy(edit, tried / edit.name.removesuffix(".md"))
        return subprocess.run(["rt", "must-fail", crate], cwd=room, check=False).returncode


def main(words):
    if not words or words[0].startswith("-"):
        print(__doc__, file=sys.stderr)
        return 2
    crate = words[0]
    edits = parked_edits(crate, words[1:])
    if not edits:
        print(f"parked_edits: {crate} has no parked edit of such a name", file=sys.stderr)
        return 2
    return try_edits(crate, edits)


if __name__ == "__main__":
    sys.exit(main(sys.argv[1:]))
