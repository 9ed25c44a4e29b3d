"""The commands of the package: python3 -m stateflow."""

import argparse
import json
import os
import sys
from collections.abc import Sequence
from pathlib import Path

from stateflow.check import like_program, report_lines
from stateflow.describe import description_of, openapi_of
from stateflow.language.program import Reading, read

REFUSED, UNREADABLE, UNWRITTEN = 1, 3, 4


def parser() -> argparse.ArgumentParser:
    words = argparse.ArgumentParser(prog="python3 -m stateflow", description="Checks and describes StateFlow programs.")
    commands = words.add_subparsers(dest="command", required=True)
    check = commands.add_parser("check", help="tell all faults of a program in words, and what mends each")
    check.add_argument("file", metavar="FILE")
    check.add_argument("--like-program", action="store_true", help="print the line that `stateflow check` prints, and nothing else")
    describe = commands.add_parser("describe", help="print the classes of a program, their methods, parameters and results as JSON")
    describe.add_argument("file", metavar="FILE")
    describe.add_argument("--openapi", action="store_true", help="print an OpenAPI page of a service over HTTP instead")
    return words


def checked(file: str, content: bytes, reading: Reading, is_like_program: bool) -> int:
    """Prints what `check` says, and gives its status."""
    if is_like_program:
        print(like_program(file, reading), file=sys.stderr if reading.faults else sys.stdout)
    else:
        print("\n".join(report_lines(file, content, reading)), end="")
    return REFUSED if reading.faults else 0


def described(file: str, content: bytes, reading: Reading, is_openapi: bool) -> int:
    """Prints what an accepted program has, and of another one its faults."""
    if reading.faults:
        print("\n".join(report_lines(file, content, reading)), end="", file=sys.stderr)
        return REFUSED
    description = description_of(reading)
    page = openapi_of(description, Path(file).stem) if is_openapi else description
    print(json.dumps(page, indent=2, ensure_ascii=False))
    return 0


def main(words: Sequence[str] | None = None) -> int:
    given = parser().parse_args(words)
    try:
        content = Path(given.file).read_bytes()
    except OSError as error:
        is_like_program = given.command == "check" and given.like_program
        print("stateflow: read fault" if is_like_program else f"stateflow: {given.file}: {error.strerror}", file=sys.stderr)
        return UNREADABLE
    reading = read(content)
    if given.command == "check":
        return checked(given.file, content, reading, given.like_program)
    return described(given.file, content, reading, given.openapi)


def main_on_pipes() -> int:
    """The commands, where what reads their output may end before them."""
    try:
        status = main()
        sys.stdout.flush()
    except BrokenPipeError:
        os.dup2(os.open(os.devnull, os.O_WRONLY), sys.stdout.fileno())
        return UNWRITTEN
    return status


if __name__ == "__main__":
    sys.exit(main_on_pipes())
