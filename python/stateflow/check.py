"""`check`: all faults of a program in words, with the line, a mark under the place, and what mends it."""

from collections.abc import Iterator

from stateflow.language.faults import Fault, Place
from stateflow.language.program import Reading


def line_at(content: bytes, place: Place) -> tuple[str, str]:
    """The line of a place, and the blanks that stand before the mark under it."""
    lines = content.split(b"\n")
    line = lines[place.line - 1].removesuffix(b"\r") if place.line <= len(lines) else b""
    before = line[: place.column - 1].decode("utf-8", "replace")
    return line.decode("utf-8", "replace"), "".join("\t" if character == "\t" else " " for character in before)


def in_words(file: str, content: bytes, fault: Fault) -> str:
    """A fault as it is printed."""
    line, blanks = line_at(content, fault.place)
    number = str(fault.place.line)
    edge = " " * len(number)
    return (
        f"{file}:{fault.place}: {fault.advice.message} [{fault.kind}]\n"
        f"  {number} | {line}\n"
        f"  {edge} | {blanks}^\n"
        f"  {edge} = {fault.advice.mend}\n"
    )


def counted(count: int) -> str:
    return "1 fault" if count == 1 else f"{count} faults"


def report_lines(file: str, content: bytes, reading: Reading) -> Iterator[str]:
    """What `check` prints of a text, each fault and then how many they are, or what the program has."""
    for fault in reading.in_text_order():
        yield in_words(file, content, fault)
    yield f"{counted(len(reading.faults))}\n" if reading.faults else f"{reading.tree.count()}\n"


def like_program(file: str, reading: Reading) -> str:
    """The line that the program prints: what a text has, or the first rule that it breaks."""
    return f"stateflow: {file}:{reading.faults[0]}" if reading.faults else reading.tree.count()
