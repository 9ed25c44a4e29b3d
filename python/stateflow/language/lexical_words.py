"""Faults of lines and words, in words."""

from stateflow.language.faults import Advice
from stateflow.limits import GREATEST_INT, LONGEST_TEXT

CHARACTERS = {
    "{": Advice("the language has no dicts and no sets", "make an entity for each key, or keep two lists of one length"),
    "}": Advice("`}` is no sign of the language", "leave it out"),
    "/": Advice("the language has no `/`: it has no floats", "divide whole numbers with `//`, in a smaller unit such as cents"),
    "|": Advice("`|` is no sign of the language", "write `Optional[int]` for `int | None`, and `or` between tests"),
    "&": Advice("`&` is no sign of the language: it has no operators on bits", "write `and` between tests"),
    "^": Advice("`^` is no sign of the language: it has no operators on bits", "write `!=` between tests"),
    "~": Advice("`~` is no sign of the language: it has no operators on bits", "write `not` before a test"),
    "!": Advice("`!` is no sign of the language", "write `not` before a test, and `!=` between two values"),
    "$": Advice("`$` is no sign of the language", "leave it out"),
    "?": Advice("`?` is no sign of the language", "write a choice as `a if test else b`"),
    "`": Advice("a backquote is no sign of the language", "put strings in `'` or `\"`"),
    "\\": Advice("a backslash joins two lines only as the last character of a line that has begun", "put what goes over several lines into round brackets"),
    "\r": Advice("a carriage return stands alone", "end lines with LF or CR LF: save the file with other line ends"),
    "\0": Advice("a zero byte stands here", "save the file as text in UTF-8"),
    "\f": Advice("a form feed stands here", "leave it out"),
    "\ufeff": Advice("the file begins with a byte order mark", "save it as UTF-8 without one (`UTF-8`, not `UTF-8 with BOM`)"),
}
QUOTES = "\u2018\u2019\u201c\u201d\u201e\u00ab\u00bb"


def bad_character(character: str) -> Advice:
    if character in QUOTES:
        return Advice(f"`{character}` is no quote of a string", "put strings in `'` or `\"`")
    if character in CHARACTERS:
        return CHARACTERS[character]
    if character.isalpha():
        return Advice(f"`{character}` can't stand in a name", "write names with the letters a to z and A to Z, digits and `_`")
    if character.isspace():
        return Advice(f"the blank U+{ord(character):04X} stands here", "write a plain space")
    return Advice(f"no word, number, string or sign begins with U+{ord(character):04X}", "leave it out, or put it into a string")


def bad_number(number: str) -> Advice:
    if number.lower().startswith(("0x", "0o", "0b")):
        return Advice(f"`{number}` isn't decimal", f"write it with decimal digits{decimal(number)}")
    if "." in number or (number.lower().replace("e", "").isdigit() and "e" in number.lower()):
        return Advice(f"`{number}` is no whole number: the language has no floats", "count in a smaller unit, such as cents")
    if "__" in number or number.endswith("_"):
        return Advice(f"in `{number}` a `_` doesn't stand between two digits", "write one `_` between digits, or none")
    if number.replace("_", "").isdigit():
        return Advice(f"`{number}` begins with 0", f"write `{number.lstrip('0_')}`")
    return Advice(f"`{number}` is no number, and no name", "let names begin with a letter or `_`, and put a blank behind a number")


def decimal(number: str) -> str:
    """The decimal digits of a number in another base, if it is one."""
    try:
        return f": `{int(number, 0)}`"
    except ValueError:
        return ""


def literal_too_wide() -> Advice:
    return Advice(f"the number is greater than {GREATEST_INT}, the greatest int", "write a smaller one: an int has 128 bits")


def bad_escape(behind: str) -> Advice:
    if behind == "N" or behind == "U":
        return Advice(f"the language has no escape `\\{behind}`", "write the character itself, or `\\uhhhh` with four digits")
    if behind in ("x", "u"):
        digits = "two" if behind == "x" else "four"
        message = f"behind `\\{behind}` come {digits} hexadecimal digits, and no half of a pair"
        return Advice(message, f"write `\\{behind}` with {digits} digits, or the character itself")
    if behind in ("", "\n", "\r"):
        return Advice("a string isn't joined over two lines by a backslash", "join two strings with `+`")
    return Advice(f"`\\{behind}` is no escape of the language", f"write `\\\\{behind}` for a backslash and `{behind}`")


def open_string(quote: str) -> Advice:
    if len(quote) == 3:
        return Advice("the string isn't closed", f"close it with {quote}")
    return Advice("the string isn't closed on its line", f"close it with {quote}, or put it into three quotes")


def open_bracket() -> Advice:
    return Advice("the bracket isn't closed", "close it")


def tab_indent() -> Advice:
    return Advice("a tab stands before the first word of the line", "indent with spaces, four a level")


def bad_dedent(column: int) -> Advice:
    return Advice(f"no open block stands at this column: {column} spaces stand before the line", "indent it as the block is in which it belongs")


def not_utf8() -> Advice:
    return Advice("these bytes aren't UTF-8", "save the file as UTF-8")


def too_long(size: int) -> Advice:
    return Advice(f"the text has {size:,} bytes, and a program at most {LONGEST_TEXT:,}", "take out what isn't needed")
