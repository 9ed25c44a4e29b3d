"""What request lines come to: a second reading of the part on lines of docs/LANGUAGE.md, over CPython's reader of JSON, for one program whose methods
give back what they are given."""

import json
import re

from drawn.calls import printed

PROGRAM = """from typing import List, Optional
from stateflow import entity

@entity
class E:
    def __init__(self, k: str, n: int):
        self.k: str = k
        self.n: int = n
    def __key__(self):
        return self.k
    def number(self) -> int:
        return self.n
    def int(self, a: int) -> int:
        return a
    def str(self, a: str) -> str:
        return a
    def bool(self, a: bool) -> bool:
        return a
    def none(self, a: None) -> None:
        return a
    def entity(self, a: E) -> E:
        return a
    def maybe(self, a: Optional[int]) -> Optional[int]:
        return a
    def ints(self, a: List[int]) -> List[int]:
        return a
    def nested(self, a: List[List[Optional[E]]], b: int) -> List[List[Optional[E]]]:
        return a
"""
NESTED = ("List", ("List", ("Optional", "entity")))
METHODS = {
    "number": [],
    "int": ["int"],
    "str": ["str"],
    "bool": ["bool"],
    "none": ["none"],
    "entity": ["entity"],
    "maybe": [("Optional", "int")],
    "ints": [("List", "int")],
    "nested": [NESTED, "int"],
}
CREATION = ["str", "int"]
LONGEST_LINE, LONGEST_ID, DEEPEST, MOST_DIGITS = 1_048_576, 64, 127, 64
CREATION_KEYS, CALL_KEYS = {"id", "class", "new"}, {"id", "class", "key", "method", "args"}


class Bad(Exception):
    """A line that can't be used, with the words of its answer."""


class Number:
    """A number of a line: its value where it counts as an integer, else none."""

    def __init__(self, text):
        is_integer = re.fullmatch("-?[0-9]+", text) and text != "-0" and -(2**63) <= int(text) < 2**64
        self.value = int(text) if is_integer else None
        if not is_integer and abs(float(text)) == float("inf"):
            raise ValueError("too great")


def no_constant(text):
    raise ValueError(text)


def levels(value):
    parts = value.values() if isinstance(value, dict) else value if isinstance(value, list) else None
    return 0 if parts is None else 1 + max(map(levels, parts), default=0)


def whole(value):
    """A value whose texts are whole: a half of a pair of code units can't be encoded."""
    json.dumps(value, default=lambda number: None, ensure_ascii=False).encode()
    return value


def json_of(line):
    """What a line holds. CPython would take `NaN`, deeper levels and halves of pairs of code units, too."""
    try:
        pairs = {"object_pairs_hook": lambda pairs: dict(whole(pairs))}
        value = whole(json.loads(line.decode(), parse_int=Number, parse_float=Number, parse_constant=no_constant, **pairs))
    except (ValueError, RecursionError):
        raise Bad("not json") from None
    if levels(value) > DEEPEST:
        raise Bad("not json")
    return value


def argument(kind, value):
    """The value of a kind that stands there so."""
    if kind[0] == "Optional":
        return None if value is None else argument(kind[1], value)
    if kind[0] == "List" and isinstance(value, list):
        return [argument(kind[1], item) for item in value]
    if kind == "int":
        if isinstance(value, Number) and value.value is not None:
            return value.value
        is_numeral = isinstance(value, str) and re.fullmatch(f"-?[0-9]{{1,{MOST_DIGITS}}}", value)
        if is_numeral and -(2**127) <= int(value) < 2**127:
            return int(value)
    elif isinstance(value, {"bool": bool, "none": type(None), "str": str, "entity": str}.get(kind, ())):
        return value
    raise Bad("argument type")


def is_request(value):
    if not isinstance(value, dict) or {*value} not in (CREATION_KEYS, CALL_KEYS):
        return False
    texts = all(isinstance(value.get(key, ""), str) for key in ("id", "class", "key", "method"))
    arrays = all(isinstance(value.get(key, []), list) for key in ("new", "args"))
    return texts and arrays and 1 <= len(value["id"].encode()) <= LONGEST_ID


def request_of(line):
    """The id of a request, and what it asks for."""
    if len(line) > LONGEST_LINE:
        raise Bad("line too long")
    value = json_of(line.removesuffix(b"\r"))
    if not is_request(value):
        raise Bad("not a request")
    if value["class"] != "E":
        raise Bad("unknown class")
    method = value.get("method")
    if method is not None and method not in METHODS:
        raise Bad("unknown method")
    kinds, given = (CREATION, value["new"]) if method is None else (METHODS[method], value["args"])
    if len(given) != len(kinds):
        raise Bad("argument count")
    arguments = [argument(kind, item) for kind, item in zip(kinds, given)]
    return value["id"], (value.get("key"), method, arguments)


def in_json(kind, value):
    if value is None or kind[0] == "Optional":
        return None if value is None else in_json(kind[1], value)
    if kind[0] == "List":
        return [in_json(kind[1], item) for item in value]
    return str(value) if kind == "int" and not -(2**63) <= value < 2**63 else value


class Session:
    """The entities and the history of a session in which each request runs by itself."""

    def __init__(self):
        self.numbers, self.replies, self.asked = {}, {}, {}

    def outcome(self, key, method, arguments):
        if method is None:
            key, number = arguments
            if key in self.numbers:
                return {"error": "AlreadyExists"}
            self.numbers[key] = number
            return {"ok": key}
        if key not in self.numbers:
            return {"error": "NoEntity"}
        kind, value = ("int", self.numbers[key]) if method == "number" else (METHODS[method][0], arguments[0])
        return {"ok": in_json(kind, value)}

    def reply(self, identity, asked):
        if identity not in self.asked:
            outcome, place = self.outcome(*asked), len(self.asked) + 1
            middle = {"message": ""} if "error" in outcome else {}
            keys = {**outcome, "id": identity, **middle, "seq": place}
            self.asked[identity] = asked
            self.replies[identity] = printed(dict(sorted(keys.items())))
        elif self.asked[identity] != asked:
            raise Bad("id reused")
        return self.replies[identity]

    def answers(self, lines):
        """The lines that come back for these lines, each of which has ended."""
        for number, line in enumerate(lines, 1):
            if line.removesuffix(b"\r"):
                try:
                    yield self.reply(*request_of(line))
                except Bad as bad:
                    yield printed({"bad": str(bad), "line": number})


NUMBERS = (
    "0 1 7 -1 007 -0 7.0 7e0 1E400 -1e-400 9223372036854775807 9223372036854775808 -9223372036854775808 -9223372036854775809 18446744073709551615 "
    "18446744073709551616 1. .5 +1 0x1 1e --1 123456789012345678901234567890 NaN Infinity - 1_0"
).split() + ["1" + "0" * 300, "1" + "0" * 310]
NUMERALS = ["7", "-7", "-007", "-0", "1" * 38, "0" * 63 + "7", "0" * 64 + "7", "-" + "0" * 64, str(2**127 - 1), str(2**127), str(-(2**127)), str(-(2**127) - 1)]
TEXTS = [*NUMERALS, "a", "b", "", '"7', "+7", " 7", "7 ", "٣", "é€😀", "\n\t\x00\x1f\x7f", "a/b\\", "E", "-"]
ODD_LINES = [b"", b" ", b"\r", b"{}", b"[]", b"null", b"1", b'"a"', b"\t", b"[" * 127 + b"]" * 127, b"[" * 128 + b"]" * 128]
LONG_REQUEST = b'{"id":"long","class":"E","new":["long",1]}'
ODD_BYTES = [b"\xff", b"\xc3", b"\x80", b"\x00", b"\t", b"\x1f", b"\x7f", b"\xed", b"\\ud83d", b"\xef\xbb\xbf", b",", b'"']


class LineDrawer:
    def __init__(self, chance):
        """chance: a random.Random"""
        self.chance = chance

    def may(self, share):
        return self.chance.random() < share

    def one_of(self, things):
        return self.chance.choice(things)

    def text(self, text):
        """A text as it may be written in JSON."""
        written = json.dumps(text, ensure_ascii=self.may(0.3))
        return written.replace("/", "\\/") if self.may(0.1) else written

    def anything(self, depth=3):
        form = self.chance.randrange(10)
        if form < 3:
            return self.one_of(NUMBERS)
        if form < 6 or depth == 0:
            return self.text(self.one_of(TEXTS))
        if form < 7:
            return self.one_of(["true", "false", "null", "null", "True", "nul"])
        items = [self.anything(depth - 1) for _ in range(self.chance.randint(0, 3))]
        return "[" + ", ".join(items) + "]" if form < 9 else "{" + ",".join(f"{self.text(self.one_of(TEXTS))}:{item}" for item in items) + "}"

    def fitting(self, kind):
        """A value of a kind, as it may stand in JSON."""
        if kind[0] == "Optional":
            return "null" if self.may(0.3) else self.fitting(kind[1])
        if kind[0] == "List":
            return "[" + ",".join(self.fitting(kind[1]) for _ in range(self.chance.randint(0, 3))) + "]"
        if kind == "int":
            return self.one_of([str(self.chance.randint(-(2**63), 2**64 - 1)), "0", "7", self.text(self.one_of(NUMERALS[:4]))])
        return {"bool": "true", "none": "null"}.get(kind) or self.text(self.one_of(TEXTS))

    def fields(self, number):
        """The keys of a request and their values, as they are written."""
        identity = self.one_of([f"r{number}", f"r{number}", f"r{max(0, number - 5)}", "x" * self.one_of([1, 63, 64, 65]), "é" * self.one_of([32, 33]), ""])
        head = {"id": self.text(identity), "class": self.text(self.one_of(["E"] * 9 + ["F"]))}
        if self.may(0.2):
            given = [self.text(self.one_of("abc")), self.fitting("int"), "1"][: self.one_of([2, 2, 2, 2, 1, 3])]
            return {**head, "new": f"[{','.join(given)}]"}
        method = self.one_of([*METHODS])
        given = [self.anything(2) if self.may(0.2) else self.fitting(kind) for kind in METHODS[method]] + ["1"] * self.may(0.05)
        named = self.one_of([method] * 12 + ["__init__", "__key__", "other"])
        return {**head, "key": self.text(self.one_of("aab")), "method": self.text(named), "args": f"[{','.join(given)}]"}

    def long_line(self):
        """A line of the greatest length, or of a byte less or more: a request and blanks, or letters alone."""
        end, (front, rest) = self.one_of([b"", b"\r"]), self.one_of([(LONG_REQUEST, b" "), (b"", b"a")])
        return front.ljust(LONGEST_LINE + self.one_of([-1, 0, 1]) - len(end), rest) + end

    def line(self, number):
        """A line without its end."""
        if self.may(0.0005):
            return self.long_line()
        if self.may(0.02):
            return self.one_of(ODD_LINES)
        pairs = [*self.fields(number).items()]
        noise = self.one_of([0, 0, 0.05, 0.2])
        pairs = [(name, self.anything() if self.may(noise) else value) for name, value in pairs]
        if self.may(0.05):
            pairs.append((self.one_of(["id", "key", "new", "other"]), self.anything()))
        if self.may(0.3):
            self.chance.shuffle(pairs)
        if self.may(0.03):
            pairs.pop()
        blank = self.one_of(["", "", " ", "\t"])
        line = (blank + "{" + ",".join(f"{blank}{self.text(name)}{blank}:{value}" for name, value in pairs) + "}" + blank).encode()
        if self.may(0.03):
            place = self.chance.randrange(len(line))
            line = line[:place] + self.one_of([b"", *ODD_BYTES]) + line[place + self.chance.randint(0, 2) :]
        return line + (b"\r" if self.may(0.1) else b"")
