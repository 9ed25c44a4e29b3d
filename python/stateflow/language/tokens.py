"""The tokens of a text: words, numbers, strings, signs, and the ends of logical lines.

The text is read from the left. A fault is reported where it is met, and the reading goes on behind it as well as it can, so the first one that is
reported is the first one of the text."""

import enum
import re
from dataclasses import dataclass
from typing import NoReturn

from stateflow.language import lexical_words as words
from stateflow.language.faults import Advice, Place, Report
from stateflow.limits import GREATEST_INT, LONGEST_TEXT

KEYWORDS = frozenset(
    "False None True and as assert async await break class continue def del elif else except finally for from global if import in is lambda nonlocal not"
    " or pass raise return try while with yield".split()
)
BLANKS = re.compile(r"[ \t]*")
PLAIN_LINE = re.compile(r"[^\r\n\0]*")
WORD = re.compile(r"[A-Za-z_][A-Za-z0-9_]*")
DIGITS = re.compile(r"[0-9][0-9_]*")
NUMBER = re.compile(r"[0-9]+(?:_[0-9]+)*")
NUMBER_LIKE = re.compile(r"[A-Za-z0-9_.]*")
SIGN = re.compile(r"//=|->|==|!=|<=|>=|//|\+=|-=|\*=|%=|[()\[\]:,;.=<>+\-*%@]")
LINE_END = re.compile(r"\r?\n")
JOINED = re.compile(r"\\\r?\n")
QUOTE = re.compile(r"'''|\"\"\"|'|\"")
PLAIN_TEXT = re.compile(r"[^\r\n\0\\'\"]+")
ESCAPE = re.compile(r"\\(?:([\\'\"nrt])|x([0-9A-Fa-f]{2})|u(?![dD][89A-Fa-f])([0-9A-Fa-f]{4}))")
SHORT_ESCAPES = {"n": "\n", "r": "\r", "t": "\t"}
MOST_DIGITS = len(str(GREATEST_INT))


class Kind(enum.Enum):
    NAME = "name"
    KEYWORD = "keyword"
    NUMBER = "number"
    STRING = "string"
    SIGN = "sign"
    LINE_END = "line end"
    TEXT_END = "text end"


@dataclass(slots=True)
class Token:
    """A token. `text` is the word or sign, and empty for all else; `indent` is the column of the line that it begins, and none within a line."""

    kind: Kind
    text: str
    place: Place
    end: Place
    indent: int | None = None
    value: int | str = ""

    def shown(self) -> str:
        """The token as a message names it."""
        if self.kind in (Kind.NAME, Kind.KEYWORD, Kind.SIGN):
            return f"`{self.text}`"
        if self.kind is Kind.NUMBER:
            return f"the number {self.value}"
        return "a string" if self.kind is Kind.STRING else "the line's end"


class Ended(Exception):
    """The reading can't go on."""


class Reader:
    """Reads the tokens of a text. `text` is what can be read of it as UTF-8, and `is_cut` says that other bytes come behind that."""

    def __init__(self, text: str, is_cut: bool, report: Report) -> None:
        self.text, self.is_cut, self.report = text, is_cut, report
        self.is_ascii = text.isascii()
        self.at = 0
        self.line = 1
        self.known_at, self.known_column = 0, 1
        self.tokens: list[Token] = []
        self.indents: list[int] = []
        self.brackets: list[Place] = []
        self.braces: list[Place] = []
        self.indent: int | None = None
        self.is_in_line = False

    # Places

    def place(self, at: int | None = None) -> Place:
        """The place of a point of the current line that isn't left of the last one that was asked for."""
        at = self.at if at is None else at
        self.known_column += at - self.known_at if self.is_ascii else len(self.text[self.known_at : at].encode())
        self.known_at = at
        return Place(self.line, self.known_column)

    def begin_line(self, at: int) -> None:
        """The next physical line begins here."""
        self.at = self.known_at = at
        self.known_column = 1
        self.line += 1

    def fault(self, kind: str, place: Place, advice: Advice) -> None:
        self.report.add(kind, place, advice.message, advice.mend)

    def no_utf8(self) -> NoReturn:
        self.fault("NotUtf8", self.place(), words.not_utf8())
        raise Ended

    # Lines

    def read(self) -> list[Token]:
        """The tokens, up to the end of the text."""
        try:
            while self.at < len(self.text) or self.is_cut:
                if self.is_in_line:
                    self.read_part()
                else:
                    self.read_indent()
        except Ended:
            pass
        if self.brackets and not self.is_cut:
            self.fault("OpenBracket", self.brackets[-1], words.open_bracket())
        self.end_line()
        end = self.tokens[-1].end if self.tokens else Place(1, 1)
        self.tokens.append(Token(Kind.TEXT_END, "", end, end, -1))
        return self.tokens

    def end_line(self) -> None:
        """The logical line ends here, if one has begun."""
        if self.tokens and self.tokens[-1].kind is not Kind.LINE_END:
            end = self.tokens[-1].end
            self.tokens.append(Token(Kind.LINE_END, "", end, end))
        self.is_in_line = False

    def read_indent(self) -> None:
        """The blanks before a line's first token; a line without one is passed over."""
        start = self.at
        blanks = BLANKS.match(self.text, start)
        assert blanks is not None
        first = blanks.end()
        ended = LINE_END.match(self.text, first)
        if ended is not None:
            return self.begin_line(ended.end())
        if self.text.startswith("#", first):
            self.at = first
            return self.pass_over_comment()
        if first == len(self.text) and not self.is_cut:
            self.at = first
            return None
        if "\t" in blanks.group():
            self.fault("TabIndent", self.place(start + blanks.group().index("\t")), words.tab_indent())
        self.at = first
        if first == len(self.text):
            self.no_utf8()
        self.open_column(len(blanks.group()))
        return None

    def open_column(self, column: int) -> None:
        """A logical line begins in this column."""
        while self.indents and column < self.indents[-1]:
            self.indents.pop()
            if column > (self.indents[-1] if self.indents else 0):
                self.fault("BadDedent", self.place(), words.bad_dedent(column))
        if column > (self.indents[-1] if self.indents else 0):
            self.indents.append(column)
        self.indent, self.is_in_line = column, True

    def pass_over_comment(self) -> None:
        """Passes over a comment up to the end of its line."""
        while True:
            plain = PLAIN_LINE.match(self.text, self.at)
            assert plain is not None
            self.at = plain.end()
            if self.at == len(self.text):
                return self.no_utf8() if self.is_cut else None
            if LINE_END.match(self.text, self.at):
                return None
            self.read_bad_character()

    def read_bad_character(self) -> None:
        """What begins nothing. Behind a curly bracket lines go on up to the one that closes it, so a dict is one fault."""
        character, place = self.text[self.at], self.place()
        if character == "}" and self.braces and self.brackets[-1:] == self.braces[-1:]:
            self.braces.pop()
            self.brackets.pop()
        else:
            self.fault("BadCharacter", place, words.bad_character(character))
        if character == "{":
            self.braces.append(place)
            self.brackets.append(place)
        self.at += 1

    # Tokens

    def read_part(self) -> None:
        """What stands next in a line: a token, blanks, a comment, or the line's end."""
        if self.at == len(self.text):
            self.no_utf8()
        character = self.text[self.at]
        if character in " \t":
            blanks = BLANKS.match(self.text, self.at)
            self.at = blanks.end() if blanks else self.at
        elif character in "'\"":
            self.read_string()
        elif character == "#":
            self.pass_over_comment()
        elif character in "\r\n\\":
            self.read_line_end()
        else:
            self.read_plain(character)

    def read_line_end(self) -> None:
        """The end of a line, within or without brackets, or joined to the next one behind a first token."""
        ended = LINE_END.match(self.text, self.at)
        joined = JOINED.match(self.text, self.at) if self.indent is None else None
        if ended is not None:
            if not self.brackets:
                self.end_line()
            self.begin_line(ended.end())
        elif joined is not None:
            self.begin_line(joined.end())
        else:
            self.read_bad_character()

    def add(self, kind: Kind, place: Place, text: str = "", value: int | str = "") -> None:
        self.tokens.append(Token(kind, text, place, self.place(), self.indent, value))
        self.indent = None

    def read_plain(self, character: str) -> None:
        """A word, a number, a sign, or what is none of them."""
        place = self.place()
        word = WORD.match(self.text, self.at)
        if word is not None:
            self.at = word.end()
            self.add(Kind.KEYWORD if word.group() in KEYWORDS else Kind.NAME, place, word.group())
        elif "0" <= character <= "9":
            self.read_number(place)
        elif (sign := SIGN.match(self.text, self.at)) is not None:
            self.at = sign.end()
            self.add(Kind.SIGN, place, sign.group())
            self.count_bracket(sign.group(), place)
        else:
            self.read_bad_character()

    def count_bracket(self, sign: str, place: Place) -> None:
        if sign in ("(", "["):
            self.brackets.append(place)
        elif sign in (")", "]") and self.brackets:
            self.brackets.pop()

    def read_number(self, place: Place) -> None:
        found = DIGITS.match(self.text, self.at)
        assert found is not None
        digits = found.group()
        plain = digits.replace("_", "").lstrip("0")
        behind = self.text[found.end() : found.end() + 1]
        is_number = NUMBER.fullmatch(digits) and not (plain and digits[0] == "0") and behind != "." and not WORD.match(behind)
        self.at = found.end()
        if not is_number:
            whole = NUMBER_LIKE.match(self.text, found.start())
            assert whole is not None
            self.at = whole.end()
            self.fault("BadNumber", place, words.bad_number(whole.group()))
        elif len(plain) > MOST_DIGITS or int(plain or "0") > GREATEST_INT:
            self.fault("LiteralTooWide", place, words.literal_too_wide())
        value = int(plain or "0") if is_number and len(plain) <= MOST_DIGITS else 0
        self.add(Kind.NUMBER, place, value=value)

    def read_string(self) -> None:
        place = self.place()
        opened = QUOTE.match(self.text, self.at)
        assert opened is not None
        quote = opened.group()
        is_empty = len(quote) == 1 and self.text.startswith(quote, opened.end())
        self.at = opened.end() + (1 if is_empty else 0)
        parts: list[str] = []
        while not is_empty and not self.text.startswith(quote, self.at):
            if not self.read_string_part(quote, parts):
                self.fault("OpenString", place, words.open_string(quote))
                break
        else:
            self.at += 0 if is_empty else len(quote)
        self.add(Kind.STRING, place, value="".join(parts))

    def read_string_part(self, quote: str, parts: list[str]) -> bool:
        """A part of a string that isn't its end; false where the string can't go on."""
        if self.at == len(self.text):
            return self.no_utf8() if self.is_cut else False
        plain = PLAIN_TEXT.match(self.text, self.at)
        ended = LINE_END.match(self.text, self.at)
        if plain is not None:
            parts.append(plain.group())
            self.at = plain.end()
        elif ended is not None:
            if len(quote) == 1:
                return False
            parts.append("\n")
            self.begin_line(ended.end())
        elif self.text[self.at] == "\\":
            self.read_escape(parts)
        elif self.text[self.at] in "\r\0":
            self.read_bad_character()
        else:
            parts.append(self.text[self.at])
            self.at += 1
        return True

    def read_escape(self, parts: list[str]) -> None:
        escape = ESCAPE.match(self.text, self.at)
        if escape is None:
            self.fault("BadEscape", self.place(), words.bad_escape(self.text[self.at + 1 : self.at + 2]))
            self.at += 1
            return
        short, two, four = escape.groups()
        parts.append(SHORT_ESCAPES.get(short, short) if short else chr(int(two or four, 16)))
        self.at = escape.end()


def tokens_of(content: bytes, report: Report) -> list[Token]:
    """The tokens of a text. Where `report` has faults then, they are what could be read beside them."""
    if len(content) > LONGEST_TEXT:
        advice = words.too_long(len(content))
        report.add("TooLong", Place(1, 1), advice.message, advice.mend)
        return Reader("", False, report).read()
    try:
        return Reader(content.decode(), False, report).read()
    except UnicodeDecodeError as error:
        return Reader(content[: error.start].decode(), True, report).read()
