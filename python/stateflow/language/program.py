"""A text as a program: its tree, its tables, and its faults."""

import contextlib
import sys
from collections.abc import Iterator, Sequence
from dataclasses import dataclass

from stateflow.language import tree
from stateflow.language.class_rules import look_at_classes
from stateflow.language.effects import MethodName, changing
from stateflow.language.faults import Fault, Report
from stateflow.language.grammar import program_of
from stateflow.language.tokens import Kind, Token, tokens_of
from stateflow.language.type_rules import look_at_methods

DEEPEST_STACK = 60_000
"""Frames that the deepest program may take: each level of a text takes some twenty, and each dot behind a bracket some more."""
LAYOUT = frozenset(["TooLong", "NotUtf8", "TabIndent", "BadDedent", "OpenString", "OpenBracket"])
"""Faults of lines behind which nothing is known of what stands on them."""


@dataclass(frozen=True, slots=True)
class Reading:
    """What a text is read as, with the methods that may change something. The faults stand in the order in which they are told: those of words, of the
    grammar, of classes, and of types."""

    tree: tree.Program
    changing: frozenset[MethodName]
    faults: list[Fault]

    def in_text_order(self) -> list[Fault]:
        return sorted(self.faults, key=lambda fault: fault.place)


@contextlib.contextmanager
def deep_stack() -> Iterator[None]:
    before = sys.getrecursionlimit()
    sys.setrecursionlimit(max(before, DEEPEST_STACK))
    try:
        yield
    finally:
        sys.setrecursionlimit(before)


def spoiled_lines(tokens: Sequence[Token], faults: Sequence[Fault]) -> set[int]:
    """The lines of those logical lines on which a word couldn't be read."""
    faulty = {fault.place.line for fault in faults}
    spoiled, first = set(faulty), 1
    for token in tokens if faulty else []:
        first = token.place.line if token.indent is not None else first
        if token.kind is Kind.LINE_END and not faulty.isdisjoint(range(first, token.end.line + 1)):
            spoiled.update(range(first, token.end.line + 1))
    return spoiled


def read(content: bytes) -> Reading:
    """Reads a text. Where its lines can't be told the grammar isn't looked at, and where a word can't nothing is told of its line beside it."""
    lexical, grammatical, ruled = Report(), Report(), Report()
    with deep_stack():
        tokens = tokens_of(content, lexical)
        if any(fault.kind in LAYOUT for fault in lexical.faults):
            return Reading(tree.Program(), frozenset(), lexical.faults)
        program = program_of(tokens, grammatical)
        tables = look_at_classes(program, ruled)
        effects = look_at_methods(program, tables, ruled)
    spoiled = spoiled_lines(tokens, lexical.faults)
    others = [fault for fault in [*grammatical.faults, *ruled.faults] if fault.place.line not in spoiled]
    return Reading(program, changing(effects), [*lexical.faults, *others])
