"""The types of values, and which of them may stand where another is asked."""

from collections.abc import Container, Iterator
from dataclasses import dataclass

from stateflow.language import tree


@dataclass(frozen=True, slots=True)
class Plain:
    name: str

    def __str__(self) -> str:
        return self.name


@dataclass(frozen=True, slots=True)
class Entity:
    """The entities of a class."""

    name: str

    def __str__(self) -> str:
        return self.name


@dataclass(frozen=True, slots=True)
class ListOf:
    item: "Kind"

    def __str__(self) -> str:
        return f"List[{self.item}]"


@dataclass(frozen=True, slots=True)
class OptionalOf:
    item: "Kind"

    def __str__(self) -> str:
        return f"Optional[{self.item}]"


Kind = Plain | Entity | ListOf | OptionalOf

INT, BOOL, STR, NONE = Plain("int"), Plain("bool"), Plain("str"), Plain("None")
UNKNOWN = Plain("unknown")
"""The type of what stands behind a fault: it may stand everywhere, so a fault is told once."""


def may_be_none(kind: Kind) -> bool:
    return kind == NONE or isinstance(kind, OptionalOf)


def takes(wanted: Kind, kind: Kind) -> bool:
    """Whether a value of a type may stand where another is asked."""
    if wanted == kind or UNKNOWN in (wanted, kind):
        return True
    if isinstance(wanted, OptionalOf):
        return kind == NONE or takes(wanted.item, kind) or (isinstance(kind, OptionalOf) and takes(wanted.item, kind.item))
    return isinstance(wanted, ListOf) and isinstance(kind, ListOf) and holds_unknown(wanted, kind) and takes(wanted.item, kind.item)


def parts(kind: Kind) -> Iterator[Kind]:
    """A type, and those that it is made of."""
    yield kind
    if isinstance(kind, (ListOf, OptionalOf)):
        yield from parts(kind.item)


def holds_unknown(*kinds: Kind) -> bool:
    return any(part == UNKNOWN for kind in kinds for part in parts(kind))


def joined(one: Kind, other: Kind) -> Kind | None:
    """The type of what has one of two types, if there is one."""
    for left, right in ((one, other), (other, one)):
        if takes(left, right):
            return left
        if right == NONE:
            return OptionalOf(left)
    return None


def item_wanted(wanted: Kind | None) -> Kind | None:
    """The type of the elements, where a list is wanted."""
    if isinstance(wanted, OptionalOf):
        wanted = wanted.item
    return wanted.item if isinstance(wanted, ListOf) else None


def kind_of(written: tree.WrittenType | None, classes: Container[str]) -> Kind:
    """The type that is written, in a program with these classes."""
    match written:
        case tree.PlainType(name=name):
            return Plain(name)
        case tree.ClassType(name=name) if name in classes:
            return Entity(name)
        case tree.ListType(item=item):
            return ListOf(kind_of(item, classes))
        case tree.OptionalType(item=item):
            return OptionalOf(kind_of(item, classes))
    return UNKNOWN
