"""Draws requests to a drawn program, with the values that their arguments stand for."""

import dataclasses

from drawn.programs import item_of

KEYS = "ab"
NUMBERS = [0, 1, 2, 3, -1, 5, 63, 100, 2**63, -(2**63), 2**64 - 1, 2**127 - 1, -(2**127)]
TEXTS = ["a", "b", "", "é", 'k"\\\n', "\u0001", "x" * 100]


@dataclasses.dataclass(frozen=True)
class Entity:
    """A class and a key, as an argument."""

    class_name: str
    key: str


@dataclasses.dataclass
class Drawn:
    """A request: what stands in its line, and the same with the values of its arguments."""

    line: dict
    request: dict


def drawn_value(drawer, kind):
    """A value of a kind, and how it stands in a line."""
    if kind.startswith("Optional"):
        return (None, None) if drawer.chance(0.3) else drawn_value(drawer, item_of(kind))
    if kind.startswith("List"):
        items = [drawn_value(drawer, item_of(kind)) for _ in range(drawer.random.randint(0, 3))]
        return [value for value, _ in items], [written for _, written in items]
    if kind == "int":
        number = drawer.one_of(NUMBERS)
        is_text = not -(2**63) <= number < 2**64 or drawer.chance(0.2)
        return number, str(number) if is_text else number
    if kind in ("bool", "str"):
        value = drawer.one_of([True, False] if kind == "bool" else TEXTS)
        return value, value
    key = drawer.one_of("aabbc")
    return Entity(kind, key), key


def with_arguments(drawer, head, field, kinds, key=None):
    """A request with arguments of these kinds; that of the name `key` is given."""
    values = [(key, key) if name == "key" and key is not None else drawn_value(drawer, kind) for name, kind in kinds.items()]
    return Drawn({**head, field: [written for _, written in values]}, {**head, field: [value for value, _ in values]})


def drawn_requests(drawer, count):
    """So many requests. Most of the entities that they name are made by one of the first."""
    creations = [(name, key) for name in drawer.classes for key in KEYS]
    drawer.random.shuffle(creations)
    for number in range(count):
        head = {"id": f"r{number}"}
        if creations and (number < 4 or drawer.chance(0.3)):
            name, key = creations.pop()
        elif drawer.chance(0.1):
            name, key = drawer.one_of(drawer.classes), drawer.one_of("abc")
        else:
            name, key = drawer.one_of(drawer.classes), drawer.one_of("aaaabbbbc")
            method = drawer.one_of([*drawer.methods[name]])
            head.update({"class": name, "key": key, "method": method})
            yield with_arguments(drawer, head, "args", drawer.methods[name][method][0])
            continue
        yield with_arguments(drawer, {**head, "class": name}, "new", drawer.parameters[name], key)
