"""What methods do to the state: which of them may assign a field or make an entity, themselves or by what they call."""

from collections.abc import Mapping
from dataclasses import dataclass, field

MethodName = tuple[str, str]
"""The names of a class and of one of its methods."""


@dataclass(slots=True)
class Effects:
    """What the statements of a method do that can be reached."""

    changes: bool = False
    calls: set[MethodName] = field(default_factory=set)


def changing(effects: Mapping[MethodName, Effects]) -> frozenset[MethodName]:
    """The methods that may change something."""
    found = {name for name, effect in effects.items() if effect.changes}
    while True:
        more = {name for name, effect in effects.items() if effect.calls & found} - found
        if not more:
            return frozenset(found)
        found |= more
