"""Faults: where a program isn't accepted, why, and what mends it."""

from dataclasses import dataclass, field
from typing import NamedTuple


class Place(NamedTuple):
    """A place in a text: a line from 1, and a column that is 1 plus the bytes before it on the line."""

    line: int
    column: int

    def __str__(self) -> str:
        return f"{self.line}:{self.column}"


@dataclass(frozen=True, slots=True)
class Advice:
    """A fault in words: what is wrong, and what to write in its place."""

    message: str
    mend: str


@dataclass(frozen=True, slots=True)
class Fault:
    kind: str
    place: Place
    advice: Advice

    def __str__(self) -> str:
        return f"{self.place}: {self.kind}"


@dataclass(slots=True)
class Report:
    """The faults that a reading of a text finds, in the order in which they are found. Of one place the first one counts."""

    faults: list[Fault] = field(default_factory=list)
    places: set[Place] = field(default_factory=set)

    def add(self, kind: str, place: Place, message: str, mend: str) -> None:
        if place not in self.places:
            self.places.add(place)
            self.faults.append(Fault(kind, place, Advice(message, mend)))
