from typing import List
from stateflow import entity, transactional


@entity
class Day:
    """A room on one day: its list has 24 hours at most, and what grows is the number of days."""

    def __init__(self, name: str, seats: int):
        self.name: str = name
        self.seats: int = seats
        self.hours: List[int] = []

    def __key__(self):
        return self.name

    def is_free(self, hour: int) -> bool:
        for taken in self.hours:
            if taken == hour:
                return False
        return True

    def book(self, hour: int, people: int) -> None:
        assert 0 <= hour and hour < 24, "no such hour"
        assert people <= self.seats, "too many people"
        assert self.is_free(hour), "already booked"
        self.hours = self.hours + [hour]


@entity
class Room:
    def __init__(self, name: str, seats: int):
        self.name: str = name
        self.seats: int = seats

    def __key__(self) -> str:
        return self.name

    def open(self, day: int) -> Day:
        """Makes the day, whose key anybody can tell who knows the room's name."""
        return Day(self.name + "/" + str(day), self.seats)


@entity
class Guest:
    def __init__(self, name: str):
        self.name: str = name
        self.bookings: int = 0

    def __key__(self):
        return self.name

    @transactional
    def meet(self, first: Day, second: Day, hour: int, people: int) -> int:
        """Books two rooms, one hour after the other, or none."""
        first.book(hour, people)
        second.book(hour + 1, people)
        self.bookings += 2
        return self.bookings
