"""A program that the tests try: products, accounts and rooms that are booked."""

from typing import List, Optional

from stateflow import entity, transactional


@entity
class Product:
    def __init__(self, name: str, stock: int):
        self.name: str = name
        self.stock: int = stock

    def __key__(self) -> str:
        return self.name

    def left(self) -> int:
        return self.stock


@entity
class Account:
    def __init__(self, owner: str, balance: int):
        self.owner: str = owner
        self.balance: int = balance
        assert balance >= 0, "less than nothing"

    def __key__(self) -> str:
        return self.owner

    def deposit(self, amount: int) -> int:
        self.balance += amount
        return self.balance

    def open_other(self, owner: str, balance: int) -> "Account":
        other = Account(owner, balance)
        if balance == 13:
            raise ValueError("unlucky")
        return other


@entity
class Room:
    def __init__(self, name: str):
        self.name: str = name
        self.hours: List[int] = []
        self.guest: Optional[Account] = None

    def __key__(self) -> str:
        return self.name

    def book(self, hour: int) -> None:
        for taken in self.hours:
            if taken == hour:
                raise ValueError("already booked")
        self.hours = self.hours + [hour]

    def first(self, place: int) -> int:
        return self.hours[place]

    @transactional
    def series(self, other: "Room", first: int, count: int) -> int:
        """Books an hour after the other in both rooms, or none."""
        for hour in range(first, first + count):
            self.book(hour)
            other.book(hour)
        return len(self.hours)


@entity
class Work:
    def __init__(self, name: str):
        self.name: str = name

    def __key__(self) -> str:
        return self.name

    def turns(self, count: int) -> int:
        """Takes a step for the call, two before the loop and in it two a turn, and one to return."""
        done = 0
        while done < count:
            done += 1
        return done

    def grow(self, turns: int) -> int:
        text = "ab"
        for turn in range(turns):
            text = text + text
        return len(text)

    def down(self, n: int) -> int:
        if n == 1:
            return 1
        return self.down(n - 1) + 1

    def divide(self, a: int, b: int) -> int:
        return a // b

    def which(self, n: int) -> str:
        """An `elif` is no statement of its own."""
        if n == 0:
            return "none"
        elif n == 1:
            return "one"
        else:
            return "more"
