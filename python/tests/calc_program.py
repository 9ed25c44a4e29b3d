"""A program that the tests try: each failure of the language, and each sign at the ends of its range."""

from typing import List, Optional

from stateflow import entity


@entity
class Calc:
    def __init__(self, k: str, n: int):
        self.k: str = k
        self.n: int = n

    def __key__(self) -> str:
        return self.k

    def div(self, a: int, b: int) -> int:
        return a // b

    def rest(self, a: int, b: int) -> int:
        return a % b

    def at(self, i: int) -> int:
        return [10, 20, 30][i]

    def positive(self, a: int) -> int:
        assert a > 0, "not positive"
        return a

    def more(self, a: int) -> int:
        return 170141183460469231731687303715884105727 + a

    def less(self, a: int) -> int:
        return abs(-170141183460469231731687303715884105727 - a)

    def stop(self, a: int) -> int:
        if a == 0:
            raise Exception("nothing")
        if a == 1:
            raise ValueError
        raise RuntimeError("a is " + str(a))

    def other(self, a: int) -> int:
        return Calc("other", a).div(1, 1)

    def spin(self) -> int:
        while True:
            pass

    def take(self, by: int) -> int:
        self.n -= by
        return self.n

    def before(self, other: "Calc") -> int:
        """The `self.n` that counts is the one from before the call."""
        self.n += other.put(self, 100)
        return self.n

    def put(self, other: "Calc", n: int) -> int:
        other.set(n)
        return 1

    def set(self, n: int) -> None:
        self.n = n

    def same(self, other: "Calc", xs: List["Calc"]) -> bool:
        return self == other and xs == [other, self]

    def known(self, maybe: Optional[int]) -> int:
        return maybe if maybe is not None else 0

    def nested(self, turns: int) -> int:
        """Of so many lists of one number, twice as many each turn: a list weighs 1, and so does a number."""
        xs = [[1]]
        for turn in range(turns):
            xs = xs + xs
        return len(xs)


@entity
class Maybe:
    """An entity whose key may be None as an argument."""

    def __init__(self, k: Optional[str]):
        assert k is not None, "no key"
        self.k: str = k

    def __key__(self) -> str:
        return self.k
