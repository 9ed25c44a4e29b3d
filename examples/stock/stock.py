from stateflow import entity


@entity
class Item:
    def __init__(self, name: str, stock: int):
        self.name: str = name
        self.stock: int = stock

    def __key__(self) -> str:
        return self.name

    def take(self, count: int) -> int:
        if self.stock < count:
            raise ValueError("not enough in stock")
        self.stock -= count
        return count


@entity
class Customer:
    def __init__(self, name: str):
        self.name: str = name
        self.bought: int = 0

    def __key__(self) -> str:
        return self.name

    def buy(self, count: int, first: Item, second: Item) -> int:
        """So many of both, or of none."""
        self.bought += first.take(count)
        self.bought += second.take(count)
        return self.bought
