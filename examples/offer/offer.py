from typing import Optional
from stateflow import entity


@entity
class Item:
    def __init__(self, name: str, price: int):
        self.name: str = name
        self.price: int = price
        self.stock: int = 0
        assert price >= 0, "a price below nothing"

    def __key__(self) -> str:
        return self.name

    def cost(self, amount: int) -> int:
        return amount * self.price

    def add(self, amount: int) -> int:
        if self.stock + amount < 0:
            raise ValueError("not enough in stock")
        self.stock += amount
        return self.stock


@entity
class Shop:
    def __init__(self, name: str, money: int):
        self.name: str = name
        self.money: int = money
        self.item: Optional[Item] = None

    def __key__(self) -> str:
        return self.name

    def offer(self, price: int) -> int:
        self.item = Item("item of " + self.name, price)
        return price

    def sell(self, amount: int) -> int:
        item = self.item
        if item is None:
            raise RuntimeError("nothing is offered")
        item.add(-amount)
        self.money += item.cost(amount)
        return self.money
