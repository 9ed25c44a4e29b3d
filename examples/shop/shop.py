from typing import List
from stateflow import entity, transactional


@entity
class Item:
    def __init__(self, name: str, cost: int):
        self.name: str = name
        self.cost: int = cost
        self.stock: int = 0

    def __key__(self) -> str:
        return self.name

    def price(self) -> int:
        return self.cost

    def update_stock(self, amount: int) -> bool:
        if self.stock + amount < 0:
            return False
        self.stock += amount
        return True


@entity
class User:
    def __init__(self, username: str):
        self.username: str = username
        self.balance: int = 10

    def __key__(self) -> str:
        return self.username

    @transactional
    def buy_item(self, amount: int, item: Item) -> bool:
        """Buy some items, or change nothing."""
        total = amount * item.price()
        if self.balance < total:
            return False
        if not item.update_stock(-amount):
            return False
        self.balance -= total
        return True

    def money(self) -> int:
        return self.balance


@entity
class Cart:
    def __init__(self, k: str):
        self.k: str = k

    def __key__(self) -> str:
        return self.k

    def first_dear(self, items: List[Item], least: int) -> int:
        found = 0
        for it in items:
            if it.price() >= least:
                found = it.price()
                break
        return found
