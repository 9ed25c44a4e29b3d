"""What is measured: the bank's program and requests, and a program of dense classes. The same bytes each time."""

import itertools
import json
import random

SEED = 7
PAID_IN = 50
MOST_MOVED = 10
LARGEST_BATCH = 256
LARGEST_TEXT = 1_048_576

MONEY = """
    def money(self) -> int:
        return self.balance
"""


def bank_program(bank):
    """The bank of the examples, with one more method, which tells a balance."""
    return bank + MONEY


def openings(accounts):
    """Requests that make the accounts."""
    for number in range(1, accounts + 1):
        yield {"id": f"o{number}", "class": "Account", "new": [f"a{number}", PAID_IN]}


def moves(accounts, count):
    """Requests that move money between random accounts."""
    chance = random.Random(SEED).random  # its numbers are the same in each version of Python

    def draw(most):
        return 1 + int(chance() * most)

    for number in range(1, count + 1):
        giver, amount, taker = draw(accounts), draw(MOST_MOVED), draw(accounts)
        yield {"id": f"m{number}", "class": "Account", "key": f"a{giver}", "method": "give", "args": [amount, f"a{taker}"]}


def balances(accounts):
    """Requests that ask for all balances."""
    for number in range(1, accounts + 1):
        yield {"id": f"b{number}", "class": "Account", "key": f"a{number}", "method": "money", "args": []}


def bank_lines(accounts, count):
    """The accounts, the moves, and behind them the balances.

    An empty line runs a batch of what waits, and each batch commits one request at least. So behind as many empty lines as the largest batch
    has requests no move waits, and the balances are those at one moment.
    """
    for requests in (openings(accounts), moves(accounts, count)):
        for request in requests:
            yield line(request)
    for _ in range(LARGEST_BATCH):
        yield "\n"
    for request in balances(accounts):
        yield line(request)


def line(request):
    return json.dumps(request, separators=(",", ":")) + "\n"


METHODS_OF_CLASS = 8
TIMES = 12

HEAD = """from typing import List, Optional
from stateflow import entity
"""

CLASS = """

@entity
class C{number}:
    def __init__(self, key: str, count: int):
        self.key: str = key
        self.count: int = count
        self.parts: List[int] = []

    def __key__(self):
        return self.key

    def value(self, n: int) -> int:
        return self.count + n
"""

METHOD = """
    def m{number}(self, n: int, found: Optional[int], other: 'C{neighbour}') -> int:
        total = n
"""

DENSE = """\
        total = total * 3 + self.count - n // 7 % 11
        if found is not None and found > total:
            total += found - 12
        elif total < 5 or not n == 9:
            total -= 1
        for i in range(3):
            if i * total > 40:
                break
            total += i - abs(n - 5)
        while total > 1000 and total < 5000:
            total = min(total - 17, 900)
        names = [total, n, 3]
        self.parts = self.parts + names
        total += len(names) + names[0]
"""

CALLING = """\
        total = other.value(total) * 3 + self.count - n // 7 % 11
        if found is not None and found > other.value(n):
            total += found - other.value(12)
        elif other.value(total) < 5 or not n == 9:
            total -= other.value(1)
        for i in range(other.value(3)):
            if i * other.value(total) > 40:
                break
            total += i - other.value(n - 5)
        while total > 1000 and other.value(total) < 5000:
            total = min(other.value(total) - 17, 900)
        names = [total, other.value(n), 3]
        self.parts = self.parts + names
        total += len(names) + other.value(names[0])
"""

END = """\
        return total
"""


def dense_pieces(calls):
    """Classes without end, a method in each piece. With calls nearly each line has one that leaves its entity."""
    body = (CALLING if calls else DENSE) * TIMES + END
    for number in itertools.count():
        cls, method = divmod(number, METHODS_OF_CLASS)
        head = CLASS.format(number=cls) if method == 0 else ""
        yield head + METHOD.format(number=method, neighbour=max(cls - 1, 0)) + body


def dense_program(calls, length=LARGEST_TEXT):
    """A program of dense classes, of exactly this length, and the line that `check` prints of it: methods as long as they fit, then a comment."""
    text, count = HEAD, 0
    for piece in dense_pieces(calls):
        if len(text) + len(piece) >= length:
            break
        text, count = text + piece, count + 1
    classes = -(-count // METHODS_OF_CLASS)
    return text.ljust(length - 1, "#") + "\n", f"ok: {classes} classes, {count + classes} methods\n"
