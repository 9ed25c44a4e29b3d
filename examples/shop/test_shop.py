"""The shop under plain Python: PYTHONPATH=python python3 examples/shop/test_shop.py, at the top of the repository."""

import unittest

from shop import Item, User
from stateflow.testing import TestCase


class Buying(TestCase):
    def test_two_apples_are_bought_and_a_third_is_not(self) -> None:
        apple, ann = Item("apple", 3), User("ann")
        self.assertTrue(apple.update_stock(2))
        self.assertTrue(ann.buy_item(2, apple))
        self.assertEqual((ann.money(), apple.stock), (4, 0))
        self.assertFalse(ann.buy_item(1, apple))
        self.assertEqual((ann.money(), apple.stock), (4, 0))


if __name__ == "__main__":
    unittest.main()
