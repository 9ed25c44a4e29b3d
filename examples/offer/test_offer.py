"""The offer under plain Python: PYTHONPATH=python python3 examples/offer/test_offer.py, at the top of the repository."""

import unittest

import offer
from offer import Item, Shop
from stateflow.testing import AlreadyExists, TestCase, assert_accepted, exists, named


class Program(TestCase):
    def test_it_is_accepted(self) -> None:
        assert_accepted(offer)


class Adding(TestCase):
    def test_what_is_not_in_stock_is_not_taken(self) -> None:
        apple = Item("apple", 3)
        self.assertEqual(apple.add(4), 4)
        with self.assertRaises(ValueError):
            apple.add(-5)
        self.assertEqual(apple.stock, 4)


class Selling(TestCase):
    def test_nothing_is_sold_before_it_is_offered(self) -> None:
        with self.assertRaisesRegex(RuntimeError, "^nothing is offered$"):
            Shop("corner", 0).sell(1)

    def test_a_second_offer_changes_nothing(self) -> None:
        shop = Shop("corner", 0)
        self.assertFalse(exists(named(Item, "item of corner")))
        shop.offer(3)
        with self.assertRaises(AlreadyExists):
            shop.offer(4)
        self.assertEqual(named(Item, "item of corner").cost(1), 3)


if __name__ == "__main__":
    unittest.main()
