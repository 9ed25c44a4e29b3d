"""The bank under plain Python: PYTHONPATH=python python3 examples/bank/test_bank.py, at the top of the repository."""

import unittest

from bank import Account
from stateflow.testing import NoEntity, TestCase, named


class Giving(TestCase):
    def test_nobody_gives_what_he_has_not(self) -> None:
        ann, bob = Account("ann", 5), Account("bob", 0)
        self.assertTrue(ann.give(4, bob))
        self.assertFalse(ann.give(2, bob))
        self.assertEqual((ann.balance, bob.balance), (1, 4))

    def test_what_is_given_to_nobody_stays(self) -> None:
        ann = Account("ann", 5)
        with self.assertRaises(NoEntity):
            ann.give(4, named(Account, "nobody"))
        self.assertEqual(ann.balance, 5)


if __name__ == "__main__":
    unittest.main()
