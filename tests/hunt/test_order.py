"""The checker against planted histories, and against all orders of small drawn ones."""

import itertools
import random
import unittest
from typing import Optional, Sequence

from . import history, planted
from .history import BadHistory, Operation
from .order import after, agrees, judge


def fits_some_order(operations: Sequence[Operation]) -> bool:
    """The same by going through all orders of all operations, with each choice of those that weren't executed."""
    known = [one for one in operations if one.returned is not None]
    unknown = [one for one in operations if one.returned is None]
    for count in range(len(unknown) + 1):
        for happened in itertools.combinations(unknown, count):
            if any(fits(order) for order in itertools.permutations(known + list(happened))):
                return True
    return False


def fits(order: Sequence[Operation]) -> bool:
    value: Optional[str] = None
    for at, one in enumerate(order):
        if not agrees(one, value) or any(later.returned is not None and later.returned < one.called for later in order[at + 1:]):
            return False
        value = after(one, value)
    return True


class Orders(unittest.TestCase):
    def test_planted_histories(self) -> None:
        self.assertGreater(sum(not one.fits for one in planted.table()), 10)
        self.assertEqual(planted.wrong_verdicts(), [])

    def test_a_stale_read_is_put_where_it_is_one(self) -> None:
        lines = ["a 0 1 put k 1 ok", "a 2 3 put k 2 ok", "b 4 5 get k value 2", "b 6 7 get k value 2"]
        operations = history.read(lines)
        self.assertTrue(judge(operations).fits)
        for seed in range(10):
            spoiled = planted.with_stale_read(operations, random.Random(seed)) or []
            self.assertEqual(sorted(one.value or "" for one in spoiled), ["1", "1", "2", "2"])
            self.assertIs(judge(spoiled).fits, False)
        self.assertIsNone(planted.with_stale_read(operations[:1] + operations[2:], random.Random(0)))

    def test_texts(self) -> None:
        lines = ["a 0 1 put k 1 ok", "b 2 - delete k ?", "b 4 5 get k value 1", "c 6 7 get k absent", "c 8 9 delete l ok", "c 8 9 put l 7 ?"]
        self.assertEqual([str(one) for one in history.read(lines)], lines)
        for line in ("a 0 1 put k 1", "a 0 1 put k 1 absent", "a 1 0 put k 1 ok", "a 0 - put k 1 ok", "a x 1 get k absent", "a 0 1 get k value", "a 0 1 get k ok",
                     "a 0 1 move k 1 ok", "a 0 1 delete k value 1", "a"):
            with self.subTest(line), self.assertRaises(BadHistory):
                history.read([line])
        with self.assertRaises(BadHistory):
            history.read(["a 0 1 put k 1 ok", "a 2 3 put l 1 ok"])


if __name__ == "__main__":
    unittest.main()
