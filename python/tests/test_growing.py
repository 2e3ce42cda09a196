"""The plan of a growing filter, its numbers, and its copies."""

import copy
import pickle
import unittest
from fractions import Fraction

from fastbloom import BlockedFilter, Filter, GrowingFilter, RotatingFilter


class Growing(unittest.TestCase):
    def test_each_filter_is_for_twice_the_items_at_half_the_rate(self):
        for blocked, kind in ((False, Filter), (True, BlockedFilter)):
            key = bytes(range(16))
            seen = GrowingFilter(3, "1/10", key, blocked=blocked)
            added = [seen.add(f"item{number}") for number in range(100)]
            self.assertEqual(added.count(False), seen.approx_items)
            rooms = [3 * 2**at for at in range(len(seen.filters))]
            for at, (it, room) in enumerate(zip(seen.filters, rooms)):
                wanted = kind(room, Fraction(1, 10 * 2 ** (at + 1)), key)
                shape = it.num_words, it.num_hashes, it.key
                self.assertEqual(shape, (wanted.num_words, wanted.num_hashes, key))
                self.assertIsInstance(it, kind)
            self.assertEqual(sum(rooms[:-1]) + seen.taken, seen.approx_items)
            self.assertTrue(0 < seen.taken <= rooms[-1] and len(rooms) > 3)
            self.assertTrue(all(f"item{number}" in seen for number in range(100)))

    def test_what_is_contained_is_not_counted(self):
        seen = GrowingFilter(0, "1/1000")
        self.assertEqual(
            [seen.add("crab"), seen.add("crab"), seen.add_hash(1)], [False, True, False]
        )
        self.assertEqual((seen.items, seen.approx_items, len(seen.filters)), (1, 2, 2))
        self.assertTrue(seen.contains_hash(1) and "eel" not in seen)
        seen.update(["eel", b"prawn"])
        self.assertTrue("eel" in seen and "prawn" in seen)
        bits = sum(it.num_bits for it in seen.filters)
        self.assertEqual(repr(seen), f"<GrowingFilter: for 1 items, {bits} bits>")

    def test_refused(self):
        for arguments in ((-1, "1/2"), (2**64, "1/2"), (1, 1), (1, "1/2", b"short")):
            self.assertRaises(ValueError, GrowingFilter, *arguments)
        seen = GrowingFilter(1, Fraction(1, 2**62))
        seen.add("crab")
        # The next filter's rate has a part of 2^64.
        self.assertRaises(ValueError, seen.add, "eel")
        self.assertEqual((seen.add("crab"), seen.approx_items, "eel" in seen), (True, 1, False))
        for wrong in ("crab", b"crab", 5):
            self.assertRaises(TypeError, seen.update, wrong)
        self.assertRaises(TypeError, seen.__init__, 1, "1/2")

    def test_rates(self):
        # The first filter has 64 bits and one hash.
        seen = GrowingFilter(36, "9/10")
        for place in range(36):
            rate = Fraction(place, 64)
            self.assertEqual(seen.exact_false_positive_rate(), (rate, rate))
            self.assertFalse(seen.add_hash(place << 58))
        self.assertEqual(len(seen.filters), 1)
        self.assertFalse(seen.add_hash(63 << 58))
        newest = seen.filters[1].exact_false_positive_rate()
        self.assertTrue(0 < newest[0] < Fraction(36, 64))
        self.assertEqual(
            seen.exact_false_positive_rate(), (Fraction(36, 64), Fraction(36, 64) + newest[1])
        )


class Copies(unittest.TestCase):
    def test_a_copy_goes_on_by_itself(self):
        for made in (
            GrowingFilter(5, "1/1000"),
            RotatingFilter(5, "1/1000", blocked=True),
        ):
            made.update(f"item{number}" for number in range(7))
            for copied in (
                made.copy(),
                copy.copy(made),
                copy.deepcopy(made),
                pickle.loads(pickle.dumps(made)),
            ):
                twin = made.copy()
                self.assertEqual((copied.taken, copied.items), (made.taken, made.items))
                self.assertEqual(
                    copied.exact_false_positive_rate(), made.exact_false_positive_rate()
                )
                before = made.exact_false_positive_rate()
                rest = [f"item{number}" for number in range(5, 40)]
                self.assertEqual([copied.add(it) for it in rest], [twin.add(it) for it in rest])
                self.assertEqual(made.exact_false_positive_rate(), before)


if __name__ == "__main__":
    unittest.main()
