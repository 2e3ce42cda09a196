"""What a rotating filter refuses, its rates, its copies, and threads that share it."""

import copy
import pickle
import sys
import threading
import unittest
from fractions import Fraction

from fastbloom import Refusal, RotatingFilter


class Named(RotatingFilter):
    """A subclass with an attribute in a slot, and others."""

    __slots__ = ("name", "__dict__")


class Rotating(unittest.TestCase):
    def test_last_items(self):
        seen = RotatingFilter(2, "1/1000000000", key=bytes(range(16)))
        self.assertEqual(
            [seen.add(name) for name in ("crab", b"eel", "crab", "prawn")],
            [False, False, True, False],
        )
        self.assertIn("crab", seen)
        self.assertNotIn("eel", seen)
        self.assertEqual((seen.older.key, seen.newer.key), 2 * (bytes(range(16)),))

    def test_refused(self):
        for arguments in (
            (-1, "1/2"),
            (2**64, "1/2"),
            (1, 1),
            (1, "1/9223372036854775808"),
            (1, "1/2", b"short"),
        ):
            with self.assertRaises(ValueError):
                RotatingFilter(*arguments)
        for code, arguments in ((4, (1, 0)), (5, (2**64 - 1, "1/2"))):
            with self.assertRaises(Refusal) as caught:
                RotatingFilter(*arguments)
            self.assertEqual(caught.exception.code, code)
        RotatingFilter(0, "2/18446744073709551615")  # half of it is a fraction of such parts
        seen = RotatingFilter(1, "1/2")
        for item in (5, None):
            with self.assertRaises(TypeError):
                seen.add(item)
        with self.assertRaises(ValueError):
            seen.add_hash(2**64)
        with self.assertRaises(TypeError):
            seen.__init__(1, "1/2")
        self.assertEqual((seen.taken, seen.older.count_ones()), (0, 0))

    def test_copies_go_on_by_themselves(self):
        """Each keeps the last items that it was told itself."""
        ways = [RotatingFilter.copy, copy.copy, copy.deepcopy]
        ways += [lambda it, n=number: pickle.loads(pickle.dumps(it, n)) for number in range(6)]
        for way in ways:
            seen = Named(3, "1/1000000000", key=bytes(range(16)))
            seen.name, seen.more = ["fish"], "shell"
            for name in ("crab", "eel", "prawn", "whale"):
                seen.add(name)
            other = way(seen)
            self.assertIs(type(other), Named)
            self.assertEqual((other.name, other.more), (["fish"], "shell"))
            self.assertEqual(other.name is seen.name, way in ways[:2])
            self.assertEqual((other.older, other.newer), (seen.older, seen.newer))
            self.assertEqual((other.taken, other.newer.key), (1, bytes(range(16))))
            for number in range(4):
                other.add(str(number))
            self.assertEqual((seen.taken, other.taken), (1, 2))
            self.assertEqual(
                [name in seen for name in ("crab", "whale", "0", "3")],
                2 * [True] + 2 * [False],
            )
            self.assertEqual([name in other for name in ("crab", "0", "3")], [False, True, True])
            self.assertFalse(seen.add("shrimp"))
            self.assertNotIn("shrimp", other)
            self.assertTrue(all(name in seen for name in ("crab", "prawn", "whale", "shrimp")))

    def test_rates(self):
        # Filters of 64 bits and one hash. After the turn the older one has 36 of them, and then
        # the newer one gets as many again, so that the sum of the rates passes 1.
        seen = RotatingFilter(36, "9/10")
        self.assertEqual((seen.newer.num_bits, seen.newer.num_hashes), (64, 1))
        for place in range(36):
            rate = Fraction(place, 64)
            self.assertEqual(seen.exact_false_positive_rate(), (rate, rate))
            self.assertFalse(seen.add_hash(place << 58))
        for place in range(35):
            self.assertEqual(seen.false_positive_rate(), (36 / 64, min(1, (36 + place) / 64)))
            self.assertTrue(seen.add_hash(place << 58))

    def test_threads_take_turns(self):
        seen = RotatingFilter(3, "1/1000000000")
        names = [f"{thread} {number}" for thread in range(4) for number in range(100)]

        def add(thread):
            for name in names[thread::4]:
                seen.add(name)

        interval = sys.getswitchinterval()
        sys.setswitchinterval(1e-6)
        try:
            for _ in range(100):
                threads = [threading.Thread(target=add, args=(thread,)) for thread in range(4)]
                for thread in threads:
                    thread.start()
                for thread in threads:
                    thread.join()
                # Each item is counted in the filter that took it.
                self.assertEqual(sum(name in seen.newer for name in names), seen.taken)
                self.assertEqual(sum(name in seen.older for name in names), 3)
        finally:
            sys.setswitchinterval(interval)


if __name__ == "__main__":
    unittest.main()
