"""The number of items that a filter was made for, and arguments by their names."""

import array
import copy
import pickle
import tempfile
import unittest

from fastbloom import BlockedFilter, Filter, SharedBlockedFilter, SharedFilter

PLAIN, SHARED = (Filter, BlockedFilter), (SharedFilter, SharedBlockedFilter)


class Items(unittest.TestCase):
    def test_each_kind_tells_it(self):
        for cls in PLAIN + SHARED:
            for items in (0, 1, 1000):
                seen = cls(items, "1/1000")
                seen.add("crab")
                self.assertEqual(seen.items, items)
                self.assertIn(f"<{cls.__name__}: for {items} items, ", repr(seen))
            self.assertRaises(AttributeError, setattr, seen, "items", 5)
        self.assertIs(type(Filter(True, "1/2").items), int)

    def test_copies_and_pickles_have_it(self):
        ways = [lambda it: it.copy(), copy.copy, copy.deepcopy, lambda it: it.union(["eel"])]
        ways += [lambda it: it.intersection(["eel"]), lambda it: it | it, lambda it: it & it]
        ways += [lambda it, n=number: pickle.loads(pickle.dumps(it, n)) for number in range(6)]
        for cls in PLAIN:
            for way in ways:
                self.assertEqual(way(cls(1000, "1/1000")).items, 1000)

    def test_a_union_has_that_of_the_filter_on_the_left(self):
        for cls in PLAIN:
            one, other = cls(1000, "1/1000"), cls(999, "1/1000")
            self.assertEqual(one.num_words, other.num_words)
            self.assertEqual(one, other)
            self.assertEqual(((one | other).items, (other & one).items), (1000, 999))
            one |= other
            self.assertEqual(one.items, 1000)

    def test_it_is_not_known_of_a_file_or_a_buffer(self):
        for cls, shared in zip(PLAIN, SHARED):
            seen = cls(1000, "1/1000")
            with tempfile.NamedTemporaryFile() as file:
                seen.save(file.name, sealed=False)
                read = [cls.load(file.name), cls.load(file.name, mapped=True)]
                read += [cls.from_bytes(seen.to_bytes()), shared.map(file.name)]
            read += [read[0].copy(), read[0] | seen, shared.over(bytearray(64), 3)]
            read += [pickle.loads(pickle.dumps(read[0], number)) for number in (2, 5)]
            for it in read:
                self.assertIsNone(it.items)
                self.assertNotIn("items", repr(it))

    def test_what_comes_of_a_shared_filter_has_it(self):
        for cls in SHARED:
            seen = cls(1000, "1/1000")
            for made in (seen.load(), seen.take(), seen | seen, seen & seen):
                self.assertEqual(made.items, 1000)

    def test_one_that_was_not_made_has_none(self):
        for cls in PLAIN + SHARED:
            self.assertIsNone(cls.__new__(cls).items)


class Names(unittest.TestCase):
    def test_an_argument_may_be_named(self):
        for cls in PLAIN + SHARED:
            seen = cls(1000, "1/1000")
            self.assertFalse(seen.add(item="crab"))
            self.assertTrue(seen.contains_hash(value=seen.hash(item="crab")))
            self.assertFalse(seen.add_hash(value=2**63))
            seen.add_hashes(hashes=array.array("Q", [2**62]))
            self.assertEqual(seen.contains_hashes(hashes=array.array("Q", [2**62])), [True])
            self.assertEqual(seen.contains_many(items=["crab"]), [True])

    def test_another_name_is_refused(self):
        seen = Filter(1000, "1/1000")
        for call, name in ((seen.add, "item"), (seen.hash, "item"), (seen.add_hash, "value")):
            for given, named in (
                ((), {}),
                ((), {"other": "crab"}),
                (("crab",), {name: "crab"}),
                (("crab", "eel"), {}),
                ((), {name: "crab", "other": "eel"}),
            ):
                with self.assertRaisesRegex(TypeError, name):
                    call(*given, **named)
        self.assertEqual(seen.count_ones(), 0)


if __name__ == "__main__":
    unittest.main()
