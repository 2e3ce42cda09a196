"""Many items, many hashes, and sets of filters at once."""

import array
import inspect
import math
import pickle
import random
import sys
import typing
import unittest
from fractions import Fraction

import fastbloom
from fastbloom import (
    AnyFilter,
    BlockedFilter,
    Filter,
    Mask,
    RotatingFilter,
    SharedBlockedFilter,
    SharedFilter,
)
from peak import peak_of

try:
    import numpy
except ImportError:
    numpy = None

try:
    import pandas
except ImportError:
    pandas = None


def small():
    return Filter(1000, "1/1000")


def shared():
    return SharedFilter(1000, "1/1000")


def hashes_of(seen, items):
    return array.array("Q", map(seen.hash, items))


class Masks(unittest.TestCase):
    def test_a_mask_is_a_sequence_of_truth_values(self):
        draw = random.Random(64)
        for count in (0, 1, 7, 8, 9, 63, 64, 65, 200):
            values = [draw.random() < 0.5 for _ in range(count)]
            number = sum(value << place for place, value in enumerate(values))
            mask = Mask(bytearray(number.to_bytes((count + 63) // 64 * 8, "little")), count)
            self.assertEqual(len(mask), count)
            self.assertEqual(mask.tolist(), values)
            self.assertEqual(list(mask), values)
            self.assertEqual([mask[at] for at in range(count)], values)
            self.assertEqual([mask[-at] for at in range(1, count + 1)], values[::-1])
            self.assertEqual(mask[1:9:2], values[1:9:2])
            self.assertEqual(
                (mask.count(), mask.count(False), mask.count("crab")),
                (sum(values), count - sum(values), 0),
            )
            self.assertEqual(int.from_bytes(mask.bits, "little"), number)
            self.assertEqual(mask.bits.nbytes, (count + 7) // 8)
            self.assertTrue(all(type(value) is bool for value in mask))
            for place in (count, -count - 1):
                self.assertRaises(IndexError, mask.__getitem__, place)
            if numpy:
                self.assertEqual(numpy.asarray(mask).tolist(), values)
                self.assertEqual(numpy.asarray(mask).dtype, bool)

    def test_masks_are_equal_by_their_values(self):
        mask = Mask(bytearray(b"\x05"), 3)
        for other in (
            [True, False, True],
            (True, False, True),
            Mask(bytearray(b"\x05"), 3),
        ):
            self.assertEqual(mask, other)
        for other in (
            [True, False],
            [True, True, True],
            Mask(bytearray(b"\x05"), 4),
            Mask(bytearray(b"\x01"), 3),
            "101",
            None,
        ):
            self.assertNotEqual(mask, other)
        self.assertEqual(repr(mask), "<Mask: 2 of 3>")
        self.assertRaises(TypeError, hash, mask)
        self.assertRaises(TypeError, mask.bits.__setitem__, 0, 1)
        self.assertRaises(ValueError, Mask, bytearray(1), 9)

    def test_a_mask_counts_as_a_list_does(self):
        values = [True, False, True]
        mask = Mask(bytearray(b"\x05"), 3)
        for value in (
            True,
            False,
            1,
            0,
            1.0,
            0.0,
            Fraction(1),
            2,
            0.5,
            None,
            [True],
            "True",
        ):
            self.assertEqual(mask.count(value), values.count(value), value)

    def test_a_mask_has_no_bits_but_its_own(self):
        for bits, count in ((b"\x08", 3), (b"\xff\x02", 9), (b"", -1), (b"\x01", -8)):
            self.assertRaises(ValueError, Mask, bytearray(bits), count)
        self.assertRaises(TypeError, Mask, bytearray(1), 1.0)
        bits = bytearray(b"\x05\xff")
        mask = Mask(bits, 3)
        bits[0] = 255
        self.assertEqual((mask, bytes(mask.bits)), ([True, False, True], b"\x05"))

    @unittest.skipUnless(numpy, "numpy isn't there")
    def test_an_array_of_a_mask_is_a_copy(self):
        mask = Mask(bytearray(b"\x05"), 3)
        self.assertRaises(ValueError, mask.__array__, copy=False)
        self.assertEqual(mask.__array__(copy=True).tolist(), [True, False, True])

    @unittest.skipUnless(numpy, "numpy isn't there")
    def test_a_mask_is_no_list_of_numbers(self):
        mask = Mask(bytearray(b"\x06"), 4)
        values = numpy.array([10, 20, 30, 40])
        for kind in (int, "u1", float, complex):
            self.assertRaises(TypeError, numpy.asarray, mask, kind)
        self.assertRaises(TypeError, values.take, mask)
        self.assertEqual(values[mask].tolist(), [20, 30])
        for kind in (bool, object):
            self.assertEqual(numpy.asarray(mask, kind).tolist(), [False, True, True, False])

    @unittest.skipUnless(pandas, "pandas isn't there")
    def test_a_mask_chooses_rows_or_is_refused(self):
        mask = Mask(bytearray(b"\x06"), 4)
        row = pandas.Series([10, 20, 30, 40])
        table = row.to_frame("value")
        for choose in (row.iloc.__getitem__, table.iloc.__getitem__, row.take):
            self.assertRaises(TypeError, choose, mask)
        for choose in (row, row.loc, row.iloc):
            self.assertEqual(choose[numpy.asarray(mask)].tolist(), [20, 30])
        for choose in (table, table.loc, table.iloc):
            self.assertEqual(choose[numpy.asarray(mask)].value.tolist(), [20, 30])
        self.assertEqual(table.assign(seen=mask).seen.tolist(), mask)


class Hashes(unittest.TestCase):
    def test_words_that_are_not_aligned_are_taken(self):
        for first in range(8):
            view = memoryview(bytearray(24))[first : first + 16].cast("Q")
            view[0], view[1] = 5, 2**64 - 1
            seen = small()
            self.assertEqual(seen.add_hashes_tell_new(view), [True, True])
            self.assertTrue(seen.contains_hash(5) and seen.contains_hash(2**64 - 1))

    def test_hashes_of_a_buffer_are_those_of_one_by_one(self):
        names = [f"item{number}" for number in range(3000)]
        for make in (small, shared):
            one, many = make(), make()
            hashes = hashes_of(one, names)
            for value in hashes:
                one.add_hash(value)
            many.add_hashes(hashes)
            self.assertEqual(many.count_ones(), one.count_ones())
            asked = hashes_of(one, [f"item{number}" for number in range(2900, 20_000)])
            answers = many.contains_hashes(asked)
            self.assertIsInstance(answers, Mask)
            self.assertEqual(answers, [one.contains_hash(value) for value in asked])
            self.assertIn(False, answers)

    def test_what_was_new_is_told(self):
        for make in (small, shared):
            one, many = make(), make()
            hashes = hashes_of(one, [f"item{number % 700}" for number in range(2000)])
            told = many.add_hashes_tell_new(hashes)
            self.assertEqual(told, [not one.add_hash(value) for value in hashes])
            self.assertEqual(many.count_ones(), one.count_ones())
            self.assertEqual(many.add_hashes_tell_new(hashes).count(), 0)

    def test_buffers(self):
        values = [3, 2**64 - 1, 7]
        wanted = small()
        for value in values:
            wanted.add_hash(value)
        raw = array.array("Q", values)
        buffers = [
            raw,
            memoryview(raw),
            memoryview(bytes(raw)).cast("Q"),
            memoryview(raw)[:2],
        ]
        if numpy:
            frozen = numpy.array(values, dtype="u8")
            frozen.flags.writeable = False
            buffers += [numpy.array(values, dtype="u8"), frozen]
        for buffer in buffers:
            seen = small()
            seen.add_hashes(buffer)
            self.assertLessEqual(seen, wanted)
            self.assertEqual(seen.contains_hashes(buffer).count(), len(buffer))
        empty = small()
        empty.add_hashes(array.array("Q"))
        self.assertEqual(empty.contains_hashes(array.array("Q")), [])
        self.assertEqual(empty.add_hashes_tell_new(array.array("Q")), [])
        self.assertEqual(empty, small())

    def frozen(self, array):
        array.flags.writeable = False
        return array

    def test_other_buffers_are_refused(self):
        others = [
            array.array("q", [1]),
            array.array("I", [1, 2]),
            bytes(8),
            "12345678",
            5,
            [1],
            memoryview(array.array("Q", [1, 2, 3, 4]))[::2],
            array.array("d", [1.0]),
        ]
        if numpy:
            others += [
                numpy.array([1]),
                numpy.array([1], dtype=">u8"),
                numpy.zeros((4, 4), dtype="u8")[:, ::2],
                numpy.zeros((2, 3), dtype="u8", order="F"),
                self.frozen(numpy.zeros((2, 3), dtype="u8", order="F")),
                numpy.uint64(5),
                numpy.float64(1),
            ]
        for make in (small, shared):
            seen = make()
            for other in others:
                for call in (
                    seen.add_hashes,
                    seen.contains_hashes,
                    seen.add_hashes_tell_new,
                ):
                    self.assertRaisesRegex(TypeError, "^hashes |bytes-like", call, other)
            self.assertEqual(seen.count_ones(), 0)

    @unittest.skipUnless(numpy, "there is no numpy")
    def test_a_mask_chooses_of_an_array(self):
        one, seen = Filter(100, "1/2"), Filter(100, "1/2")
        hashes = numpy.arange(1, 1001, dtype="u8") * 0x9E3779B97F4A7C15
        fresh = hashes[seen.add_hashes_tell_new(hashes)].tolist()
        self.assertEqual(fresh, [it for it in hashes.tolist() if not one.add_hash(it)])
        self.assertTrue(0 < len(fresh) < 1000)
        self.assertEqual(len(hashes[~numpy.asarray(seen.contains_hashes(hashes))]), 0)


class Items(unittest.TestCase):
    def test_many_of_each_kind_are_added_as_one_by_one(self):
        kinds = [
            [b"item%d" % number for number in range(5000)],
            [f"item{number}" for number in range(5000)],
            [f"Krabbe ü{number}" for number in range(5000)],
            [b"", b"", b"a"],
            ["", "ü", ""],
            [b"crab", "eel", bytearray(b"whale")],
            [b"\0" * number for number in range(300)],
            [f"nul\0{at}" for at in range(9)],
        ]
        for items in kinds:
            for make in (small, shared):
                one, many = make(), make()
                for item in items:
                    one.add(item)
                many.update(items)
                self.assertEqual(many.count_ones(), one.count_ones())
                self.assertEqual(many.contains_many(items), [True] * len(items))
            self.assertEqual(one.load(), many.load())

    def test_what_came_before_an_error_is_added(self):
        def raising():
            yield from ("crab", "eel")
            raise KeyError("whale")

        for make in (small, shared):
            for items, error in (
                (raising(), KeyError),
                (["crab", "eel", 5, "whale"], TypeError),
                (["crab", "eel", "\ud800", "whale"], UnicodeEncodeError),
                ([b"crab", b"eel", None, b"whale"], TypeError),
            ):
                seen = make()
                self.assertRaises(error, seen.update, items)
                self.assertEqual(seen.contains_many(["crab", "eel", "whale"]), [True, True, False])

    def test_several_at_once(self):
        for make in (small, shared):
            other = make()
            other.add("lobster")
            seen = make()
            seen.update(["crab"], iter([b"eel"]), other, ())
            self.assertEqual(
                seen.contains_many(["crab", "eel", "lobster", "whale"]),
                [True, True, True, False],
            )
            seen.update()
            before = seen.count_ones()
            for bad in ("whale", b"whale", 5, None):
                self.assertRaises(TypeError, seen.update, ["whale"], bad)
            odd = type(seen)(10, "1/1000")
            self.assertRaises(ValueError, seen.update, ["whale"], odd)
            self.assertEqual(seen.count_ones(), before)

    def test_what_is_no_many_items_is_told_another_call(self):
        seen = small()
        many = [
            memoryview(array.array("d", [1.5])),
            array.array("Q", [1]),
            array.array("i", [1]),
        ]
        if numpy:
            many += [
                numpy.array([1, 2], dtype="u8"),
                numpy.array([1.5]),
                numpy.uint64(5),
            ]
        for numbers in many:
            for call, other in (
                (seen.update, "add_hashes"),
                (seen.contains_many, "contains_hashes"),
            ):
                self.assertRaisesRegex(TypeError, f"numbers, .* `{other}` takes", call, numbers)
        released = memoryview(b"crab")
        released.release()
        for one in ("crab", b"crab", bytearray(b"crab"), memoryview(b"crab"), released):
            self.assertRaisesRegex(TypeError, "one item, which `add` takes", seen.update, one)
            self.assertRaisesRegex(TypeError, "one item, which `in` takes", seen.contains_many, one)
        self.assertEqual(seen.count_ones(), 0)


class Sets(unittest.TestCase):
    def setUp(self):
        self.few, self.more, self.other = small(), small(), small()
        self.few.update(["crab", "eel"])
        self.more.update(["crab", "eel", "whale"])
        self.other.update(["prawn"])

    def test_unions(self):
        united = self.few.union(["whale"], self.other)
        self.assertEqual(united, self.more | self.other)
        self.assertEqual(self.few.union(), self.few)
        self.assertIsNot(self.few.union(), self.few)
        self.assertEqual(self.few.contains_many(["whale", "prawn"]), [False, False])

    def test_intersections(self):
        self.assertEqual(self.more.intersection(self.few), self.few)
        self.assertEqual(self.more.intersection(iter(["crab", "eel"])), self.few)
        self.assertEqual(
            self.more.intersection(self.few, self.other).count_ones(),
            (self.few & self.other).count_ones(),
        )
        self.assertEqual(self.more.intersection(), self.more)
        kept = self.more.copy()
        kept.intersection_update(["crab", "eel"], self.more)
        self.assertEqual(kept, self.few)

        def raising():
            yield "crab"
            raise KeyError

        self.assertRaises(KeyError, kept.intersection_update, ["whale"], raising())
        self.assertRaises(TypeError, kept.intersection_update, ["whale"], "crab")
        self.assertRaises(ValueError, kept.intersection, Filter(10, "1/2"))
        self.assertEqual(kept, self.few)

    def test_subsets(self):
        for less, more in ((self.few, self.more), (small(), self.few)):
            self.assertTrue(less <= more and less < more and more >= less and more > less)
            self.assertTrue(less.issubset(more) and more.issuperset(less))
            self.assertFalse(more <= less or more < less or less >= more or less > more)
            self.assertFalse(more.issubset(less) or less.issuperset(more))
        self.assertTrue(self.few <= self.few and self.few >= self.few)
        self.assertFalse(self.few < self.few or self.few > self.few)
        self.assertFalse(self.few <= self.other or self.few >= self.other)
        for call in ("issubset", "issuperset", "__le__", "__ge__", "__lt__", "__gt__"):
            self.assertRaises(ValueError, getattr(self.few, call), Filter(10, "1/2"))
        for call in (self.few.issubset, self.few.issuperset):
            self.assertRaises(TypeError, call, {"crab"})
        with self.assertRaises(TypeError):
            self.few <= {"crab"}
        with self.assertRaises(TypeError):
            self.few > None

    def test_subsets_are_told_with_no_copy(self):
        for cls in (Filter, BlockedFilter, SharedFilter, SharedBlockedFilter):
            few, more = cls(1_000_000, "1/1000"), cls(1_000_000, "1/1000")
            few.update(["crab", "eel"])
            more.update(["crab", "eel"])
            last = 2**64 - 1  # of which a bit is in the last words
            more.add_hash(last)
            for less, wanted in ((few, True), (more, False)):
                answers = []
                peak = peak_of(lambda: answers.append(less <= few and few <= more))
                self.assertEqual(answers, [wanted])
                self.assertLess(peak, 8 * few.num_words // 2)

    def test_about_how_many(self):
        self.assertEqual(small().approx_items, 0)
        many = Filter(10_000, "1/1000")
        many.update(str(number) for number in range(10_000))
        self.assertTrue(9_800 < many.approx_items < 10_200)
        low, high = many.estimate()
        self.assertTrue(low <= many.approx_items <= high)
        full = Filter(1, "1/2")
        full.update(str(number) for number in range(10_000))
        self.assertEqual(full.approx_items, math.inf)


class Memory(unittest.TestCase):
    def test_the_words_are_seen_and_not_copied(self):
        seen = small()
        view = seen.view()
        self.assertEqual((view.format, len(view), view.readonly), ("Q", seen.num_words, True))
        self.assertEqual(sum(view), 0)
        seen.add("crab")
        self.assertEqual(view.tolist(), seen.words())
        self.assertGreater(sum(view), 0)
        self.assertRaises(TypeError, view.__setitem__, 0, 1)

    def test_the_size_has_the_words(self):
        one, other = Filter(10, "1/2"), Filter(100_000, "1/2")
        self.assertEqual(
            sys.getsizeof(other) - sys.getsizeof(one),
            8 * (other.num_words - one.num_words),
        )

    def test_pickles_hand_the_words_out(self):
        seen = Filter(10_000, "1/1000", bytes(range(16)))
        seen.update(str(number) for number in range(1000))
        buffers = []
        data = pickle.dumps(seen, 5, buffer_callback=buffers.append)
        self.assertLess(len(data), 500)
        self.assertEqual([it.raw().nbytes for it in buffers], [8 * seen.num_words])
        for given in (
            buffers,
            [bytes(it.raw()) for it in buffers],
            [bytearray(it.raw()) for it in buffers],
        ):
            read = pickle.loads(data, buffers=given)
            self.assertEqual((read, read.key), (seen, seen.key))
            self.assertFalse(read.add("whale"))
            self.assertNotIn("whale", seen)
        self.assertEqual(pickle.loads(data, buffers=buffers), seen)

    def test_a_pickle_of_no_filter_is_refused(self):
        restored = fastbloom._plain._restored_words
        for hashes, words in (
            (0, bytes(8)),
            (2**32, bytes(8)),
            (1, b""),
            (1, bytes(9)),
        ):
            self.assertRaises(ValueError, restored, Filter, hashes, bytes(16), words)
        self.assertRaises(ValueError, restored, Filter, 1, bytes(15), bytes(8))
        self.assertRaises(TypeError, restored, Filter, 1, bytes(16), 8)


class Types(unittest.TestCase):
    def test_both_kinds_are_filters(self):
        for seen in (small(), shared()):
            self.assertIsInstance(seen, AnyFilter)
        for other in (set(), "crab", None):
            self.assertNotIsInstance(other, AnyFilter)

    def test_the_types_of_each_call_are_found(self):
        for cls in (
            Filter,
            SharedFilter,
            BlockedFilter,
            SharedBlockedFilter,
            RotatingFilter,
            Mask,
            AnyFilter,
        ):
            calls = [
                call
                for _, call in inspect.getmembers(cls, inspect.isroutine)
                if (getattr(call, "__module__", None) or "").startswith("fastbloom")
            ]
            calls += [
                it.fget for _, it in inspect.getmembers(cls, lambda it: isinstance(it, property))
            ]
            self.assertGreater(len(calls), 5)
            for call in calls:
                typing.get_type_hints(call)
        self.assertIs(typing.get_type_hints(Filter.contains_hashes)["return"], Mask)


if __name__ == "__main__":
    unittest.main()
