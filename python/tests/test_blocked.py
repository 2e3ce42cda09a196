"""Blocked filters: what a model says of drawn sessions, and what Python adds to the calls of C."""

import array
import ctypes
import math
import pickle
import sys
import threading
import time
import unittest
from fractions import Fraction
from unittest import mock

import fastbloom
from fastbloom import (
    AnyFilter,
    BlockedFilter,
    Filter,
    Mask,
    Refusal,
    SharedBlockedFilter,
    SharedFilter,
)
from kinds import COUNTING_KEY

WORD = 2**64

# What dev/blocked-model says of these sessions.
WANTED = {
    0: 10201929447077217113,
    1: 9114022726019433226,
    2: 14037430642071227216,
    3: 13490501208424134116,
    4: 3149811784735866628,
    5: 10801210578881592884,
    6: 83973745466136214,
    12: 16881468693709726912,
    49: 3236104131571975975,
    99: 11864419982559889783,
    199: 1515267214006784225,
}


SIZE = "for 1000 items, 15872 bits, 9 hashes"  # in the text of a small filter


def drawn(session, index):
    """The number of an index that a session draws, by splitmix64."""
    word = ((session << 32) + index + 0x9E3779B97F4A7C15) % WORD
    word = (word ^ word >> 30) * 0xBF58476D1CE4E5B9 % WORD
    word = (word ^ word >> 27) * 0x94D049BB133111EB % WORD
    return word ^ word >> 31


def row(session, first, count):
    return array.array("Q", (drawn(session, first + index) for index in range(count)))


def words_of(mask):
    """The bits of a mask as words of 64 bits, the last of them filled with zeros."""
    data = bytes(mask.bits)
    return array.array("Q", data + bytes(-len(data) % 8))


def plain(lines, num_hashes):
    return shared(lines, num_hashes).take()


def shared(lines, num_hashes):
    return SharedBlockedFilter.over(bytearray(64 * lines), num_hashes)


def number_of(make, session):
    """All results of a session and then all words, folded into one number."""
    lines = 16384 + session if session % 50 == 49 else 1 + session % 7
    seen = make(lines, 1 + session % 13)
    told = [seen.add_hash(drawn(session, index)) for index in range(20)]
    several = array.array("Q", (drawn(session, 7 * index % 95) for index in range(130)))
    told += words_of(seen.add_hashes_tell_new(several))
    seen.add_hashes(row(session, 200, 150))
    told += words_of(seen.contains_hashes(row(session, 300, 150)))
    told += [seen.contains_hash(drawn(session, index)) for index in range(440, 460)]
    fold = 0
    words = seen.load().words() if make is shared else seen.words()
    for number in told + words:
        fold = (fold ^ number) * 0x9E3779B97F4A7C15 % WORD
        fold = fold * 2**7 % WORD + fold // 2**57
    return fold


def small(*items):
    seen = BlockedFilter(1000, "1/1000")
    seen.update(items)
    return seen


class Blocked(unittest.TestCase):
    def test_drawn_filters_are_those_of_the_model(self):
        for session, wanted in WANTED.items():
            for make in (plain, shared):
                self.assertEqual(number_of(make, session), wanted, session)

    def test_sizes(self):
        seen = small()
        self.assertEqual(
            (seen.num_words, seen.num_lines, seen.num_bits, seen.num_hashes),
            (248, 31, 15872, 9),
        )
        self.assertEqual(BlockedFilter(10**6, "1/100").num_words, 156048)
        self.assertEqual(ctypes.addressof(ctypes.c_char.from_buffer(seen._view)) % 64, 0)
        self.assertEqual(repr(seen), f"<BlockedFilter: {SIZE}, the zero key>")

    def test_items(self):
        seen = small()
        self.assertFalse(seen.add("crab"))
        self.assertTrue(seen.add(b"crab") and "crab" in seen and "whale" not in seen)
        self.assertTrue(seen.contains_hash(seen.hash("crab")))
        seen.update(["eel", b"prawn"], small("lobster"), iter(()))
        self.assertEqual(
            seen.contains_many(["crab", "eel", "prawn", "lobster", "whale"]),
            [True, True, True, True, False],
        )
        hashes = array.array("Q", map(seen.hash, ["crab", "whale", "whale"]))
        self.assertEqual(seen.contains_hashes(hashes), [True, False, False])
        fresh = seen.add_hashes_tell_new(hashes)
        self.assertIsInstance(fresh, Mask)
        self.assertEqual(fresh, [False, True, False])
        self.assertIsInstance(seen, AnyFilter)
        seen.clear()
        self.assertEqual((seen.count_ones(), "crab" in seen), (0, False))

    def test_pickles_hand_the_words_out(self):
        seen = BlockedFilter(10_000, "1/1000", COUNTING_KEY)
        seen.update(str(number) for number in range(1000))
        buffers = []
        data = pickle.dumps(seen, 5, buffer_callback=buffers.append)
        self.assertLess(len(data), 500)
        # Nothing was copied: what is added shows.
        self.assertEqual([bytes(it.raw()) for it in buffers], [bytes(seen.view())])
        seen.add("whale")
        self.assertEqual(bytes(buffers[0].raw()), bytes(seen.view()))
        for given in (
            buffers,
            [bytes(buffers[0].raw())],
            [bytearray(buffers[0].raw())],
        ):
            read = pickle.loads(data, buffers=given)
            self.assertEqual((read, read.key), (seen, seen.key))
            read.clear()
            self.assertIn("whale", seen)

    def test_a_pickle_of_no_filter_is_refused(self):
        restored = fastbloom._plain._restored_words
        for hashes, words in (
            (0, bytes(64)),
            (2**32, bytes(64)),
            (1, b""),
            (1, bytes(65)),
        ):
            self.assertRaises(ValueError, restored, BlockedFilter, hashes, bytes(16), words)
        self.assertRaises(ValueError, restored, BlockedFilter, 1, bytes(15), bytes(64))
        self.assertRaises(TypeError, restored, BlockedFilter, 1, bytes(16), 64)

    def test_what_is_refused(self):
        seen = small("crab")
        for other in (
            BlockedFilter(10, "1/1000"),
            BlockedFilter(1000, "1/1000", bytes(15) + b"1"),
        ):
            self.assertRaises(ValueError, seen.__ior__, other)
            self.assertRaises(ValueError, seen.update, ["whale"], other)
        plain = Filter(1000, "1/1000")
        for call in ("__or__", "__and__", "__ior__", "__iand__", "__eq__"):
            self.assertIs(getattr(seen, call)(plain), NotImplemented)
            self.assertIs(getattr(plain, call)(seen), NotImplemented)
        for bad in ("whale", b"whale", 5, None):
            self.assertRaises(TypeError, seen.update, ["whale"], bad)
        self.assertNotIn("whale", seen)
        self.assertRaises(TypeError, seen.add, 5)
        self.assertRaises(ValueError, seen.add_hash, WORD)
        self.assertRaises(TypeError, hash, seen)
        self.assertRaises(TypeError, seen.__init__, 10, "1/2")
        for items, rate in ((10, "0"), (WORD - 1, "1/2")):
            self.assertRaises(Refusal, BlockedFilter, items, rate)
        for items, rate in ((-1, "1/2"), (10, 1)):
            self.assertRaises(ValueError, BlockedFilter, items, rate)
        self.assertIn("BlockedFilter", fastbloom.__all__)


class Rates(unittest.TestCase):
    def test_the_rate_of_lines(self):
        """It is the mean, of all lines, of a power of the share of bits that are set."""
        full, empty, one = b"\xff" * 64, bytes(64), b"\x10" + bytes(63)
        for lines, hashes, wanted in (
            (empty, 3, 0),
            (full, 3, 1),
            (full + empty, 7, Fraction(1, 2)),
            (one, 2, Fraction(1, 2**18)),
            (one + full + empty + empty, 1, Fraction(513, 2048)),
        ):
            shared = SharedBlockedFilter.over(bytearray(lines), hashes)
            for seen in (shared, shared.load()):
                self.assertEqual(seen.exact_false_positive_rate(), (wanted, wanted))
                self.assertEqual(seen.false_positive_rate(), (wanted, wanted))
        seen = SharedBlockedFilter.over(bytearray(one + empty + empty), 1).take()
        low, high = seen.exact_false_positive_rate()
        self.assertTrue(low < Fraction(1, 1536) < high and high - low == Fraction(1, 2**63))

    def test_about_how_many_items_lines_have(self):
        """Of n items with one position, half of a line is set once n = 512 ln 2 = 354.9."""
        half = SharedBlockedFilter.over(bytearray(b"\x0f" * 64), 1)
        for seen in (half, half.load()):
            self.assertEqual((seen.estimate(), seen.approx_items), ((354, 355), 354.5))
        self.assertEqual(BlockedFilter(10, "1/2").estimate(), (0, 0))
        full = SharedBlockedFilter.over(bytearray(b"\xff" * 64), 1).load()
        self.assertEqual((full.estimate(), full.approx_items), ((WORD - 1, None), math.inf))
        self.assertEqual(half.load().estimated_union(full), (WORD - 1, None))
        self.assertEqual(half.load().estimated_common(full), (0, None))
        self.assertEqual(full.estimated_common(half.load()), (0, None))
        self.assertEqual(half.load().estimated_common(half.load()), (353, 356))

    def test_the_model_of_lines_fits_filters_that_were_made(self):
        for rate in ("1/100", "1/1000"):
            seen, other = BlockedFilter(50_000, rate), BlockedFilter(50_000, rate)
            seen.add_hashes(row(1, 0, 50_000))
            other.add_hashes(row(1, 25_000, 50_000))
            self.assertTrue(49_500 < seen.approx_items < 50_500)
            for (low, high), wanted in (
                (seen.estimated_union(other), 75_000),
                (seen.estimated_common(other), 25_000),
            ):
                self.assertTrue(0.98 * wanted < low <= high < 1.02 * wanted, (low, high))
            expected = seen.false_positive_rate()[1] * 200_000
            found = seen.contains_hashes(row(2, 0, 200_000)).count()
            self.assertTrue(abs(found - expected) < 5 * math.sqrt(expected), (found, expected))
            self.assertTrue(49_500 < seen.capacity_for(rate) < 55_000)

    def test_how_many_items_lines_take(self):
        """By one hash, of n items in a thousand lines, a bit is set at a rate 1 - e^(-n/512000)."""
        seen = SharedBlockedFilter.over(bytearray(64_000), 1)
        for rate, wanted in (("1/2", 354_891), ("1/1000", 512), ("1/1000000", 0)):
            self.assertLessEqual(abs(seen.capacity_for(rate) - wanted), 1)
            self.assertEqual(seen.load().capacity_for(rate), seen.capacity_for(rate))

    def test_a_capacity_near_1_is_told_soon_and_other_threads_go_on(self):
        seen, ticks, ended = (
            SharedBlockedFilter.over(bytearray(64_000), 1),
            [0],
            threading.Event(),
        )
        rate = Fraction(999_999_999_999, 10**12)

        def tick():
            while not ended.wait(0.0001):
                ticks[0] += 1

        thread = threading.Thread(target=tick)
        interval = sys.getswitchinterval()
        sys.setswitchinterval(60)  # so that a thread gets on only where another one lets it
        try:
            thread.start()
            before, begun = ticks[0], time.process_time()
            capacity = seen.capacity_for(rate)
            self.assertLess(time.process_time() - begun, 1)
            for _ in range(100):  # a busy machine may let the thread wait
                if ticks[0] > before:
                    break
                seen.capacity_for(rate)
            self.assertGreater(ticks[0], before)
        finally:
            sys.setswitchinterval(interval)
            ended.set()
            thread.join()
        at, above = (seen.exact_expected_false_positive_rate(capacity + it)[1] for it in (0, 1))
        self.assertTrue(at <= rate < above)

    def test_the_mean_rate_of_lines(self):
        """By exact fractions: over how many items a line draws, and how many of its bits these."""
        for lines, hashes, items, wanted in (
            (1, 1, 1, 1 / 512),
            (1, 8, 10, 1.9775794994280592e-07),
            (2, 3, 5, 4.899430465457505e-06),
            (31, 9, 1000, 0.0008727198074233734),
            (200, 6, 10_000, 0.008751541284288553),
        ):
            shared = SharedBlockedFilter.over(bytearray(64 * lines), hashes)
            for seen in (shared, shared.load()):
                low, high = seen.expected_false_positive_rate(items)
                self.assertTrue(low <= wanted <= high and high - low < 3e-12 * wanted)
                self.assertEqual(seen.exact_expected_false_positive_rate(0), (0, 0))
        self.assertEqual(seen.expected_false_positive_rate(WORD - 1)[1], 1)
        for items in (-1, WORD):
            self.assertRaises(ValueError, seen.expected_false_positive_rate, items)
        small = SharedBlockedFilter.over(bytearray(64 * 31), 9)
        self.assertEqual((small.capacity_for("1/1000"), small.capacity_for(0)), (1023, 0))

    def test_shared_lines_are_not_copied_to_tell_of_them(self):
        seen = SharedBlockedFilter(10_000, "1/1000")
        seen.add_hashes(row(1, 0, 10_000))
        plain = seen.load()
        with mock.patch.object(fastbloom._plain.Plain, "_of", side_effect=MemoryError):
            self.assertEqual(seen.exact_false_positive_rate(), plain.exact_false_positive_rate())
            self.assertEqual(
                (seen.estimate(), seen.count_ones()),
                (plain.estimate(), plain.count_ones()),
            )
        self.assertTrue(9_900 < seen.approx_items < 10_100)
        seen.release()
        for call in (seen.exact_false_positive_rate, seen.estimate):
            self.assertRaises(Refusal, call)

    def test_what_two_have_in_common(self):
        """Of 40,000 items both have half, which is a third of all."""
        for filters in (BlockedFilter, SharedBlockedFilter, SharedFilter):
            seen, other = filters(100_000, "1/1000"), filters(100_000, "1/1000")
            seen.add_hashes(row(1, 0, 40_000))
            other.add_hashes(row(1, 20_000, 40_000))
            low, high = seen.jaccard(other)
            self.assertTrue(0.32 < low <= high < 0.35, (filters, float(low), float(high)))
            low, high = seen.estimated_common(other)
            self.assertTrue(19_500 < low <= high < 20_500, (filters, low, high))
            self.assertEqual(filters(10, "1/2").jaccard(filters(10, "1/2")), (0, 1))
            self.assertRaises(ValueError, seen.jaccard, filters(10, "1/2"))
            self.assertRaises(TypeError, seen.jaccard, {"crab"})

    def test_sets(self):
        few, more = small("crab"), small("crab", "eel")
        self.assertTrue(few <= more and few < more and more > few and few.issubset(more))
        self.assertFalse(more <= few or few < few)
        self.assertEqual(few.union(["eel"], more), more)
        self.assertEqual(more.intersection(few, ["crab", "whale"]), few)
        kept = more.copy()
        kept.intersection_update(few)
        self.assertEqual(kept, few)
        for other in (Filter(1000, "1/1000"), {"crab"}):
            for call in (
                few.issubset,
                few.issuperset,
                few.estimated_union,
                few.estimated_common,
            ):
                self.assertRaises(TypeError, call, other)
        for call in (
            few.issubset,
            few.estimated_union,
            few.estimated_common,
            few.union,
        ):
            self.assertRaises(ValueError, call, BlockedFilter(10, "1/2"))


class Shared(unittest.TestCase):
    def test_sizes_are_those_of_plain_ones(self):
        seen = SharedBlockedFilter(1000, "1/1000", bytes(range(16)))
        self.assertEqual(
            (seen.num_words, seen.num_lines, seen.num_bits, seen.num_hashes),
            (248, 31, 15872, 9),
        )
        memory = ctypes.c_char.from_buffer(seen._view)
        self.assertEqual((ctypes.addressof(memory) % 64, seen.key), (0, bytes(range(16))))
        self.assertEqual(repr(seen), f"<SharedBlockedFilter: {SIZE}, a key>")

    def test_items(self):
        seen, other = SharedBlockedFilter(1000, "1/1000"), SharedBlockedFilter(1000, "1/1000")
        self.assertFalse(seen.add("crab"))
        self.assertTrue(seen.add(b"crab") and "crab" in seen and "whale" not in seen)
        other.add("lobster")
        seen.update(["eel"], other, iter(()))
        self.assertEqual(
            seen.contains_many(["crab", "eel", "lobster", "whale"]),
            [True, True, True, False],
        )
        self.assertIsInstance(seen, AnyFilter)
        seen |= other
        self.assertEqual(seen.load(), small("crab", "eel", "lobster"))
        seen &= other
        self.assertEqual(seen.take(), small("lobster"))
        self.assertEqual(seen.count_ones(), 0)
        other.clear()
        self.assertNotIn("lobster", other)

    def test_what_is_refused(self):
        seen = SharedBlockedFilter(1000, "1/1000")
        for other in (SharedFilter(1000, "1/1000"), small(), Filter(1000, "1/1000")):
            self.assertIs(seen.__ior__(other), NotImplemented)
            self.assertIs(seen.__iand__(other), NotImplemented)
        self.assertIs(SharedFilter(1000, "1/1000").__ior__(seen), NotImplemented)
        self.assertRaises(ValueError, seen.__ior__, SharedBlockedFilter(10, "1/1000"))
        self.assertRaises(ValueError, SharedBlockedFilter.over, bytearray(65), 1)
        self.assertRaises(ValueError, SharedBlockedFilter.over, bytearray(64), 0)
        self.assertRaises(Refusal, SharedBlockedFilter.over, bytearray(0), 1)
        self.assertRaises(TypeError, SharedBlockedFilter.over, bytes(64), 1)
        self.assertRaises(TypeError, pickle.dumps, seen)
        seen.release()
        self.assertRaises(Refusal, seen.load)
        self.assertFalse(seen.add("crab"))

    def test_threads_lose_nothing(self):
        memory = bytearray(64 * 4096)
        hashes = row(7, 0, 40_000)
        wanted = plain(4096, 5)
        wanted.add_hashes(hashes)

        def fill(first):
            seen = SharedBlockedFilter.over(memory, 5)
            for at in range(first, len(hashes), 2000):
                seen.add_hashes(hashes[at : at + 1000])
            for value in hashes[first : first + 100]:
                seen.add_hash(value)

        threads = [threading.Thread(target=fill, args=(first,)) for first in (0, 1000, 0, 1000)]
        for thread in threads:
            thread.start()
        for thread in threads:
            thread.join()
        self.assertEqual(SharedBlockedFilter.over(memory, 5).load(), wanted)


if __name__ == "__main__":
    unittest.main()
