"""What a filter takes, returns and refuses."""

import array
import copy
import ctypes
import gc
import inspect
import mmap
import pickle
import random
import sys
import typing
import unittest
import weakref
from decimal import Decimal, localcontext
from fractions import Fraction
from unittest import mock

import fastbloom
from fastbloom import BlockedFilter, Estimate, Filter, Refusal
from kinds import COUNTING_KEY, for_each_kind

try:
    import numpy
except ImportError:
    numpy = None

# SipHash-1-3 under the key bytes 0 to 15, by the crate siphasher 0.3.10, of the first bytes of this
# text, by their number.
TEXT = bytes((3 + 7 * place) % 256 for place in range(17))
HASHES = {
    0: 12370263754033579228,
    1: 3398045899470988360,
    7: 14029210848122290102,
    8: 6796821499482615526,
    15: 6323795259543584655,
    17: 12612916429403578116,
}


def small(**options):
    return Filter(1000, "1/1000", **options)


class Subclasses:
    """Subclasses of each kind, by its name, where pickles find them."""


def add_subclasses(filters):
    class Named(filters):
        """A subclass with an attribute."""

        def __init__(self, name):
            super().__init__(1000, "1/1000")
            self.name = [name]

    class Slotted(filters):
        """A subclass with attributes in slots, of which one is private and one isn't set."""

        __slots__ = ("name", "__kept", "unset")

        def __init__(self, name):
            super().__init__(1000, "1/1000")
            self.name, self.__kept = [name], name

        def kept(self):
            return self.__kept

    class Both(Slotted):
        """A subclass of it that has all attributes."""

    holder = type(filters.__name__, (), {"__qualname__": f"Subclasses.{filters.__name__}"})
    for cls in (Named, Slotted, Both):
        cls.__qualname__ = f"{holder.__qualname__}.{cls.__name__}"
        setattr(holder, cls.__name__, cls)
    setattr(Subclasses, filters.__name__, holder)


add_subclasses(Filter)
add_subclasses(BlockedFilter)


class Bytes(bytes):
    """Bytes that tell another length."""

    def __len__(self):
        return 10**12


def of_words(words, hashes):
    """The filter with these words and this many hashes, read from a file."""
    file = bytearray(small().to_bytes(sealed=False)[:64])
    file[8:24] = hashes.to_bytes(8, "little") + len(words).to_bytes(8, "little")
    return Filter.from_bytes(file + b"".join(word.to_bytes(8, "little") for word in words))


def drawn_words(draw, num_words):
    """Words of which a drawn part of the bits is set, but not all."""
    bits = [False] * (64 * num_words)
    for place in draw.sample(range(len(bits)), draw.randrange(len(bits))):
        bits[place] = True
    return [sum(bits[64 * at + place] << place for place in range(64)) for at in range(num_words)]


def items_of(words, hashes):
    """The number of items at which as many bits are expected to be set, to fifty digits."""
    bits, ones = 64 * len(words), sum(bin(word).count("1") for word in words)
    with localcontext() as context:
        context.prec = 50
        return (1 - Decimal(ones) / bits).ln() / (hashes * (1 - Decimal(1) / bits).ln())


@for_each_kind
class Items:
    def test_texts_count_as_their_bytes(self):
        seen = self.small()
        for item in ("crab", "Krabbe ü", "", "nul\0nul"):
            self.assertFalse(seen.add(item))
            self.assertTrue(seen.add(item.encode()))
            self.assertIn(item, seen)
        self.assertNotIn("nul", seen)

    def test_bytes_like_objects_are_their_bytes(self):
        seen, numbers = self.small(), array.array("I", [1, 2, 3])
        raw = numbers.tobytes()
        for item in (
            numbers,
            bytearray(b"ab"),
            memoryview(b"abcd")[::2],
            Bytes(b"crab"),
        ):
            self.assertFalse(seen.add(item))
        for item in (raw, b"ab", b"ac", b"crab"):
            self.assertIn(item, seen)

    def test_nothing_else_is_an_item(self):
        seen = self.small()
        for item in (
            5,
            10**12,
            0,
            True,
            1.5,
            None,
            ["crab"],
            ("crab",),
            range(3),
            object(),
        ):
            for call in (
                seen.add,
                seen.hash,
                lambda item: item in seen,
                lambda item: seen.update([item]),
                lambda item: seen.contains_many([item]),
            ):
                with self.assertRaises(TypeError):
                    call(item)
        with self.assertRaises(UnicodeEncodeError):
            seen.add("\ud800")
        self.assertEqual(seen, self.small())

    def test_a_value_that_has_a_buffer_is_no_item(self):
        """Numbers, pointers, and buffers that aren't handed out any more."""
        released, closed = memoryview(b"crab"), mmap.mmap(-1, 4)
        released.release()
        closed.close()
        seen = self.small()
        for item in (
            ctypes.c_int(5),
            ctypes.c_char_p(b"crab"),
            ctypes.py_object("crab"),
            (ctypes.c_void_p * 2)(),
            (ctypes.c_wchar_p * 2)(),
            released,
            closed,
        ):
            for call in (
                seen.add,
                seen.hash,
                lambda item: item in seen,
                lambda item: seen.update([item]),
                lambda item: seen.contains_many([item]),
            ):
                with self.assertRaises(TypeError):
                    call(item)
        with self.assertRaises(TypeError) as told:
            seen.add(released)
        self.assertEqual(
            str(told.exception),
            "an item is a str or a bytes-like object, not "
            "memoryview: operation forbidden on released memoryview object",
        )
        self.assertEqual(seen, self.small())

    @unittest.skipUnless(numpy, "there is no numpy")
    def test_values_of_numpy(self):
        seen = self.small()
        for item in (
            numpy.int64(5),
            numpy.float32(1),
            numpy.bool_(True),
            numpy.array(5),
            numpy.datetime64("2026"),
            numpy.array(["crab"], dtype=object),
            numpy.array([(1, "crab")], dtype=[("count", int), ("name", object)]),
            numpy.array(["2026"], dtype="M8[D]"),
        ):
            for call in (seen.add, lambda item: seen.update([item])):
                with self.assertRaises(TypeError):
                    call(item)
        self.assertEqual(seen, self.small())
        # The name of a field isn't a kind of its values.
        record = numpy.array([(1, 2.0)], dtype=[("OPX", "i4"), ("Z", "f8")])
        for item in (
            numpy.str_("crab"),
            numpy.bytes_(b"eel"),
            numpy.array([1, 2], dtype="i4"),
            numpy.array([1j]),
            record,
        ):
            self.assertFalse(seen.add(item))
        raw = b"\x01\0\0\0\x02\0\0\0"
        self.assertEqual(seen.contains_many([b"crab", "eel", raw, record.tobytes()]), [True] * 4)

    def test_hashes_are_those_of_the_bytes_under_the_key(self):
        keyed = self.filters(1, "1/2", COUNTING_KEY)
        for length, value in HASHES.items():
            self.assertEqual(keyed.hash(TEXT[:length]), value)

    def test_a_hash_is_in_its_range(self):
        seen = self.small()
        self.assertFalse(seen.add_hash(2**64 - 1))
        self.assertTrue(seen.contains_hash(2**64 - 1))
        for value in (-1, 2**64):
            for call in (seen.add_hash, seen.contains_hash):
                self.assertRaises(ValueError, call, value)
                self.assertRaises(TypeError, call, float(value))
                self.assertRaises(TypeError, call, "crab")

    def test_a_filter_has_no_length_and_no_elements(self):
        seen = self.small()
        self.assertRaises(TypeError, len, seen)
        self.assertRaises(TypeError, iter, seen)
        self.assertRaises(TypeError, hash, seen)
        self.assertTrue(seen)


@for_each_kind
class Many:
    def test_many_are_added_as_one_by_one(self):
        for count in (0, 1, 4095, 4096, 4097, 10_000):
            items = [f"item{number}" for number in range(count)]
            one, many = self.filters(10_000, "1/1000"), self.filters(10_000, "1/1000")
            for item in items:
                one.add(item)
            many.update(iter(items))
            self.assertEqual(one, many)
            self.assertEqual(many.contains_many(item for item in items), [True] * count)

    def test_answers_are_in_order(self):
        seen = self.small()
        seen.update(["crab", b"lobster"])
        self.assertEqual(seen.contains_many(["crab", "whale", "lobster"]), [True, False, True])

    def test_many_answers_are_those_of_single_look_ups(self):
        seen = self.filters(3000, "1/10")
        seen.update(f"item{number}" for number in range(3000))
        for count in (0, 1, 63, 64, 65, 4095, 4096, 4097, 9000):
            items = [f"item{number}" for number in range(2950, 2950 + count)]
            answers = seen.contains_many(iter(items))
            self.assertEqual(answers, [item in seen for item in items])
            self.assertTrue(all(type(answer) is bool for answer in answers))

    def test_what_is_raised_on_the_way_comes_through(self):
        def items():
            yield "crab"
            raise KeyError("whale")

        seen = self.small()
        self.assertRaises(KeyError, seen.contains_many, items())
        self.assertRaises(KeyError, seen.update, items())
        self.assertIn("crab", seen)

    def test_what_came_before_a_refusal_is_added(self):
        seen = self.small()
        with self.assertRaises(TypeError):
            seen.update(["crab", 5, "whale"])
        self.assertEqual(seen.contains_many(["crab", "whale"]), [True, False])

    def test_one_item_is_not_many(self):
        seen = self.small()
        for item in (
            "crab",
            b"crab",
            bytearray(b"crab"),
            memoryview(b"crab"),
            5,
            array.array("B", b"crab"),
            array.array("u", "crab"),
            mmap.mmap(-1, 4),
            ctypes.create_string_buffer(b"crab"),
            ctypes.c_char_p(b"crab"),
        ):
            self.assertRaises(TypeError, seen.update, item)
            self.assertRaises(TypeError, seen.contains_many, item)
        self.assertEqual(seen, self.small())

    @unittest.skipUnless(numpy, "there is no numpy")
    def test_arrays_of_numpy(self):
        seen = self.small()
        for numbers in ([1, 2], b"crab", [1.5], []):
            kind = "u1" if isinstance(numbers, bytes) else None
            item = numpy.array(list(numbers), dtype=kind)
            self.assertRaises(TypeError, seen.update, item)
            self.assertRaises(TypeError, seen.contains_many, item)
        self.assertEqual(seen, self.small())
        seen.update(numpy.array(["crab", "Krabbe ü"]))
        seen.update(numpy.array([b"eel", b"lobster"]))
        seen.update(numpy.array(["whale", b"prawn"], dtype=object))
        seen.update(numpy.array([[1, 2], [3, 4]], dtype="u1"))
        rows = [
            "crab",
            "Krabbe ü",
            "eel",
            "lobster",
            "whale",
            "prawn",
            b"\1\2",
            b"\3\4",
        ]
        self.assertEqual(seen.contains_many(numpy.array(rows, dtype=object)), [True] * 8)


class Sizes(unittest.TestCase):
    def test_a_rate_is_a_text_or_a_number(self):
        wanted = Filter(1000, "1/1000")
        for rate in (0.001, Fraction(1, 1000), Decimal("0.001"), "0.001", "1e-3"):
            self.assertEqual(Filter(1000, rate), wanted)
        self.assertEqual((wanted.num_words, wanted.num_bits, wanted.num_hashes), (225, 14400, 10))

    def test_refusals(self):
        for rate, code in ((0, 4), ("0/5", 4), ("1/0", 4)):
            with self.assertRaises(Refusal) as told:
                Filter(10, rate)
            self.assertEqual(
                (told.exception.code, str(told.exception)),
                (code, "rate with a zero part"),
            )
        # The last size below 2^64 bits, and the first that isn't.
        for items, code in ((12786308645202655226, 3), (12786308645202655227, 5)):
            with self.assertRaises(Refusal) as told:
                Filter(items, "1/2")
            self.assertEqual(told.exception.code, code)
        self.assertEqual(str(pickle.loads(pickle.dumps(Refusal(5)))), "size too large")
        for items, rate in (
            (-1, "1/2"),
            (2**64, "1/2"),
            (10, -0.5),
            (10, "crab"),
            (10, float("nan")),
            (10, float("inf")),
            (10, f"1/{2**64}"),
        ):
            self.assertRaises(ValueError, Filter, items, rate)
        # A rate is below 1, as those that the programs take. The greatest that is may be any.
        for rate in (
            1000,
            1,
            1.0,
            "1/1",
            "5/5",
            "3/2",
            1.5,
            Decimal("1"),
            Fraction(7, 7),
            f"{2**64 - 1}/{2**64 - 2}",
        ):
            self.assertRaises(ValueError, Filter, 1000, rate)
        self.assertEqual(Filter(1000, f"{2**64 - 2}/{2**64 - 1}").num_bits, 64)
        for items, rate in (
            (1.5, "1/2"),
            ("10", "1/2"),
            (10, None),
            (10, b"1/2"),
            (10, (1, 2)),
        ):
            self.assertRaises(TypeError, Filter, items, rate)

    def test_a_rate_of_many_digits_is_refused_at_once(self):
        rates = [
            "1e-99999999",
            "1E+99999999 ",
            "0.1e-9999_9999",
            "1e-00000099999999",
            Decimal("1e-99999999"),
            "0." + "0" * 10**6 + "1",
            "1/" + "9" * 10**6,
        ]
        for rate in rates:
            self.assertRaises(ValueError, Filter, 10, rate)
        wanted = Filter(1000, Fraction(*(0.001).as_integer_ratio()))
        self.assertEqual(Filter(1000, Decimal(0.001)), wanted)
        self.assertEqual(Filter(1000, "1e-0000000003"), small())

    def test_a_filter_is_made_once(self):
        """Its words lie where they are while a call has their address."""
        seen = small()
        seen.add("crab")

        class Index:
            def __index__(self):
                seen.__init__(10, "1/2")
                return 5

        before = seen.copy()
        for call in (seen.add_hash, seen.contains_hash, seen.expected_rate):
            self.assertRaises(TypeError, call, Index())
        self.assertEqual(seen, before)

    def test_each_refusal_has_a_text(self):
        texts = [str(Refusal(code)) for code in range(20)]
        self.assertEqual(len(set(texts)), 19)
        self.assertEqual((texts[0], texts[19]), ("an unknown refusal",) * 2)
        self.assertEqual((texts[1], texts[6]), ("zero bits", "no memory"))
        self.assertEqual((texts[8], texts[15]), ("no worker", "input failed"))

    def test_keys(self):
        self.assertEqual(small(key=bytearray(COUNTING_KEY)).key, COUNTING_KEY)
        for key in (b"", bytes(15), bytes(17)):
            self.assertRaises(ValueError, small, key=key)
        for key in (16, "sixteen letters.", None):
            self.assertRaises(TypeError, small, key=key)
        for name in ("num_words", "num_bits", "num_hashes", "key"):
            self.assertRaises(AttributeError, setattr, small(), name, 1)

    def test_bits_that_are_on_are_counted(self):
        seen = small()
        self.assertEqual(seen.count_ones(), 0)
        seen.update(f"item{number}" for number in range(1000))
        self.assertEqual(seen.count_ones(), sum(bin(word).count("1") for word in seen.words()))
        seen.clear()
        self.assertEqual(seen.count_ones(), 0)

    def test_the_expected_rate_lies_between_its_bounds(self):
        # One hash, and one of 64 bits is set.
        one = Filter(1000, "99/100")
        self.assertEqual((one.num_words, one.num_hashes), (1, 1))
        self.assertEqual(one.expected_rate(0), (0, 0))
        self.assertEqual(one.expected_rate(1), (Fraction(1, 64), Fraction(1, 64)))
        # The exact rate of 14,400 bits and 10 hashes, once 1,000 items are in it.
        low, high = small().expected_rate(1000)
        bits, hashes = 14_400, 10
        off = Fraction((bits - 1) ** (hashes * 1000), bits ** (hashes * 1000))
        self.assertLessEqual(low, (1 - off) ** hashes)
        self.assertLessEqual((1 - off) ** hashes, high)
        self.assertLess(high - low, Fraction(1, 2**40))
        for items in (-1, 2**64):
            self.assertRaises(ValueError, one.expected_rate, items)
        for items in (1.5, "10", None):
            self.assertRaises(TypeError, one.expected_rate, items)

    def test_the_rate_of_a_filter_is_that_of_the_bits_that_are_set(self):
        draw = random.Random(61)
        for _ in range(1000):
            words, hashes = draw.randint(1, 40), draw.choice((1, 2, 3, 7, 13, 44, 64))
            kept = draw.choice((0, 1, 8, 32, 56, 64))
            seen = of_words(
                [
                    draw.getrandbits(64) | draw.getrandbits(64) << kept & 2**64 - 1
                    for _ in range(words)
                ],
                hashes,
            )
            share = Fraction(seen.count_ones(), 64 * words)
            low, high = seen.exact_false_positive_rate()
            self.assertTrue(low <= share**hashes <= high)
            self.assertLessEqual(high - low, Fraction(2 * hashes, 2**63))
            below, above = seen.false_positive_rate()
            self.assertTrue(below <= low <= high <= above)
            self.assertLessEqual(above - below, high - low + Fraction(high) / 2**51)
        self.assertEqual(of_words([2**64 - 1], 7).false_positive_rate(), (1.0, 1.0))
        self.assertEqual(of_words([0], 7).false_positive_rate(), (0.0, 0.0))

    def test_the_mean_rate_lies_between_its_bounds(self):
        one = of_words([0], 2)
        # Of two draws among 64 positions: a query of two finds both in 64 * 1 + 64 * 63 * 4 cases.
        mean = Fraction(64 + 64 * 63 * 4, 64**4)
        low, high = one.exact_expected_false_positive_rate(1)
        self.assertTrue(one.expected_rate(1)[1] < mean and low == one.expected_rate(1)[0])
        self.assertTrue(low <= mean <= high)
        below, above = one.expected_false_positive_rate(1)
        self.assertTrue(below <= low <= high <= above)
        self.assertEqual(one.expected_false_positive_rate(0), (0.0, 0.0))
        for items in (-1, 2**64):
            self.assertRaises(ValueError, one.expected_false_positive_rate, items)
        self.assertRaises(TypeError, one.expected_false_positive_rate, 1.5)

    def test_an_estimate_is_that_of_the_bits_that_are_set(self):
        # Of 64 bits one is expected to be set after one hash, 1.98 after two, 2.95 after three.
        for bits, hashes, wanted in (
            (0, 1, (0, 0)),
            (1, 1, (1, 1)),
            (3, 2, (1, 2)),
            (7, 3, (1, 2)),
            (7, 1, (3, 4)),
        ):
            self.assertEqual(of_words([bits], hashes).estimate(), wanted)
        full = of_words([2**64 - 1], 1).estimate()
        self.assertEqual((full.low, full.high), (2**64 - 1, None))

    def test_an_estimate_holds_the_number_of_the_formula(self):
        draw = random.Random(26)
        for _ in range(12):
            num_words, hashes = draw.choice((1, 2, 7, 225, 1000)), draw.randint(1, 30)
            words = drawn_words(draw, num_words)
            low, high = of_words(words, hashes).estimate()
            self.assertLessEqual(low, items_of(words, hashes))
            self.assertLessEqual(items_of(words, hashes), high)
            self.assertLessEqual(high - low, 2)

    def test_the_text_of_a_filter_hides_its_key(self):
        size = "for 1000 items, 14400 bits, 10 hashes"
        self.assertEqual(repr(small()), f"<Filter: {size}, the zero key>")
        self.assertEqual(repr(small(key=COUNTING_KEY)), f"<Filter: {size}, a key>")
        read = Filter.from_bytes(small().to_bytes())
        self.assertEqual(repr(read), "<Filter: 14400 bits, 10 hashes, the zero key>")

    def test_a_filter_with_many_hashes_is_pickled(self):
        seen = Filter(1, f"1/{2**64 - 1}")
        self.assertEqual(seen.num_hashes, 89)
        self.assertEqual(pickle.loads(pickle.dumps(seen)), seen)

    def test_the_version(self):
        self.assertRegex(fastbloom.__version__, r"\d+\.\d+\.\d+")


class Types(unittest.TestCase):
    def test_the_types_of_each_call_are_found(self):
        calls = [
            call
            for cls in (Filter, Refusal, Estimate)
            for _, call in inspect.getmembers(cls, inspect.isroutine)
            if (getattr(call, "__module__", None) or "").startswith("fastbloom")
        ]
        self.assertIn(Filter.contains_many, calls)
        for call in calls:
            typing.get_type_hints(call)
        self.assertEqual(typing.get_type_hints(Filter.contains_many)["return"], list[bool])
        self.assertIn("item", inspect.signature(Filter.add).parameters)


class Rings(unittest.TestCase):
    def test_a_filter_in_a_ring_is_collected(self):
        raised, gone = [], []
        with mock.patch.object(sys, "unraisablehook", raised.append):
            for _ in range(3):
                made = Subclasses.Filter.Named("crab")
                made.me, made.words_of_me = made, made.view()
                weakref.finalize(made, gone.append, True)
                del made
            gc.collect()
        self.assertEqual((raised, len(gone)), ([], 3))


class Common(unittest.TestCase):
    def test_what_two_have_in_common_by_hand(self):
        one, two, three = of_words([1], 1), of_words([2], 1), of_words([7], 1)
        self.assertEqual(one.estimated_union(one), (1, 1))
        self.assertEqual(one.estimated_common(one), (1, 1))
        self.assertEqual(one.jaccard(one), (1, 1))
        self.assertEqual(one.estimated_union(two), (2, 3))
        self.assertEqual(one.estimated_common(two), (0, 0))
        self.assertEqual(one.jaccard(two), (0, 0))
        # three to four items each, and in the union: two to five in common, of three to four
        self.assertEqual(three.estimated_common(of_words([7], 1)), (2, 5))
        self.assertEqual(three.jaccard(of_words([7], 1)), (Fraction(1, 2), 1))
        self.assertEqual(small().jaccard(small()), (0, 1))
        full = of_words([2**64 - 1], 1)
        self.assertIsNone(one.estimated_union(full).high)
        self.assertEqual(one.estimated_common(full), (0, None))

    def test_what_two_have_in_common_by_the_formula(self):
        draw = random.Random(27)
        for _ in range(12):
            num_words, hashes = draw.choice((2, 7, 225)), draw.randint(1, 12)
            first, second = drawn_words(draw, num_words), drawn_words(draw, num_words)
            both = [one | other for one, other in zip(first, second)]
            if all(word == 2**64 - 1 for word in both):
                continue
            seen, other = of_words(first, hashes), of_words(second, hashes)
            self.assertEqual(seen.estimated_union(other), of_words(both, hashes).estimate())
            all_items = Fraction(items_of(both, hashes))
            common = Fraction(items_of(first, hashes)) + Fraction(items_of(second, hashes))
            common = max(common - all_items, Fraction(0))
            low, high = seen.estimated_common(other)
            self.assertLessEqual(low, common)
            self.assertLessEqual(common, high)
            self.assertLessEqual(high - low, 6)
            low, high = seen.jaccard(other)
            self.assertLessEqual(low, common / all_items)
            self.assertLessEqual(common / all_items, high)


@for_each_kind
class Sets:
    def setUp(self):
        names = [f"item{number}" for number in range(1000)]
        self.odd, self.even, self.all = self.small(), self.small(), self.small()
        self.odd.update(names[1::2])
        self.even.update(names[::2])
        self.all.update(names)

    def test_unions_and_intersections(self):
        odd, even = self.odd.copy(), self.even.copy()
        self.assertEqual(odd | even, self.all)
        self.assertEqual((odd | even) & odd, odd)
        self.assertEqual((odd, even), (self.odd, self.even))
        both = odd
        both |= even
        self.assertIs(both, odd)
        self.assertEqual(odd, self.all)
        odd &= even
        self.assertEqual(odd, even)
        odd |= odd
        odd &= odd
        self.assertEqual(odd, even)

    def test_other_filters_are_refused(self):
        for other, name in (
            (self.filters(10, "1/1000"), "num_words"),
            (self.small(key=COUNTING_KEY), "key"),
            (self.other_hashes(), "num_hashes"),
        ):
            before = self.odd.copy()
            for call in ("__or__", "__and__", "__ior__", "__iand__"):
                with self.assertRaises(ValueError) as told:
                    getattr(self.odd, call)(other)
                self.assertEqual(str(told.exception), f"the filters differ in {name}")
            for call in ("estimated_union", "estimated_common", "jaccard"):
                with self.assertRaises(ValueError) as told:
                    getattr(self.odd, call)(other)
                self.assertEqual(str(told.exception), f"the filters differ in {name}")
            self.assertEqual(self.odd, before)
            self.assertNotEqual(self.odd, other)

    def other_hashes(self):
        file = bytearray(self.small().to_bytes(sealed=False))
        file[8] = 8
        return self.filters.from_bytes(file)

    def test_what_is_no_filter_is_refused(self):
        for other in (None, 5, {"crab"}, "crab"):
            with self.assertRaises(TypeError):
                self.odd | other
            with self.assertRaises(TypeError):
                self.odd &= other
            for call in ("estimated_union", "estimated_common", "jaccard"):
                self.assertRaises(TypeError, getattr(self.odd, call), other)
            self.assertNotEqual(self.odd, other)

    def test_clearing(self):
        self.odd.clear()
        self.assertEqual(self.odd, self.small())


@for_each_kind
class Copies:
    def copies(self, seen):
        yield from (seen.copy(), copy.copy(seen), copy.deepcopy(seen))
        for protocol in range(pickle.HIGHEST_PROTOCOL + 1):
            yield pickle.loads(pickle.dumps(seen, protocol))

    def test_copies_are_filters_of_their_own(self):
        seen = self.small(key=COUNTING_KEY)
        seen.add("crab")
        for other in self.copies(seen):
            self.assertEqual(other, seen)
            self.assertEqual(other.key, COUNTING_KEY)
            self.assertFalse(other.add("whale"))
            self.assertNotIn("whale", seen)
            self.assertNotEqual(other, seen)
        self.assertEqual(list(seen.view()), seen.words())
        self.assertRaises(TypeError, seen.view().__setitem__, 0, 1)

    def test_copies_keep_what_a_subclass_adds(self):
        named = getattr(Subclasses, self.filters.__name__).Named
        seen = named("fish")
        for other in self.copies(seen):
            self.assertIs(type(other), named)
            self.assertEqual(other.name, ["fish"])
        self.assertIs(copy.copy(seen).name, seen.name)
        self.assertIsNot(copy.deepcopy(seen).name, seen.name)
        self.assertIs(type(seen | self.small()), named)

    def test_copies_keep_what_a_subclass_has_in_slots(self):
        subclasses = getattr(Subclasses, self.filters.__name__)
        for cls in (subclasses.Slotted, subclasses.Both):
            seen = cls("fish")
            if cls is subclasses.Both:
                seen.more = "shell"
            for other in self.copies(seen):
                self.assertIs(type(other), cls)
                self.assertEqual((other.name, other.kept()), (["fish"], "fish"))
                self.assertFalse(hasattr(other, "unset"))
                self.assertEqual(getattr(other, "more", "shell"), "shell")
                self.assertEqual(hasattr(other, "more"), cls is subclasses.Both)
            self.assertIs(copy.copy(seen).name, seen.name)
            self.assertIsNot(copy.deepcopy(seen).name, seen.name)

    def test_one_filter_twice_stays_one(self):
        one, other = copy.deepcopy([self.small()] * 2)
        self.assertIs(one, other)


if __name__ == "__main__":
    unittest.main()
