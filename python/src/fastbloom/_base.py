"""What all kinds of filters have."""

from __future__ import annotations

import math
from fractions import Fraction
from typing import (
    Any,
    Callable,
    ClassVar,
    Generic,
    Iterable,
    Optional,
    Self,
    TypeVar,
    Union,
)

from . import _core
from ._checks import Estimate, number_of_items, rate_parts, unless_refused
from ._items import Buffer, Item, Rate, check_many, plain_bytes
from ._mask import Mask

Kind = TypeVar("Kind", bound="Base[Any]")  # the class of the filters that one takes in

BLOCKED, SHARED = 1, 2  # what the number of a kind has, beside 0
# What the module in C does with hashes and two filters, and of what it tells bounds
ADD, LOOK_UP, TELL_NEW = range(3)
UNITE, INTERSECT, IS_PART, EQUAL, TAKE, LOAD = range(6)
RATE, ITEMS, MEAN, CLASSICAL, UNION, COMMON, PART = range(7)
_DIGITS = 53  # how many binary digits a float has


def fractions_of(bounds: Any) -> tuple[Fraction, Fraction]:
    """Two bounds of a rate, in units of 2^63. A number is the reason why there are none."""
    low, high = unless_refused(bounds)
    return Fraction(low, 2**63), Fraction(high, 2**63)


def _units(rate: Fraction) -> int:
    return rate.numerator * (2**63 // rate.denominator)


def rounded_outward(bounds: tuple[Fraction, Fraction]) -> tuple[float, float]:
    """The greatest float not above the lower bound, and the least not below the upper one."""
    low, high = map(_units, bounds)
    down, up = max(0, low.bit_length() - _DIGITS), max(0, high.bit_length() - _DIGITS)
    return math.ldexp(low >> down, down - 63), math.ldexp(-(-high >> up), up - 63)


def estimate_of(bounds: Any) -> Estimate:
    """Two bounds of a number of items. The greatest number stands for no upper bound."""
    low, high = unless_refused(bounds)
    return Estimate(low, None if high == 2**64 - 1 else high)


class AnyFilter(_core.Core):
    """A filter of any of the four classes, by the calls that they have in common."""

    __slots__ = ("__weakref__", "_items")
    _items: Optional[int]
    _number: ClassVar[int]  # of the kind: BLOCKED, SHARED, both or neither
    _unit: ClassVar[int]  # of so many bytes its words are made
    _new_memory: ClassVar[Any]  # memory of so many words, all of them clear
    update: Callable[..., None]  # what it takes in depends on the class

    def __init__(self, items: int, rate: Rate, key: Buffer = bytes(16)) -> None:
        """The empty filter for this many items, at a rate of false positives.

        `rate` is a text such as "1/1000", a Fraction or another number, above 0 and below 1. `key`
        is sixteen bytes: where others choose the items, draw it (`os.urandom(16)`). A refused
        number raises ValueError (`Refusal` where the library refuses it), another type TypeError,
        and too large a filter MemoryError.
        """
        items = number_of_items(items)
        num_words, num_hashes = unless_refused(_core.plan(self._number, *rate_parts(rate), items))
        self._fill(self._new_memory(num_words), num_hashes, key)
        self._items = items

    def _fill(self, view: memoryview, num_hashes: int, key: Buffer) -> None:
        """Has the words that lie in a view, which keeps their memory where it is."""
        key = plain_bytes(key, "a key is a bytes-like object")
        if len(key) != 16:
            raise ValueError("a key is sixteen bytes")
        self._take(view, num_hashes, key, self._number)

    @classmethod
    def _of(
        cls, view: memoryview, num_hashes: int, key: Buffer, items: Optional[int] = None
    ) -> Self:
        """The filter with the words in a view, which was made for so many items, if it's known."""
        made = cls.__new__(cls)
        made._fill(view, num_hashes, key)
        made._items = items
        return made

    @property
    def items(self) -> Optional[int]:
        """The number of items that it was made for. None where that isn't known, as of a file.

        Copies and pickles have it, and so has what is loaded or taken out of a shared filter. A
        union or intersection that is made has that of the filter on the left.
        """
        return getattr(self, "_items", None)

    @property
    def num_bits(self) -> int:
        """The number of bits."""
        return 64 * self.num_words

    def __repr__(self) -> str:
        """What it was made for, its size, and whether there is a key, which may be secret."""
        made = "" if self.items is None else f"for {self.items} items, "
        key = "a key" if any(self.key) else "the zero key"
        size = f"{self.num_bits} bits, {self.num_hashes} hashes"
        return f"<{type(self).__name__}: {made}{size}, {key}>"

    # Many items

    def contains_many(self, items: Iterable[Item]) -> list[bool]:
        """Whether each item of an iterable is contained, in their order, many by one call.

        An item that is refused, and a single `str` or bytes-like object, raise as in `update`.
        """
        check_many(items, "in")
        replies: list[bool] = []
        self._use_items(items, replies)
        return replies

    def add_hashes(self, hashes: Buffer) -> None:
        """Adds each hash of a buffer of words of 64 bits, as of an array, by one call.

        Such a buffer is an `array("Q")`, an array of numpy of kind `uint64`, or a view of one. Any
        other raises TypeError. What isn't aligned to eight is copied first. Threads that call it of
        a shared filter, with buffers of their own, run side by side. No thread changes the buffer
        meanwhile.
        """
        self._use_hashes(ADD, hashes)

    def contains_hashes(self, hashes: Buffer) -> Mask:
        """Whether each hash of a buffer of words of 64 bits is contained, by one call."""
        return Mask(*self._use_hashes(LOOK_UP, hashes))

    def add_hashes_tell_new(self, hashes: Buffer) -> Mask:
        """Adds each hash of a buffer of words of 64 bits, and tells which of the adds set a bit.

        They are added one after the other, so a hash that comes twice is new once at most.
        """
        return Mask(*self._use_hashes(TELL_NEW, hashes))

    # Rates and numbers of items. A shared filter's words are read one after the other.

    def exact_expected_false_positive_rate(self, items: int) -> tuple[Fraction, Fraction]:
        """Two bounds of the mean rate of false positives once it has this many items.

        The rate is the part of all draws of positions, those of the items and of a look-up, by
        which each position of the look-up was drawn for an item; in a blocked filter each draws a
        line first. The bounds are fractions of 2^63. Those of a blocked filter are computed by
        floats, to a part of 10^12, and the others are proved. A number of items below 0, or of 2^64
        and more, raises ValueError, and another type TypeError.
        """
        return fractions_of(self._bounds(MEAN, number_of_items(items)))

    def expected_false_positive_rate(self, items: int) -> tuple[float, float]:
        """`exact_expected_false_positive_rate` as two floats, rounded outward."""
        return rounded_outward(self.exact_expected_false_positive_rate(items))

    def capacity_for(self, rate: Rate) -> int:
        """How many items it takes at a mean rate of false positives, of its size as it is.

        With one item more, a bound of `exact_expected_false_positive_rate` is above the rate. What
        is refused as a rate raises as in the constructor.
        """
        return self._capacity(*rate_parts(rate))

    def estimate(self) -> Estimate:
        """Two bounds of the number of items in it. The upper one is None where all bits are set.

        It is the number of items at which as many bits are expected to be set. Nothing is claimed
        of how far the number of items that were added may lie from it. The bounds are proved; those
        of a blocked filter are computed by floats instead.
        """
        return estimate_of(self._bounds(ITEMS))

    @property
    def approx_items(self) -> float:
        """About how many items are in it: the middle of `estimate`, or infinity."""
        low, high = self.estimate()
        return math.inf if high is None else (low + high) / 2

    def exact_false_positive_rate(self) -> tuple[Fraction, Fraction]:
        """Two bounds of the rate of false positives of the filter as it is.

        It is the part of all look-ups that return True, where each position is drawn alike, and of
        a blocked filter the line. The bounds are proved, and are fractions of 2^63.
        """
        return fractions_of(self._bounds(RATE))

    def false_positive_rate(self) -> tuple[float, float]:
        """`exact_false_positive_rate` as two floats, rounded outward."""
        return rounded_outward(self.exact_false_positive_rate())


class Base(AnyFilter, Generic[Kind]):
    """What a filter has that takes others in."""

    __slots__ = ()
    _kind: ClassVar[Any]  # the class of those that it takes in
    _copy: Callable[[], Any]  # a plain filter with its words, as they are at one instant, or loaded
    _now: Callable[[], Any]  # itself, or a plain filter with its words as they are loaded

    def update(self, *others: Union[Kind, Iterable[Item]]) -> None:
        """Adds each item of the iterables, many by one call. A filter among them is taken in.

        Where an iterable raises, or an item is refused, those before it were added. A single `str`
        or bytes-like object raises TypeError, since it is an item, and a filter that doesn't fit
        ValueError; these are seen first.
        """
        for other in others:
            self._check_other(other)
        for other in others:
            if isinstance(other, self._kind):
                self._change(other, UNITE)
            else:
                self._use_items(other, None)  # type: ignore[arg-type]

    def _check_other(self, other: Any) -> None:
        """Raises for what is neither a filter that fits nor many items."""
        if isinstance(other, self._kind):
            self._check_shape(other)
        else:
            check_many(other, "add")
            iter(other)

    def _check_kind(self, other: Any) -> None:
        """Raises for what is no filter of this kind that fits."""
        if not isinstance(other, self._kind):
            raise TypeError(f"the other is a {self._kind.__name__}, not {type(other).__name__}")
        self._check_shape(other)

    def _check_shape(self, other: Any) -> None:
        """Raises ValueError where another filter doesn't fit."""
        for name in ("num_words", "num_hashes", "key"):
            if getattr(self, name) != getattr(other, name):
                raise ValueError(f"the filters differ in {name}")

    def _both(self, other: Kind) -> tuple[Any, Any]:
        """This filter and another one that fits, as they are now."""
        self._check_kind(other)
        return self._now(), other._now()

    def estimated_union(self, other: Kind) -> Estimate:
        """Two bounds of the number of items in the union, which isn't made: as `estimate`.

        A filter of another size, number of hashes or key raises ValueError, and what is no filter
        of this kind TypeError.
        """
        this, that = self._both(other)
        return estimate_of(this._bounds(UNION, that))

    def estimated_common(self, other: Kind) -> Estimate:
        """Two bounds of the number of items that both have in common.

        It is what both have together, less what their union has, each as `estimate` tells it. The
        upper bound is None where one of the two has none. It raises as `estimated_union`.
        """
        this, that = self._both(other)
        return estimate_of(this._bounds(COMMON, that))

    def jaccard(self, other: Kind) -> tuple[Fraction, Fraction]:
        """Two bounds of the part of all items of both that they have in common, from 0 to 1.

        It is the part of `estimated_common` in `estimated_union`. The bounds are fractions of 2^63:
        0 and 1 where nothing is known, as of two empty filters. It raises as `estimated_union`.
        """
        this, that = self._both(other)
        return fractions_of(this._bounds(PART, that))

    def _change(self, other: Any, call: int) -> None:
        """Changes this filter by another one. Where they don't fit, it raises ValueError."""
        self._check_shape(other)
        if other is not self:  # the library asks for words that lie apart
            self._with(call, other)

    def __ior__(self, other: Kind) -> Self:
        """Takes in what the other contains.

        A filter of another size, number of hashes or key raises ValueError.
        """
        if not isinstance(other, self._kind):
            return NotImplemented
        self._change(other, UNITE)
        return self

    def __iand__(self, other: Kind) -> Self:
        """Keeps what both may contain. It raises as `|=`."""
        if not isinstance(other, self._kind):
            return NotImplemented
        self._change(other, INTERSECT)
        return self

    def issubset(self, other: Kind) -> bool:
        """Whether the other has all set bits of this one, so that it contains all items of this.

        A filter of another size, number of hashes or key raises ValueError, and what is no filter
        of this kind TypeError.
        """
        self._check_kind(other)
        return self._with(IS_PART, other)

    def issuperset(self, other: Kind) -> bool:
        """Whether it has all set bits of the other. It raises as `issubset`."""
        self._check_kind(other)
        return other.issubset(self)

    def __le__(self, other: Kind) -> bool:
        """As `issubset`."""
        if not isinstance(other, self._kind):
            return NotImplemented
        return self.issubset(other)

    def __ge__(self, other: Kind) -> bool:
        """As `issuperset`."""
        if not isinstance(other, self._kind):
            return NotImplemented
        return self.issuperset(other)

    def __lt__(self, other: Kind) -> bool:
        """As `issubset`, of filters that aren't equal."""
        return self <= other and not self >= other

    def __gt__(self, other: Kind) -> bool:
        """As `issuperset`, of filters that aren't equal."""
        return self >= other and not self <= other


class Words(Base[Kind]):
    """What a filter has whose bits of one item lie in any of its words."""

    __slots__ = ()
    _unit = 8

    def expected_rate(self, items: int) -> tuple[Fraction, Fraction]:
        """Two bounds of the classical formula of the rate, once it has this many items.

        The formula is a little below the mean rate: see `exact_expected_false_positive_rate`. The
        bounds are proved, and are fractions of 2^63. It raises as that.
        """
        return fractions_of(self._bounds(CLASSICAL, number_of_items(items)))


class Lines(Base[Kind]):
    """What a filter has whose bits of one item lie in one line of the cache."""

    __slots__ = ()
    _unit = 64

    @property
    def num_lines(self) -> int:
        """The number of lines of 512 bits."""
        return self.num_words // 8
